#!/usr/bin/env python3
"""Lists the names of a map, with kinds, ids and given ends. A companion script: no part of the program, and no proof speaks of it.

    names.py FOLDER               lists what the files realm.a and realm.b of the folder stand for
    names.py FOLDER --drop NAME   gives the lines that take a value away, with its originals or points

The list has each value, by its name: a line `KIND NAME COUNT`, and then a line `ID X Y U V` for each original of its lines or
region, with the ends that were given, or `X Y` for each of its points. At last come the originals that no value has, behind
`originals COUNT`. The files are read by bench/rules.py and are left as they are. What a `let` drew since the last checkpoint stands
in no file: give the line `checkpoint` first. Damage is found as far as names and ids need it; `rose check` finds all.

Ends with 0, with 1 and a line on standard error where the files can't be read so or the name isn't there, or with 2 where the
words are wrong."""
import argparse
import importlib.util
import pathlib

HERE = pathlib.Path(__file__).resolve().parent


def loaded(path):
    """The Python file there, as a module."""
    spec = importlib.util.spec_from_file_location(path.stem, path)
    module = importlib.util.module_from_spec(spec)
    spec.loader.exec_module(module)
    return module


rules = loaded(HERE.parent / "bench" / "rules.py")


# ---- the state that two files stand for
def state_in(folder):
    """What the files of a folder stand for, as a `State` of rules.py. A chain is as it is at present where a checkpoint has been made
    since it was changed; names, ids and ends always are."""
    files = [pathlib.Path(folder, f"realm.{letter}") for letter in "ab"]
    if not any(file.exists() for file in files):
        raise SystemExit(f"names.py: {folder} has no file realm.a or realm.b")
    try:
        return state_of(*(file.read_bytes() if file.exists() else b"" for file in files))
    except rules.Damaged as damage:
        raise SystemExit(f"names.py: damaged: {damage}") from damage
    except (rules.Outside, rules.Refused) as error:
        raise SystemExit("names.py: damaged: `rose check` says where") from error


def state_of(a, b):
    found = rules.newest(a, b)
    if not found:
        return rules.State()
    (_, pages, length), letter, file = found
    state = state_at_first(rules.payload_of(letter, file, pages, length))
    for line in lines_behind(file, 4096 * (pages + 1)):
        change(state, line)
    return state


def state_at_first(payload):
    """The state with which a file begins."""
    state = rules.State()
    state.points = set()
    if payload:
        source = rules.Source(payload)
        state.changes, state.next_id = source.number(8), source.number(8)
        state.points = set(source.items(source.point))
        state.originals = {number: ((a, b), chain) for number, a, b, chain in source.items(source.original)}
        state.values = {name.decode(): (kind, parts) for name, kind, parts in source.items(source.value)}
    return state


def lines_behind(file, gate):
    """The lines of the records from this gate on."""
    source = rules.Source(file)
    source.at = gate
    while source.at < len(file) and source.bytes(1) == b"\xa5":
        _, entries = rules.record_in(source)
        yield from (line for line, _ in entries)


def change(state, line):
    """Makes the change of a record. Its steps are left out: they lead chains elsewhere, and no name, id or given end."""
    state.changes += 1
    if line.startswith(b"let "):
        raise SystemExit(f"names.py: change {state.changes} is a `let`: give the line `checkpoint` first")
    word, about, written = rules.parsed(line)
    rules.undo(state, word, about, written)
    if word in ("point", "points"):
        state.points.update(written)
    if word == "points":
        state.values[about] = word, sorted(set(written))
    first = state.next_id
    for ends in [tuple(written)] if word == "segment" else rules.pairs_of(word, written) if word in ("lines", "regions") else []:
        ends = tuple(sorted(ends))
        state.originals[state.next_id] = ends, list(ends)
        state.next_id += 1
    if word in ("lines", "regions"):
        state.values[about] = word, list(range(first, state.next_id))


# ---- what is told
def place(p):
    return f"{p[0]} {p[1]}"


def original(state, number):
    (a, b), _ = state.originals[number]
    return f"{number} {place(a)} {place(b)}"


def listed(state):
    """The lines of the list."""
    free = set(state.originals)
    for name, (kind, parts) in sorted(state.values.items()):
        yield f"{kind} {name} {len(parts)}"
        yield from (place(part) if kind == "points" else original(state, part) for part in parts)
        if kind != "points":
            free -= set(parts)
    yield f"originals {len(free)}"
    yield from (original(state, number) for number in sorted(free))


def taken_away(state, name):
    """The lines that take a value away, and all that it alone has."""
    if name not in state.values:
        raise SystemExit(f"names.py: no value is named {name}")
    kind, parts = state.values[name]
    yield f"drop {name}"
    if kind != "points":
        yield from (f"delete {part}" for part in parts)
        return
    others = {p for other, (kind, points) in state.values.items() if kind == "points" and other != name for p in points}
    yield from (f"unpoint {place(p)}" for p in parts if p not in others)


if __name__ == "__main__":
    parser = argparse.ArgumentParser(description="Lists the names of a map, with kinds, ids and given ends.")
    parser.add_argument("folder", metavar="FOLDER")
    parser.add_argument("--drop", metavar="NAME", help="the lines that take this value away")
    words = parser.parse_args()
    map_there = state_in(words.folder)
    for told in taken_away(map_there, words.drop) if words.drop else listed(map_there):
        print(told)
