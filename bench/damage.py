#!/usr/bin/env python3
"""Changes one byte or cuts one file of small stores at every place, and compares what `rose check` says of them with what the
written rules decide. See README.md."""
import argparse
import collections
import concurrent.futures
import hashlib
import os
import random
import subprocess
import tempfile
import threading

import rules

# Every kind of change but `let`, and every kind of step: in `BEHIND` they are records behind a checkpoint.
LINES = [b"segment 0 0 3 1", b"segment 0 1 3 0", b"point 2 3", b"points p 1 5 2 6", b"lines l 0 7 6 7 6 9", b"point 3 7",
         b"regions r 10 0 14 0 12 4", b"segment 10 10 12 12", b"segment 10 13 13 10", b"drop p", b"unpoint 1 5", b"delete 1"]
BEHIND = [b"segment 20 0 30 4", b"segment 26 0 26 9", b"unpoint 2 3", b"regions s 11 0 13 0 12 2", b"drop l"]
# Versions that heads are given: those of the format, their neighbours, and numbers that have the same lower or upper byte.
VERSIONS = [0, 1, 2, 3, 255, 256, 257, 258, 512, 65535]


def journal():
    """Records in file A, and no file B."""
    store = rules.Writer()
    for line in LINES:
        store.change(line)
    return store.files


def groups():
    """Records of one change and of a group in turn in file A, and no file B."""
    store = rules.Writer()
    store.change(LINES[0])
    store.group(LINES[1:7])
    store.change(LINES[7])
    store.group(LINES[8:])
    return store.files


def checkpoint():
    """A checkpoint of two pages in file B with records behind it, and the older records in file A."""
    store = rules.Writer()
    for line in LINES:
        store.change(line)
    points = b" ".join(b"%d 100" % x for x in range(260))
    store.change(b"points many " + points)
    store.checkpoint()
    for line in BEHIND:
        store.change(line)
    return store.files


def page():
    """A checkpoint of one page in file B, and no record behind it."""
    store = rules.Writer()
    for line in LINES:
        store.change(line)
    store.checkpoint()
    return store.files


def other_page():
    """The same after one more checkpoint, which is in file A."""
    store = rules.Writer()
    for line in LINES:
        store.change(line)
    store.checkpoint()
    store.checkpoint()
    return store.files


def first_version():
    """A checkpoint of one page in file B with a record of one change and one of a group behind it, and the older records in file A,
    all by version 1 of the format."""
    store = rules.Writer(version=1)
    for line in LINES[:6]:
        store.change(line)
    store.checkpoint()
    store.change(BEHIND[0])
    store.group(BEHIND[1:3])
    return store.files


def carried():
    """Records in file A by version 1, and the state behind them in file B by version 2, with a record of one change and one of a
    group behind it."""
    store = rules.Writer(version=1)
    for line in LINES[:6]:
        store.change(line)
    store.version = 2
    store.change(BEHIND[0])
    store.group(BEHIND[1:3])
    return store.files


def twins():
    """Two files of one generation."""
    files = journal()
    return (files[0], files[0])


def others(byte, values, chance):
    """Bytes to put in the place of this one: an open gate, a closed one, and others by chance."""
    found = [other for other in (0xa5, 0) if other != byte]
    found += chance.sample([other for other in range(1, 256) if other not in (0xa5, byte)], 8)
    return found[:values]


def damages(files, values, chance):
    """Each pair of files with one cut, or with one byte changed."""
    for which, file in enumerate(files):
        for at in range(len(file)):
            yield "cut", pair(files, which, file[:at])
            for byte in others(file[at], values, chance):
                yield "byte", pair(files, which, file[:at] + bytes([byte]) + file[at + 1:])


def versions(files, values, chance):
    """The same, and each pair of files with another version in one head."""
    yield from damages(files, values, chance)
    for which, file in enumerate(files):
        for version in VERSIONS:
            yield "version", pair(files, which, file[:8] + version.to_bytes(2, "big") + file[10:])


def sealed(files, values, chance):
    """Each pair of files with one byte of page 1 of the newest file changed and the digest of the page made anew."""
    which = 0 if files[1] < files[0] else 1
    file = files[which]
    for at in range(4096, 4096 + 4064):
        # close values, as of coordinates, are the ones that may still make a state
        near = [byte for byte in (file[at] + 1, file[at] - 1) if 0 <= byte < 256]
        for byte in near + others(file[at], values, chance):
            body = file[4096:at] + bytes([byte]) + file[at + 1:8160]
            yield "sealed", pair(files, which, file[:4096] + body + hashlib.sha256(body).digest() + file[8192:])


STORES = {"journal": (journal, damages), "groups": (groups, damages), "checkpoint": (checkpoint, damages), "page": (page, sealed),
          "other_page": (other_page, sealed), "first_version": (first_version, versions), "carried": (carried, versions),
          "twins": (twins, damages)}


def pair(files, which, file):
    return (file, files[1]) if which == 0 else (files[0], file)


FOLDERS = threading.local()


def asked(program, within, files):
    """What the program answers of these files, which it must leave as they are."""
    if not hasattr(FOLDERS, "own"):
        FOLDERS.own = tempfile.mkdtemp(dir=within)
    paths = [os.path.join(FOLDERS.own, name) for name in ("realm.a", "realm.b")]
    for path, file in zip(paths, files):
        with open(path, "wb") as out:
            out.write(file)
    done = subprocess.run([program, "check"], cwd=FOLDERS.own, stdin=subprocess.DEVNULL, capture_output=True, check=False)
    for path, file in zip(paths, files):
        with open(path, "rb") as left:
            if left.read() != file:
                raise SystemExit(f"{path} was changed")
    return done.returncode, done.stdout.decode(), done.stderr.decode()


def kind_of(answer):
    """The answer without its numbers."""
    status, given, line = answer
    if status == 0:
        return given.split("\n", maxsplit=1)[0]
    words = line.split()[2:]
    return " ".join(words[:3] + (["with both digests"] if "kept" in words else []))


def show(files, found, wanted):
    for name, file in zip(("realm.a", "realm.b"), files):
        with open(name, "wb") as out:
            out.write(file)
    raise SystemExit(f"realm.a and realm.b are answered {found!r} and not {wanted!r}")


def compare(options, name, within):
    """Goes through all damages of a store, and answers how often each answer came."""
    make, damaged_by = STORES[name]
    files = make()
    tally = collections.Counter()
    with concurrent.futures.ThreadPoolExecutor(options.threads) as pool:
        work = []
        for how, damaged in damaged_by(files, options.values, random.Random(options.seed)):
            wanted = rules.judged(*damaged)
            tally[how, kind_of(wanted)] += 1
            if options.program:
                work.append((pool.submit(asked, options.program, within, damaged), damaged, wanted))
            if len(work) >= 1000:
                settle(work)
        settle(work)
    print(f"{name}: files of {len(files[0])} and {len(files[1])} bytes, {sum(tally.values())} damages")
    for (how, kind), count in sorted(tally.items()):
        print(f"  {how:8}{kind:40}{count:8}")
    return sum(tally.values())


def settle(work):
    """Waits for answers, each of which must be the one that is wanted."""
    for future, damaged, wanted in work:
        if future.result() != wanted:
            show(damaged, future.result(), wanted)
    work.clear()


def main():
    parser = argparse.ArgumentParser()
    parser.add_argument("program", nargs="?", help="none: the rules alone are read")
    parser.add_argument("--values", type=int, default=2, help="how many other bytes are tried at each place")
    parser.add_argument("--threads", type=int, default=2)
    parser.add_argument("--seed", type=int, default=1)
    parser.add_argument("--folder", help="where the files are put, in memory best")
    options = parser.parse_args()
    if options.program:
        options.program = os.path.abspath(options.program)
    with tempfile.TemporaryDirectory(dir=options.folder) as within:
        total = sum(compare(options, name, within) for name in STORES)
    print(f"{total} damages, all {'named' if options.program else 'judged'} as written")


if __name__ == "__main__":
    main()
