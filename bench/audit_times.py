#!/usr/bin/env python3
"""Times `rose audit` on certificates of segments, beside `rose run` that draws the same. See README.md."""
import argparse
import os
import random
import subprocess
import tempfile

import segments

# Columns and rows of the field, and how many a segment may have at most.
FIELD, WIDEST = 65536, 256


def apart(count, seed):
    """So many segments, each in a square of its own, in any order."""
    chance = random.Random(seed)
    columns = next(n for n in range(1, count + 1) if n * n >= count)
    side = FIELD // columns
    squares = [(side * (i % columns), side * (i // columns)) for i in range(count)]
    chance.shuffle(squares)
    for x, y in squares:
        # the last column and row of the square stay empty
        width = min(side - 1, WIDEST)
        p, q = sorted(chance.sample(range(width * width), 2))
        yield x + p // width, y + p % width, x + q // width, y + q % width


def as_changes(drawn):
    """Each segment in a change of its own."""
    return "".join("change\nsegment %d %d %d %d %d\n" % (number, *s) for number, s in enumerate(drawn, 1)) + "end\n"


def as_beginning(drawn):
    """The segments as they are kept, before all changes."""
    return "".join("original %d %d %d %d %d\n" % (number, *s) for number, s in enumerate(drawn, 1)) + "end\n"


def as_lines(drawn):
    return "".join("segment %d %d %d %d\n" % s for s in drawn)


def certified(options, lines):
    """What the program certifies once it has run these lines."""
    with tempfile.TemporaryDirectory(dir=options.folder) as folder:
        subprocess.run([options.program, "run"], cwd=folder, input=lines.encode(), stdout=subprocess.DEVNULL, check=True)
        return subprocess.run([options.program, "certify"], cwd=folder, stdout=subprocess.PIPE, check=True).stdout.decode()


def works_apart(options, count):
    """What is run of so many segments that lie apart: a name, the word, the lines and how the reply must end."""
    drawn = list(apart(count, options.seed))
    yield "run, apart", "run", as_lines(drawn), f"ok {count} steps 0 first {count} new 1\n"
    yield "audit, changes", "audit", as_changes(drawn), f"sound {count} 0\n"
    yield "audit, beginning", "audit", as_beginning(drawn), "sound 0 0\n"


def works_across(options, count, name, side):
    """The same of segments of which some cross, on so many columns and rows."""
    lines = as_lines(segments.scattered(side)(count, segments.draws(options.seed)))
    text = certified(options, lines)
    steps = sum(line.startswith(("split", "meet", "corner")) for line in text.splitlines())
    yield "run, " + name, "run", lines, "\n"
    yield "audit, " + name, "audit", text, f"sound {count} {steps}\n"


def works(options, count):
    yield from works_apart(options, count)
    yield from works_across(options, count, "sparse", FIELD)
    if count < max(options.counts):
        # a smaller field, as dense as that of most segments
        yield from works_across(options, count, "as dense", round(FIELD * (count / max(options.counts)) ** 0.5))


def once(options, word, text, ending):
    """Processor seconds of one run, and its memory in MB. The reply must end so."""
    with tempfile.NamedTemporaryFile("w", suffix=".txt") as file:
        file.write(text)
        file.flush()
        output, seconds, memory = segments.run(options.program, file, options.folder, word)
    if not output.endswith(ending.encode()):
        raise SystemExit(f"{word} answers {output[-80:]!r} at last, and not {ending!r}")
    return seconds, memory / 1e6


def main():
    parser = argparse.ArgumentParser(description=__doc__)
    parser.add_argument("program")
    parser.add_argument("--counts", type=int, nargs="+", default=[10000, 100000])
    parser.add_argument("--times", type=int, default=9, help="how often all are run, in turn; the best time of each counts")
    parser.add_argument("--seed", type=int, default=7)
    parser.add_argument("--folder", help="where the runs keep their files; best in memory, since each change waits for the disk")
    options = parser.parse_args()
    options.program = os.path.abspath(options.program)
    rows = [(count, *work) for count in options.counts for work in works(options, count)]
    rounds = [[once(options, *work) for _, _, *work in rows] for _ in range(options.times)]
    best = [(min(seconds for seconds, _ in runs), max(memory for _, memory in runs)) for runs in zip(*rounds)]
    print("segments what                lines   seconds  us/line      MB")
    for (count, what, _, text, _), (seconds, memory) in zip(rows, best):
        lines = text.count("\n")
        print(f"{count:8} {what:17} {lines:8} {seconds:9.3f} {1e6 * seconds / lines:8.2f} {memory:7.1f}")


if __name__ == "__main__":
    main()
