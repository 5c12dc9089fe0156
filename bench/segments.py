#!/usr/bin/env python3
"""Times `rose run` on generated segments. See README.md."""
import argparse
import os
import re
import resource
import shutil
import subprocess
import tempfile

MULTIPLIER = 6364136223846793005
INCREMENT = 1442695040888963407


def draws(start):
    """Yields numbers below 2^31."""
    state = start
    while True:
        state = (state * MULTIPLIER + INCREMENT) % 2**64
        yield state >> 33


def scattered(side):
    """Segments on a field with `side` columns and rows, each at most 256 wide and 255 high."""

    def segments(count, drawn):
        for _ in range(count):
            x, y = next(drawn) % side, next(drawn) % side
            yield x, y, x + 1 + next(drawn) % 256, y + next(drawn) % 256

    return segments


def long(count, drawn):
    """Segments from the first of 65,536 columns to the last."""
    for _ in range(count):
        yield 0, next(drawn) % 65536, 65535, next(drawn) % 65536


def fence(count, _drawn):
    """Upright segments side by side, and at last one across all of them."""
    for i in range(count):
        yield 3 * i, 0, 3 * i + 1, 100
    yield 0, 50, 3 * count, 57


def shared(count, _drawn):
    """One line drawn again and again, and at last 200 short segments across it."""
    for _ in range(count):
        yield 0, 0, 60000, 7
    for i in range(200):
        yield 300 * i + 5, 0, 300 * i + 6, 20


# name, how it is drawn, and for how many segments
FIELDS = [
    ("sparse", scattered(65536), [1000, 2000, 5000, 10000, 20000, 50000, 100000]),
    ("dense", scattered(4096), [1000, 2000, 5000, 10000]),
    ("long", long, [50, 100, 200]),
    ("fence", fence, [1000, 2000, 5000, 10000]),
    ("shared", shared, [100, 200, 400]),
]


def write_input(segments):
    """A file with the lines of the segments, and a last line that asks for the realm."""
    file = tempfile.NamedTemporaryFile("w", suffix=".txt")
    file.write("".join("segment %d %d %d %d\n" % s for s in segments) + "realm\n")
    file.flush()
    return file


def run(program, file, folder, *words):
    """The output of the program, run with these words (`run` where there are none) on the file, its processor seconds, and its
    greatest memory in bytes."""
    with (open(file.name, "rb") as source, tempfile.NamedTemporaryFile("r") as told,
          tempfile.TemporaryFile(dir=folder) as given, tempfile.TemporaryDirectory(dir=folder) as empty):
        # A process that starts others counts its own memory in, so a small one stands between. The replies go to a file: a
        # pipe would wake its reader at each of them, which costs the program more than the reply.
        command = ["/usr/bin/time", "-o", told.name, "-f", "%M", program, *(words or ["run"])]
        before = resource.getrusage(resource.RUSAGE_CHILDREN)
        subprocess.run(command, cwd=empty, stdin=source, stdout=given, check=True)
        after = resource.getrusage(resource.RUSAGE_CHILDREN)
        given.seek(0)
        seconds = after.ru_utime - before.ru_utime + after.ru_stime - before.ru_stime
        return given.read(), seconds, int(told.read()) * 1024


def run_in_turn(programs, file, times, folder):
    """Of each program the output, the least processor seconds of so many runs, and the greatest memory in bytes."""
    runs = [[run(program, file, folder) for program in programs] for _ in range(times)]
    for tried in zip(*runs):
        yield tried[0][0], min(seconds for _, seconds, _ in tried), max(memory for _, _, memory in tried)


def instructions(program, file, folder, *words):
    """How many instructions the run takes, counted by valgrind; none where it isn't there."""
    if shutil.which("valgrind") is None:
        return None
    command = ["valgrind", "--tool=callgrind", "--callgrind-out-file=/dev/null", program, *(words or ["run"])]
    with open(file.name, "rb") as source, tempfile.TemporaryDirectory(dir=folder) as empty:
        done = subprocess.run(command, cwd=empty, stdin=source, stdout=subprocess.DEVNULL, stderr=subprocess.PIPE, check=True)
    found = re.search(rb"Collected : (\d+)", done.stderr)
    return int(found.group(1)) if found else None


def counted(output):
    """How many pieces, segments and steps the output tells."""
    pieces = int(re.search(rb"^realm \d+ (\d+)$", output, re.M).group(1))
    drawn = len(re.findall(rb"^ok ", output, re.M))
    steps = sum(int(n) for n in re.findall(rb"^ok \d+ steps (\d+) ", output, re.M))
    return pieces, drawn, steps


def measure(name, file, before, chosen):
    """Prints a row for each program, and answers its microseconds per piece, with which the next row is compared."""
    each, first = [], None
    for at, (output, seconds, memory) in enumerate(run_in_turn(chosen.programs, file, chosen.times, chosen.folder)):
        pieces, drawn, steps = counted(output)
        first = first or seconds
        each.append(1e6 * seconds / pieces)
        growth = "%7.2f" % (each[at] / before[at]) if before else "      -"
        row = "%-7s %d %8d %8d %8d %9.3f %7.2f %9.2f %s %7.1f %8.0f" % (
            name, at + 1, drawn, pieces, steps, seconds, first / seconds, each[at], growth, memory / 1e6, memory / pieces,
        )
        if chosen.instructions:
            told = instructions(chosen.programs[at], file, chosen.folder)
            row += "%12.0f" % (told / pieces) if told else "           -"
        print(row, flush=True)
    return each


def main():
    reader = argparse.ArgumentParser(description=__doc__)
    reader.add_argument("programs", nargs="+", help="built programs, as crates/rose/out/rose, which are run in turn")
    reader.add_argument("--start", type=int, default=7, help="where the draws begin")
    reader.add_argument("--most", type=int, default=100000, help="leaves out rows with more segments")
    reader.add_argument("--fields", nargs="+", default=[name for name, _, _ in FIELDS], help="which fields")
    reader.add_argument("--times", type=int, default=3, help="how often each is run; its best time counts")
    reader.add_argument("--instructions", action="store_true", help="count instructions too, which is slow")
    reader.add_argument("--folder", help="where the runs keep their files; best in memory, since each change waits for the disk")
    chosen = reader.parse_args()
    chosen.programs = [os.path.abspath(program) for program in chosen.programs]
    print("\n".join("%d %s" % numbered for numbered in enumerate(chosen.programs, 1)))
    print("field   p segments   pieces    steps   seconds   times  us/piece  growth      MB  B/piece")
    for name, field, counts in FIELDS:
        before = None
        for count in counts:
            if name in chosen.fields and count <= chosen.most:
                with write_input(field(count, draws(chosen.start))) as file:
                    before = measure(name, file, before, chosen)


if __name__ == "__main__":
    main()
