#!/usr/bin/env python3
"""Times a batch of 64 heavy queries, beside the same one by one. Both must give the same bytes. See README.md.

What is told is the time of each run less that of a run without a query, since every run reads the map from its file first: the
seconds that passed, and those that processors worked, which other work on the machine disturbs less.
"""
import argparse
import os
import resource
import subprocess
import sys
import tempfile
import time

QUERIES = 64


def draws(start):
    state = start
    while True:
        state = (state * 6364136223846793005 + 1442695040888963407) % 2**64
        yield state // 2**33


def segments(count):
    numbers = draws(7)
    for _ in range(count):
        x, y = next(numbers) % 4096, next(numbers) % 4096
        u, v = x + 1 + next(numbers) % 256, y + next(numbers) % 256
        yield f"segment {x} {y} {u} {v}\n"


def worked():
    used = resource.getrusage(resource.RUSAGE_CHILDREN)
    return used.ru_utime + used.ru_stime


def run(program, folder, lines):
    """What was answered, and the seconds that passed and that processors worked."""
    began, before = time.monotonic(), worked()
    done = subprocess.run([program, "run"], cwd=folder, input=lines.encode(), stdout=subprocess.PIPE, check=True)
    return done.stdout, (time.monotonic() - began, worked() - before)


def main():
    parser = argparse.ArgumentParser()
    parser.add_argument("program")
    parser.add_argument("segments", nargs="?", type=int, default=5000)
    options = parser.parse_args()
    program, count = os.path.abspath(options.program), options.segments
    with tempfile.TemporaryDirectory() as folder:
        run(program, folder, "".join(segments(count)))
        _, started = run(program, folder, "")
        alone, one_by_one = run(program, folder, "realm\n" * QUERIES)
        together, batch = run(program, folder, f"batch {QUERIES}\n" + "realm\n" * QUERIES)
    if alone != together:
        sys.exit("the batch gives other bytes than its lines one by one")
    print(f"segments {count}, queries {QUERIES}, bytes {len(alone)}")
    print("             passed   worked")
    print(f"start      {started[0]:8.2f} {started[1]:8.2f}")
    for name, taken in (("one by one", one_by_one), ("batch", batch)):
        print(f"{name:10} {taken[0] - started[0]:8.2f} {taken[1] - started[1]:8.2f}")


if __name__ == "__main__":
    main()
