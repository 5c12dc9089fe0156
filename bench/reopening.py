#!/usr/bin/env python3
"""Times how `rose` opens a map again: from the records of its changes, and from a checkpoint. See README.md."""
import argparse
import os
import resource
import subprocess
import tempfile
import time

MULTIPLIER = 6364136223846793005
INCREMENT = 1442695040888963407
START = 7


def draws():
    """Yields numbers below 2^31."""
    state = START
    while True:
        state = (state * MULTIPLIER + INCREMENT) % 2**64
        yield state >> 33


def points(count):
    """As many points, no two of which are the same."""
    for number in range(count):
        yield b"point %d %d\n" % (number % 1000, number // 1000)


def sparse(count):
    """Segments of at most 256 columns and 255 rows among 65,536 columns and rows."""
    numbers = draws()
    for _ in range(count):
        x, y = next(numbers) % 65536, next(numbers) % 65536
        yield b"segment %d %d %d %d\n" % (x, y, x + 1 + next(numbers) % 256, y + next(numbers) % 256)


FIELDS = {"points": points, "sparse": sparse}


class Run:
    """A run of the program in a folder: what it gave, the seconds that passed and that a processor worked, and its memory."""

    def __init__(self, program, word, folder, source=None):
        with tempfile.NamedTemporaryFile("r") as told:
            # A process that starts others counts its own memory in, so a small one stands between.
            command = ["/usr/bin/time", "-o", told.name, "-f", "%M", program, *word.split()]
            before = resource.getrusage(resource.RUSAGE_CHILDREN)
            began = time.perf_counter()
            done = subprocess.run(command, cwd=folder, stdin=source, stdout=subprocess.PIPE, check=False)
            self.passed = time.perf_counter() - began
            after = resource.getrusage(resource.RUSAGE_CHILDREN)
            self.worked = after.ru_utime - before.ru_utime + after.ru_stime - before.ru_stime
            if done.returncode != 0:
                raise SystemExit(f"{word} ended with {done.returncode}")
            self.output = done.stdout
            self.memory = int(told.read()) * 1024


def run_lines(program, folder, lines, word="run"):
    """A run over these lines, by this word."""
    with tempfile.TemporaryFile() as source:
        source.writelines(lines)
        source.seek(0)
        return Run(program, word, folder, source)


def opened(program, folder, times):
    """The quickest of so many checks."""
    return min((Run(program, "check", folder) for _ in range(times)), key=lambda run: run.worked)


def size(folder, name):
    return os.path.getsize(os.path.join(folder, name))


def show(field, count, what, length, run):
    print(f"{field:7} {count:8} {what:11} {length / 1e6:8.2f} {run.passed:8.2f} {run.worked:8.2f} {run.memory / 1e6:8.1f}"
          f" {1e6 * run.worked / count:10.2f}", flush=True)


def measure(program, field, count, words):
    with tempfile.TemporaryDirectory(dir=words.folder) as folder:
        made = run_lines(program, folder, FIELDS[field](count))
        accepted = sum(reply.startswith(b"ok ") for reply in made.output.split(b"\n"))
        if accepted != count:
            raise SystemExit(f"{accepted} of {count} changes were accepted")
        records = size(folder, "realm.a")
        show(field, count, "drawn", records, made)
        journal = opened(program, folder, words.times)
        show(field, count, "by records", records, journal)
        written = run_lines(program, folder, [b"checkpoint\n"])
        if written.output != b"ok checkpoint\n":
            raise SystemExit(f"checkpoint got {written.output!r}")
        pages = size(folder, "realm.b")
        show(field, count, "checkpoint", pages, written)
        snapshot = opened(program, folder, words.times)
        show(field, count, "by pages", pages, snapshot)
        if snapshot.output != journal.output:
            raise SystemExit(f"{journal.output!r} was opened as {snapshot.output!r}")


def main():
    reader = argparse.ArgumentParser(description=__doc__)
    reader.add_argument("program", help="a built program, as crates/rose/out/rose")
    reader.add_argument("--fields", nargs="+", choices=list(FIELDS), default=list(FIELDS), help="what is drawn")
    reader.add_argument("--changes", nargs="+", type=int, default=[10000, 100000], help="how many changes")
    reader.add_argument("--times", type=int, default=3, help="how often a map is opened; the best time counts")
    reader.add_argument("--folder", help="where the files are put; best in memory, since each change waits for the disk")
    words = reader.parse_args()
    program = os.path.abspath(words.program)
    print("field    changes what              MB   passed   worked   memory  us/change")
    for field in words.fields:
        for count in words.changes:
            measure(program, field, count, words)


if __name__ == "__main__":
    main()
