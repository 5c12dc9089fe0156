#!/usr/bin/env python3
"""Times commits of `rose run`, of one change and of groups, beside the writes and syncs that a record takes, and beside SQLite. See
README.md."""
import argparse
import os
import sqlite3
import statistics
import subprocess
import tempfile
import time

# How many changes a commit has, and how many such commits make a round. A round and the next make points and take them away again.
ROUNDS = {1: 200, 100: 20, 1_000: 4}
WAYS = ["floor", "rose", "sqlite"]
FIRST = 100_000


def places(size, commit):
    """The columns of the points of a commit."""
    return range(FIRST + commit * size, FIRST + (commit + 1) * size)


class Floor:
    """A file in which a record is appended behind a closed gate by two writes and two syncs, and nothing else."""

    def __init__(self, folder, size, drawn):
        self.file = os.open(os.path.join(folder, "floor"), os.O_RDWR | os.O_CREAT, 0o644)
        os.pwrite(self.file, bytes(1), 0)
        os.fdatasync(self.file)
        # Two lengths, the number, line and count of steps of one change; a group has two numbers more. The gate behind it is closed.
        self.head, self.entry, self.gate = 8 + 8 + (16 if size > 1 else 0), 4 + 8, 0

    def commit(self, lines):
        record = bytes(self.head + sum(self.entry + len(line) - 1 for line in lines) + 1)
        os.pwrite(self.file, record, self.gate + 1)
        os.fdatasync(self.file)
        os.pwrite(self.file, b"\xa5", self.gate)
        os.fdatasync(self.file)
        self.gate += len(record)

    def end(self):
        os.close(self.file)


class Rose:
    """A run of the program. Each change outside a group, and each group as a whole, is given when what came before is answered."""

    def __init__(self, program, folder, size, drawn):
        self.run = subprocess.Popen([program, "run"], cwd=folder, stdin=subprocess.PIPE, stdout=subprocess.PIPE)
        self.number = 0
        for front in range(0, drawn, 1_000):
            self.commit([b"point %d 1\n" % x for x in range(front, min(drawn, front + 1_000))])

    def commit(self, lines):
        group = len(lines) > 1
        self.run.stdin.write(b"".join([b"begin\n", *lines, b"commit\n"] if group else lines))
        self.run.stdin.flush()
        if group:
            self.hear(b"ok begin\n")
        for _ in lines:
            self.number += 1
            self.hear(b"ok %d " % self.number)
        if group:
            self.hear(b"ok commit %d\n" % len(lines))

    def hear(self, wanted):
        reply = self.run.stdout.readline()
        if not reply.startswith(wanted):
            raise SystemExit(f"{wanted!r} was wanted, and {reply!r} came")

    def end(self):
        self.run.stdin.close()
        if self.run.wait() != 0:
            raise SystemExit("the program failed")


class Sqlite:
    """A table of points, in WAL mode with a sync of each transaction. A change is a row that comes or goes."""

    def __init__(self, folder, size, drawn):
        self.base = sqlite3.connect(os.path.join(folder, "points.db"), isolation_level=None)
        if self.base.execute("PRAGMA journal_mode = WAL").fetchone() != ("wal",):
            raise SystemExit("no WAL")
        self.base.execute("PRAGMA synchronous = FULL")
        self.base.execute("CREATE TABLE points (x INTEGER, y INTEGER, PRIMARY KEY (x, y)) WITHOUT ROWID")
        self.commit([b"point %d 1\n" % x for x in range(drawn)])

    def commit(self, lines):
        rows = [tuple(int(number) for number in line.split()[1:]) for line in lines]
        self.base.execute("BEGIN")
        if lines and lines[0].startswith(b"unpoint"):
            self.base.executemany("DELETE FROM points WHERE x = ? AND y = ?", rows)
        else:
            self.base.executemany("INSERT INTO points VALUES (?, ?)", rows)
        self.base.execute("COMMIT")

    def end(self):
        self.base.close()


def timed(way, size, number):
    """The seconds of a round."""
    word = b"unpoint" if number % 2 else b"point"
    commits = [[b"%s %d 0\n" % (word, x) for x in places(size, commit)] for commit in range(ROUNDS[size])]
    began = time.perf_counter()
    for lines in commits:
        way.commit(lines)
    return time.perf_counter() - began


def measured(program, folder, size, words):
    """The rounds of all three, in turn, with commits of this size."""
    ways = [Floor(folder, size, words.drawn), Rose(program, folder, size, words.drawn), Sqlite(folder, size, words.drawn)]
    taken = []
    for number in range(-2, words.rounds):
        seconds = [timed(way, size, number) / ROUNDS[size] for way in ways]
        if number >= 0:
            taken.append(seconds)
    for way in ways:
        way.end()
    return taken


def show(size, taken):
    """The medians, and how a commit of `rose` compares with the other two of its round."""
    medians = [statistics.median(row) * 1e6 for row in zip(*taken)]
    cells = [f"{size:7}"] + [f"{median:11.1f}" for median in medians] + [f"{medians[1] / size:11.2f}"]
    for other in (0, 2):
        ratios = [seconds[1] / seconds[other] for seconds in taken]
        cells.append(f"{statistics.median(ratios):8.2f} ({min(ratios):.2f} to {max(ratios):.2f})")
    print(" ".join(cells), flush=True)


def main():
    parser = argparse.ArgumentParser()
    parser.add_argument("program")
    parser.add_argument("--rounds", type=int, default=10)
    parser.add_argument("--drawn", type=int, default=0, help="how many points the map has at the beginning")
    parser.add_argument("--folder", help="where the files are put; it decides which disk is measured")
    words = parser.parse_args()
    program = os.path.abspath(words.program)
    print("changes   us/commit: floor, rose and SQLite   us/change   rose by floor            rose by SQLite")
    for size in ROUNDS:
        with tempfile.TemporaryDirectory(dir=words.folder) as folder:
            show(size, measured(program, folder, size, words))


if __name__ == "__main__":
    main()
