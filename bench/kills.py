#!/usr/bin/env python3
"""Kills `rose run` at random moments, and looks whether each commit whose reply was read is there again. See README.md."""
import argparse
import bisect
import os
import random
import subprocess
import tempfile
import threading
import time

# How often each comes, in a hundred: a change outside a group, a group that is committed, and one that is given up.
OFTEN = {"change": 60, "group": 30, "given_up": 10}
LARGEST = 20


class Plan:
    """What a run is given, made up as it is taken, and what it has to answer. Change N is `point N 0`, and in a group that is given
    up `point N 1`."""

    def __init__(self, chance, kept):
        self.chance = chance
        # How many changes there are after each number of commits, and where the replies to these begin.
        self.kept, self.begins = [kept], []
        self.replies, self.size = [], 0

    def lines(self):
        while True:
            kind = self.chance.choices(list(OFTEN), list(OFTEN.values()))[0]
            yield from self.change() if kind == "change" else self.group(kind == "group", self.chance.randint(0, LARGEST))

    def change(self):
        number = self.kept[-1] + 1
        yield self.told(b"point %d 0\n" % number, b"ok %d steps 0 first 1 new 0\n" % number, number)

    def group(self, stays, size):
        last = self.kept[-1] + size
        yield self.told(b"begin\n", b"ok begin\n")
        for number in range(self.kept[-1] + 1, last + 1):
            yield self.told(b"point %d %d\n" % (number, 0 if stays else 1), b"ok %d steps 0 first 1 new 0\n" % number)
        if not stays:
            yield self.told(b"abandon\n", b"ok abandon\n")
        elif size == 0:
            yield self.told(b"commit\n", b"ok commit 0\n")
        else:
            yield self.told(b"commit\n", b"ok commit %d\n" % size, last)

    def told(self, line, reply, kept=None):
        """The line, whose reply is noted; that of a commit with the number of changes behind it."""
        if kept is not None:
            self.kept.append(kept)
            self.begins.append(self.size)
        self.replies.append(reply)
        self.size += len(reply)
        return line

    def begun(self, given):
        """How many commits have a reply that has begun, where this was given."""
        if not b"".join(self.replies).startswith(given):
            raise SystemExit(f"other replies: {given[-200:]!r}")
        return bisect.bisect_left(self.begins, len(given))


def feed(pipe, lines):
    """Writes the lines until the program is gone."""
    try:
        for line in lines:
            pipe.write(line)
            pipe.flush()
    except (BrokenPipeError, ValueError):
        pass


def killed_run(program, folder, lines, delay):
    """Gives these lines, kills the program, and answers what it gave."""
    run = subprocess.Popen([program, "run"], cwd=folder, stdin=subprocess.PIPE, stdout=subprocess.PIPE)
    writer = threading.Thread(target=feed, args=(run.stdin, lines))
    killer = threading.Timer(delay, run.kill)
    writer.start()
    killer.start()
    given = run.stdout.read()
    status = run.wait()
    killer.cancel()
    writer.join()
    try:
        run.stdin.close()
    except BrokenPipeError:
        pass
    if status != -9:
        raise SystemExit(f"status {status} before the kill")
    return given


def points_kept(program, folder):
    """The points that are found again, in order."""
    done = subprocess.run([program, "run"], cwd=folder, input=b"realm\n", stdout=subprocess.PIPE, check=False)
    if done.returncode != 0:
        raise SystemExit(f"status {done.returncode} when opened again")
    return done.stdout.split(b"\n")[1:-1]


def main():
    parser = argparse.ArgumentParser()
    parser.add_argument("program")
    parser.add_argument("--kills", type=int, default=500)
    parser.add_argument("--seed", type=int, default=1)
    parser.add_argument("--longest", type=float, default=0.1, help="seconds from the start of a run to its kill at most")
    parser.add_argument("--folder", help="where the files are put")
    words = parser.parse_args()
    program = os.path.abspath(words.program)
    chance = random.Random(words.seed)
    began, kept, commits, more = time.time(), 0, 0, 0
    with tempfile.TemporaryDirectory(dir=words.folder) as folder:
        for number in range(1, words.kills + 1):
            delay, plan = chance.uniform(0, words.longest), Plan(random.Random(chance.random()), kept)
            begun = plan.begun(killed_run(program, folder, plan.lines(), delay))
            found = points_kept(program, folder)
            if found != [b"%d 0" % x for x in range(1, len(found) + 1)] or len(found) not in plan.kept[begun:begun + 2]:
                raise SystemExit(f"kill {number}: of {plan.kept[begun:begun + 2]} changes {len(found)} are there")
            there = plan.kept.index(len(found))
            kept, commits, more = len(found), commits + there, more + there - begun
    print(f"{words.kills} kills in {time.time() - began:.0f} s: {commits} commits of {kept} changes were kept, none with a reply was"
          f" lost, and {more} times the unanswered commit was there")


if __name__ == "__main__":
    main()
