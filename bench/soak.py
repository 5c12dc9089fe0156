#!/usr/bin/env python3
"""Gives random lines to `rose run`, kills it again and again, and compares it with a run that isn't killed. See README.md."""
import argparse
import bisect
import copy
import os
import random
import re
import subprocess
import tempfile
import time

import rules
from kills import killed_run

# No command: its reply ends the replies to the command before it.
END, END_REPLY = b"?\n", b"no line 0\n"
FIELD, LONGEST = 400, 40
OPERATORS = [b"intersection", b"plus", b"minus", b"common_border", b"vertices", b"contour", b"interior"]
PREDICATES = [b"equal", b"inside", b"edge_inside", b"vertex_inside", b"area_disjoint", b"edge_disjoint", b"disjoint",
              b"intersects", b"meets", b"adjacent", b"encloses", b"on_border_of", b"border_in_common"]
NUMBERS = [b"area2", b"diameter2", b"no_of_components", b"dist2"]
QUERIES = ["show", "chain", "trace", "eval", "ask", "num", "faces"]
# How often each command comes, in a thousand.
OFTEN = {"segment": 300, "point": 60, "unpoint": 40, "delete": 130, "points": 30, "lines": 60, "regions": 40, "let": 50, "drop": 70,
         "checkpoint": 15, "begin": 30, "commit": 2, "abandon": 2, "bad": 20, "realm": 2, "batch": 8,
         **{query: 24 for query in QUERIES}}
# The same while a group is open.
OFTEN_IN_GROUP = {**OFTEN, "checkpoint": 2, "begin": 2, "commit": 60, "abandon": 15}


class Author:
    """Makes up commands. It keeps in mind what was accepted, so that most of them are."""

    def __init__(self, random_numbers):
        self.random = random_numbers
        self.map = Map()
        # The map as it was when the open group was begun.
        self.before = None

    def place(self):
        return self.random.randrange(FIELD), self.random.randrange(FIELD)

    def near(self, place):
        return tuple(min(max(0, part + self.random.randint(-LONGEST, LONGEST)), FIELD - 1) for part in place)

    def walk(self, count):
        places = [self.place()]
        while len(places) < count:
            places.append(self.near(places[-1]))
        return b" ".join(b"%d %d" % place for place in places)

    def name(self):
        """A name that mostly has a value."""
        if self.map.names and self.random.random() < 0.95:
            return self.random.choice(sorted(self.map.names))
        return b"n%d" % self.random.randrange(20)

    def new_name(self):
        return b"n%d" % self.random.randrange(20)

    def operands(self, words, pairs):
        word = self.random.choice(words)
        return b"%s %s %s" % (word, self.name(), self.name()) if word in pairs else b"%s %s" % (word, self.name())

    def command(self):
        often = OFTEN if self.before is None else OFTEN_IN_GROUP
        kind = self.random.choices(list(often), list(often.values()))[0]
        # What is drawn is to stay small enough for many starts.
        if kind == "segment" and len(self.map.free) > 120:
            kind = "delete"
        if kind in ("point", "points") and len(self.map.points) > 60:
            kind = "unpoint"
        return getattr(self, "make_" + kind)() + b"\n"

    def make_segment(self):
        return b"segment " + self.walk(2)

    def make_point(self):
        return b"point %d %d" % self.place()

    def make_unpoint(self):
        return b"unpoint %d %d" % (self.random.choice(self.map.points) if self.map.points else self.place())

    def make_delete(self):
        return b"delete %d" % (self.random.choice(self.map.free) if self.map.free else self.random.randint(0, self.map.next))

    def make_points(self):
        return b"points %s %s" % (self.new_name(), self.walk(self.random.randint(1, 4)))

    def make_lines(self):
        lists = [self.walk(self.random.randint(2, 5)) for _ in range(self.random.randint(1, 2))]
        return b"lines %s %s" % (self.new_name(), b" ; ".join(lists))

    def make_regions(self):
        lists = [self.walk(self.random.randint(3, 6)) for _ in range(self.random.randint(1, 2))]
        return b"regions %s %s" % (self.new_name(), b" ; ".join(lists))

    def make_let(self):
        return b"let %s = %s" % (self.new_name(), self.operands(OPERATORS, OPERATORS[:4]))

    def make_drop(self):
        return b"drop " + self.name()

    def make_checkpoint(self):
        return b"checkpoint"

    def make_begin(self):
        return b"begin"

    def make_commit(self):
        return b"commit"

    def make_abandon(self):
        return b"abandon"

    def make_bad(self):
        return self.random.choice([b"segment 0 0 1", b"segment 1 1 1 1", b"point %d 0" % rules.SIDE, b"lines n0 1 1", b"points  n0",
                                   b"batch 0"])

    def make_realm(self):
        return b"realm"

    def make_show(self):
        return b"show " + self.name()

    def make_chain(self):
        return b"chain %d" % (self.random.choice(self.map.free) if self.map.free else self.random.randint(0, self.map.next))

    def make_trace(self):
        return b"trace %d" % self.random.randint(max(0, self.map.changes - 20), self.map.changes + 1)

    def make_eval(self):
        return b"eval " + self.operands(OPERATORS, OPERATORS[:4])

    def make_ask(self):
        return b"ask " + self.operands(PREDICATES, PREDICATES)

    def make_num(self):
        return b"num " + self.operands(NUMBERS, NUMBERS[3:])

    def make_faces(self):
        return b"faces " + self.name()

    def make_batch(self):
        lines = [getattr(self, "make_" + self.random.choice(QUERIES))() for _ in range(self.random.randint(1, 6))]
        return b"\n".join([b"batch %d" % len(lines), *lines])

    def hear(self, command, reply):
        """Notes what came of a command. True where it was a commit: a change outside a group, or a group with a change."""
        if command == b"begin\n" and reply == b"ok begin\n":
            self.before = copy.deepcopy(self.map)
        elif command == b"abandon\n" and reply == b"ok abandon\n":
            self.map, self.before = self.before, None
        elif command == b"commit\n" and reply.startswith(b"ok "):
            count, self.before = self.map.changes - self.before.changes, None
            if reply != b"ok commit %d\n" % count:
                raise SystemExit(f"a group of {count} changes got {reply!r}")
            return count > 0
        elif accepted := re.match(rb"ok (\d+) steps \d+ first (\d+) new (\d+)\n", reply):
            self.map.make(command.split(), *(int(number) for number in accepted.groups()))
            return self.before is None
        return False


class Map:
    """What was accepted: the originals of no value, those of each name, the explicit points, and how many changes."""

    def __init__(self):
        self.free, self.names, self.points, self.next, self.changes = [], {}, [], 1, 0

    def make(self, words, number, first, new):
        """Makes a change that was accepted."""
        if number != self.changes + 1:
            raise SystemExit(f"change {self.changes + 1} has the number {number}")
        self.changes, self.next = number, first + new
        if words[0] == b"segment":
            self.free.append(first)
        elif words[0] == b"delete":
            self.free.remove(int(words[1]))
        elif words[0] == b"point":
            self.points.append((int(words[1]), int(words[2])))
        elif words[0] == b"unpoint":
            self.points = [point for point in self.points if point != (int(words[1]), int(words[2]))]
        elif words[0] == b"drop":
            self.free += self.names.pop(words[1])
        else:
            self.names[words[1]] = list(range(first, first + new))


class Steady:
    """The run that isn't killed. It is asked for one command after another, and keeps the replies since the last place."""

    def __init__(self, program, folder, author):
        self.author = author
        self.run = subprocess.Popen([program, "run"], cwd=folder, stdin=subprocess.PIPE, stdout=subprocess.PIPE)
        self.commands, self.replies = [], []
        # Of each commit since the last place, that before it first: the changes that there are then, and the commands up to it.
        self.behind, self.dropped = {0: 0}, 0
        self.commits = self.checkpoints = self.given_up = 0

    def stop(self):
        self.run.stdin.close()
        if self.run.wait() != 0:
            raise SystemExit(f"the run that isn't killed ended with status {self.run.returncode}")

    def more(self):
        """Makes up one command and has it answered. True behind each checkpoint, and behind each group that is given up."""
        command = self.author.command()
        reply = self.ask(command)
        if command == b"checkpoint\n" and reply == b"ok checkpoint\n":
            self.checkpoints += 1
        elif command == b"abandon\n" and reply == b"ok abandon\n":
            self.given_up += 1
            self.ask(questions(self.author))
        else:
            return False
        return True

    def ask(self, command):
        """Gives a command, and answers its reply."""
        self.run.stdin.write(command + END)
        self.run.stdin.flush()
        lines = []
        while not lines or lines[-1] != END_REPLY:
            line = self.run.stdout.readline()
            if not line:
                raise SystemExit(f"the run that isn't killed ended at {command!r}")
            lines.append(line)
        self.commands.append(command)
        self.replies.append(b"".join(lines[:-1]))
        if self.author.hear(command, self.replies[-1]):
            self.behind[self.author.map.changes] = self.end()
            self.commits += 1
        return self.replies[-1]

    def end(self):
        return self.dropped + len(self.commands)

    def drop_before(self, change):
        """Forgets what came up to a commit."""
        place = self.behind[change]
        del self.commands[:place - self.dropped]
        del self.replies[:place - self.dropped]
        self.dropped = place
        self.behind = {number: where for number, where in self.behind.items() if number >= change}

    def left_by(self, given):
        """How many changes there are after those commits whose replies had begun when this was given, and after one more."""
        if not b"".join(self.replies).startswith(given):
            raise SystemExit(f"other replies: {given[-200:]!r}")
        commits = list(self.behind.items())
        ends = [0]
        for reply in self.replies:
            ends.append(ends[-1] + len(reply))
        begins = [ends[where - self.dropped - 1] for _, where in commits[1:]]
        begun = bisect.bisect_left(begins, len(given))
        return [changes for changes, _ in commits[begun:begun + 2]]


def asked(program, folder, words, lines=b""):
    """What a run with these words and lines gives."""
    done = subprocess.run([program, *words], cwd=folder, input=lines, stdout=subprocess.PIPE, check=False)
    if done.returncode != 0:
        raise SystemExit(f"status {done.returncode} of {words}")
    return done.stdout


def changes_kept(program, folder):
    return int(re.match(rb"changes (\d+)\n", asked(program, folder, ["check"])).group(1))


def questions(author):
    """All that can be asked of the map."""
    there = author.map
    names = [b"show n%d\n" % number for number in range(20)]
    chains = [b"chain %d\n" % number for number in there.free]
    chains += [b"chain %d\n" % number for ids in there.names.values() for number in ids]
    traces = [b"trace %d\n" % number for number in range(max(1, there.changes - 17), there.changes + 1)]
    return b"realm\n" + b"".join(names + chains + traces)


class Soak:
    """The killed runs beside the steady one."""

    def __init__(self, program, folder, seed):
        self.program = program
        self.killed, self.whole = os.path.join(folder, "killed"), os.path.join(folder, "whole")
        os.mkdir(self.killed)
        os.mkdir(self.whole)
        self.random = random.Random(seed)
        self.steady = Steady(program, self.whole, Author(self.random))
        self.kept = self.kills = self.more = self.waited = 0

    def go_on(self):
        """Makes up commands up to the next checkpoint, or the next group that is given up."""
        while not self.steady.more():
            pass

    def kill(self, longest):
        """One run that is killed, and what is found then. True where all commands had been answered."""
        given = killed_run(self.program, self.killed, self.steady.commands, self.random.uniform(0, longest))
        left = self.steady.left_by(given)
        found = changes_kept(self.program, self.killed)
        self.kills += 1
        if found not in left:
            raise SystemExit(f"kill {self.kills}: of {left} changes {found} are there")
        whole = len(given) == sum(map(len, self.steady.replies))
        self.more += found != left[0]
        self.waited += whole
        self.kept = found
        self.steady.drop_before(found)
        if whole:
            self.steady.behind[found] = self.steady.end()
            self.steady.drop_before(found)
        return whole

    def finish(self):
        """The comparison of what both keep. How many questions were asked."""
        self.steady.stop()
        lines = questions(self.steady.author)
        for words, text in ((["check"], b""), (["run"], lines)):
            if asked(self.program, self.killed, words, text) != asked(self.program, self.whole, words, text):
                raise SystemExit(f"{words[0]} gives something else where it was killed")
        return lines.count(b"\n")


def main():
    parser = argparse.ArgumentParser()
    parser.add_argument("program")
    parser.add_argument("--minutes", type=float, default=60)
    parser.add_argument("--seed", type=int, default=1)
    parser.add_argument("--longest", type=float, default=0.1, help="seconds from the start of a run to its kill at most")
    parser.add_argument("--folder", help="where the files are put")
    words = parser.parse_args()
    began = time.time()
    with tempfile.TemporaryDirectory(dir=words.folder) as folder:
        soak = Soak(os.path.abspath(words.program), folder, words.seed)
        while time.time() < began + 60 * words.minutes:
            soak.go_on()
            while not soak.kill(words.longest):
                pass
        compared = soak.finish()
        print(f"{soak.kills} kills in {time.time() - began:.0f} s, {soak.waited} of them when all was answered:"
              f" {soak.steady.end()} commands, {soak.kept} changes in {soak.steady.commits} commits, {soak.steady.given_up} groups given up"
              f" and {soak.steady.checkpoints} checkpoints; no commit with a reply was lost, and {soak.more} times the unanswered commit"
              " was there")
        print(f"at the end `check` and {compared} questions get the same replies as without a kill")


if __name__ == "__main__":
    main()
