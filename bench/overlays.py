#!/usr/bin/env python3
"""Times intersections of two regions, and sums, parts and overlays of many values, by `rose run`. See README.md."""
import argparse
import fcntl
import os
import subprocess
import tempfile
import time

SIZES = [400, 4000, 40000]
BLOCK = 1 << 20
F_SETPIPE_SZ = 1031


def square(low, high):
    return f"{low} {low} {high} {low} {high} {high} {low} {high}"


def nested(segments):
    """Two regions of nested squares, those of the one between those of the other: no side is common."""
    number, far = segments // 8, segments
    one = " ; ".join(square(4 * i, 4 * far - 4 * i) for i in range(number))
    two = " ; ".join(square(4 * i + 2, 4 * far - 4 * i - 2) for i in range(number))
    return [f"regions a {one}", f"regions b {two}"]


def rings(segments):
    """Two regions of rings side by side, the ring of the other in the hole of each; they share the rim of the hole."""
    number = segments // 12
    wide = max(1, int(number**0.5))

    def at(i, low, high):
        x, y = 10 * (i % wide), 10 * (i // wide)
        return f"{x + low} {y + low} {x + high} {y + low} {x + high} {y + high} {x + low} {y + high}"

    one = " ; ".join(f"{at(i, 0, 8)} ; {at(i, 2, 6)}" for i in range(number))
    two = " ; ".join(at(i, 2, 6) for i in range(number))
    return [f"regions a {one}", f"regions b {two}"]


FIELDS = {"nested": nested, "rings": rings}


# ---- many values at once

def brick(column, row):
    """The six vertices of a parcel: each row is half a parcel off the one below, so neighbours' corners lie on its long sides."""
    x, y = 2000 * column + 1000 * (row % 2), 1000 * row
    return f"{x} {y} {x + 1000} {y} {x + 2000} {y} {x + 2000} {y + 1000} {x + 1000} {y + 1000} {x} {y + 1000}"


def parcels(number):
    """So many parcels in a wall of bricks, and how wide and high it is."""
    wide = int((number / 2)**0.5)
    lines = [f"regions p{i} {brick(i % wide, i // wide)}" for i in range(number)]
    return lines, 2000 * wide + 1000, 1000 * (number // wide + 1)


def zones(number, width, height):
    """So many zones over the wall, whose corners stand askew, so that their borders cross those of the parcels off the grid."""
    wide = max(1, int((number / 2)**0.5))
    high = number // wide

    def corner(a, b):
        return f"{width * a // wide + (37 * a + 101 * b) % 89} {height * b // high + (53 * a + 71 * b) % 83}"

    places = [(i % wide, i // wide) for i in range(wide * high)]
    return [f"regions z{i} {corner(a, b)} {corner(a + 1, b)} {corner(a + 1, b + 1)} {corner(a, b + 1)}"
            for i, (a, b) in enumerate(places)]


def named(letter, lines):
    return " ".join(f"{letter}{i}" for i in range(len(lines)))


def overlaid(size):
    """Parcels against a zone for each twenty of them."""
    sheet, width, height = parcels(size)
    plan = zones(size // 20, width, height)
    return sheet + plan, f"overlay {named('p', sheet)} ; {named('z', plan)}"


def summed(size):
    """Parcels that are made one region."""
    sheet, _, _ = parcels(size)
    return sheet, f"sum {named('p', sheet)}"


def faces(size):
    """A region of so many squares, each of which touches its neighbours in corners."""
    wide = int(size**0.5)

    def square_at(i):
        x, y = 20 * (i % wide) + 10 * (i // wide % 2), 10 * (i // wide)
        return f"{x} {y} {x + 10} {y} {x + 10} {y + 10} {x} {y + 10}"

    return [f"regions r {' ; '.join(square_at(i) for i in range(size))}"], "decompose r"


def network(size):
    """A network of so many segments in parts of a hundred each."""
    def way(part):
        return " ".join(f"{10 * i} {20 * part + i % 2 * 7}" for i in range(101))

    return [f"lines n {' ; '.join(way(part) for part in range(size // 100))}"], "decompose n"


SETS = {"overlay": (overlaid, [500, 1000]), "sum": (summed, [5000, 10000]), "faces": (faces, [5000, 10000]),
        "network": (network, [25000, 50000])}


class Lines:
    """The lines of a pipe, read by large blocks, so that long replies take hardly any time of their own."""

    def __init__(self, pipe):
        self.pipe, self.block, self.at = pipe, b"", 0
        fcntl.fcntl(pipe, F_SETPIPE_SZ, BLOCK)

    def read_on(self):
        more = os.read(self.pipe.fileno(), BLOCK)
        if not more:
            raise SystemExit("the program ended")
        self.block, self.at = self.block[self.at:] + more, 0

    def next(self):
        while (end := self.block.find(b"\n", self.at)) < 0:
            self.read_on()
        line, self.at = self.block[self.at:end], end + 1
        return line.decode()

    def skip(self, count):
        while (has := self.block.count(b"\n", self.at)) <= count:
            self.at, count = max(self.at, self.block.rfind(b"\n") + 1), count - has
            if not count:
                return
            self.read_on()
        for _ in range(count):
            self.at = self.block.find(b"\n", self.at) + 1


class Run:
    """A run that is fed one line at a time, as each reply comes."""

    def __init__(self, program, folder):
        self.run = subprocess.Popen([program, "run"], cwd=folder, stdin=subprocess.PIPE, stdout=subprocess.PIPE, bufsize=0)
        self.lines = Lines(self.run.stdout)

    def ask(self, line):
        """The head of the reply, and the processor seconds and the seconds that the program took for it."""
        begin, before = time.monotonic(), self.used()
        unsent = memoryview(line.encode() + b"\n")
        while unsent:
            unsent = unsent[self.run.stdin.write(unsent):]
        head, rest = self.reply()
        return head, rest, self.used() - before, time.monotonic() - begin

    def reply(self):
        """The head of a reply, and the pairs and keys that it names."""
        head = self.lines.next().split()
        if head[0] in ("points", "lines", "regions"):
            self.lines.skip(int(head[1]))
        rest = []
        if head[0] == "set":
            for _ in range(int(head[1])):
                entry, _ = self.reply()
                if entry[0] in ("pair", "key"):
                    rest.append([int(n) for n in entry[1:]])
                    self.reply()
        return head, rest

    def used(self):
        with open(f"/proc/{self.run.pid}/stat") as it:
            fields = it.read().rsplit(") ", 1)[1].split()
        return (int(fields[11]) + int(fields[12])) / os.sysconf("SC_CLK_TCK")

    def end(self):
        self.run.stdin.close()
        if self.run.wait() != 0:
            raise SystemExit("the program failed")


def timed(run, line):
    """The head of the reply, and the seconds that one such line takes, of a processor and on the clock: it is asked until a
    quarter of a second is taken."""
    times, taken, passed = 0, 0.0, 0.0
    while taken < 0.25:
        head, _, seconds, clock = run.ask(line)
        times, taken, passed = times + 1, taken + seconds, passed + clock
        if times == 1000:
            break
    return head, taken / times, passed / times


def drawn(run, lines):
    """The processor seconds that drawing takes, in one group."""
    seconds = 0.0
    for line in ["begin", *lines, "commit"]:
        head, _, taken, _ = run.ask(line)
        seconds += taken
        if head[0] != "ok":
            raise SystemExit(f"{line[:40]}: {' '.join(head)}")
    return seconds


def time_fields(program, given):
    print("field   segments   drawn s  result        ms  us/segment  growth  passed ms")
    for field in given.fields:
        before = None
        for segments in (n for n in SIZES if n <= given.most):
            with tempfile.TemporaryDirectory(dir=given.folder) as folder:
                run = Run(program, folder)
                seconds_drawn = drawn(run, FIELDS[field](segments))
                head, seconds, passed = timed(run, "eval intersection a b")
                run.end()
            each = seconds / segments * 1e6
            growth = "-" if before is None else f"{each / before:.2f}"
            print(f"{field:7} {segments:8} {seconds_drawn:9.2f} {head[1]:>7} {seconds * 1e3:9.2f} {each:11.2f} {growth:>7} {passed * 1e3:10.2f}", flush=True)
            before = each


def time_alone(run, line):
    """The processor seconds of one line `eval intersection` for each pair that the overlay has."""
    first, second = (names.split() for names in line.removeprefix("overlay ").split(" ; "))
    _, pairs, _, _ = run.ask(line)
    return sum(run.ask(f"eval intersection {first[i - 1]} {second[j - 1]}")[2] for i, j in pairs)


def time_sets(program, given):
    print("what        size   drawn s  result        ms      us/each  growth  passed ms  alone ms")
    for what in given.sets:
        make, sizes = SETS[what]
        before = None
        for size in sizes:
            lines, line = make(size)
            with tempfile.TemporaryDirectory(dir=given.folder) as folder:
                run = Run(program, folder)
                seconds_drawn = drawn(run, lines)
                head, seconds, passed = timed(run, line)
                alone = f"{time_alone(run, line) * 1e3:9.2f}" if what == "overlay" else "        -"
                run.end()
            each = seconds / size * 1e6
            growth = "-" if before is None else f"{each / before:.2f}"
            print(f"{what:7} {size:8} {seconds_drawn:9.2f} {head[1]:>7} {seconds * 1e3:9.2f} {each:12.2f} {growth:>7} {passed * 1e3:10.2f} {alone}", flush=True)
            before = each


def main():
    parser = argparse.ArgumentParser(description=__doc__)
    parser.add_argument("program")
    parser.add_argument("--most", type=int, default=SIZES[-1], help="the most segments of both borders together")
    parser.add_argument("--fields", nargs="*", choices=FIELDS, default=list(FIELDS))
    parser.add_argument("--sets", nargs="*", choices=SETS, default=list(SETS), help="what of many values at once")
    parser.add_argument("--folder", help="where the file of a run is put")
    parser.add_argument("--processors", type=int, help="on how many processors the program may run at once")
    given = parser.parse_args()
    if given.processors:
        os.sched_setaffinity(0, sorted(os.sched_getaffinity(0))[:given.processors])
    program = os.path.abspath(given.program)
    if given.fields:
        time_fields(program, given)
    if given.sets:
        time_sets(program, given)


if __name__ == "__main__":
    main()
