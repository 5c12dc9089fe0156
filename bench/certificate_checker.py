#!/usr/bin/env python3
"""Judges a certificate by the written rules, read anew and not taken from the program: the lines are those of
crates/realm_audit/README.md, the geometry that of docs/GEOMETRY.md. It reads a file, or its input, and prints `sound C S`, the numbers of
changes and steps, or `unsound L`, the first line that doesn't hold. See README.md."""
import argparse
import bisect
import itertools
import sys

import rules
from rules import cross, is_inside, size


class Fails(Exception):
    """A line has no such form, or doesn't hold where it stands."""


def demand(*conditions):
    if not all(conditions):
        raise Fails


# ---- lines
# What comes behind each word: ids, points, segments, and a chain, which is all the rest.
FORMS = {b"point": "p", b"unpoint": "p", b"original": "ic", b"change": "", b"remove": "i", b"segment": "ipp",
         b"split": "ps", b"meet": "ssp", b"corner": "ss", b"end": ""}
LENGTHS = {"i": 1, "p": 2, "s": 4}


def parsed(line):
    """The word of a line, and what comes behind it."""
    word, *tokens = line.split(b" ")
    demand(word in FORMS, all(rules.NUMBER.fullmatch(token) for token in tokens))
    numbers, found = [int(token) for token in tokens], []
    for kind in FORMS[word]:
        length = LENGTHS.get(kind, len(numbers))
        demand(len(numbers) >= length)
        found.append(READERS[kind](numbers[:length]))
        numbers = numbers[length:]
    demand(not numbers)
    return word.decode(), found


def id_of(numbers):
    demand(1 <= numbers[0] < 2 ** 32)
    return numbers[0]


def point_of(numbers):
    demand(max(numbers) < rules.SIDE)
    return tuple(numbers)


def segment_of(numbers):
    a, b = point_of(numbers[:2]), point_of(numbers[2:])
    demand(a < b)
    return a, b


def chain_of(numbers):
    demand(len(numbers) >= 4, len(numbers) % 2 == 0)
    return [point_of(numbers[i:i + 2]) for i in range(0, len(numbers), 2)]


READERS = {"i": id_of, "p": point_of, "s": segment_of, "c": chain_of}


# ---- numbers
def up(n, m):
    """n / m, rounded up."""
    return -(-n // m)


def least_fraction(c, m, most):
    """The least q / p that isn't below c / m and whose p is at most this, as (p, q) in lowest terms. It is looked for between two
    fractions, one below c / m and one not below it, which come nearer by sums of their parts."""
    if c % m == 0:
        return 1, c // m

    def over(p, q):
        return m * q - c * p

    low, high = (1, c // m), (1, c // m + 1)
    while low[0] + high[0] <= most and over(*high) > 0:
        times = min((most - high[0]) // low[0], over(*high) // -over(*low))
        high = high[0] + times * low[0], high[1] + times * low[1]
        if over(*high) > 0:
            times = min((most - low[0]) // high[0], (-over(*low) - 1) // over(*high))
            low = low[0] + times * high[0], low[1] + times * high[1]
    return high


def floors(n, m, a, b):
    """The sum of floor((a * i + b) / m) for i from 0 to n - 1. Where a is below m, the grid points under the line are counted row by
    row in place of column by column."""
    total = 0
    while n > 0:
        total += n * (n - 1) // 2 * (a // m) + n * (b // m)
        a, b = a % m, b % m
        n, b = divmod(a * n + b, m)
        m, a = a, m
    return total


# ---- chains and hooks
def exchanged(points):
    return [(y, x) for x, y in points]


def mirrored(points):
    return [(x, -y) for x, y in points]


def grid_points_over(line, link):
    """How many grid points there are in the columns of the link that lie on or over the line and strictly under the link."""
    (ax, ay), (bx, by) = sorted(line)
    (px, py), (qx, qy) = sorted(link)
    if px == qx:
        return max(0, max(py, qy) - up((by - ay) * (px - ax), bx - ax) - ay)
    # the link is over the line by (rise * (x - px) + start) / (dx * ex)
    dx, dy, ex, ey = bx - ax, by - ay, qx - px, qy - py
    rise, start = ey * dx - dy * ex, ((py - ay) * dx - dy * (px - ax)) * ex
    first, last = px, qx
    if rise > 0:
        first = max(first, px - start // rise)
    elif rise < 0:
        last = min(last, px + up(start, -rise) - 1)
    elif start <= 0:
        return 0
    columns = max(0, last - first + 1)
    # each place is rounded up, which is the floor of its opposite, turned round
    return floors(columns, dx, -dy, -dy * (first - ax)) - floors(columns, ex, -ey, -ey * (first - px)) + columns * (py - ay)


def is_close(o, link):
    """No grid point lies from a place of the original to one of the link: the former counts, and the latter doesn't."""
    if not rules.is_flat(o):
        o, link = exchanged(o), exchanged(link)
    return grid_points_over(o, link) == 0 and grid_points_over(mirrored(o), mirrored(link)) == 0


def is_corner(o, u, v, w):
    """u, v, w go round the lower left corner v of a cell whose diagonal is close to the original."""
    return u == (v[0], v[1] + 1) and w == (v[0] + 1, v[1]) and is_close(o, (u, w))


def may_stand(chain):
    """Whether the list may stand for the segment from its first point to its last."""
    a, b = o = chain[0], chain[-1]
    if a >= b:
        return False
    for v, w in zip(chain, chain[1:]):
        turns_back = w[0] < v[0] or (a[1] <= b[1] and w[1] < v[1]) or (a[1] >= b[1] and w[1] > v[1])
        if v == w or turns_back:
            return False
    at_corners = set()
    for i, (u, v, w) in enumerate(zip(chain, chain[1:], chain[2:])):
        if is_corner(o, u, v, w):
            at_corners |= {i, i + 1}
    return all(i in at_corners or is_close(o, link) for i, link in enumerate(zip(chain, chain[1:])))


def pulled(x, c, m):
    """A band from (0, 0) to x along a line of slope c / m that is under x, held by the grid points on and over the line: each of its
    links rises as little as its nails and the columns that are left allow."""
    band = [(0, 0)]
    while band[-1][0] < x[0]:
        left = x[0] - band[-1][0]
        p, q = least_fraction(c, m, left)
        band.append((band[-1][0] + left // p * p, band[-1][1] + left // p * q))
    return band


def hook(t, x):
    """The way of a rubber band along the piece that is pulled to this near point."""
    if x in t:
        return list(t)
    if rules.side(t, x) == 0:
        return [t[0], x, t[1]]
    if not rules.is_flat(t):
        way = exchanged(hook(sorted(exchanged(t)), (x[1], x[0])))
        return way if way[0] == t[0] else way[::-1]
    if rules.side(t, x) < 0:
        return mirrored(hook(mirrored(t), (x[0], -x[1])))
    (ax, ay), (bx, by) = t
    dx, dy = size(t)
    before = [(ax + i, ay + j) for i, j in pulled((x[0] - ax, x[1] - ay), dy, dx)]
    # the part behind x, seen from b with the columns turned round
    behind = [(bx - i, by + j) for i, j in pulled((bx - x[0], x[1] - by), -dy, dx)]
    return before + behind[-2::-1]


# ---- drawings
def clash(t, u):
    """Whether two pieces cross, or an end of one is inside the other."""
    return cross(t, u) or any(is_inside(p, u) for p in t) or any(is_inside(p, t) for p in u)


def boxes_meet(t, u):
    ((ax, ay), (bx, by)), ((cx, cy), (dx, dy)) = t, u
    return ax <= dx and cx <= bx and min(ay, by) <= max(cy, dy) and min(cy, dy) <= max(ay, by)


def cells_of(t, level):
    """The columns and the rows of those cells of a level that the box of t meets."""
    (ax, ay), (bx, by) = t
    return [range(min(p, q) >> level, (max(p, q) >> level) + 1) for p, q in ((ax, bx), (ay, by))]


class Cells:
    """Pieces by where they are: those that are less than 2^k wide and high are on level k, in each cell of that side that their boxes
    meet. Each fourth level is used."""

    def __init__(self):
        self.levels = {}

    def around(self, t):
        """The cells of its level, and those in which t stands."""
        level = 4 * up(max(abs(n) for n in size(t)).bit_length(), 4)
        return self.levels.setdefault(level, {}), itertools.product(*cells_of(t, level))

    def add(self, t):
        cells, own = self.around(t)
        for cell in own:
            cells.setdefault(cell, set()).add(t)

    def remove(self, t):
        cells, own = self.around(t)
        for cell in own:
            cells[cell].remove(t)
            if not cells[cell]:
                del cells[cell]

    def near(self, t):
        """The pieces whose boxes meet the one of t."""
        found = set()
        for level, cells in self.levels.items():
            columns, rows = cells_of(t, level)
            wanted = itertools.product(columns, rows) if len(columns) * len(rows) < len(cells) else cells
            for cell in wanted:
                found |= cells.get(cell, set())
        return [u for u in found if boxes_meet(t, u)]


class Drawing:
    """Explicit points and the chains of originals by their ids. What clashes with what is noted as pieces and points come and go, so
    that there is a violation just where something is noted."""

    def __init__(self):
        self.explicit, self.chains = [], {}
        # for each piece the ids of those that have it
        self.owners = {}
        self.cells = Cells()
        self.clashes = {}

    def is_explicit(self, p):
        at = bisect.bisect_left(self.explicit, p)
        return self.explicit[at:at + 1] == [p]

    def is_point(self, p):
        return self.is_explicit(p) or any(p in t for t in self.cells.near((p, p)))

    def add_point(self, p):
        bisect.insort(self.explicit, p)
        for t in self.cells.near((p, p)):
            if is_inside(p, t):
                self.note(p, t)

    def remove_point(self, p):
        self.explicit.remove(p)
        self.forget(p)

    def add_chain(self, number, chain):
        self.chains[number] = list(chain)
        for t in rules.links(chain):
            self.add_piece(t, number)

    def remove_chain(self, number):
        for t in rules.links(self.chains.pop(number)):
            self.remove_piece(t, number)

    def add_piece(self, t, number):
        if t in self.owners:
            self.owners[t].add(number)
            return
        for u in self.cells.near(t):
            if clash(t, u):
                self.note(t, u)
        # the explicit points in its columns
        for p in self.explicit[bisect.bisect_left(self.explicit, t[0]):bisect.bisect_right(self.explicit, t[1])]:
            if is_inside(p, t):
                self.note(p, t)
        self.owners[t] = {number}
        self.cells.add(t)

    def remove_piece(self, t, number):
        self.owners[t].remove(number)
        if not self.owners[t]:
            del self.owners[t]
            self.cells.remove(t)
            self.forget(t)

    def note(self, one, other):
        self.clashes.setdefault(one, set()).add(other)
        self.clashes.setdefault(other, set()).add(one)

    def forget(self, one):
        for other in self.clashes.pop(one, ()):
            self.clashes[other].remove(one)
            if not self.clashes[other]:
                del self.clashes[other]

    def redraw(self, t, path):
        """Puts the path in the place of the piece in every chain that has it, in the chain's own direction."""
        for number in sorted(self.owners[t]):
            chain = self.chains[number]
            at = next(i for i, link in enumerate(rules.links(chain)) if link == t)
            chain[at:at + 2] = path if chain[at] == path[0] else path[::-1]
            self.remove_piece(t, number)
            for link in rules.links(path):
                self.add_piece(link, number)

    # ---- steps, each where it is permitted
    def split(self, p, t):
        demand(t in self.owners, self.is_point(p), is_inside(p, t))
        self.redraw(t, hook(t, p))

    def meet(self, t, u, x):
        demand(t in self.owners, u in self.owners, t < u, cross(t, u))
        demand(rules.meet_point(t, u) == x)
        self.redraw(t, hook(t, x))
        self.redraw(u, hook(u, x))

    def corner(self, t, u):
        demand(t in self.owners, u in self.owners, cross(t, u))
        demand(rules.is_diagonal(t), size(t)[1] > 0, rules.is_diagonal(u), size(u)[1] < 0)
        cell = rules.cell_of(rules.crossing(t, u))
        demand(cell)
        x, y = cell
        self.redraw(t, rules.without_repeats([t[0], (x, y), t[1]]))
        self.redraw(u, rules.without_repeats([u[0], (x, y + 1), (x, y), (x + 1, y), u[1]]))


# ---- certificates
class Audit:
    """A certificate that is heard line by line: a method for each word."""

    def __init__(self):
        self.drawing, self.greatest = Drawing(), 0
        # the beginning, before all changes; in a change before its steps; among its steps; behind the end
        self.place = "beginning"
        self.changes, self.steps = 0, 0

    def hear(self, line):
        word, said = parsed(line)
        demand(self.place != "end")
        getattr(self, word)(*said)

    def point(self, p):
        demand(self.place != "steps", not self.drawing.is_explicit(p))
        self.drawing.add_point(p)

    def unpoint(self, p):
        demand(self.place == "change", self.drawing.is_explicit(p))
        self.drawing.remove_point(p)

    def take_id(self, number):
        demand(number > self.greatest)
        self.greatest = number

    def original(self, number, chain):
        demand(self.place == "beginning", may_stand(chain))
        self.take_id(number)
        self.drawing.add_chain(number, chain)

    def change(self):
        demand(not self.drawing.clashes)
        self.place, self.changes = "change", self.changes + 1

    def remove(self, number):
        demand(self.place == "change", number in self.drawing.chains)
        self.drawing.remove_chain(number)

    def segment(self, number, a, b):
        demand(self.place == "change", a < b)
        self.take_id(number)
        self.drawing.add_chain(number, [a, b])

    def take_step(self, step, *parts):
        demand(self.place in ("change", "steps"))
        step(*parts)
        self.place, self.steps = "steps", self.steps + 1

    def split(self, p, t):
        self.take_step(self.drawing.split, p, t)

    def meet(self, t, u, x):
        self.take_step(self.drawing.meet, t, u, x)

    def corner(self, t, u):
        self.take_step(self.drawing.corner, t, u)

    def end(self):
        demand(not self.drawing.clashes)
        self.place = "end"


def lines_of(text):
    """The lines of an input; the last one may lack its line feed."""
    lines = text.split(b"\n")
    return lines if lines[-1] else lines[:-1]


def verdict(lines):
    """The reply to a certificate."""
    audit = Audit()
    for number, line in enumerate(lines, 1):
        try:
            audit.hear(line)
        except Fails:
            return f"unsound {number}"
    if audit.place != "end":
        return f"unsound {len(lines) + 1}"
    return f"sound {audit.changes} {audit.steps}"


def main():
    parser = argparse.ArgumentParser(description=__doc__)
    parser.add_argument("file", nargs="?", help="none: the input is read")
    options = parser.parse_args()
    if options.file:
        with open(options.file, "rb") as file:
            text = file.read()
    else:
        text = sys.stdin.buffer.read()
    print(verdict(lines_of(text)))


if __name__ == "__main__":
    main()
