#!/usr/bin/env python3
"""Makes a sound certificate: segments and points that come and go, each change with the steps that a search of its own finds for it.
See README.md."""
import argparse
import random

import rules
from certificate_checker import Drawing, hook


# ---- new segments, within a window that begins at (x, y)
def point_in(chance, x, y, width):
    return x + chance.randrange(width), y + chance.randrange(width)


def anywhere(chance, x, y, width):
    return point_in(chance, x, y, width), point_in(chance, x, y, width)


def in_rows(chance, x, y, width):
    """In one of a few rows or columns, or next to it."""
    row, (p, q) = 3 * chance.randrange(width // 3), chance.sample(range(width), 2)
    a, b = (p, row), (q, row + chance.choice([0, 0, 1]))
    if chance.random() < 0.3:
        a, b = a[::-1], b[::-1]
    return (x + a[0], y + a[1]), (x + b[0], y + b[1])


def fan(chance, x, y, width):
    """From one vertex, or now and then across."""
    a, b = anywhere(chance, x, y, width)
    return ((x + width // 2, y + width // 2) if chance.random() < 0.8 else a), b


def diagonal(chance, x, y, width):
    most = chance.randrange(1, width)
    p, q = point_in(chance, x, y, width - most)
    return ((p, q), (p + most, q + most)) if chance.random() < 0.5 else ((p, q + most), (p + most, q))


def short(chance, x, y, width):
    p, q = point_in(chance, x, y, width - 256)
    return (p, q), (p + chance.randrange(257), q + chance.randrange(256))


def about_one_place(chance, x, y, width):
    """Small and large ones that pass the middle."""
    reach = 2 ** chance.randrange(width.bit_length() - 2)
    left, right, low, high = (chance.randint(0, reach) for _ in range(4))
    ends = -left, -low, right, high
    if chance.random() < 0.5:
        ends = -left, high, right, -low
    p, q = x + width // 2, y + width // 2
    return (p + ends[0], q + ends[1]), (p + ends[2], q + ends[3])


# How the ends of a segment are drawn, and how wide and high the window is.
SHAPES = {"dense": (anywhere, 7), "wider": (anywhere, 30), "rows": (in_rows, 18), "fan": (fan, 21), "diagonals": (diagonal, 9),
          "long": (anywhere, rules.SIDE), "high": (fan, 2 ** 20), "sizes": (about_one_place, rules.SIDE),
          "apart": (short, 65536)}


def near_point(chance, t):
    """A near point of a piece."""
    (ax, ay), (bx, by) = t
    dx, dy = rules.size(t)
    length = max(abs(dx), abs(dy))
    at, side = chance.randrange(length + 1), chance.randrange(2)
    # the place in a column or row, rounded down or up
    x, y = [p + (d * at + side * (length - 1)) // length for p, d in ((ax, dx), (ay, dy))]
    return (x, y) if rules.is_near(t, (x, y)) else (ax, ay)


def loose_chain(chance, a, b):
    """A chain that may stand for the segment, as links that are led by near points make it."""
    chain = [a, b]
    for _ in range(chance.randrange(4)):
        at = chance.randrange(len(chain) - 1)
        link = tuple(sorted(chain[at:at + 2]))
        path = hook(link, near_point(chance, link))
        chain[at:at + 2] = path if path[0] == chain[at] else path[::-1]
    return chain


# ---- certificates
class Maker:
    """A certificate so far, and the drawing to which it leads."""

    def __init__(self, chance, shape):
        self.chance, self.drawing, self.lines, self.greatest = chance, Drawing(), [], 0
        self.drawn, self.width = SHAPES[shape]
        last = rules.SIDE - self.width
        self.corner = [(0, 0), (last, last), (chance.randint(0, last), chance.randint(0, last))][chance.randrange(3)]

    def say(self, word, *parts):
        """A line with these numbers and points, and points of points."""
        numbers = [str(n) for part in parts for n in numbers_of(part)]
        self.lines.append(" ".join([word, *numbers]).encode())

    def new_ends(self):
        """Of a new segment, the lesser first; now and then those of one that is there."""
        if self.drawing.chains and self.chance.random() < 0.1:
            chain = self.chance.choice(list(self.drawing.chains.values()))
            return chain[0], chain[-1]
        while True:
            a, b = sorted(self.drawn(self.chance, *self.corner, self.width))
            if a != b:
                return a, b

    def new_id(self):
        self.greatest += 1 if self.chance.random() < 0.8 else self.chance.randrange(1, 50)
        return self.greatest

    def new_point(self):
        """An end of a new segment, an end that is there, or a point beside the middle of a piece."""
        a, b = self.new_ends()
        return self.chance.choice([a, b, ((a[0] + b[0]) // 2, (a[1] + b[1]) // 2)])

    # ---- the beginning
    def begin(self):
        """With a drawing, each chain as it stands there, or with loose chains, or with nothing."""
        how = self.chance.randrange(3)
        if how == 0:
            for _ in range(self.chance.randrange(1, 5)):
                self.change(3)
            self.lines = []
            self.tell_drawing()
        elif how == 1:
            for _ in range(self.chance.randrange(1, 8)):
                self.place_loose()

    def tell_drawing(self):
        points = list(self.drawing.explicit)
        for number, chain in sorted(self.drawing.chains.items()):
            while points and self.chance.random() < 0.5:
                self.say("point", points.pop())
            self.say("original", number, chain)
        for p in points:
            self.say("point", p)

    def place_loose(self):
        """Where they make no violation."""
        number, chain, p = self.new_id(), loose_chain(self.chance, *self.new_ends()), self.new_point()
        self.drawing.add_chain(number, chain)
        if self.drawing.clashes:
            self.drawing.remove_chain(number)
        else:
            self.say("original", number, chain)
        if not self.drawing.is_explicit(p):
            self.drawing.add_point(p)
            if self.drawing.clashes:
                self.drawing.remove_point(p)
            else:
                self.say("point", p)

    # ---- changes
    def change(self, most):
        """One with at most so many things that come and go, and the steps that settle it."""
        self.say("change")
        places = [self.place_segment, self.place_segment, self.place_segment, self.place_point, self.remove, self.unpoint]
        for place in self.chance.choices(places, k=self.chance.randint(1, most)):
            place()
        while self.drawing.clashes:
            self.mend()

    def place_segment(self):
        number, (a, b) = self.new_id(), self.new_ends()
        self.drawing.add_chain(number, [a, b])
        self.say("segment", number, a, b)

    def place_point(self):
        p = self.new_point()
        if not self.drawing.is_explicit(p):
            self.drawing.add_point(p)
            self.say("point", p)

    def remove(self):
        if self.drawing.chains:
            number = self.chance.choice(list(self.drawing.chains))
            self.drawing.remove_chain(number)
            self.say("remove", number)

    def unpoint(self):
        if self.drawing.explicit:
            p = self.chance.choice(self.drawing.explicit)
            self.drawing.remove_point(p)
            self.say("unpoint", p)

    def mend(self):
        """Takes a step at one of the violations."""
        one = self.chance.choice(list(self.drawing.clashes))
        other = self.chance.choice(list(self.drawing.clashes[one]))
        word, *parts = self.chance.choice(list(steps_at(one, other)))
        getattr(self.drawing, word)(*parts)
        self.say(word, *parts)


def numbers_of(part):
    """A number, or those of a point, of a segment or of a list of points."""
    return [part] if isinstance(part, int) else [n for p in part for n in numbers_of(p)]


def is_piece(thing):
    return isinstance(thing[0], tuple)


def steps_at(one, other):
    """The steps that may be taken where two pieces, or a piece and a point, make a violation."""
    for t, u in ((one, other), (other, one)):
        if is_piece(t):
            for p in u if is_piece(u) else [u]:
                if rules.is_inside(p, t):
                    yield "split", p, t
    if is_piece(one) and is_piece(other) and rules.cross(one, other):
        t, u = sorted((one, other))
        x = rules.meet_point(t, u)
        if x:
            yield "meet", t, u, x
        else:
            yield ("corner", t, u) if rules.size(t)[1] > 0 else ("corner", u, t)


def certificate(chance, changes, shape=None, most=4):
    """The lines of a certificate with so many changes, or fewer, where they need many steps."""
    maker = Maker(chance, shape or chance.choice(list(SHAPES)))
    maker.begin()
    for _ in range(changes):
        if len(maker.lines) < 25 * changes:
            maker.change(most)
    maker.say("end")
    return maker.lines


def main():
    parser = argparse.ArgumentParser(description=__doc__)
    parser.add_argument("--seed", type=int, default=1)
    parser.add_argument("--changes", type=int, default=8)
    parser.add_argument("--shape", choices=SHAPES, help="none: one by chance")
    parser.add_argument("--most", type=int, default=4, help="how much comes and goes in a change, at most")
    options = parser.parse_args()
    for line in certificate(random.Random(options.seed), options.changes, options.shape, options.most):
        print(line.decode())


if __name__ == "__main__":
    main()
