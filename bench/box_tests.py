#!/usr/bin/env python3
"""Counts the boxes that a search tests, by the rules that crates/realm_index states, with nothing from the program. See README.md."""
import argparse
from functools import reduce

import growth
import segments

MANY = 31
WHOLE = 30


def box_of(x, y, u, v):
    """The box of a segment: its columns and its rows, each from the least to the greatest."""
    return min(x, u), max(x, u), min(y, v), max(y, v)


def meet(b, c):
    return b[0] <= c[1] and c[0] <= b[1] and b[2] <= c[3] and c[2] <= b[3]


def joined(b, c):
    return min(b[0], c[0]), max(b[1], c[1]), min(b[2], c[2]), max(b[3], c[3])


# ---- by homes

def home(box):
    """The least square of the grid's that holds the box: its level, and its place among those of its level."""
    level = max((box[0] ^ box[1]).bit_length(), (box[2] ^ box[3]).bit_length())
    return level, box[0] >> level, box[2] >> level


class Homes:
    """An `Index`: each box stands at its home, and a search tests those of all homes that have a point in common with it."""

    def __init__(self):
        self.by_home = {}

    def put(self, box):
        place = home(box)
        self.by_home.setdefault(place, []).append(box)
        for level in range(place[0] + 1, WHOLE + 1):
            self.by_home.setdefault((level, box[0] >> level, box[2] >> level), [])

    def search(self, near, level=WHOLE, across=0, up=0):
        """How many boxes are tested, and how many of them meet this one."""
        own = self.by_home.get((level, across, up))
        if own is None or not meet(near, (across << level, ((across + 1) << level) - 1, up << level, ((up + 1) << level) - 1)):
            return 0, 0
        tested, found = len(own), sum(meet(near, box) for box in own)
        for part in range(4 if level else 0):
            more = self.search(near, level - 1, 2 * across + part % 2, 2 * up + part // 2)
            tested, found = tested + more[0], found + more[1]
        return tested, found


# ---- in clusters

def centre(box):
    return box[0] // 2 + box[1] // 2, box[2] // 2 + box[3] // 2


def differing(one, other):
    return (one[0] ^ other[0]) | (one[1] ^ other[1])


class Clusters:
    """A `NearIndex`: a list of more boxes than 31 is cut into quarters by their centres, and a search goes down where a cover
    meets it."""

    def __init__(self, level=WHOLE, middle=(0, 0)):
        self.level, self.middle, self.cover, self.parts, self.own = level, middle, None, [], []

    def put(self, box, top=WHOLE + 1):
        self.admit(centre(box), top)
        if self.parts and self.level:
            self.part_for(centre(box)).put(box, self.level)
        else:
            self.own.append(box)
            if len(self.own) > MANY:
                self.cut()
        self.cover = joined(self.cover, box) if self.cover else box

    def part_for(self, middle):
        half = 1 << (self.level - 1)
        for part in self.parts:
            if not differing(part.middle, middle) & half:
                return part
        self.parts.append(Clusters(self.level - 1, middle))
        return self.parts[-1]

    def admit(self, middle, top):
        """Lets its square have the centre too, below this level."""
        level = min(differing(self.middle, middle).bit_length(), top - 1)
        if level <= self.level:
            return
        if self.parts:
            inner = Clusters(self.level, self.middle)
            inner.cover, inner.parts, inner.own = self.cover, self.parts, self.own
            self.parts, self.own, self.middle = [inner], [], middle
        self.level = level

    def cut(self):
        middle = centre(self.own[0])
        level = min(max(differing(middle, centre(box)).bit_length() for box in self.own), self.level)
        if not level:
            return
        self.level, self.middle = level, middle
        for box in self.own:
            part = self.part_for(centre(box))
            part.own.append(box)
            part.cover = joined(part.cover, box) if part.cover else box
        self.own = []

    def search(self, near):
        """How many boxes are tested, covers among them, and how many of those that aren't covers meet this one."""
        tested, found = len(self.own), sum(meet(near, box) for box in self.own)
        for part in self.parts:
            tested += 1
            if part.cover and meet(near, part.cover):
                more = part.search(near)
                tested, found = tested + more[0], found + more[1]
        return tested, found


def scattered(side):
    return lambda size: list(segments.scattered(side)(size, segments.draws(1)))


def posts(size):
    return [tuple(int(word) for word in line.split()[1:]) for line in growth.posts(size)]


FIELDS = {"sparse": scattered(65536), "dense": scattered(4096), "posts": posts}


def main():
    parser = argparse.ArgumentParser(description=__doc__)
    parser.add_argument("--fields", nargs="*", choices=FIELDS, default=list(FIELDS))
    parser.add_argument("--sizes", nargs="*", type=int, default=[10000, 20000])
    given = parser.parse_args()
    print("boxes tested a search, of so many segments as they are given, each of which is looked for")
    print("field     size   found   by homes   in clusters")
    for field in given.fields:
        for size in given.sizes:
            boxes = [box_of(*s) for s in FIELDS[field](size)]
            columns = []
            for index in (Homes(), Clusters()):
                for box in boxes:
                    index.put(box)
                counts = [index.search(box) for box in boxes]
                columns.append(reduce(lambda sums, more: (sums[0] + more[0], sums[1] + more[1]), counts))
            if columns[0][1] != columns[1][1]:
                raise SystemExit("the two find different boxes")
            (homes, found), (clusters, _) = columns
            print(f"{field:8} {size:6} {found / size:7.1f} {homes / size:10.1f} {clusters / size:13.1f}", flush=True)


if __name__ == "__main__":
    main()
