#!/usr/bin/env python3
"""Compares what `rose run` answers of small random values with a count by the definitions. See README.md."""
import argparse
import collections
import functools
import itertools
import os
import random
import subprocess
import sys
import tempfile
from fractions import Fraction

TWO = ["intersection", "plus", "minus", "common_border"]
ONE = ["vertices", "contour", "interior"]
PREDICATES = ["equal", "inside", "edge_inside", "vertex_inside", "area_disjoint", "edge_disjoint", "disjoint", "intersects", "meets",
              "adjacent", "encloses", "on_border_of", "border_in_common"]
NUMBERS = ["area2", "diameter2", "no_of_components"]
KINDS = {"points": "P", "lines": "L", "regions": "R"}
WORDS = {letter: word for word, letter in KINDS.items()}
# The kinds that a predicate takes, as in docs/VALUES.md.
TAKES = {
    "equal": "PP LL RR", "inside": "PL PR LR RR", "edge_inside": "RR", "vertex_inside": "RR", "area_disjoint": "RR",
    "edge_disjoint": "RR", "disjoint": "PP PL PR LL LR RR", "intersects": "LL LR RR", "meets": "LR RR", "adjacent": "RR",
    "encloses": "RR", "on_border_of": "PR LR", "border_in_common": "LR RR",
}


# ---- the plane of one drawing, cut at the columns of all ends
def height(s, x):
    """Where the segment, which isn't vertical, has the column x."""
    (ax, ay), (bx, by) = s
    return ay + Fraction((by - ay) * (x - ax), bx - ax)


class Plane:
    """Places of the plane such that each value of the drawing has all of a cell or nothing of it, for one place of each cell.
    `walls` has the places on the columns of ends, and `strips` has the segments across each strip between two, from below."""

    def __init__(self, points, segments):
        ends = {p for s in segments for p in s} | set(points)
        self.columns = sorted({x for x, _ in ends})
        self.segments = sorted(segments)
        self.walls, self.strips = [], [[]]
        for i, x in enumerate(self.columns):
            rows = {y for u, y in ends if u == x} | {height(s, x) for s in self.segments if s[0][0] < x < s[1][0]}
            self.walls.append(around(sorted(rows)))
            after = self.columns[i + 1] if i + 1 < len(self.columns) else x
            middle = Fraction(x + after, 2)
            passing = [s for s in self.segments if s[0][0] <= x and after <= s[1][0] and x < after]
            self.strips.append(sorted(passing, key=lambda s: height(s, middle)))

    def strip_places(self):
        """Each place within a strip: the strip, how many segments are below, and the segment that it is on, if any."""
        for i, strip in enumerate(self.strips):
            for k, s in enumerate(strip):
                yield i, k, None
                yield i, k, s
            yield i, len(strip), None

    @functools.cached_property
    def within(self):
        """For each place the segment that it is inside of, if any: each one is inside of a strip, or upright on a wall."""
        table = []
        for x, wall in zip(self.columns, self.walls):
            upright = [s for s in self.segments if s[0][0] == x == s[1][0]]
            table += [next((s for s in upright if s[0][1] < y < s[1][1]), None) for y in wall]
        return table + [s for _, _, s in self.strip_places()]

    @functools.cached_property
    def sides(self):
        """For each segment the place on its left and the place on its right, from its lesser end to its greater one."""
        walls = sum(len(wall) for wall in self.walls)
        places = {(i, k): number for number, (i, k, s) in enumerate(self.strip_places(), walls) if s is None}
        found = {}
        for s in self.segments:
            (x, y), (u, v) = s
            j = self.columns.index(x)
            if x == u:
                middle = Fraction(y + v, 2)
                found[s] = tuple(places[i, sum(height(t, x) < middle for t in self.strips[i])] for i in (j, j + 1))
            else:
                k = self.strips[j + 1].index(s)
                found[s] = places[j + 1, k + 1], places[j + 1, k]
        return found


def around(rows):
    """The rows, with one row between each two neighbours, one below all and one above all."""
    found = [Fraction(rows[0] - 1)]
    for low, high in zip(rows, rows[1:]):
        found += [Fraction(low), Fraction(low + high) / 2]
    return found + [Fraction(rows[-1]), Fraction(rows[-1] + 1)]


def holds(s, x, y):
    """Whether the place is on the segment."""
    (ax, ay), (bx, by) = s
    return min(ay, by) <= y <= max(ay, by) if ax == x == bx else ax <= x <= bx and height(s, x) == y


class Value:
    """A value with its places: `on` its points or segments, `odd` by the even-odd rule, and the cells off its segments."""

    def __init__(self, kind, plane, content):
        self.kind, self.content = kind, set(content)
        self.segments = set() if kind == "P" else self.content
        self.vertices = self.content if kind == "P" else {p for s in self.content for p in s}
        self.on, self.odd, self.cell, self.parent = [], [], [], {}
        for j, wall in enumerate(plane.walls):
            self.put_wall(plane, j, wall)
        for i, k, s in plane.strip_places():
            strip = plane.strips[i]
            below = sum(t in self.segments for t in strip[:k])
            above = sum(t in self.segments for t in strip[k + (s is not None):])
            self.put(s in self.segments, above % 2 == 1, ("strip", i, below))
        self.outer = self.root(("strip", 0, 0))

    def put_wall(self, plane, j, wall):
        x, before = plane.columns[j], None
        own = [s for s in self.segments if s[0][0] <= x <= s[1][0]]
        for k, y in enumerate(wall):
            on = any(holds(s, x, y) for s in own) if self.kind != "P" else (x, y) in self.content
            above = sum(s[0][0] <= x < s[1][0] and height(s, x) > y for s in own)
            node = ("wall", j, k)
            self.put(on, above % 2 == 1, node)
            if not on:
                for side in (j, j + 1):
                    below = sum(s in self.segments and height(s, x) < y for s in plane.strips[side])
                    self.join(node, ("strip", side, below))
                if before is not None:
                    self.join(node, before)
            before = None if on else node

    def put(self, on, odd, node):
        self.on.append(on)
        self.odd.append(odd)
        self.cell.append(node)

    def root(self, node):
        while node in self.parent:
            node = self.parent[node]
        return node

    def join(self, one, other):
        one, other = self.root(one), self.root(other)
        if one != other:
            self.parent[one] = other

    def has(self, i):
        return self.on[i] or (self.kind == "R" and self.odd[i])

    def interior(self, i):
        return self.kind == "R" and self.odd[i] and not self.on[i]

    def is_outer(self, i):
        return not self.on[i] and self.root(self.cell[i]) == self.outer


# ---- predicates, numbers and operators, by their rows
def says(predicate, a, b):
    """Whether the predicate holds of the two values."""
    places = range(len(a.on))
    inside = all(b.has(i) for i in places if a.has(i))
    areas = any(a.interior(i) and b.interior(i) for i in places)
    shared = bool(a.segments & b.segments)
    common = any(a.has(i) and b.has(i) for i in places)
    reaches = any(a.has(i) and b.interior(i) for i in places)
    if predicate == "equal":
        return inside and all(a.has(i) for i in places if b.has(i))
    if predicate == "vertex_inside":
        return inside and not any(a.on[i] and b.on[i] for i in places)
    if predicate == "intersects":
        return common if b.kind == "L" else reaches if a.kind == "L" else areas
    if predicate == "meets":
        return common and not reaches if a.kind == "L" else common and not areas and not shared
    if predicate == "encloses":
        return not areas and not any(b.interior(i) and a.is_outer(i) for i in places)
    return {
        "inside": inside, "edge_inside": inside and not shared, "area_disjoint": not areas,
        "edge_disjoint": not areas and not shared, "disjoint": not common, "adjacent": not areas and shared,
        "on_border_of": all(b.on[i] for i in places if a.has(i)), "border_in_common": shared,
    }[predicate]


def parts(items, joined):
    """The connected parts of the items, each sorted, by their least items."""
    left, all_parts = set(items), []
    while left:
        reached, part = [left.pop()], []
        while reached:
            one = reached.pop()
            part.append(one)
            found = {other for other in left if joined(one, other)}
            left -= found
            reached += found
        all_parts.append(sorted(part))
    return sorted(all_parts)


def meet(s, t):
    return bool(set(s) & set(t))


def counted(number, a):
    """The number of one value, or None where there is none."""
    if number == "area2":
        return abs_area(a)
    if number == "diameter2":
        return max(((p[0] - q[0]) ** 2 + (p[1] - q[1]) ** 2 for p in a.vertices for q in a.vertices), default=None)
    if a.kind == "P":
        return len(a.content)
    if a.kind == "L":
        return len(parts(a.content, meet))
    return len({a.root(a.cell[i]) for i in range(len(a.on)) if a.interior(i)})


def abs_area(a):
    """Twice the area, strip by strip: the odd parts of a strip are trapezoids, each between two neighbours of the border."""
    total = Fraction(0)
    columns = sorted({x for x, _ in a.vertices})
    for x, u in zip(columns, columns[1:]):
        rows = sorted((height(s, x) + height(s, u) for s in a.segments if s[0][0] <= x and u <= s[1][0]), reverse=True)
        total += sum((high - low) * (u - x) for high, low in zip(rows[::2], rows[1::2]))
    return total


def border_of(plane, has):
    """The segments of the drawing that have the region of these places on one side alone."""
    return {s for s, (left, right) in plane.sides.items() if has(left) != has(right)}


def made(plane, op, a, b):
    """The kind and the content of what the operator makes, or None where it doesn't take the values."""
    kinds = a.kind + (b.kind if b else "")
    if op == "vertices" and kinds in ("L", "R"):
        return "P", a.vertices
    if op == "contour" and kinds == "R":
        return "L", a.content
    if op == "interior" and kinds == "L":
        return "R", border_of(plane, lambda i: not a.on[i] and not a.is_outer(i))
    if op == "common_border" and kinds == "RR":
        return "L", a.content & b.content
    if op == "intersection" and kinds == "PP":
        return "P", a.content & b.content
    if op == "intersection" and kinds == "LL":
        return "P", (a.vertices & b.vertices) - {p for s in a.content & b.content for p in s}
    if op == "intersection" and kinds == "RL":
        sides = range(len(a.on))
        within = {s: all(a.has(i) for i in sides if plane.within[i] == s) for s in b.content}
        return "L", {s for s in b.content if within[s]}
    if kinds not in ("PP", "LL", "RR") or op not in ("intersection", "plus", "minus"):
        return None
    if kinds != "RR":
        return a.kind, a.content | b.content if op == "plus" else a.content - b.content
    test = {"intersection": lambda i: a.odd[i] and b.odd[i], "plus": lambda i: a.odd[i] or b.odd[i],
            "minus": lambda i: a.odd[i] and not b.odd[i]}[op]
    return "R", border_of(plane, test)


# ---- faces
def cycle(plane, segments, has):
    """The vertices of the one simple cycle that the segments form, the least first, with these places on the left."""
    after = dict(s if has(plane.sides[s][0]) else s[::-1] for s in segments)
    assert len(after) == len(segments) and set(after) == set(after.values()), "a vertex doesn't end two of the segments"
    found = [min(after)]
    while after[found[-1]] != found[0]:
        found.append(after[found[-1]])
    assert len(found) == len(segments), "the segments form more than one cycle"
    return found


def faces(plane, a):
    """Each face of the region: its outer cycle, its holes, how many other faces lie within these, and the segments at it."""
    interior = {i: a.root(a.cell[i]) for i in range(len(a.on)) if a.interior(i)}
    found = []
    for face in set(interior.values()):
        own = {i for i, root in interior.items() if root == face}
        rim = {s: set(plane.sides[s]) - own for s in a.content if set(plane.sides[s]) & own}
        without = Value("L", plane, rim)
        classes = {i: without.root(node) for i, node in enumerate(without.cell) if not without.on[i] and i not in own}
        assert {classes[i] for places in rim.values() for i in places} == set(classes.values()), "a class that has no border to the face"
        assert len({without.root(without.cell[i]) for i in own} - set(classes.values())) == 1, "the face is no class of its rim"
        borders = {c: cycle(plane, [s for s, (i,) in rim.items() if classes[i] == c], own.__contains__) for c in set(classes.values())}
        outer = borders.pop(without.outer)
        shut = {root for i, root in interior.items() if i not in own and classes[i] != without.outer}
        found.append((outer, sorted(borders.values()), len(shut), sorted(rim)))
    return sorted(found)


def lines_of(found):
    """The reply to `faces`."""
    rows = [f"faces {len(found)}"]
    for outer, holes, *_ in found:
        rows += [f"{word} {text([it])}" for word, it in [("outer", outer)] + [("hole", hole) for hole in holes]]
    return rows


def shapes(found):
    """What the faces of one region show, to be counted."""
    cycles = [it for outer, holes, *_ in found for it in [outer] + holes]
    several = [holes for _, holes, *_ in found if len(holes) > 1]
    corners = [(p, q, r) for it in cycles for p, q, r in zip(it, it[1:] + it[:1], it[2:] + it[:2])]
    straight = [(q[0] - p[0]) * (r[1] - q[1]) == (q[1] - p[1]) * (r[0] - q[0]) for p, q, r in corners]
    cycles_at = collections.Counter(q for _, q, _ in corners)
    return {
        "faces": len(found), "holes": len(cycles) - len(found), "faces with several holes": len(several),
        "faces in holes of others": sum(shut for _, _, shut, *_ in found), "vertices": len(cycles_at),
        "vertices of several cycles": sum(number > 1 for number in cycles_at.values()),
        "vertices at which a cycle goes straight on": sum(straight),
    }


# ---- drawings
def paper(draw, cells):
    """Squared paper whose cells are cut by one diagonal each: its points, edges, and triangles."""
    points = list(itertools.product(range(cells + 1), repeat=2))
    edges = [((x, y), (x + 1, y)) for x in range(cells) for y in range(cells + 1)]
    edges += [((x, y), (x, y + 1)) for x in range(cells + 1) for y in range(cells)]
    triangles = []
    for x, y in itertools.product(range(cells), repeat=2):
        low, right, left, high = (x, y), (x + 1, y), (x, y + 1), (x + 1, y + 1)
        if draw.random() < 0.5:
            edges.append((low, high))
            triangles += [(low, right, high), (low, high, left)]
        else:
            edges.append((left, right))
            triangles += [(low, right, left), (left, right, high)]
    return points, edges, triangles


def some(draw, items, share):
    return [it for it in items if draw.random() < share]


def edges_of(triangle):
    p, q, r = triangle
    return [tuple(sorted(two)) for two in ((p, q), (q, r), (r, p))]


def shut_in(triangles, edges, ring):
    """The triangles that aren't in the ring and from which no way leads round its triangles to the outside."""
    free = [t for t in triangles if t not in ring]
    by_edge = {e: [t for t in free if e in edges_of(t)] for e in edges}
    inner = [e for e in edges if sum(e in edges_of(t) for t in triangles) == 2]
    rims = [t for t in free if any(e not in inner for e in edges_of(t))]
    reached = set(rims)
    while rims:
        for e in edges_of(rims.pop()):
            for t in by_edge[e]:
                if t not in reached:
                    reached.add(t)
                    rims.append(t)
    return [t for t in free if t not in reached]


def on_paper(draw):
    """Values that don't cross: the names with their kinds and what they are made of."""
    points, edges, triangles = paper(draw, draw.choice([2, 3, 4]))
    share = draw.choice([0.15, 0.3, 0.6])
    first = some(draw, triangles, share)
    rest = [t for t in triangles if t not in first]
    ring = some(draw, triangles, 0.8)
    border = [e for e in edges if sum(e in edges_of(t) for t in first) == 1]
    deep = [t for t in first if not any(e in border for e in edges_of(t))]
    regions = [first, some(draw, rest, share), some(draw, first, 0.7), deep, ring, shut_in(triangles, edges, ring)]
    within = [e for e in edges if any(e in edges_of(t) for t in first)]
    lines = [some(draw, edges, share), some(draw, border, 0.8), some(draw, within, 0.5)]
    ends = sorted({p for e in border for p in e})
    wells = [some(draw, points, share), some(draw, ends, 0.5), some(draw, sorted({p for e in within for p in e}), 0.5)]
    found = [("P", it) for it in wells] + [("L", it) for it in lines] + [("R", it) for it in regions]
    return found + draw.sample([("P", []), ("L", []), ("R", [])], 1)


def nested(draw):
    """Regions that are rings of one squared paper in one another, from each of which some triangles are taken or left out."""
    cells = draw.choice([5, 6, 7])
    _, _, triangles = paper(draw, cells)
    noise = draw.choice([0.02, 0.08, 0.2])

    def ring(triangle):
        x, y = min(p for p, _ in triangle), min(q for _, q in triangle)
        return min(x, y, cells - 1 - x, cells - 1 - y)

    return [("R", [t for t in triangles if (ring(t) % 2 == first) != (draw.random() < noise)]) for first in (0, 0, 1)]


def crossing(draw):
    """Values whose segments cross, so that they are redrawn: points, lines and polygons."""
    side = draw.choice([8, 15, 40])

    def point():
        return draw.randrange(side), draw.randrange(side)

    def corners(number):
        while True:
            found = [point() for _ in range(number)]
            if all(p != q for p, q in zip(found, found[1:] + found[:1])):
                return found

    def pieces(number):
        return [tuple(sorted(corners(2))) for _ in range(number)]

    found = [("P", [point() for _ in range(3)]) for _ in range(2)]
    found += [("L", pieces(draw.choice([1, 2, 4]))) for _ in range(2)]
    return found + [("R", [tuple(corners(draw.choice([3, 4, 5]))) for _ in range(draw.choice([1, 1, 2]))]) for _ in range(4)]


def text(items):
    """Places, or lists of places with `;` between."""
    return " ; ".join(" ".join(f"{x} {y}" for x, y in it) for it in items)


def definition(name, kind, content):
    listed = [tuple(content)] if kind == "P" and content else content
    return f"{WORDS[kind]} {name} {text(listed)}".rstrip()


# ---- many values at once
def summed(plane, some):
    """The kind and the content of the sum, or None where the values are of more than one kind."""
    if len({a.kind for a in some}) > 1:
        return None
    if some[0].kind != "R":
        return some[0].kind, set().union(*(a.content for a in some))
    return "R", border_of(plane, lambda i: any(a.odd[i] for a in some))


def decomposed(plane, a):
    """The contents of the parts of the value."""
    if a.kind == "R":
        return [rim for *_, rim in faces(plane, a)]
    return [[p] for p in sorted(a.content)] if a.kind == "P" else parts(a.content, meet)


def overlaid(plane, some, others):
    """The pairs with a border, by their positions from 1, or None where a value is no region."""
    if {a.kind for a in some + others} != {"R"}:
        return None
    made_of = {(i, j): made(plane, "intersection", a, b)[1] for i, a in enumerate(some, 1) for j, b in enumerate(others, 1)}
    return [(f"pair {i} {j}", ("R", sorted(content))) for (i, j), content in sorted(made_of.items()) if content]


def fused(plane, some, keys):
    """The groups by their keys, or None where the values are of more than one kind."""
    if summed(plane, some) is None:
        return None
    groups = {key: summed(plane, [a for a, own in zip(some, keys) if own == key]) for key in keys}
    return [(f"key {key}", (kind, sorted(content))) for key, (kind, content) in sorted(groups.items())]


def set_questions(names, values, plane):
    """Questions about lists of values: most of one kind, and some of several."""
    draw = random.Random(len(values) + sum(len(a.content) for a in values))
    at = dict(zip(names, values))

    def some_names():
        like = draw.choice(names)
        fit = [name for name in names if at[name].kind == at[like].kind or draw.random() < 0.03]
        return [draw.choice(fit) for _ in range(draw.randint(1, 4))]

    for name, a in at.items():
        yield f"decompose {name}", [(None, (a.kind, part)) for part in decomposed(plane, a)]
    for _ in names:
        one, other = some_names(), some_names()
        keys = [draw.randint(1, 3) for _ in one]
        yield f"sum {' '.join(one)}", summed(plane, [at[name] for name in one])
        yield (f"fusion {' '.join(f'{name} {key}' for name, key in zip(one, keys))}",
               fused(plane, [at[name] for name in one], keys))
        regions = [name for name in names if at[name].kind == "R"] or names
        one, other = ([draw.choice(regions + names[:1]) for _ in it] for it in (one, other))
        yield f"overlay {' '.join(one)} ; {' '.join(other)}", overlaid(plane, *([at[name] for name in it] for it in (one, other)))


# ---- the program
class Asked:
    """The lines of one run and the replies to them."""

    def __init__(self):
        self.lines = []

    def ask(self, line):
        self.lines.append(line)

    def replies(self, program):
        with tempfile.TemporaryDirectory() as folder:
            run = subprocess.run([program, "run"], input="".join(f"{line}\n" for line in self.lines).encode(), cwd=folder,
                                 stdout=subprocess.PIPE, check=True)
        rest = collections.deque(run.stdout.decode().splitlines())
        return [self.reply(rest) for _ in self.lines]

    @staticmethod
    def reply(rest):
        head = rest.popleft().split(" ")
        if head[0] == "faces":
            rows = [" ".join(head)]
            while rest and rest[0].split(" ")[0] in ("outer", "hole"):
                rows.append(rest.popleft())
            return rows
        if head[0] == "set":
            return [(rest.popleft() if rest[0].split(" ")[0] in ("pair", "key") else None, Asked.reply(rest))
                    for _ in range(int(head[1]))]
        if head[0] not in KINDS:
            return " ".join(head)
        rows = [tuple(map(int, rest.popleft().split(" "))) for _ in range(int(head[1]))]
        kind = KINDS[head[0]]
        return kind, rows if kind == "P" else [(row[:2], row[2:]) for row in rows]


def questions(names, values, plane):
    """Each question about the values with the reply that the definitions give."""
    for name, a in zip(names, values):
        yield f"faces {name}", faces(plane, a) if a.kind == "R" else None
        for op in ONE:
            yield f"eval {op} {name}", made(plane, op, a, None)
        for number in NUMBERS:
            takes = number != "area2" or a.kind == "R"
            yield f"num {number} {name}", counted(number, a) if takes else False
    for (name, a), (other, b) in itertools.product(zip(names, values), repeat=2):
        for op in TWO:
            yield f"eval {op} {name} {other}", made(plane, op, a, b)
        for predicate in PREDICATES:
            takes = a.kind + b.kind in TAKES[predicate].split()
            yield f"ask {predicate} {name} {other}", says(predicate, a, b) if takes else None
        distances = [(p[0] - q[0]) ** 2 + (p[1] - q[1]) ** 2 for p in a.content for q in b.content] if a.kind == b.kind == "P" else []
        yield f"num dist2 {name} {other}", min(distances, default=None) if a.kind == b.kind == "P" else False


def wanted(line, answer):
    """The reply to the line."""
    word = line.split(" ")[0]
    if answer is (False if word == "num" else None):
        return "no types"
    if word == "faces":
        return lines_of(answer)
    if word in ("decompose", "overlay", "fusion"):
        return answer
    if word == "num":
        return "num none" if answer is None else f"num {answer}"
    return str(answer).lower() if word == "ask" else (answer[0], sorted(answer[1]))


def heading(line, values, reply):
    """What the reply is counted under, and as what."""
    words = line.split(" ")
    if reply == "no types":
        return "refused for their kinds", "all"
    if words[0] in ("sum", "decompose", "overlay", "fusion"):
        entries = reply[1] if words[0] == "sum" else reply
        kind = WORDS[values[int(words[1][1:])].kind]
        return f"{words[0]} {kind}", ["empty", "one", "several"][min(2, len(entries))]
    first = 1 if words[0] == "faces" else 2
    key = " ".join(words[:first] + [WORDS[values[int(name[1:])].kind] for name in words[first:]])
    if words[0] == "faces":
        return key, "none" if len(reply) == 1 else "with holes" if any(row.startswith("hole") for row in reply) else "without holes"
    return key, reply if words[0] == "ask" else "none" if reply == "num none" else "some" if reply[1] else "empty"


def compare(program, draw, drawing):
    """How many replies of each kind were compared, and what the faces show; the first reply that differs ends the run."""
    drawn = drawing(draw)
    names = [f"v{k}" for k in range(len(drawn))]
    told = Asked()
    for name, (kind, content) in zip(names, drawn):
        told.ask(definition(name, kind, content))
    for name in names:
        told.ask(f"show {name}")
    shown = told.replies(program)[len(names):]
    if drawing is not crossing:
        for (kind, content), (_, rows) in zip(drawn, shown):
            sides = [e for t in content for e in edges_of(t)] if kind == "R" else content
            expect = sorted({e for e in sides if kind != "R" or sides.count(e) % 2 == 1})
            if rows != expect:
                raise SystemExit(f"{told.lines}: shows {rows}, and {expect} was drawn")
    plane = Plane([p for kind, rows in shown if kind == "P" for p in rows], {s for kind, rows in shown if kind != "P" for s in rows})
    values = [Value(kind, plane, rows) for kind, rows in shown]
    asked = list(questions(names, values, plane)) + list(set_questions(names, values, plane))
    again = Asked()
    for line in told.lines[:len(names)] + [line for line, _ in asked]:
        again.ask(line)
    counts, shown = {}, collections.Counter()
    for (line, answer), reply in zip(asked, again.replies(program)[len(names):]):
        if reply != wanted(line, answer):
            drawn = "\n".join(told.lines[:len(names)])
            raise SystemExit(f"{drawn}\n{line}\ngot  {reply}\nwant {wanted(line, answer)}")
        key, what = heading(line, values, reply)
        counts.setdefault(key, collections.Counter())[what] += 1
        if key == "faces regions":
            shown.update(shapes(answer))
    return counts, shown


def main():
    parser = argparse.ArgumentParser(description=__doc__)
    parser.add_argument("program")
    parser.add_argument("--papers", type=int, default=100, help="drawings without crossings")
    parser.add_argument("--crossings", type=int, default=50, help="drawings whose segments cross")
    parser.add_argument("--nested", type=int, default=50, help="drawings of rings in one another, without crossings")
    parser.add_argument("--seed", type=int, default=1)
    given = parser.parse_args()
    program = os.path.abspath(given.program)
    total, shown = {}, collections.Counter()
    drawings = [on_paper] * given.papers + [crossing] * given.crossings + [nested] * given.nested
    for k, drawing in enumerate(drawings):
        counts, more = compare(program, random.Random(given.seed * 1000003 + k), drawing)
        shown.update(more)
        for key, seen in counts.items():
            total.setdefault(key, collections.Counter()).update(seen)
    for key in sorted(total):
        print(f"{key:48} {', '.join(f'{what} {number}' for what, number in sorted(total[key].items()))}")
    for what, number in shown.items():
        print(f"{what:48} {number}")
    print(sum(sum(seen.values()) for seen in total.values()), "replies, all as counted")


if __name__ == "__main__":
    sys.exit(main())
