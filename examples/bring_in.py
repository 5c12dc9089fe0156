#!/usr/bin/env python3
"""Makes command lines of a sheet of parcels and roads. A companion script: no part of the program, and no proof speaks of it.

    bring_in.py --rose ROSE [--origin X Y] [--scale N] [--name PROPERTY] [--beside FOLDER] SHEET > LINES

SHEET is GeoJSON, or has on each line a geometry in WKT, with a name before or behind it or none. Polygons and multi-polygons become
regions, whether their rings are closed or not, and line strings and multi-line strings become lines. A place (x, y) of the sheet
becomes ((x - X) N, (y - Y) N), rounded, halves up; more coordinates than two are left out. Names are the texts of the property, or
those beside the WKT, in small letters and with `_` for all that no name may have; without one a shape is named f and its number.
The lines are one group, from `begin` to `commit`, with the regions before the lines.

So that borders are shared which the sheet means to be one:

1. Corners that lie within one unit of each other, in x and in y, become one: the nearest that is kept.
2. A border gets each corner that lies on it or within one unit of it.
3. Each border is drawn, in a scratch folder, by the program ROSE, until none bends. The shapes are given by the vertices that it has then.

With `--beside` the sheet comes beside what the files realm.a and realm.b of FOLDER stand for, which stay as they are. Its vertices
come first in 1 and 2. A border whose two ends are those of an original there gets the vertices of this original, and one along which
there are pieces gets theirs, where they keep within two units of it. A border that is there already gets no corner that isn't on it:
how many such corners there are is said on standard error. Shapes that are there with all their borders come first in the group.

Ends with 0, with 1 and a line on standard error where a sheet can't be brought in, or with 2 where the words are wrong."""
import argparse
import collections
import decimal
import json
import math
import pathlib
import re
import shutil
import subprocess
import sys
import tempfile
from fractions import Fraction

import names

SIDE = names.rules.SIDE
# How near a corner of one border is to another one that gets it, and how far a border that is there may lead from a new one: in units,
# in x and in y.
NEAR, ALONG = 1, 2
WORDS = {"Polygon": "regions", "MultiPolygon": "regions", "LineString": "lines", "MultiLineString": "lines"}
WKT = re.compile(r"\b(?:SRID=\d+;)?(?:MULTI)?(POLYGON|LINESTRING)\s*(?:ZM|Z|M)?\s*(\(.*\))", re.IGNORECASE)

# A name, `regions` or `lines`, and lists of places.
Shape = collections.namedtuple("Shape", "name word lists")


def stop(text):
    raise SystemExit(f"bring_in.py: {text}")


# ---- what a sheet has
def read(sheet, wanted):
    """The shapes of a sheet, with places as it has them."""
    try:
        text = pathlib.Path(sheet).read_text("utf-8-sig")
        return list(from_geojson(text, wanted) if text.lstrip().startswith("{") else from_wkt(text))
    except (ArithmeticError, LookupError, OSError, TypeError, ValueError) as error:
        stop(f"the sheet can't be read: {error}")


def from_geojson(text, wanted):
    data = json.loads(text, parse_float=decimal.Decimal)
    for number, feature in enumerate(data.get("features", [data]), 1):
        geometry = feature.get("geometry", feature) or {}
        if geometry.get("type") not in WORDS:
            stop(f"shape {number} is no polygon and no line string")
        name = (feature.get("properties") or {}).get(wanted) if wanted else None
        if wanted and name is None:
            stop(f"shape {number} has no property {wanted}")
        yield Shape(named(name, number), WORDS[geometry["type"]], list(lists_in(geometry["coordinates"])))


def lists_in(coordinates):
    """The lists of places in nested lists."""
    if coordinates and not isinstance(coordinates[0][0], list):
        yield [(Fraction(place[0]), Fraction(place[1])) for place in coordinates]
    else:
        for part in coordinates:
            yield from lists_in(part)


def from_wkt(text):
    for number, line in enumerate(filter(str.strip, text.splitlines()), 1):
        found = WKT.search(line)
        if not found:
            stop(f"shape {number} is no polygon and no line string in WKT")
        lists = [[tuple(map(Fraction, place.split()[:2])) for place in places.split(",")]
                 for places in re.findall(r"\(([^()]*)\)", found[2])]
        word = "regions" if found[1].upper() == "POLYGON" else "lines"
        name = (line[:found.start()] + line[found.end():]).strip(" \t,;|\"'")
        yield Shape(named(name or None, number), word, lists)


def named(text, number):
    """The name that the program takes for a text."""
    if text is None:
        return f"f{number}"
    name = re.sub("[^a-z0-9_]", "_", str(text).lower())[:32]
    return name if re.match("[a-z]", name) else f"f{name}"[:32]


# ---- onto the grid
def on_grid(shape, origin, scale):
    """A shape with places of the grid. No place comes twice in a row, and the first one of a ring not once more as the last."""
    def rounded(place):
        return tuple(math.floor((c - o) * scale + Fraction(1, 2)) for c, o in zip(place, origin))

    lists = [list(map(rounded, places)) for places in shape.lists]
    for p in (p for places in lists for p in places):
        if not all(0 <= c < SIDE for c in p):
            stop(f"({p[0]}, {p[1]}) of {shape.name} isn't on the grid: take another --origin or --scale")
    return tidied(shape._replace(lists=lists))


def tidied(shape):
    """A shape without what is nothing: repeated places, ways of a border to and fro, and lists with too few places left."""
    if shape.word == "regions":
        rings = [without_spikes(places) for places in shape.lists]
        return shape._replace(lists=[ring for ring in rings if len(ring) > 2])
    lists = [[p for i, p in enumerate(places) if i == 0 or p != places[i - 1]] for places in shape.lists]
    return shape._replace(lists=[places for places in lists if len(places) > 1])


def without_spikes(ring):
    """A ring without repeated places, and without ways to a place and back, which are no border."""
    kept = []
    for p in ring:
        if kept and kept[-1] == p:
            continue
        if len(kept) > 1 and kept[-2] == p:
            kept.pop()
        else:
            kept.append(p)
    while len(kept) > 2 and (kept[0] == kept[-1] or kept[1] == kept[-1] or kept[0] == kept[-2]):
        kept = kept[1:] if kept[1] == kept[-1] else kept[:-1]
    return kept


# ---- places and links: a link is a pair of places, its lesser one first
def link(p, q):
    return (p, q) if p < q else (q, p)


def links(places, word):
    """The links of a list, those of a ring with the one that closes it, each with whether it leads forward."""
    pairs = zip(places, places[1:] + places[:1] if word == "regions" else places[1:])
    return [(link(p, q), p < q) for p, q in pairs]


def links_of(shape):
    """The links of a shape, in the order in which a line with it draws them."""
    return [s for places in shape.lists for s, _ in links(places, shape.word)]


def span(s):
    (ax, ay), (bx, by) = s
    return bx - ax, by - ay


def forward(s, p):
    """How far along the link a place lies, from its lesser end, times its length."""
    dx, dy = span(s)
    return dx * (p[0] - s[0][0]) + dy * (p[1] - s[0][1])


def aside(s, p):
    """How far off the line of the link a place lies, on its left, times its length: its side number."""
    dx, dy = span(s)
    return dx * (p[1] - s[0][1]) - dy * (p[0] - s[0][0])


def square_length(s):
    """The square of its length, which is how far along it its greater end lies, times its length."""
    return forward(s, s[1])


def is_within(p, s, units):
    """Whether some place of the link lies within so many units of p, in x and in y: whether the square round p meets it."""
    (ax, ay), (bx, by) = s
    dx, dy = span(s)
    return (min(ax, bx) - units <= p[0] <= max(ax, bx) + units and min(ay, by) - units <= p[1] <= max(ay, by) + units
            and abs(aside(s, p)) <= units * (abs(dx) + abs(dy)))


class Cells:
    """Places in squares of the plane, so that those near a link are found without a look at all."""

    def __init__(self, places):
        self.cells = collections.defaultdict(list)
        width, height = (max(cs) - min(cs) + 1 for cs in zip(*places)) if places else (1, 1)
        count = max(1, len(places))
        self.size = max(math.isqrt(width * height // count), max(width, height) // count) + 2 * ALONG
        for p in places:
            self.cells[p[0] // self.size, p[1] // self.size].append(p)

    def near(self, s, units):
        """The places within so many units of a link that lie between its ends, seen along it."""
        length = square_length(s)
        return [p for cell in self.along(s, units) for p in self.cells.get(cell, ())
                if is_within(p, s, units) and 0 < forward(s, p) < length]

    def along(self, s, units):
        """The cells that hold all places within so many units of a link, column by column."""
        (ax, ay), (bx, by) = s
        dx, dy = span(s)
        for column in range((ax - units) // self.size, (bx + units) // self.size + 1):
            rows = [ay, by]
            if dx:
                edges = (max(ax, column * self.size - units), min(bx, (column + 1) * self.size + units))
                rows = [ay + dy * (x - ax) // dx + up for x in edges for up in (0, 1)]
            for row in range((min(rows) - units) // self.size, (max(rows) + units) // self.size + 1):
                yield column, row


# ---- what is there
class There:
    """What the sheet is brought in beside: places, pieces, and the chains of originals by their given ends."""

    def __init__(self, state):
        self.next_id, self.names = state.next_id, set(state.values)
        self.places, self.chains, self.pieces = set(state.points), {}, collections.defaultdict(set)
        for ends, chain in state.originals.values():
            self.chains.setdefault(ends, chain)
            self.places.update(chain)
            for p, q in zip(chain, chain[1:]):
                self.pieces[p].add(q)
                self.pieces[q].add(p)

    def all_pieces(self):
        return ((p, q) for p, others in self.pieces.items() for q in others if p < q)

    def has(self, s):
        return s[1] in self.pieces.get(s[0], ())

    def turn_of(self, shape):
        """Shapes of pieces that are there come first, before another shape can bend these, and regions come before lines."""
        return not all(map(self.has, links_of(shape))), shape.word == "lines"


# ---- shared borders
def merged(shapes, there):
    """The shapes, with corners within one unit of each other made one: the nearest that is there, or the first."""
    kept = set(there.places)
    around = sorted(((dx, dy) for dx in range(-NEAR, NEAR + 1) for dy in range(-NEAR, NEAR + 1)),
                    key=lambda step: (step[0] ** 2 + step[1] ** 2, step))

    def one_of(p):
        found = next((q for q in ((p[0] + dx, p[1] + dy) for dx, dy in around) if q in kept), p)
        kept.add(found)
        return found

    moved = [shape._replace(lists=[list(map(one_of, places)) for places in shape.lists]) for shape in shapes]
    return [tidied(shape) for shape in moved]


class Ways:
    """By which places each border leads, before it is drawn."""

    def __init__(self, shapes, there):
        self.there, self.found = there, {}
        corners = {p for shape in shapes for places in shape.lists for p in places}
        self.new = Cells(sorted(corners - there.places))
        self.cells = Cells(sorted(corners | there.places))

    def way(self, s):
        """The places from the lesser end of a border to the greater one."""
        if s not in self.found:
            self.found[s] = self.there.chains.get(s) or self.by_corners(s)
        return self.found[s]

    def by_corners(self, s):
        """The way by pieces that are there, and by the corners that are near where there are none."""
        way = [s[0]]
        for p, q, is_there in self.cheapest(s):
            leads_on = is_there or square_length(link(p, q)) >= square_length(s)
            way += [q] if leads_on else directed(self.way(link(p, q)), p < q)[1:]
        return way

    def cheapest(self, s):
        """The links of the way that goes least without pieces, and then has the least area beside the border. A link without a piece
        leads from one near corner to the next, so that none is passed."""
        stops = [s[0], *sorted(self.cells.near(s, ALONG), key=lambda p: (forward(s, p), p)), s[1]]
        order = {p: i for i, p in enumerate(stops)}
        best, before = [(0, 0, None, False)], 0
        for i, p in enumerate(stops[1:], 1):
            options = []
            if is_within(p, s, NEAR):
                bare, area, _, _ = best[before]
                options.append((bare + forward(s, p) - forward(s, stops[before]), area, before, False))
                before = i
            options += [self.by_piece(s, stops[k], p, best[k], k) for k in self.stops_before(p, order) if best[k]]
            best.append(min(options, key=lambda option: option[:2], default=None))
        return traced(stops, best)

    def stops_before(self, p, order):
        return sorted(order[q] for q in self.there.pieces.get(p, ()) if q in order and order[q] < order[p])

    def by_piece(self, s, p, q, best, k):
        bare, area, _, _ = best
        beside = (forward(s, q) - forward(s, p)) * (abs(aside(s, p)) + abs(aside(s, q)))
        return bare, area + beside, k, True

    def passed(self):
        """How many corners of the sheet lie near a piece that is there, not on it, and can't be given to it."""
        return len({p for s in self.there.all_pieces() for p in self.new.near(s, NEAR) if aside(s, p) != 0})


def traced(stops, best):
    """The links from the first stop to the last, each with whether it is a piece."""
    found, i = [], len(stops) - 1
    while i > 0:
        _, _, k, is_there = best[i]
        found.append((stops[k], stops[i], is_there))
        i = k
    return found[::-1]


def directed(way, is_forward):
    return way if is_forward else way[::-1]


def led(shape, way):
    """The shape with each of its links led by the places of its way."""
    lists = []
    for places in shape.lists:
        steps = [directed(way(s), is_forward) for s, is_forward in links(places, shape.word)]
        lists.append([p for step in steps for p in step[:-1]] + ([] if shape.word == "regions" else [places[-1]]))
    return tidied(shape._replace(lists=lists))


# ---- drawn once
class Scratch:
    """A folder in which lines are tried, on a copy of what is there."""

    def __init__(self, rose, folder, beside):
        self.rose, self.folder = rose, folder
        files = list(pathlib.Path(beside).glob("realm.[ab]")) if beside else []
        if beside and not files:
            stop(f"{beside} has no file realm.a or realm.b")
        for file in files:
            shutil.copy(file, folder)
        self.answers("checkpoint")
        self.there = There(names.state_in(folder))

    def answers(self, *lines):
        """The lines of the replies."""
        run = subprocess.run([self.rose, "run"], cwd=self.folder, input="".join(f"{line}\n" for line in lines), text=True,
                             capture_output=True)
        if run.returncode:
            stop(f"{self.rose} ended with {run.returncode}: {run.stderr.strip()}")
        return run.stdout.splitlines()

    def chains(self, lines, count):
        """The chains of the originals that these lines draw, so many, after all of them. They are given up behind it."""
        ids = range(self.there.next_id, self.there.next_id + count)
        replies = self.answers("begin", *lines, *(f"chain {number}" for number in ids), "abandon")
        for line, reply in zip(lines, replies[1:]):
            if not reply.startswith("ok "):
                stop(f"the program answers {reply} to {line[:60]}")
        return list(chains_in(replies[1 + len(lines):]))

    def settled(self, shapes):
        """The shapes by vertices that stay: each border is drawn once, and gets the vertices that it has then, until none bends."""
        while True:
            given = [s for shape in shapes for s in links_of(shape)]
            once = sorted(set(given), key=lambda s: (not self.there.has(s), s))
            bent = self.bent(once, [f"segment {text(s)}" for s in once]) or self.bent(given, list(map(written, shapes)))
            if not bent:
                return shapes
            shapes = [led(shape, lambda s: bent.get(s, s)) for shape in shapes]

    def bent(self, given, lines):
        """The chains of those links that are led elsewhere when the lines draw them. Pieces that are there are left out: what leads
        them elsewhere leads all that have them."""
        found = {}
        for s, chain in zip(given, self.chains(lines, len(given))):
            if len(chain) > 2 and not self.there.has(s):
                found.setdefault(s, chain)
        return found


def chains_in(replies):
    """The lists of places in replies to `chain`."""
    at = 0
    while replies[at].startswith("chain "):
        count = int(replies[at].split()[1])
        yield [tuple(map(int, line.split())) for line in replies[at + 1:at + 1 + count]]
        at += 1 + count


# ---- lines
def text(places):
    return " ".join(f"{x} {y}" for x, y in places)


def written(shape):
    return " ".join([shape.word, shape.name, " ; ".join(map(text, shape.lists))]).rstrip()


def check_names(shapes, there):
    seen = set(there.names)
    for shape in shapes:
        if shape.name in seen:
            stop(f"the name {shape.name} would be given twice")
        seen.add(shape.name)
        if not shape.lists:
            print(f"bring_in.py: nothing of {shape.name} is left on the grid", file=sys.stderr)


def brought_in(shapes, scratch):
    """The lines of a sheet whose shapes are on the grid."""
    shapes = merged(shapes, scratch.there)
    check_names(shapes, scratch.there)
    ways = Ways(shapes, scratch.there)
    if passed := ways.passed():
        print(f"bring_in.py: {passed} corners lie within one unit of a border that is there and has no vertex there", file=sys.stderr)
    shapes = sorted((led(shape, ways.way) for shape in shapes), key=scratch.there.turn_of)
    return ["begin", *map(written, scratch.settled(shapes)), "commit"]


def program(name):
    """Where the program lies, seen from any folder."""
    found = shutil.which(name)
    return str(pathlib.Path(found).resolve()) if found else stop(f"there is no program {name}")


def words_given():
    parser = argparse.ArgumentParser(description="Makes command lines of a sheet of parcels and roads.")
    parser.add_argument("--rose", required=True, help="the program")
    parser.add_argument("--origin", nargs=2, type=Fraction, default=(0, 0), metavar=("X", "Y"), help="what lies at (0, 0)")
    parser.add_argument("--scale", type=Fraction, default=1, metavar="N", help="units in one unit of the sheet")
    parser.add_argument("--name", metavar="PROPERTY", help="the property of GeoJSON that has the names")
    parser.add_argument("--beside", metavar="FOLDER", help="the folder of the map that is there")
    parser.add_argument("sheet", metavar="SHEET")
    return parser.parse_args()


if __name__ == "__main__":
    given = words_given()
    sheet = [on_grid(shape, given.origin, given.scale) for shape in read(given.sheet, given.name)]
    with tempfile.TemporaryDirectory() as room:
        print("\n".join(brought_in(sheet, Scratch(program(given.rose), room, given.beside))))
