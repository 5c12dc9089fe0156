#!/usr/bin/env python3
"""Draws replies as a picture. A companion script: no part of the program, and no proof speaks of it.

    draw.py REPLIES [LATER] > PICTURE.svg

REPLIES is what `rose run` gave. The points, segments and faces of all values, faces and realms in it are drawn, one over another;
other replies are passed over. With a second file what stands in one of the two alone is marked: red and dashed what
only the first has, blue what only the second has, and grey what both have. Below stands which part of the grid is shown.

Ends with 0, with 1 and a line on standard error where there is nothing to draw, or with 2 where the words are wrong."""
import argparse
import pathlib

# Of the picture, in points of the screen: its longer side, and what is left free around.
LENGTH, FRAME = 760, 20
STYLE = """
.both { stroke: #777; fill: #777 }
.first { stroke: #c22; fill: #c22; stroke-dasharray: 5 3 }
.second { stroke: #26c; fill: #26c }
.points { stroke: none }
.segments { fill: none; stroke-width: 1.5 }
.faces { fill-rule: evenodd; fill-opacity: 0.2 }
text { font: 12px sans-serif }
"""
KINDS = ("faces", "segments", "points")


def drawn_in(path):
    """What the replies of a file have: sets of points, of segments, and of faces as rows of cycles."""
    found = {kind: set() for kind in KINDS}
    lines = iter(pathlib.Path(path).read_text().splitlines())
    for line in lines:
        word, *counts = line.split() or [""]
        if word == "realm":
            found["points"] |= {places(next(lines)) for _ in range(int(counts[0]))}
            found["segments"] |= {places(next(lines)) for _ in range(int(counts[1]))}
        elif word == "points":
            found["points"] |= {places(next(lines)) for _ in range(int(counts[0]))}
        elif word in ("lines", "regions"):
            found["segments"] |= {places(next(lines)) for _ in range(int(counts[0]))}
        elif word == "outer":
            face = (places(" ".join(counts)),)
            found["faces"].add(face)
        elif word == "hole":
            found["faces"].remove(face)
            face += (places(" ".join(counts)),)
            found["faces"].add(face)
    return found


def places(line):
    numbers = list(map(int, line.split()))
    return tuple(zip(numbers[::2], numbers[1::2]))


def in_layers(first, second):
    """For each kind what both have, what the first has alone, and what the second has alone, in order."""
    return {kind: {"both": sorted(first[kind] & second[kind]), "first": sorted(first[kind] - second[kind]),
                   "second": sorted(second[kind] - first[kind])} for kind in KINDS}


class Sheet:
    """Places of the grid on the screen, whose y runs down."""

    def __init__(self, all_places):
        xs, ys = zip(*all_places)
        self.left, self.right, self.lower, self.upper = min(xs), max(xs), min(ys), max(ys)
        self.unit = LENGTH / max(self.right - self.left, self.upper - self.lower, 1)

    def size(self):
        return [round(side * self.unit) + 2 * FRAME for side in (self.right - self.left, self.upper - self.lower)]

    def at(self, p):
        return f"{FRAME + (p[0] - self.left) * self.unit:.3f} {FRAME + (self.upper - p[1]) * self.unit:.3f}"

    def path(self, row, end=""):
        return "M" + " L".join(map(self.at, row)) + end

    def element(self, kind, layer, items):
        """The element that shows these items, all of one kind and one layer."""
        if kind == "points":
            dots = (self.at(p).split() for (p,) in items)
            return f'<g class="points {layer}">' + "".join(f'<circle cx="{x}" cy="{y}" r="2.5"/>' for x, y in dots) + "</g>"
        rows = [self.path(s) for s in items] if kind == "segments" else [self.path(cycle, "Z") for face in items for cycle in face]
        return f'<path class="{kind} {layer}" d="{" ".join(rows)}"/>'


def picture(layers, names):
    """The lines of the picture; the names are those of the two files, or none."""
    flat = [p for kind in ("points", "segments") for items in layers[kind].values() for item in items for p in item]
    flat += [p for faces in layers["faces"].values() for face in faces for cycle in face for p in cycle]
    if not flat:
        raise SystemExit("draw.py: nothing to draw")
    sheet = Sheet(flat)
    width, height = sheet.size()
    yield f'<svg xmlns="http://www.w3.org/2000/svg" width="{width}" height="{height + 40}" viewBox="0 0 {width} {height + 40}">'
    yield f"<style>{STYLE}</style>"
    for kind in KINDS:
        yield from (sheet.element(kind, layer, items) for layer, items in layers[kind].items() if items)
    legend = f"({sheet.left}, {sheet.lower}) to ({sheet.right}, {sheet.upper})"
    if names:
        legend += f"; red and dashed: only in {names[0]}, blue: only in {names[1]}"
    yield f'<text x="{FRAME}" y="{height + 10}">{legend}</text>'
    yield "</svg>"


if __name__ == "__main__":
    parser = argparse.ArgumentParser(description="Draws replies to realm, show and faces as a picture.")
    parser.add_argument("replies", metavar="REPLIES")
    parser.add_argument("later", metavar="LATER", nargs="?")
    given = parser.parse_args()
    one = drawn_in(given.replies)
    other = drawn_in(given.later) if given.later else one
    compared = [pathlib.Path(path).name for path in (given.replies, given.later)] if given.later else None
    print("\n".join(picture(in_layers(one, other), compared)))
