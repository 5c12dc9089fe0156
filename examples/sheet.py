#!/usr/bin/env python3
"""Writes the lines of the scene `sheet`. See README.md."""

COLUMNS, BLOCKS = 20, 5
WIDTH, DEPTH, STREET = 2_000, 3_000, 800


def corner(column, line):
    """The corner right of so many parcels, on one of the three lines of each block. No two lines are quite straight."""
    block, within = divmod(line, 3)
    x = 1_000 + WIDTH * column + (7 * column + 13 * line) % 29 * 10
    y = 1_000 + block * (2 * DEPTH + STREET) + DEPTH * within + (11 * column + 5 * line) % 23 * 10
    return f"{x} {y}"


def parcel(row, column):
    """The name of a parcel, and its corners against the clock. Two rows stand back to back in a block."""
    line = row // 2 * 3 + row % 2
    corners = [corner(column, line), corner(column + 1, line), corner(column + 1, line + 1), corner(column, line + 1)]
    return f"regions p{row + 1:02}{column + 1:02} {' '.join(corners)}"


LOADED = ["begin"] + [parcel(row, column) for row in range(2 * BLOCKS) for column in range(COLUMNS)] + [
    "points stones " + " ".join(corner(column, line) for column in (0, COLUMNS) for line in range(3 * BLOCKS)),
    parcel(0, 0),
    "num no_of_components stones",
    "commit",
    "trace 200",
    "num area2 p0305",
    "ask adjacent p0305 p0405",
    "ask adjacent p0205 p0305",
    "eval common_border p0405 p0406"]

# A path across a block is drawn in the wrong place.
GIVEN_UP = [
    "begin",
    "lines path 9100 7400 12300 14900",
    "chain 801",
    "num area2 p0305",
    "eval common_border p0405 p0406",
    "abandon",
    "chain 801",
    "show path",
    "num area2 p0305",
    "commit"]

# The path as it should have been, and two parcels that become one.
KEPT = [
    "begin",
    "lines path 9100 7400 10900 14900",
    "let p0321 = plus p0307 p0308",
    "drop p0307",
    "drop p0308",
    "checkpoint",
    "begin",
    "batch 2",
    "show p0307",
    "num area2 p0321",
    "commit",
    "show path",
    "show p0321",
    "num area2 p0305",
    "ask adjacent p0306 p0321",
    "trace 202",
    "checkpoint",
    "abandon"]

if __name__ == "__main__":
    print("\n".join(LOADED + GIVEN_UP + KEPT))
