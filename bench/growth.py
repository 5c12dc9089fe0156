#!/usr/bin/env python3
"""Times drawings, and questions on values, that grow, each twice as large as the one before, by `rose run`. See README.md."""
import argparse
import math
import os
import re
import tempfile

import segments
from overlays import Run, drawn, timed

FAR = 1 << 20
MIDDLE = 1 << 29


def bars(size):
    """So many level lines one above the other: all are begun where the first ends, and each begins and ends below those that are begun."""
    return "lines v " + " ; ".join(f"{i} {2 * (size - i)} {FAR} {2 * (size - i)}" for i in range(size))


def fan(size):
    """So many lines from one point."""
    return "lines v " + " ; ".join(f"0 0 {FAR} {2 * i}" for i in range(size))


def rows(size):
    """A region of so many level strips one above the other, which begin and end as the bars do."""
    def strip(i):
        low = 4 * (size - i)
        return f"{i} {low} {FAR} {low} {FAR} {low + 2} {i} {low + 2}"

    return "regions v " + " ; ".join(strip(i) for i in range(size))


def points_of_a_star(size):
    """A region of so many triangles with one common corner."""
    return "regions v " + " ; ".join(f"0 0 {FAR} {4 * i} {FAR} {4 * i + 2}" for i in range(size))


CASES = {
    "interior, bars": (bars, "eval interior v", 2500),
    "interior, fan": (fan, "eval interior v", 2500),
    "faces, rows": (rows, "faces v", 2000),
    "faces, star": (points_of_a_star, "faces v", 1250),
    "number, rows": (rows, "num no_of_components v", 2000),
    "number, star": (points_of_a_star, "num no_of_components v", 1250),
}


# ---- drawings: each field is a list of lines

def segment(*ends):
    return "segment %d %d %d %d" % ends


def posts(size):
    """Posts across a middle row of the grid."""
    return [segment(4 * i, MIDDLE - 3, 4 * i + 1, MIDDLE + 3) for i in range(size)]


def wide(size):
    """Random segments among 2^28 columns and rows."""
    numbers = segments.draws(7)
    return [segment(*(next(numbers) % (1 << 28) for _ in range(4))) for _ in range(size)]


def fence(size):
    """Posts, and at last a rail across all of them."""
    return [segment(*s) for s in segments.fence(size, None)]


def rail_first(size):
    """The same, the rail first."""
    *each, rail = fence(size)
    return [rail, *each]


def touching(size):
    """A long segment, and others that end on it."""
    return [segment(0, 0, 4 * size, 0)] + [segment(4 * i + 1, 0, 4 * i + 2, 5) for i in range(size)]


def hub(size):
    """Segments that cross one another near one place."""
    return [segment(1000 * i, 0, 1000 * (size - i) + 7, FAR) for i in range(size)]


def lattice(size):
    """So many segments each way, somewhat askew."""
    return [segment(*s) for i in range(size) for s in ((0, 1000 * i, FAR, 1000 * i + 7), (1000 * i, 0, 1000 * i + 7, FAR))]


def star(size):
    """Segments from one point."""
    return [segment(0, 0, FAR, 2 * i) for i in range(size)]


def ring(size):
    """A region whose corners lie round one centre."""
    def corner(i):
        angle = 2 * math.pi * i / size
        return f"{MIDDLE + round(4e8 * math.cos(angle))} {MIDDLE + round(4e8 * math.sin(angle))}"

    return ["regions v " + " ".join(corner(i) for i in range(size))]


def column(size):
    """Points in one column, and segments across it between them."""
    return [f"point 9 {3 * i}" for i in range(size)] + [segment(0, 3 * i + 1, 20, 3 * i + 2) for i in range(size)]


def names(size):
    """Names that are given and dropped."""
    return [f"points n{i} {i} 0" for i in range(size)] + [f"drop n{i}" for i in range(size)]


def deleted(size):
    """Segments that are drawn and deleted again, and ten checkpoints of what is left."""
    return [segment(3 * i, 0, 3 * i + 1, 5) for i in range(size)] + [f"delete {i + 1}" for i in range(size)] + ["checkpoint"] * 10


DRAWINGS = {
    "posts": (posts, 10000),
    "wide": (wide, 100),
    "fence": (fence, 10000),
    "rail first": (rail_first, 10000),
    "touching": (touching, 10000),
    "hub": (hub, 50),
    "lattice": (lattice, 50),
    "star": (star, 5000),
    "ring": (ring, 10000),
    "column": (column, 10000),
    "names": (names, 20000),
    "deleted": (deleted, 20000),
}


def seconds_drawn(program, folder, lines, times):
    """The least seconds of a processor of so many runs of the lines, and how many points and pieces there are at the end."""
    with tempfile.NamedTemporaryFile("w", suffix=".txt") as file:
        file.write("".join(line + "\n" for line in lines))
        file.flush()
        seconds = min(segments.run(program, file, folder)[1] for _ in range(times))
        file.write("realm\n")
        file.flush()
        output, _, _ = segments.run(program, file, folder)
    if re.search(rb"^(no|refused) ", output, re.M):
        raise SystemExit(f"a line is refused: {lines[0]}")
    points, pieces = re.search(rb"^realm (\d+) (\d+)$", output, re.M).groups()
    return seconds, int(points) + int(pieces)


class Asked(Run):
    """A run that reads the reply to `faces` too, where no face has a hole."""

    def reply(self):
        head, rest = super().reply()
        if head[0] == "faces":
            self.lines.skip(int(head[1]))
        return head, rest


def seconds_of(program, folder, line, question):
    """The seconds of a processor that the question takes, of a value that is drawn before."""
    with tempfile.TemporaryDirectory(dir=folder) as place:
        run = Asked(program, place)
        drawn(run, [line])
        head, seconds, _ = timed(run, question)
        run.end()
    if head[0] in ("no", "refused"):
        raise SystemExit(f"{question}: {' '.join(head)}")
    return seconds


def grown(now, before):
    return "-" if before is None else f"{now / before:.2f}"


def time_drawings(programs, given):
    print("what                size        ms  growth     drawn  growth  program")
    for what in given.drawings:
        make, least = DRAWINGS[what]
        for program in programs:
            before, held = None, None
            for size in (least << k for k in range(given.doublings + 1)):
                seconds, parts = seconds_drawn(program, given.folder, make(size), given.times)
                print(f"{what:16} {size:7} {seconds * 1e3:9.2f} {grown(seconds, before):>7} {parts:9} {grown(parts, held):>7}  {program}", flush=True)
                before, held = seconds, parts or None


def time_questions(programs, given):
    print("what                size        ms  growth  program")
    for what in given.cases:
        make, question, least = CASES[what]
        for program in programs:
            before = None
            for size in (least << k for k in range(given.doublings + 1)):
                seconds = seconds_of(program, given.folder, make(size), question)
                print(f"{what:16} {size:7} {seconds * 1e3:9.2f} {grown(seconds, before):>7}  {program}", flush=True)
                before = seconds


def main():
    parser = argparse.ArgumentParser(description=__doc__)
    parser.add_argument("programs", nargs="+", help="each is asked the same in turn")
    parser.add_argument("--cases", nargs="*", choices=CASES, default=list(CASES))
    parser.add_argument("--drawings", nargs="*", choices=DRAWINGS, default=list(DRAWINGS))
    parser.add_argument("--doublings", type=int, default=2, help="how often a value or a drawing is made twice as large")
    parser.add_argument("--times", type=int, default=3, help="how often a drawing is made; the least time counts")
    parser.add_argument("--folder", help="where the file of a run is put")
    given = parser.parse_args()
    programs = [os.path.abspath(program) for program in given.programs]
    if given.drawings:
        time_drawings(programs, given)
    if given.cases:
        time_questions(programs, given)


if __name__ == "__main__":
    main()
