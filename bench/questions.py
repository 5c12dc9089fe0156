#!/usr/bin/env python3
"""Times questions on large values by `rose run`, of several programs in turn, on one processor and on all. See README.md."""
import argparse
import concurrent.futures
import math
import os
import tempfile

import growth
from overlays import Run, drawn, nested, square, timed


def apart(segments):
    """Two regions of squares, none of which meets another."""
    number = segments // 8
    wide = max(1, int(number**0.5))

    def at(i, off):
        x, y = 40 * (i % wide) + off, 40 * (i // wide) + off
        return f"{x} {y} {x + 10} {y} {x + 10} {y + 10} {x} {y + 10}"

    return [f"regions {name} {' ; '.join(at(i, off) for i in range(number))}" for name, off in (("a", 0), ("b", 20))]


def far(segments):
    """Two such regions, whose boxes lie side by side."""
    number = segments // 8
    one = " ; ".join(square(4 * i, 4 * i + 2) for i in range(number))
    two = " ; ".join(square(4 * (number + i), 4 * (number + i) + 2) for i in range(number))
    return [f"regions a {one}", f"regions b {two}"]


def star(corners, turned):
    """A ring whose corners lie by turns on two circles, turned by so many corners."""
    def at(i):
        wide = 400_000_000 if i % 2 else 360_000_000
        angle = 2 * math.pi * (i + turned) / corners
        return f"{500_000_000 + round(wide * math.cos(angle))} {500_000_000 + round(wide * math.sin(angle))}"

    return " ".join(at(i) for i in range(corners))


def stars(segments):
    """Two rings round one centre that cross at almost each side."""
    return [f"regions a {star(segments // 2, 0)}", f"regions b {star(segments // 2, 0.9)}"]


def points(number):
    """Two values of so many points, spread over two fields side by side."""
    def spread(left):
        return " ".join(f"{left + 7919 * i % 1_000_003} {104_729 * i % 1_000_033}" for i in range(number))

    return [f"points a {spread(0)}", f"points b {spread(1_500_000)}"]


def round_a_centre(number, far):
    """So many ends round one centre, the one with this number so far from it."""
    def end(i):
        angle = 2 * math.pi * i / number
        return f"{round(5e8 + far(i) * math.cos(angle))} {round(5e8 + far(i) * math.sin(angle))}"

    return ["lines a " + " ".join(end(i) for i in range(number))]


def ring(number):
    return round_a_centre(number, lambda i: 4e8 + 1e5 * (7919 * i % 1000))


def scattered(number):
    """So many short segments, some of which cross."""
    def way(i):
        x, y = 7919 * i % 20011, 104_729 * i % 20021
        return f"{x} {y} {x + 1 + 31 * i % 97} {y + 17 * i % 89}"

    return ["lines a " + " ; ".join(way(i) for i in range(number))]


def circle(number):
    return round_a_centre(number, lambda i: 5e8)


def bars(number):
    return [growth.bars(number).replace("lines v", "lines a")]


ROWS = [
    ("intersection, nested", nested, 4000, "eval intersection a b"),
    ("intersection, nested", nested, 16000, "eval intersection a b"),
    ("plus, nested", nested, 16000, "eval plus a b"),
    ("minus, apart", apart, 4000, "eval minus a b"),
    ("minus, apart", apart, 16000, "eval minus a b"),
    ("intersection, star", stars, 4000, "eval intersection a b"),
    ("inside, boxes apart", far, 16000, "ask inside a b"),
    ("meets, boxes apart", far, 16000, "ask meets a b"),
    ("dist2, points", points, 20000, "num dist2 a b"),
    ("dist2, points", points, 40000, "num dist2 a b"),
    ("diameter2, points", points, 20000, "num diameter2 a"),
    ("diameter2, points", points, 40000, "num diameter2 a"),
    ("diameter2, scattered", scattered, 10000, "num diameter2 a"),
    ("diameter2, ring", ring, 6881, "num diameter2 a"),
    ("diameter2, ring", ring, 13763, "num diameter2 a"),
    ("diameter2, circle", circle, 13763, "num diameter2 a"),
    ("diameter2, circle", circle, 27526, "num diameter2 a"),
    ("interior, bars", bars, 5000, "eval interior a"),
    ("interior, bars", bars, 10000, "eval interior a"),
]


def clock(program, lines, question, processors, folder):
    """The milliseconds by the clock that the question takes on so many processors."""
    with tempfile.TemporaryDirectory(dir=folder) as place:
        run = started(program, lines, sorted(os.sched_getaffinity(0))[:processors], place)
        head, _, passed = timed(run, question)
        run.end()
    if head[0] in ("no", "refused"):
        raise SystemExit(f"{question}: {' '.join(head)}")
    return passed * 1e3


def started(program, lines, processors, folder):
    """A run on these processors, with the lines drawn."""
    allowed = os.sched_getaffinity(0)
    os.sched_setaffinity(0, processors)
    run = Run(program, folder)
    os.sched_setaffinity(0, allowed)
    drawn(run, lines)
    return run


def given_at_most(program, folder):
    """How many processors' worth of work the machine does: the same question alone, and on each processor at once."""
    lines, question = circle(27526), "num diameter2 a"
    processors = sorted(os.sched_getaffinity(0))
    with tempfile.TemporaryDirectory(dir=folder) as place, concurrent.futures.ThreadPoolExecutor() as pool:
        runs = []
        for processor in processors:
            os.mkdir(f"{place}/{processor}")
            runs.append(started(program, lines, [processor], f"{place}/{processor}"))
        alone = min(timed(runs[0], question)[2] for _ in range(7))
        at_once = min(max(each[2] for each in pool.map(lambda run: timed(run, question), runs)) for _ in range(7))
        for run in runs:
            run.end()
    return len(processors) * alone / at_once


def main():
    parser = argparse.ArgumentParser(description=__doc__)
    parser.add_argument("programs", nargs="+", help="each is asked the same in turn")
    parser.add_argument("--times", type=int, default=5, help="how often; the best time counts")
    parser.add_argument("--rows", nargs="*", help="words of the rows that are asked")
    parser.add_argument("--folder", help="where the files of a run are put")
    given = parser.parse_args()
    programs = [os.path.abspath(program) for program in given.programs]
    every = len(os.sched_getaffinity(0))
    print("milliseconds, on one processor and on all, of each program in turn")
    for what, make, size, question in ROWS:
        if given.rows and not any(word in what for word in given.rows):
            continue
        lines = make(size)
        tried = [[clock(program, lines, question, processors, given.folder) for program in programs for processors in (1, every)]
                 for _ in range(given.times)]
        best = [min(column) for column in zip(*tried)]
        print(f"{what:21} {size:6}" + "".join(f"{each:10.2f}" for each in best), flush=True)
    print(f"runs side by side do the work of {given_at_most(programs[0], given.folder):.2f} processors")


if __name__ == "__main__":
    main()
