#!/usr/bin/env python3
"""Times drawing and intersections beside other programs, which get all segments at once. See README.md."""
import argparse
import os
import re
import shutil
import subprocess
import tempfile

import overlays
from segments import draws, instructions, run

SOURCES = os.path.join(os.path.dirname(os.path.abspath(__file__)), "peers")
JTS = "/usr/share/java/jts-core.jar"


# ---- fields, and how many changes or segments each has

def generated(side):
    """The segments of the generated map, on so many columns and rows: three of each change that 4 divides, and one of any other."""

    def segments(count):
        drawn = draws(7)
        for i in range(1, count + 1):
            x, y = next(drawn) % side, next(drawn) % side
            u, v = x + 1 + next(drawn) % 256, y + next(drawn) % 256
            yield x, y, u, v
            if i % 4 == 0:
                yield x, y, u, v + 1
                yield u, v, u, v + 1

    return segments


def wide(count):
    """Segments from anywhere to anywhere on 2^28 columns and rows."""
    drawn = draws(7)
    for _ in range(count):
        yield tuple(next(drawn) % 2**28 for _ in range(4))


def short(count):
    """Segments of at most 64 columns and 63 rows on a field that grows with their number."""
    side = int(100 * count**0.5)
    drawn = draws(7)
    for _ in range(count):
        x, y = next(drawn) % side, next(drawn) % side
        yield x, y, x + 1 + next(drawn) % 64, y + next(drawn) % 64


FIELDS = {
    "generated": (generated(65536), [20000, 100000]),
    "dense": (generated(4096), [1000, 5000, 10000]),
    "wide": (wide, [100, 200, 400]),
    "short": (short, [10000, 100000, 1000000]),
}

# two areas, how many rings a polygon of each has, and how many segments both have
AREAS = {
    "nested": (overlays.nested, (2, 2), [400, 4000, 16000]),
    "rings": (overlays.rings, (2, 1), [400, 4000, 16000]),
}


# ---- the other programs

def compiled(folder, source, *words):
    """The command of a program made of this source; none where it can't be made."""
    program = os.path.join(folder, source.split(".")[0])
    compiler = "gcc" if source.endswith(".c") else "g++"
    command = [compiler, "-O2", "-o", program, os.path.join(SOURCES, source), *words]
    return [program] if subprocess.run(command, capture_output=True).returncode == 0 else None


def java(folder):
    """The command of the program with JTS; none where it can't be made."""
    if shutil.which("javac") is None or not os.path.exists(JTS):
        return None
    made = subprocess.run(["javac", "-cp", JTS, "-d", folder, os.path.join(SOURCES, "Noding.java")], capture_output=True)
    return ["java", "-Xmx8g", "-cp", f"{JTS}:{folder}", "Noding"] if made.returncode == 0 else None


def here(peers):
    """Those that could be made; of the others it is said that they aren't here."""
    for name in (name for name, command in peers.items() if command is None):
        print(f"{name} isn't here")
    return {name: command for name, command in peers.items() if command}


def told(command, given, times):
    """The numbers that a program tells of this input."""
    return subprocess.run([*command, str(times)], input=given.encode(), stdout=subprocess.PIPE, check=True).stdout.split()


# ---- drawing

def drawn(programs, name, count, segments, given):
    """Of each program the pieces that it draws, its processor seconds, the best of some times in turn, its greatest memory in MB, and
    its instructions where they are asked for: the generated map by its own word, any other as lines."""
    if name == "generated":
        text, words, pattern = "", ["gen", str(count), "7"], rb"^pieces (\d+)$"
    else:
        text, words, pattern = "".join("segment %d %d %d %d\n" % s for s in segments) + "realm\n", ["run"], rb"^realm \d+ (\d+)$"
    with tempfile.NamedTemporaryFile("w") as file:
        file.write(text)
        file.flush()
        turns = [[run(program, file, given.folder, *words) for program in programs] for _ in range(given.times)]
        counts = [instructions(program, file, given.folder, *words) if given.instructions else None for program in programs]
    for runs, counted in zip(zip(*turns), counts):
        pieces = int(re.search(pattern, runs[0][0], re.M).group(1))
        yield pieces, min(seconds for _, seconds, _ in runs), max(memory for _, _, memory in runs) / 1e6, counted


def time_drawing(programs, given, folder):
    peers = here({"GEOS": compiled(folder, "noding_geos.c", "-lgeos_c"), "JTS": java(folder)})
    print("field      number  segments  program   seconds  rose by it    pieces        MB  instructions")
    for name in given.fields:
        field, counts = FIELDS[name]
        for count in (n for n in counts if n <= given.most):
            segments = list(field(count))
            names = ["rose", *(f"older {i}" for i in range(1, len(programs)))]
            rows = [(who, *row) for who, row in zip(names, drawn(programs, name, count, segments, given))]
            for peer, command in peers.items():
                pieces, seconds, memory = told(command, "".join("%d %d %d %d\n" % s for s in segments), given.times)
                rows.append((peer, int(pieces), float(seconds), int(memory) / 1e3, None))
            for who, pieces, seconds, memory, counted in rows:
                by = "" if who == "rose" else f"{rows[0][2] / seconds:.2f}"
                print(f"{name:9} {count:7} {len(segments):9}  {who:7} {seconds:9.3f}  {by:>10} {pieces:9} {memory:9.1f}  {counted or '-':>12}", flush=True)


# ---- intersections

def polygons(line, rings):
    """The rings of a line that defines regions, so many to a polygon."""
    all_rings = line.split(" ", 2)[2].split(" ; ")
    return "".join(" ; ".join(all_rings[i:i + rings]) + "\n" for i in range(0, len(all_rings), rings))


def time_overlays(program, given, folder):
    peers = here({"GEOS": compiled(folder, "overlay_geos.c", "-lgeos_c"), "Boost": compiled(folder, "overlay_boost.cpp"),
                  "CGAL": compiled(folder, "overlay_cgal.cpp", "-lgmp", "-lmpfr")})
    print("areas   segments  program   ms worked  ms passed  rose by it")
    for name in given.areas:
        make, rings, counts = AREAS[name]
        for count in (n for n in counts if n <= given.most):
            lines = make(count)
            with tempfile.TemporaryDirectory(dir=given.folder) as place:
                asked = overlays.Run(program, place)
                overlays.drawn(asked, lines)
                _, worked, passed = overlays.timed(asked, "eval intersection a b")
                asked.end()
            print(f"{name:7} {count:8}  rose      {1e3 * worked:9.2f}  {1e3 * passed:9.2f}", flush=True)
            for peer, command in peers.items():
                seconds = float(told(command, polygons(lines[0], rings[0]) + "/\n" + polygons(lines[1], rings[1]), given.times)[1])
                print(f"{name:7} {count:8}  {peer:7}   {1e3 * seconds:9.2f}             {worked / seconds:10.2f}", flush=True)


def main():
    reader = argparse.ArgumentParser(description=__doc__)
    reader.add_argument("program")
    reader.add_argument("--older", nargs="*", default=[], help="older programs, which draw the same in turn")
    reader.add_argument("--instructions", action="store_true", help="count those of drawing too, which is slow")
    reader.add_argument("--fields", nargs="*", choices=FIELDS, default=list(FIELDS), help="what is drawn")
    reader.add_argument("--areas", nargs="*", choices=AREAS, default=list(AREAS), help="what is intersected")
    reader.add_argument("--most", type=int, default=1000000, help="leaves out rows with a greater number")
    reader.add_argument("--times", type=int, default=5, help="how often each is done; its best time counts")
    reader.add_argument("--folder", help="where the runs keep their files; best in memory")
    given = reader.parse_args()
    program = os.path.abspath(given.program)
    with tempfile.TemporaryDirectory() as folder:
        if given.fields:
            time_drawing([program, *map(os.path.abspath, given.older)], given, folder)
        if given.areas:
            time_overlays(program, given, folder)


if __name__ == "__main__":
    main()
