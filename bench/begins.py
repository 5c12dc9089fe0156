#!/usr/bin/env python3
"""Times what `begin` takes where a map is there: processor time and memory. See README.md."""
import argparse
import os
import subprocess
import tempfile
from statistics import median

from segments import draws, scattered

PAGE = os.sysconf("SC_PAGESIZE")


def milliseconds(pid):
    """The processor time that the process has taken so far."""
    with open(f"/proc/{pid}/schedstat", encoding="ascii") as file:
        return int(file.read().split()[0]) / 1e6


def memory(pid):
    """The bytes that the process has in memory."""
    with open(f"/proc/{pid}/statm", encoding="ascii") as file:
        return int(file.read().split()[1]) * PAGE


def fill(program, count, folder):
    """Draws so many sparse segments in one group, and puts them into pages."""
    lines = "".join("segment %d %d %d %d\n" % s for s in scattered(65536)(count, draws(7)))
    text = f"begin\n{lines}commit\ncheckpoint\n".encode()
    subprocess.run([program, "run"], cwd=folder, input=text, stdout=subprocess.DEVNULL, check=True)


def measure(program, count, turns, folder):
    """Prints a row of a map of so many segments: what is in memory, what `begin` adds to it, and what the turns took."""
    with tempfile.TemporaryDirectory(dir=folder) as filled:
        fill(program, count, filled)
        with subprocess.Popen([program, "run"], cwd=filled, stdin=subprocess.PIPE, stdout=subprocess.PIPE) as run:

            def ask(line):
                run.stdin.write(line)
                run.stdin.flush()
                return run.stdout.readline()

            ask(b"ask intersects nothing nothing\n")
            alone = memory(run.pid)
            assert ask(b"begin\n").startswith(b"ok")
            within = memory(run.pid)
            ask(b"abandon\n")
            begins, abandons = [], []
            for _ in range(turns):
                before = milliseconds(run.pid)
                ask(b"begin\n")
                begun = milliseconds(run.pid)
                ask(b"abandon\n")
                begins.append(begun - before)
                abandons.append(milliseconds(run.pid) - begun)
            row = (count, alone / 1e6, (within - alone) / 1e6, median(begins), max(begins), median(abandons))
            print("%8d %9.1f %9.1f %9.2f %9.2f %9.2f" % row, flush=True)
            run.stdin.close()


def main():
    reader = argparse.ArgumentParser(description=__doc__)
    reader.add_argument("program", help="the built program, as crates/rose/out/rose")
    reader.add_argument("--turns", type=int, default=20, help="how many groups are begun and given up")
    reader.add_argument("--folder", help="where the runs keep their files")
    chosen = reader.parse_args()
    print("segments  MB alone  MB begin  ms begin      most   abandon")
    for count in (1000, 10000, 50000, 100000):
        measure(os.path.abspath(chosen.program), count, chosen.turns, chosen.folder)


if __name__ == "__main__":
    main()
