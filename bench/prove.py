#!/usr/bin/env python3
"""Proves what the program stands on, crate by crate, several at once. Then `rt run` in crates/rose proves the rest. See README.md."""
import argparse
import concurrent.futures
import os
import pathlib
import re
import shutil
import subprocess
import sys
import tempfile
import time

HOME = pathlib.Path(__file__).resolve().parent.parent


def listed():
    """The rows of crates.txt by their crates, and of each crate those of this repository that it uses."""
    lines = (line.partition("#")[0].strip() for line in (HOME / "crates.txt").read_text().splitlines())
    rows = {re.match(r"\w+", line)[0]: line for line in lines if line}
    uses = {name: [word for word in line.partition(":")[2].split() if word in rows] for name, line in rows.items()}
    return rows, uses


def below(uses, top):
    """The crates that this one stands on."""
    found, left = set(), [top]
    while left:
        for name in uses[left.pop()]:
            if name not in found:
                found.add(name)
                left.append(name)
    return found


def size(name):
    """The bytes of the crate's code and proofs, which say roughly how long its check takes."""
    folder = HOME / "crates" / name
    return sum(file.stat().st_size for part in ("src", "proofs") for file in (folder / part).rglob("*") if file.is_file())


def lengths(uses, names):
    """Of each crate the size of the longest chain of crates from it up, each of which uses the one before."""
    users = {name: [user for user in names if name in uses[user]] for name in names}
    found = {}

    def length(name):
        if name not in found:
            found[name] = size(name) + max((length(user) for user in users[name]), default=0)
        return found[name]

    return {name: length(name) for name in names}


def lay_out(names, rows, folder):
    """Links these crates into a folder of their own: in one checkout `rt` works on one of crates that stand on each other."""
    (folder / "crates.txt").write_text("".join(rows[name] + "\n" for name in names))
    for part in (f"{name}/{part}" for name in names for part in ("src", "specs", "proofs", "out/rlib")):
        if (HOME / "crates" / part).is_dir():
            shutil.copytree(HOME / "crates" / part, folder / "crates" / part, symlinks=True, copy_function=os.link)


def prove(name, jobs, lower, rows):
    """Proves a crate and keeps its library; the seconds that took, the number of its functions, and what went wrong."""
    begun = time.monotonic()
    with tempfile.TemporaryDirectory(dir=HOME, prefix=".proving-") as folder:
        lay_out([*lower, name], rows, pathlib.Path(folder))
        crate = pathlib.Path(folder, "crates", name)
        done = subprocess.run(["rt", "lib", "--jobs", str(jobs)], cwd=crate, capture_output=True, text=True)
        functions = re.search(r"logic=proved functions=(\d+)", done.stdout)
        if done.returncode == 0 and functions:
            shutil.rmtree(HOME / "crates" / name / "out", ignore_errors=True)
            (crate / "out").rename(HOME / "crates" / name / "out")
    wrong = "" if done.returncode == 0 else (done.stdout + done.stderr)[-3000:]
    return time.monotonic() - begun, functions and functions[1], wrong


def clock(seconds):
    return "%d:%02d" % divmod(int(seconds), 60)


def main():
    parser = argparse.ArgumentParser(description=__doc__)
    parser.add_argument("--crate", default="rose", help="the crate whose lower crates are proved")
    parser.add_argument("--at-once", type=int, default=os.cpu_count(), help="crates that are proved at once; each may take 3 GB")
    options = parser.parse_args()
    rows, uses = listed()
    if options.crate not in uses:
        sys.exit(f"crates.txt has no crate {options.crate}")
    left = below(uses, options.crate)
    longest = lengths(uses, left)
    begun, proved, running, total = time.monotonic(), set(), {}, len(left)
    print(f"{total} crates, {options.at_once} at once", flush=True)
    with concurrent.futures.ThreadPoolExecutor(options.at_once) as workers:
        while left or running:
            ready = sorted((name for name in left if proved.issuperset(uses[name])), key=longest.get, reverse=True)
            head = max((longest[name] for name in [*left, *running.values()]), default=0)
            for name in ready[: options.at_once - len(running)]:
                # the longest chain alone decides when the last crate is proved, so its crate gets what others leave free
                free = options.at_once - len(running) - len(ready) + 1
                jobs = max(2, free) if longest[name] == head else 1
                left.remove(name)
                running[workers.submit(prove, name, jobs, below(uses, name), rows)] = name
            done, _ = concurrent.futures.wait(running, return_when=concurrent.futures.FIRST_COMPLETED)
            for one in done:
                name = running.pop(one)
                seconds, functions, wrong = one.result()
                if wrong:
                    left.clear()
                    sys.exit(f"{wrong}\n{name} isn't proved")
                proved.add(name)
                what = f"{functions} functions in {clock(seconds)}" if functions else "was proved before"
                print(f"{clock(time.monotonic() - begun):>6}  {len(proved)} of {total}  {name}: {what}", flush=True)


if __name__ == "__main__":
    main()
