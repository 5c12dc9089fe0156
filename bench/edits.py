#!/usr/bin/env python3
"""Tries the edits of more-edits/, which the gate leaves out: the check has to refuse each. See README.md."""
import argparse
import os
import re
import shutil
import subprocess
import sys
import tempfile

TOP = os.path.dirname(os.path.dirname(os.path.abspath(__file__)))
TOLD = re.compile(r"must-fail (\w+)/([\w.-]+)\.edit: (refused|NOT REFUSED|BAD EDIT|NOT TRIED)(.*)")
MOST_SHOWN = 160


def edits_of(name):
    """The names of the edits of this crate's more-edits/."""
    folder = os.path.join(TOP, "crates", name, "more-edits")
    if not os.path.isdir(folder):
        return []
    return sorted(file[:-len(".edit")] for file in os.listdir(folder) if file.endswith(".edit"))


def copy_checkout(folder):
    """Copies what a check reads, and puts the edits of each more-edits/ in place of those that the gate tries."""
    left_out = shutil.ignore_patterns("out", "must-fail")
    shutil.copytree(os.path.join(TOP, "crates"), os.path.join(folder, "crates"), ignore=left_out)
    for file in ("crates.txt", "HANDLES"):
        shutil.copy(os.path.join(TOP, file), folder)
    for name in os.listdir(os.path.join(folder, "crates")):
        more = os.path.join(folder, "crates", name, "more-edits")
        if os.path.isdir(more):
            os.rename(more, os.path.join(folder, "crates", name, "must-fail"))


def run(words, folder):
    """The status of a command, and all that it wrote."""
    done = subprocess.run(words, cwd=folder, stdout=subprocess.PIPE, stderr=subprocess.STDOUT, text=True, check=False)
    return done.returncode, done.stdout


def outcomes(name, folder):
    """What came of each edit of this crate, with why: the crate itself must be proved first."""
    status, said = run(["rt", "check"], os.path.join(folder, "crates", name))
    if status != 0:
        last = said.strip().split("\n")[-1]
        return {edit: ("NOT TRIED", f": the crate isn't proved: {last}") for edit in edits_of(name)}
    _, said = run(["rt", "must-fail", name], folder)
    told = {edit: (outcome, why) for crate, edit, outcome, why in TOLD.findall(said) if crate == name}
    return {edit: told.get(edit, ("NOT TRIED", ": rt must-fail said nothing of it")) for edit in edits_of(name)}


def main():
    parser = argparse.ArgumentParser()
    parser.add_argument("names", metavar="NAME", nargs="*", help="crates; all that have more-edits/ where none is given")
    names = parser.parse_args().names or sorted(os.listdir(os.path.join(TOP, "crates")))
    unknown = [name for name in names if not os.path.isdir(os.path.join(TOP, "crates", name))]
    if unknown:
        parser.error("no crate: " + " ".join(unknown))
    refused, tried = 0, 0
    with tempfile.TemporaryDirectory(prefix="more-edits-") as folder:
        copy_checkout(folder)
        for name in filter(edits_of, names):
            for edit, (outcome, why) in outcomes(name, folder).items():
                print(f"{name}/{edit}: {outcome}{why[:MOST_SHOWN]}", flush=True)
                tried += 1
                refused += outcome == "refused"
    print(f"{refused} of {tried} edits refused")
    return 0 if refused == tried else 1


if __name__ == "__main__":
    sys.exit(main())
