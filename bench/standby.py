#!/usr/bin/env python3
"""Times how a standby takes changes, each a record, beside the commits of `rose run` that made them, and how a whole state is shipped
and taken. See README.md."""
import argparse
import os
import tempfile

from reopening import FIELDS, Run, run_lines


def show(what, count, length, run):
    print(f"{what:16} {count:8} {length / 1e6:8.2f} {run.passed:8.2f} {run.worked:8.2f} {run.memory / 1e6:8.1f}"
          f" {count / run.passed:9.0f}", flush=True)


def map_of(folder, program, lines, count):
    """A new folder in which these lines were drawn, and their run."""
    os.mkdir(folder)
    drawn = run_lines(program, folder, lines)
    if drawn.output.count(b"ok ") != count:
        raise SystemExit(f"not all {count} changes were accepted")
    return drawn


def sent(program, primary, follower, what, count):
    """Ships all that a folder has, and lets a new one follow. Both runs are shown."""
    given = Run(program, "ship 0", primary)
    show(f"ship {what}", count, len(given.output), given)
    os.mkdir(follower)
    taken = run_lines(program, follower, [given.output], "follow")
    show(f"follow {what}", count, len(given.output), taken)
    if not taken.output.endswith(b"ack %d\n" % count):
        raise SystemExit(f"the last answers are {taken.output[-60:]!r}")
    if Run(program, "check", follower).output != Run(program, "check", primary).output:
        raise SystemExit("the standby has another map")


def main():
    reader = argparse.ArgumentParser(description=__doc__)
    reader.add_argument("program", help="a built program, as crates/rose/out/rose")
    reader.add_argument("--records", type=int, default=20000, help="how many points, each a commit and a frame")
    reader.add_argument("--state", type=int, default=100000, help="how many segments the state has that is one frame")
    reader.add_argument("--folder", help="where the files are put")
    words = reader.parse_args()
    program = os.path.abspath(words.program)
    print("what              changes       MB   passed   worked   memory  a second")
    with tempfile.TemporaryDirectory(dir=words.folder) as folder:
        at = lambda name: os.path.join(folder, name)
        show("commits", words.records, 0, map_of(at("points"), program, FIELDS["points"](words.records), words.records))
        sent(program, at("points"), at("points.standby"), "records", words.records)
        map_of(at("sparse"), program, FIELDS["sparse"](words.state), words.state)
        run_lines(program, at("sparse"), [b"checkpoint\n"])
        sent(program, at("sparse"), at("sparse.standby"), "a state", words.state)


if __name__ == "__main__":
    main()
