#!/usr/bin/env python3
"""Looks whether a folder that one program has open is refused to every other, and free once that one has ended. See README.md."""
import argparse
import os
import subprocess
import tempfile

LINE, REPLY = b"point 1 1\n", b"ok 1 steps 0 first 1 new 0\n"
NEXT_LINE, NEXT_REPLY = b"point 2 2\n", b"ok 2 steps 0 first 1 new 0\n"
REFUSED = (4, b"", b"rose: disk fault\n")
AT_ONCE = 16


def started(program, folder):
    """A run that waits for its next line."""
    run = subprocess.Popen([program, "run"], cwd=folder, stdin=subprocess.PIPE, stdout=subprocess.PIPE, stderr=subprocess.PIPE)
    try:
        run.stdin.write(LINE)
        run.stdin.flush()
    except BrokenPipeError:
        pass
    return run


def end_of_input(run):
    run.stdin.close()


def kill(run):
    run.kill()


def ended(program, folder, words, lines=b""):
    """The status of a whole run, and all that it gave and said."""
    done = subprocess.run([program, *words], cwd=folder, input=lines, stdout=subprocess.PIPE, stderr=subprocess.PIPE, check=False)
    return done.returncode, done.stdout, done.stderr


def files_of(folder):
    files = {}
    for name in sorted(os.listdir(folder)):
        with open(os.path.join(folder, name), "rb") as file:
            files[name] = file.read()
    return files


def expect(what, found, wanted):
    if found != wanted:
        raise SystemExit(f"{what}: {found!r} and not {wanted!r}")


def one_after_another(program, folder, end):
    """A first run, which others meet, and one behind its end."""
    first = started(program, folder)
    expect("the first run", first.stdout.readline(), REPLY)
    files = files_of(folder)
    for words in (["run"], ["check"], ["ship", "0"], ["certify"], ["follow"]):
        expect(f"a second program, {words}", ended(program, folder, words, NEXT_LINE), REFUSED)
    expect("a second program, gen", ended(program, folder, ["gen", "1", "7"])[0], 0)
    expect("the files", files_of(folder), files)
    end(first)
    first.wait()
    expect(f"a run behind {end.__name__}", ended(program, folder, ["run"], NEXT_LINE), (0, NEXT_REPLY, b""))


def all_at_once(program, folder):
    """Many runs in a folder without files: one has to go on."""
    runs = [started(program, folder) for _ in range(AT_ONCE)]
    replies = sorted(run.stdout.readline() for run in runs)
    expect("many at once", replies, [b""] * (AT_ONCE - 1) + [REPLY])
    for run in runs:
        run.communicate()
    expect("their ends", sorted(run.returncode for run in runs), [0] + [REFUSED[0]] * (AT_ONCE - 1))


def main():
    parser = argparse.ArgumentParser()
    parser.add_argument("program")
    parser.add_argument("--rounds", type=int, default=20)
    parser.add_argument("--folder", help="where the files are put")
    words = parser.parse_args()
    program = os.path.abspath(words.program)
    for _ in range(words.rounds):
        for check in (all_at_once, lambda *where: one_after_another(*where, end_of_input), lambda *where: one_after_another(*where, kill)):
            with tempfile.TemporaryDirectory(dir=words.folder) as folder:
                check(program, folder)
    print(f"{words.rounds} rounds: each second program was refused, of {AT_ONCE} at once one went on, and a killed one held nothing")


if __name__ == "__main__":
    main()
