#!/usr/bin/env python3
"""Spoils made certificates at every line in many ways, and compares what `rose audit` replies with what a checker of its own does, which
reads the written rules. See README.md."""
import argparse
import collections
import concurrent.futures
import functools
import os
import random
import subprocess
import tempfile

import certificate_checker
import certificates
import rules

LEFT = "certificate.txt"
# Numbers at which something ends.
RIMS = [0, 1, 2 ** 28 - 1, 2 ** 28, rules.SIDE - 1, rules.SIDE, 2 ** 31, 2 ** 32 - 1, 2 ** 32, 2 ** 63, 2 ** 64, 10 ** 19 - 1, 10 ** 19]
WORDS = [*certificate_checker.FORMS, b"points", b"delete", b""]


# ---- ways to spoil a line: each answers the lines that come in its place, or none where there is no such way
def with_token(line, chance, change):
    """The line with one of its numbers changed."""
    tokens = line.split(b" ")
    if len(tokens) < 2:
        return None
    at = chance.randrange(1, len(tokens))
    tokens[at] = change(tokens[at])
    return [b" ".join(tokens)]


def by_one(line, others, chance):
    return with_token(line, chance, lambda n: b"%d" % max(0, int(n) + chance.choice([-1, 1])))


def other_number(line, others, chance):
    """One of another line, a small one, any one of the grid, or one at a rim."""
    there = [int(token) for token in chance.choice(others).split(b" ")[1:]]
    found = chance.choice([chance.choice(there or [0]), chance.randrange(64), chance.randrange(rules.SIDE), chance.choice(RIMS)])
    return with_token(line, chance, lambda n: b"%d" % found)


def leading_zero(line, others, chance):
    return with_token(line, chance, lambda n: b"0" + n)


def dropped(line, others, chance):
    return []


def repeated(line, others, chance):
    return [line, line]


def token_too_many(line, others, chance):
    tokens = line.split(b" ")
    tokens.insert(chance.randint(1, len(tokens)), chance.choice(tokens))
    return [b" ".join(tokens)]


def token_too_few(line, others, chance):
    tokens = line.split(b" ")
    del tokens[chance.randrange(len(tokens))]
    return [b" ".join(tokens)]


def point_more(line, others, chance):
    return [line + b" %d %d" % (chance.randrange(64), chance.randrange(64))]


def points_swapped(line, others, chance):
    """Two neighbouring points, as those of a segment, or halves of two."""
    tokens = line.split(b" ")
    if len(tokens) < 5:
        return None
    at = chance.randrange(1, len(tokens) - 3)
    tokens[at:at + 4] = tokens[at + 2:at + 4] + tokens[at:at + 2]
    return [b" ".join(tokens)]


def other_word(line, others, chance):
    return [b" ".join([chance.choice(WORDS), *line.split(b" ")[1:]])]


def other_byte(line, others, chance):
    at = chance.randrange(len(line))
    return [line[:at] + bytes([chance.choice([9, 10, 13, 32, 48, 0, 255, chance.randrange(256)])]) + line[at + 1:]]


def space_more(line, others, chance):
    at = chance.choice([i for i in range(len(line) + 1) if i in (0, len(line)) or line[i] == 32])
    return [line[:at] + b" " + line[at:]]


def other_line(line, others, chance):
    """One from elsewhere before it."""
    return [chance.choice(others), line]


WAYS = [by_one, other_number, leading_zero, dropped, repeated, token_too_many, token_too_few, point_more, points_swapped, other_word,
        other_byte, space_more, other_line]


def spoilt(lines, chance, most):
    """The certificate spoilt in each way at each line, or at so many; for each the way, the number of the line, and the text."""
    # the last line needn't end with a line feed
    yield "feed_lost", len(lines), text_of(lines)[:-1]
    for at in sorted(chance.sample(range(len(lines)), min(most, len(lines)))):
        line = lines[at]
        for way in WAYS:
            new = way(line, lines, chance)
            if new is not None:
                yield way.__name__, at + 1, text_of(lines[:at] + new + lines[at + 1:])
        if at + 1 < len(lines):
            yield "swapped", at + 1, text_of(lines[:at] + [lines[at + 1], line] + lines[at + 2:])
        yield "cut_off", at + 1, text_of(lines[:at])


def text_of(lines):
    return b"".join(line + b"\n" for line in lines)


# ---- comparing
def asked(program, folder, text):
    """The status of `rose audit`, and all that it gave and said."""
    done = subprocess.run([program, "audit"], cwd=folder, input=text, capture_output=True, check=False)
    return done.returncode, done.stdout, done.stderr


def judged(text):
    """The same by the rules."""
    return 0, certificate_checker.verdict(certificate_checker.lines_of(text)).encode() + b"\n", b""


def told_by(lines):
    """The reply to a certificate as it was made: its changes and its steps."""
    words = [line.split(b" ")[0] for line in lines]
    steps = sum(words.count(word) for word in (b"split", b"meet", b"corner"))
    return 0, f"sound {words.count(b'change')} {steps}\n".encode(), b""


def outcome(reply, at):
    """Where a certificate fails that was spoilt at this line."""
    word, number = reply.split()[:2]
    if word == b"sound":
        return "sound"
    return "at the line" if int(number) == at else "before it" if int(number) < at else "behind it"


OUTCOMES = ["sound", "before it", "at the line", "behind it"]


def compare(options, folder, number):
    """Makes a certificate and spoils it. Answers how often each way led to each outcome, and the first text whose replies differ, if
    there is one, with the reply that was found and the one that was wanted."""
    tally, chance = collections.Counter(), random.Random(f"{options.seed} {number}")
    lines = certificates.certificate(chance, options.changes, options.shape)
    if judged(text_of(lines)) != told_by(lines):
        return tally, (text_of(lines), judged(text_of(lines)), told_by(lines))
    for way, at, text in [("unspoilt", 0, text_of(lines)), *spoilt(lines, chance, options.lines)]:
        wanted = judged(text)
        found = asked(options.program, folder, text) if options.program else wanted
        if found != wanted:
            return tally, (text, found, wanted)
        tally[way, outcome(wanted[1], at)] += 1
    return tally, None


def compare_all(options, folder):
    """The tallies of all certificates together. Ends at the first difference, and leaves its text."""
    tally = collections.Counter()
    with concurrent.futures.ProcessPoolExecutor(options.processes) as pool:
        for part, difference in pool.map(functools.partial(compare, options, folder), range(options.certificates)):
            tally += part
            if difference:
                pool.shutdown(wait=False, cancel_futures=True)
                text, found, wanted = difference
                with open(LEFT, "wb") as out:
                    out.write(text)
                raise SystemExit(f"{LEFT} is answered {found!r} and not {wanted!r}")
    return tally


def show(tally):
    print("spoilt        " + "".join(f"{name:>13}" for name in OUTCOMES))
    for way in sorted({way for way, _ in tally}):
        print(f"{way:14}" + "".join(f"{tally[way, name]:13}" for name in OUTCOMES))


def main():
    parser = argparse.ArgumentParser(description=__doc__)
    parser.add_argument("program", nargs="?", help="a built program; none with --own")
    parser.add_argument("--own", action="store_true", help="the rules alone are read")
    parser.add_argument("--certificates", type=int, default=50)
    parser.add_argument("--changes", type=int, default=6, help="of each certificate")
    parser.add_argument("--shape", choices=certificates.SHAPES, help="none: one by chance for each certificate")
    parser.add_argument("--lines", type=int, default=2 ** 30, help="how many of each are spoilt, at most")
    parser.add_argument("--seed", type=int, default=1)
    parser.add_argument("--processes", type=int, default=2)
    options = parser.parse_args()
    if bool(options.program) == options.own:
        parser.error("either a program or --own")
    if options.program:
        options.program = os.path.abspath(options.program)
    with tempfile.TemporaryDirectory() as folder:
        tally = compare_all(options, folder)
        if os.listdir(folder):
            raise SystemExit("a file was left")
    show(tally)
    done = "compared" if options.program else "judged"
    print(f"{options.certificates} certificates, {sum(tally.values()) - options.certificates} spoilt ones: all {done} as written")


if __name__ == "__main__":
    main()
