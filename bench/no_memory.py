#!/usr/bin/env python3
"""Refuses memory to `rose run` at each request in turn, and looks how it ends and what it leaves. See README.md."""
import argparse
import collections
import os
import re
import subprocess
import tempfile

LINES = [b"segment 0 0 3 1\ncheckpoint\nsegment 0 1 3 0\nrealm\n",
         b"point 9 9\nbegin\nsegment 0 0 3 1\nsegment 0 1 3 0\ncommit\nbegin\nunpoint 9 9\nabandon\nrealm\n"]
# The statuses of a source fault, a sink fault, a disk fault and want of memory.
FAULTS = (2, 3, 4, 6)

# Counts the requests for memory from the start of the program on, and refuses those from one number to another. How many
# there were is written to a file at the end.
REFUSER = r"""
#include <errno.h>
#include <fcntl.h>
#include <stdatomic.h>
#include <stdio.h>
#include <stdlib.h>
#include <sys/syscall.h>
#include <unistd.h>

extern void *__libc_malloc(size_t);
extern void *__libc_calloc(size_t, size_t);
extern void *__libc_realloc(void *, size_t);

static atomic_long requests;
static long from, to;

static long number(const char *name) {
    const char *text = getenv(name);
    return text == NULL ? 0 : atol(text);
}

__attribute__((constructor)) static void begin(void) {
    from = number("REFUSE_FROM");
    to = number("REFUSE_TO");
    requests = 0;
}

static void leave(int status) {
    syscall(SYS_exit_group, status);
    __builtin_unreachable();
}

static void tell(void) {
    const char *name = getenv("REQUESTS");
    char text[32];
    from = 0;
    to = 0;
    if (name != NULL) {
        int file = open(name, O_WRONLY | O_CREAT | O_TRUNC, 0644);
        int size = snprintf(text, sizeof text, "%ld\n", (long)requests);
        if (file < 0 || write(file, text, size) != size) {
            leave(99);
        }
        close(file);
    }
}

__attribute__((destructor)) static void end(void) { tell(); }

/* A program may also end at once, and then nothing else is called. */
__attribute__((noreturn)) void _exit(int status) {
    tell();
    leave(status);
    __builtin_unreachable();
}

static int is_refused(void) {
    long request = atomic_fetch_add(&requests, 1) + 1;
    if (from <= request && request <= to) {
        errno = ENOMEM;
        return 1;
    }
    return 0;
}

void *malloc(size_t size) { return is_refused() ? NULL : __libc_malloc(size); }

void *calloc(size_t count, size_t size) { return is_refused() ? NULL : __libc_calloc(count, size); }

void *realloc(void *memory, size_t size) { return is_refused() ? NULL : __libc_realloc(memory, size); }
"""


class Runs:
    """Runs of the program, each in a new folder."""

    def __init__(self, program, folder, lines):
        self.program, self.folder, self.lines = program, folder, lines
        self.library, self.requests = os.path.join(folder, "refuser.so"), os.path.join(folder, "requests")
        source = os.path.join(folder, "refuser.c")
        with open(source, "w", encoding="ascii") as file:
            file.write(REFUSER)
        subprocess.run(["cc", "-O2", "-shared", "-fPIC", "-o", self.library, source], check=True)

    def run(self, first, last):
        """Refuses these requests: the status, what was given, what `check` then says, and how many requests there were."""
        words = {"LD_PRELOAD": self.library, "REQUESTS": self.requests, "REFUSE_FROM": str(first), "REFUSE_TO": str(last)}
        with tempfile.TemporaryDirectory(dir=self.folder) as place:
            done = subprocess.run([self.program, "run"], cwd=place, input=self.lines, stdout=subprocess.PIPE,
                                  stderr=subprocess.PIPE, env=dict(os.environ, **words), check=False)
            if not os.path.exists(self.requests):
                raise SystemExit(f"requests {first} to {last} refused: status {done.returncode}, and the program didn't end by itself")
            with open(self.requests, encoding="ascii") as file:
                requests = int(file.read())
            os.remove(self.requests)
            return done.returncode, done.stdout, self.check(place), requests

    def check(self, place):
        """What a later start finds."""
        done = subprocess.run([self.program, "check"], cwd=place, stdout=subprocess.PIPE, check=False)
        return done.stdout if done.returncode == 0 else b"status %d" % done.returncode

    def fronts(self):
        """What `check` says after each number of commits: of each line and those before it, by the first line of the reply."""
        found = {}
        for count in range(self.lines.count(b"\n") + 1):
            with tempfile.TemporaryDirectory(dir=self.folder) as place:
                front = b"".join(line + b"\n" for line in self.lines.split(b"\n")[:count])
                subprocess.run([self.program, "run"], cwd=place, input=front, stdout=subprocess.DEVNULL, check=True)
                told = self.check(place)
                found[int(re.match(rb"changes (\d+)\n", told).group(1))] = told
        return [found[changes] for changes in sorted(found)]


def begins_of(whole):
    """Where the replies to commits begin: to a change outside a group, and to the end of a group with a change."""
    begins, in_group = [], False
    for reply in re.finditer(rb"^ok (\d+ |begin|commit \d+|abandon)", whole, re.MULTILINE):
        word = reply.group(1)
        if word == b"begin":
            in_group = True
        elif word == b"abandon" or word == b"commit 0":
            in_group = False
        elif word.startswith(b"commit") or not in_group:
            in_group = False
            begins.append(reply.start())
    return begins


def refuse_in_turn(runs, whole, fronts, requests, one):
    """Refuses each request alone, or with all that come after it. How often the run ended with each status."""
    begins = begins_of(whole)
    ends = collections.Counter()
    for request in range(1, requests + 1):
        status, given, found, _ = runs.run(request, request if one else 1 << 62)
        where = f"request {request}{'' if one else ' and all after it'} refused: status {status}"
        if status not in FAULTS and (status, given) != (0, whole):
            raise SystemExit(where)
        if not whole.startswith(given):
            raise SystemExit(f"{where}, and {given!r} was given")
        begun = sum(begin < len(given) for begin in begins)
        if found not in fronts[begun:begun + 2]:
            raise SystemExit(f"{where}: {begun} replies to commits had begun, and what is found is {found!r}")
        ends[status] += 1
    return ends


def main():
    parser = argparse.ArgumentParser()
    parser.add_argument("program")
    parser.add_argument("--lines", help="a file with other lines")
    parser.add_argument("--folder", help="where the files are put")
    words = parser.parse_args()
    scenes = LINES
    if words.lines:
        with open(words.lines, "rb") as file:
            scenes = [file.read()]
    for lines in scenes:
        with tempfile.TemporaryDirectory(dir=words.folder) as folder:
            refuse_all(Runs(os.path.abspath(words.program), folder, lines))


def refuse_all(runs):
    """Refuses each request of a run in turn, in both ways."""
    status, whole, _, requests = runs.run(0, 0)
    if status != 0 or requests == 0:
        raise SystemExit(f"status {status} after {requests} requests, of which none was refused")
    fronts = runs.fronts()
    for one in (True, False):
        ends = refuse_in_turn(runs, whole, fronts, requests, one)
        shown = ", ".join(f"status {status} {count} times" for status, count in sorted(ends.items()))
        print(f"each of {requests} requests refused {'alone' if one else 'with all after it'}: {shown}; nothing was lost")


if __name__ == "__main__":
    main()
