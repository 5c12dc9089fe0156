#!/usr/bin/env python3
"""A bad way from a primary to its standby: takes frames from the input and gives them on, but loses some, gives some again, also
those of earlier runs, and lets some wait behind others. See standby.sh.

standby_filter.py SEED POOL: the file POOL keeps the last frames that were sent this way. At the end it tells on standard error how many
frames came, how many of them were states, and how many were lost, given again, and let wait."""
import random
import sys
import time

LOST, AGAIN, WAITS = 0.1, 0.3, 0.1
# Seconds before a frame goes on, at most: so that a kill finds the next program between two frames as well as within one.
PAUSE = 0.004
REMEMBERED = 200


class Way:
    def __init__(self, seed, sent):
        self.chance, self.sent, self.waiting = random.Random(seed), sent, []
        self.counts = {"frames": 0, "states": 0, "lost": 0, "again": 0, "waiting": 0}

    def happens(self, what, often):
        happened = self.chance.random() < often
        self.counts[what] += happened
        return happened

    def give(self, frame):
        time.sleep(self.chance.uniform(0, PAUSE))
        sys.stdout.buffer.write(frame)
        sys.stdout.buffer.flush()

    def take(self, frame):
        self.sent.append(frame)
        self.counts["frames"] += 1
        self.counts["states"] += frame.startswith(b"snap")
        if self.happens("lost", LOST):
            return
        if self.happens("waiting", WAITS):
            self.waiting.append(frame)
            return
        self.give(frame)
        if self.happens("again", AGAIN):
            self.give(self.chance.choice(self.sent))
        if self.waiting and self.chance.random() < 0.5:
            self.give(self.waiting.pop(0))

    def carry(self, frames):
        for frame in frames:
            if frame.endswith(b"\n"):
                self.take(frame)
            else:
                # It was cut off, as by a kill, and is the last.
                self.waiting.append(frame)
        for frame in self.waiting:
            self.give(frame)


def main():
    seed, name = sys.argv[1:]
    with open(name, "a+b") as pool:
        pool.seek(0)
        way = Way(seed, pool.readlines())
        try:
            way.carry(sys.stdin.buffer)
        except BrokenPipeError:
            sys.stdout = None
        pool.truncate(0)
        pool.writelines(way.sent[-REMEMBERED:])
    print(*(f"{count} {what}" for what, count in way.counts.items()), sep=", ", file=sys.stderr)


if __name__ == "__main__":
    main()
