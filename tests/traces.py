#!/usr/bin/env python3
"""Makes traces of 300,000 events, always the same bytes, over which tests/instructions.py counts.

usage: tests/traces.py FOLDER

For each kind FOLDER gets KIND.1, a trace of version 1, KIND.txt, the same as text, and KIND.later.1, another run of that
kind. The kinds are about those of bench/generate.rs:

fib      the recursive function: a spawn of fib(n - 1), a call of fib(n - 2), a sync
loop     a parallel loop that divides its range in halves, each step a call of a leaf
wide     loops that spawn 5,000 children one after the other, each with a sync at its end
deep     three towers of nested frames: spawned are each 1000th of the first, each second of the second, all of the third
sites    a random tree of depth up to 200, whose frames are of 60,000 functions and entered by 60,000 sites
random   a random tree of depth up to 60, of 8 functions and by 16 sites
"""
import multiprocessing
import os
import struct
import sys

EVENTS = 300_000
MASK = 2**32 - 1

# The tags of events.
STRAND, CALL, SPAWN, RETURN, SYNC = range(5)
LINES = ["strand {1}\n", "call {0} {1}\n", "spawn {0} {1}\n", "return\n", "sync\n"]


class Trace:
    """The events of a trace while it's made: of each the tag, the site, and the function or count."""

    def __init__(self, seed):
        self.events = []
        self.depth = 0
        self.state = seed * 0x9E3779B1 & MASK

    def below(self, n):
        """A random number below n (xorshift)."""
        x = self.state
        x ^= (x << 13) & MASK
        x ^= x >> 17
        self.state = x = x ^ (x << 5) & MASK
        return x * n >> 32

    def left(self):
        """How many events may still come."""
        return EVENTS - len(self.events)

    def strand(self, low, high):
        """A strand of `low` instructions or more, and fewer than `high`."""
        self.events.append((STRAND, 0, low + self.below(high - low)))

    def call(self, site, function):
        self.events.append((CALL, site, function))
        self.depth += 1

    def spawn(self, site, function):
        self.events.append((SPAWN, site, function))
        self.depth += 1

    def end(self):
        self.events.append((RETURN, 0, 0))
        self.depth -= 1

    def sync(self):
        self.events.append((SYNC, 0, 0))


def fib(trace):
    # how many events a frame of fib(n) has within
    sizes = [1, 1]
    while sizes[-1] < EVENTS:
        sizes.append(sizes[-1] + sizes[-2] + 7)
    while trace.left() >= 4:
        trace.call(2, 1)
        fib_frame(trace, max(n for n, size in enumerate(sizes) if size + 2 <= trace.left()))
        trace.end()
        trace.strand(1, 10)


def fib_frame(trace, n):
    if n < 2:
        trace.strand(5, 25)
        return
    trace.strand(10, 20)
    trace.spawn(0, 1)
    fib_frame(trace, n - 1)
    trace.end()
    trace.call(1, 1)
    fib_frame(trace, n - 2)
    trace.end()
    trace.sync()
    trace.strand(5, 8)


def loop(trace):
    trace.call(3, 1)
    # k steps have 4 k + 5 (k - 1) events
    half(trace, (trace.left() - 2 + 5) // 9)
    trace.end()


def half(trace, steps):
    if steps == 1:
        trace.strand(2, 5)
        trace.call(2, 2)
        trace.strand(50, 150)
        trace.end()
        return
    trace.spawn(0, 1)
    half(trace, steps // 2)
    trace.end()
    trace.call(1, 1)
    half(trace, steps - steps // 2)
    trace.end()
    trace.sync()


def wide(trace):
    while trace.left() >= 5:
        for _ in range(min(5_000, (trace.left() - 1) // 4)):
            trace.spawn(trace.below(2), 1)
            trace.strand(100, 1100)
            trace.end()
            trace.strand(1, 4)
        trace.sync()


def deep(trace):
    for spawned in (1000, 2, 1):
        height = (EVENTS // 3 - 1) // 4
        for level in range(1, height + 1):
            if level % spawned == 0:
                trace.spawn(2, 2)
            else:
                trace.call(level % 2, 1 + level % 2)
            trace.strand(1, 10)
        for _ in range(height):
            trace.strand(0, 10)
            trace.end()
        trace.sync()


def sites(trace):
    tree(trace, 200, 60_000, 60_000)


def random(trace):
    tree(trace, 60, 16, 8)


def tree(trace, most, sites, functions):
    """A random walk up and down a tree of frames, at most `most` deep."""
    for left in range(EVENTS, 0, -1):
        step = trace.below(32)
        # each open frame needs an event that closes it
        if left == trace.depth or 10 <= step < 20 and trace.depth > 0:
            trace.end()
        elif step < 10 and trace.depth < most and left > trace.depth + 1:
            (trace.call if step < 5 else trace.spawn)(trace.below(sites), trace.below(functions))
        elif step < 22:
            trace.sync()
        else:
            trace.strand(0, 1000)


# What makes the events of each kind, how many functions it has and how many sites.
KINDS = {
    "fib": (fib, 2, 3),
    "loop": (loop, 3, 4),
    "wide": (wide, 2, 2),
    "deep": (deep, 3, 3),
    "sites": (sites, 60_000, 60_000),
    "random": (random, 8, 16),
}


def made(kind, seed):
    """The names of the functions, those of the sites, and the events."""
    make, functions, sites = KINDS[kind]
    trace = Trace(seed)
    make(trace)
    while trace.left() > 0:
        trace.strand(1, 10)
    assert trace.left() == 0 and trace.depth == 0
    return [f"function{n}" for n in range(functions)], [f"{kind}.c:{n}" for n in range(sites)], trace.events


def version_1(functions, sites, events):
    """The bytes of the trace."""
    record = struct.Struct(">IIQ").pack
    parts = [b"SPTRACE1", struct.pack(">IIII", len(functions), len(sites), 0, len(events))]
    parts += [struct.pack(">H", len(name)) + name.encode("ascii") for name in functions + sites]
    parts += [record(tag << 24, site, number << 32 if tag in (CALL, SPAWN) else number) for tag, site, number in events]
    return b"".join(parts)


def text(functions, sites, events):
    """The bytes of its text."""
    parts = [f"func {name}\n" for name in functions] + [f"site {name}\n" for name in sites]
    parts += [LINES[tag].format(site, number) for tag, site, number in events]
    return "".join(parts).encode("ascii")


def write(folder, name, data):
    with open(os.path.join(folder, name), "wb") as file:
        file.write(data)


def write_run(folder, kind, later):
    run = made(kind, 2 if later else 1)
    if later:
        write(folder, f"{kind}.later.1", version_1(*run))
    else:
        write(folder, f"{kind}.1", version_1(*run))
        write(folder, f"{kind}.txt", text(*run))


def write_all(folder):
    with multiprocessing.Pool(4) as pool:
        pool.starmap(write_run, [(folder, kind, later) for kind in KINDS for later in (False, True)])


if __name__ == "__main__":
    if len(sys.argv) != 2:
        sys.exit(__doc__)
    write_all(sys.argv[1])
