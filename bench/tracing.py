#!/usr/bin/env python3
"""Times plain and traced steps, and what a tracer's calls cost, outside the gate.

    python3 bench/tracing.py [STEPS] [--count]

`programs/asc_tracing` is added to a copy of the crates under it in a temporary folder, proved and built there with
`rt run`, and run. STEPS is how many guest steps a run does, 10,000,000 where it is not given. The loops are those of
`loops.py` and two that touch more:

    ring     a store and a load of each word of 8192 bytes in turn, with an index that wraps
    scatter  a store and a load of words all over 8192 bytes

For each loop it prints the processor's time, the least of five runs: for a step of a `State` by `step_many`, for a step
of a trace of all steps, and for `start` of a tracer of a state of 1 MiB.

With --count it prints the processor's instructions, as `valgrind --tool=callgrind` counts them and independent of load,
and STEPS is 200,000 where it is not given: for a step of a `State` by `step_many`, and of a trace; and with traces of 1000
steps how many places they touch, and what they cost more a touched place for the first touch with `reset`, and for
`Entry::of`. Behind these stands what `matches` takes a read place of such an entry, and `put` a written one; what
`Entry::join` takes for one and the entry of the next 1000 steps, a place of the first; and what it takes where there is no
join, since both are one entry. A place in both lists of an entry counts twice there. Of the memory 480 KiB are used. Long
fills of the C library are counted as wide writes, and not byte by byte.
"""

import sys
import tempfile

sys.dont_write_bytecode = True

import harness
from loops import addi, counted, loops, lui, lw, op, sw

LINE = "asc_tracing: asc_traj asc_depvec asc_step asc_shape asc_outside"

def words_of_loops():
    """The names of the five loops, and the text of their words in the program."""
    ring = [addi(10, 10, 4), op(0, 7, 10, 10, 9), op(0, 0, 7, 8, 10), sw(5, 7, 0), lw(6, 7, 0)]
    named = loops(10 << 29)
    scatter = [
        op(0, 0, 7, 10, 10), op(0, 0, 7, 7, 7), op(0, 0, 10, 10, 7), addi(10, 10, 4), op(0, 7, 10, 10, 9),
        op(0, 0, 7, 8, 10), sw(5, 7, 0), lw(6, 7, 0),
    ]
    before = [lui(8, 0x20), lui(9, 2), addi(9, 9, -4)]
    named["ring"] = counted(1 << 30, before, ring)
    named["scatter"] = counted(1 << 30, before, scatter)
    words = ""
    for name, loop in named.items():
        words += "    &[" + ", ".join(f"0x{word:08X}" for word in loop) + f"], // {name}\n"
    return list(named), words.rstrip("\n")

PLAIN, RESET, START, ENTRY, STRIDE, COMPARE, PUT, JOIN, APART = range(9)
SPAN = 1000

def seconds(words):
    """The processor's seconds of a run, the least of five, and what it printed."""
    run = harness.least(5, "user", words)
    return run.user, run.stdout

def instructions(words):
    """The processor's instructions of a run, and what it printed."""
    run = harness.callgrind(words, wide=True)
    return run.instructions, run.stdout

def measure(path, names, cost, steps):
    """For each loop what runs cost beyond their beginning, as a call of what, rounds and span."""
    for loop, name in enumerate(names):
        def taken(what, rounds, span):
            all_of_it, shown = cost([path, loop, what, rounds, span])
            return all_of_it - cost([path, loop, what, 1, 1])[0], int(shown)
        yield name, taken(PLAIN, 1, steps)[0], taken(RESET, 1, steps)[0], taken

def alone(taken, what, rounds):
    """What one round costs a place, once the entry is made."""
    cost, places = taken(what, rounds + 1, SPAN)
    return (cost - taken(what, 1, SPAN)[0]) / rounds / places

def main():
    given, count = harness.asked(__doc__, 1, "--count"), "--count" in sys.argv
    steps = int(given[0]) if given else 200_000 if count else 10_000_000
    rounds = steps // SPAN
    with tempfile.TemporaryDirectory() as folder:
        names, words = words_of_loops()
        path = harness.build(LINE, folder, "0 0 1 1", COUNT=str(len(names)), WORDS=words)
        if count:
            print("          plain  traced   ratio  places  first and reset  Entry::of  first and start  of two"
                  "  matches  put  join  no join")
            for name, plain, traced, taken in measure(path, names, instructions, steps):
                reset, places = taken(RESET, rounds, SPAN)
                entry = taken(ENTRY, rounds, SPAN)[0]
                start = taken(START, rounds, SPAN)[0]
                stride = taken(STRIDE, rounds, SPAN)[0]
                compare, put, join = (alone(taken, what, rounds) for what in (COMPARE, PUT, JOIN))
                apart = (taken(APART, rounds + 1, SPAN)[0] - taken(APART, 1, SPAN)[0]) / rounds
                print(f"{name:8}{plain / steps:7.1f}{traced / steps:8.1f}{traced / plain:8.2f}{places:8}"
                      f"{(reset - traced) / rounds / places:17.1f}{(entry - reset) / rounds / places:11.1f}"
                      f"{(start - traced) / rounds / places:17.1f}{(stride - traced) / rounds / places:8.1f}"
                      f"{compare:9.1f}{put:5.1f}{join:6.1f}{apart:9.0f}")
            for what in (START, STRIDE):
                few, resets = (instructions([path, 0, done, 1000, 10])[0] - instructions([path, 0, done, 1, 10])[0]
                               for done in (what, RESET))
                print(f"start {what}: {(few - resets) / 999:.1f} more than reset, at 10 steps; a round {few / 999:.1f}")
        else:
            print("        plain ns traced ns   ratio  start us")
            for name, plain, traced, taken in measure(path, names, seconds, steps):
                start = taken(START, 10_000, 10)[0]
                print(f"{name:8}{plain / steps * 1e9:8.1f}{traced / steps * 1e9:10.1f}{traced / plain:8.2f}"
                      f"{start / 10_000 * 1e6:10.1f}")

if __name__ == "__main__":
    main()
