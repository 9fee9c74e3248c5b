#!/usr/bin/env python3
"""Compares runs in rounds with the same runs without workers, outside the gate.

    python3 bench/rounds.py [PROGRAM] [--count]

PROGRAM is the built `asc`, crates/asc_cli/out/asc_cli where it is not given. `collatz_chunks` runs at its best address with
`--report`, by `--ahead 4` and `--ahead 16`, with one kind of guess and with both, and in rounds with 1, 2 and 3 workers. A
report that differs from that without workers ends the script.

It prints seconds by the clock, the least of five, how many times as fast a run in rounds is, and its processor's seconds
beside those without workers: a lane that waited busily would raise these.

Then it prints how many times as fast the first round is, which has a job for each visit ahead: what a run takes that ends
with its second visit, less one without guesses. By `--laps 4` and `--laps 16` these jobs last longer.

With --count it prints the processor's instructions of `collatz`, as `valgrind --tool=callgrind` counts them, and how many
more a run in rounds takes for each guess.
"""

import sys

sys.dont_write_bytecode = True

import harness

# What is timed and what is counted: a program and its input.
TIMED, COUNTED = ("collatz_chunks", b"50000\n"), ("collatz", b"2000\n")


def same_report(run, alone):
    """This run, if it reported what the one without workers did."""
    return run if run.stderr == alone.stderr else harness.end(f"{run.line}: another report than {alone.line}")


def run_of(words, text, alone=None):
    """The one of five runs that took least by the clock. Its report is that of this other run."""
    run = harness.least(5, "seconds", words, ends=(0, 75), wide=True, input=text)
    return run if alone is None or run.stderr == alone.stderr else harness.end(f"{run.line}: another report")


def in_rounds(words, workers):
    return [*words, "--workers", workers, "--rounds"]


def second_visit(words, text):
    """How many steps a run has to do at least, so that it has a second visit."""
    def has_two(steps):
        run = harness.well([*words, "--guess", "none", "--steps", steps], ends=(0, 75), input=text)
        return harness.numbers_of(run)["asked"] >= 2

    low, high = 0, 2**10
    while not has_two(high):
        low, high = high + 1, 2 * high
    while low < high:
        middle = (low + high) // 2
        low, high = (low, middle) if has_two(middle) else (middle + 1, high)
    return low


def timed(words, guess, text):
    """The row of a run."""
    words = [*words, "--guess", guess]
    alone = run_of(words, text)
    row = f"{alone.seconds:8.3f} s"
    for workers in (1, 2, 3):
        run = run_of(in_rounds(words, workers), text, alone)
        row += f"{alone.seconds / run.seconds:8.2f}, {run.processor / alone.processor:.2f}"
    return row


def first_round(words, laps, text):
    """The row of a first round, whose jobs go over so many laps."""
    limited = [*words, "--steps", second_visit(words, text)]
    plain = run_of([*limited, "--guess", "none"], text).seconds
    limited += ["--laps", laps, "--span", 10**9]
    alone = run_of(limited, text)
    row = f"{1000 * (alone.seconds - plain):8.1f} ms"
    for workers in (1, 2, 3):
        run = run_of(in_rounds(limited, workers), text, alone)
        row += f"{(alone.seconds - plain) / (run.seconds - plain):8.2f}"
    return row


def counted(words, guess, text):
    """The row of a run's instructions."""
    words = [*words, "--guess", guess]
    alone = harness.callgrind(words, wide=True, input=text)
    row = f"{alone.instructions / 1e6:10.1f}"
    for workers in (1, 3):
        more = harness.instructions(in_rounds(words, workers), wide=True, input=text) - alone.instructions
        row += f"{more / harness.numbers_of(alone)['made']:10.0f} a guess"
    return row


def main():
    program, counts = harness.asc(*harness.asked(__doc__, 1, "--count")), "--count" in sys.argv
    (name, text), row = (COUNTED, counted) if counts else (TIMED, timed)
    address, memory = harness.PLACES[name]
    harness.print_load("beginning")
    for guess in ("stride", "both"):
        for ahead in ("4", "16"):
            words = [program, "run", harness.IMAGES / name, "--memory", memory, "--pc", address, "--report", "--ahead",
                     ahead]
            print(f"{name:15} --guess {guess:7}--ahead {ahead:4}{row(words, guess, text)}", flush=True)
    if not counts:
        words = [program, "run", harness.IMAGES / name, "--memory", memory, "--pc", address, "--report"]
        for ahead in ("4", "16"):
            for laps in ("1", "4", "16"):
                row = first_round([*words, "--ahead", ahead], laps, text)
                print(f"{name:15} first round, --ahead {ahead:4}--laps {laps:4}{row}", flush=True)
    harness.print_load("end")


if __name__ == "__main__":
    main()
