#!/usr/bin/env python3
"""Counts what a job with its visit takes beside a plain lap, outside the gate.

    python3 bench/jobs.py [PROGRAM]

PROGRAM is the built `asc`, crates/asc_cli/out/asc_cli where it is not given. Instructions are the processor's, as
`valgrind --tool=callgrind` counts them, without those of a run of no step. Each run has no workers and `--ahead 1`.

For each example it prints the instructions of a plain lap: the steps that a jump skips, at a plain run's price. Then it
prints those of a job with its visit: what the run with guesses takes, without its executed steps at that price, shared
among the guesses. The last number is their ratio.
"""

import sys

sys.dont_write_bytecode = True

import harness

# Each program with its input.
CASES = {"matrix": "48\n", "ising": "60 32 1\n", "collatz_chunks": "3000\n"}

def numbers_of(program, name, text):
    """A plain lap and a job with its visit in instructions, how many visits there were, the laps outside of these, and the
    steps of a lap."""
    address, memory = harness.PLACES[name]
    def counted(*options):
        words = [program, "run", "--memory", memory, *options, harness.IMAGES / name]
        return harness.callgrind(words, ends=(0, 75), wide=True, input=text.encode())
    none, plain = counted("--steps", "0").instructions, counted().instructions
    guessed = counted("--ahead", "1", "--pc", address, "--report")
    told = harness.numbers_of(guessed)
    executed, skipped, hits = told["executed"], told["skipped"], told["hits"]
    price = (plain - none) / (executed + skipped)
    lap = price * skipped / hits
    job = (guessed.instructions - none - price * executed) / told["made"]
    return lap, job, told["asked"], (executed + skipped) * hits / skipped - told["asked"], skipped / hits


def main():
    program = harness.asc(*harness.asked(__doc__, 1))
    print(f"{'':16}{'plain lap':>12}{'job and visit':>16}{'r':>8}")
    for name, text in CASES.items():
        lap, job, *_ = numbers_of(program, name, text)
        print(f"{name:16}{lap:12.0f}{job:16.0f}{job / lap:8.2f}")

if __name__ == "__main__":
    main()
