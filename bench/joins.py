#!/usr/bin/env python3
"""Compares runs with and without `--join`, outside the gate.

    python3 bench/joins.py [PROGRAM] [--count]

PROGRAM is the built `asc`, crates/asc_cli/out/asc_cli where it is not given. Four examples run at their best addresses,
without workers by `--ahead 1` and `--ahead 4`, and with `--ahead 16 --queue 6 --workers 3`.

For each it prints, without joins and with them, the jumps, the visits and the share of the steps that was jumped over, and
the seconds by the clock, the least of five.

With --count it prints of the runs without workers the processor's instructions, as `valgrind --tool=callgrind` counts them:
of a run without joins and with them, in millions, and how many more the latter takes for each guess of the former. In these
are the searches and joins, and the steps that are jumped over more or less.
"""

import sys

sys.dont_write_bytecode = True

import harness

# Each program with its input.
CASES = {"collatz": "20000\n", "collatz_chunks": "20000\n", "matrix": "64\n", "ising": "200 32 1\n"}

ALONE = [["--ahead", "1"], ["--ahead", "4"]]
BESIDE = ["--ahead", "16", "--queue", "6", "--workers", "3"]

def timed(words, text):
    """What a run reports, and its seconds, the least of five."""
    run = harness.least(5, "seconds", words, wide=True, input=text)
    told = harness.numbers_of(run)
    share = 100 * told["skipped"] / (told["executed"] + told["skipped"])
    return f"{told['hits']:>8} of {told['asked']:<6}{share:6.1f} %{run.seconds:8.3f} s"

def counted(words, text):
    """The instructions of a run without joins and with them, and how many more a guess takes."""
    run = harness.callgrind(words, wide=True, input=text)
    without, made = run.instructions, harness.numbers_of(run)["made"]
    joined = harness.instructions([*words, "--join"], wide=True, input=text)
    return f"{without / 1e6:12.1f}{joined / 1e6:12.1f}{(joined - without) / made:12.0f} a guess"

def main():
    program, counts = harness.asc(*harness.asked(__doc__, 1, "--count")), "--count" in sys.argv
    for name, text in CASES.items():
        address, memory = harness.PLACES[name]
        words = [program, "run", harness.IMAGES / name, "--memory", memory, "--pc", address, "--report"]
        text = text.encode()
        for options in ALONE if counts else [*ALONE, BESIDE]:
            told = words + options
            result = counted(told, text) if counts else timed(told, text) + timed([*told, "--join"], text)
            print(f"{name:15}{' '.join(options):38}{result}", flush=True)

if __name__ == "__main__":
    main()
