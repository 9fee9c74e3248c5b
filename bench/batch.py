#!/usr/bin/env python3
"""Compares a batch with the same runs one by one, outside the gate.

    python3 bench/batch.py [PROGRAM]

PROGRAM is the built `asc`, crates/asc_cli/out/asc_cli where it is not given. `primes`, whose runs do most of their work before
they read, and `collatz_chunks`, whose laps depend on the input, have 16 inputs each: without workers and with three. The
batch has to put what the runs put, and to end each as they do.

It prints seconds by the clock, the least of three: of the runs one by one and of the batch, and how many times as fast that
is; and which part of the steps was skipped by the first run of the batch, and by the others. The last column is how many
times as long opening a batch takes as opening a run, each with a limit of no step.
"""

import sys
import tempfile
from pathlib import Path

sys.dont_write_bytecode = True

import harness

# How often each is timed, and what is run: a program, its address, and its inputs.
TIMES = 3
PROGRAMS = [("primes", "100cc", [12500 * k for k in range(1, 17)]),
            ("collatz_chunks", "100f4", [20000 + 448 * k for k in range(16)])]


def one_by_one(words, files):
    """The runs one by one: their seconds in all, what they put, and the line with which a batch ends each."""
    seconds, put, ends = 0.0, b"", []
    for file in files:
        run = min((run_of(words, file) for _ in range(TIMES)), key=lambda run: run.seconds)
        seconds, put = seconds + run.seconds, put + run.stdout
        numbers = harness.numbers_of(run)
        ends.append(f"asc: run {len(ends)}: exit {run.returncode} after {numbers['executed'] + numbers['skipped']}")
    return seconds, put, ends


def run_of(words, file):
    with open(file, "rb") as given:
        return harness.well(words, stdin=given)


def parts_of(text):
    """Which part of its steps each run of a batch skipped."""
    numbers = [line.split() for line in text.decode().splitlines() if line.startswith("asc: executed")]
    return [int(words[4]) / (int(words[2]) + int(words[4])) for words in numbers]


def row(program, name, address, files, workers):
    options = ["--pc", address, "--report", *(["--workers", workers, "--ahead", 16, "--queue", 6] if workers else [])]
    image = harness.IMAGES / name
    alone, put, ends = one_by_one([program, "run", image, *options], files)
    batch = harness.least(TIMES, "seconds", [program, "batch", image, *files, *options])
    told = [line for line in batch.stderr.decode().splitlines() if line.startswith("asc: run")]
    if (batch.stdout, told) != (put, ends):
        harness.end(f"{batch.line}: another output or other ends than the runs")
    first, *others = parts_of(batch.stderr)
    none = ["--steps", 0]
    opened = harness.least(5, "seconds", [program, "batch", image, *files, *options, *none]).seconds
    single = harness.least(5, "seconds", [program, "run", image, *options, *none], ends=(75,)).seconds
    return (f"{name:15} W {workers}{alone:9.3f} s{batch.seconds:9.3f} s{alone / batch.seconds:7.2f}"
            f"{first:9.1%}{sum(others) / len(others):9.1%}{opened / single:8.2f}")


def main():
    program = harness.asc(*harness.asked(__doc__, 1))
    harness.print_load("beginning")
    with tempfile.TemporaryDirectory() as folder:
        for name, address, numbers in PROGRAMS:
            files = [Path(folder, f"{name}{number}") for number in numbers]
            for file, number in zip(files, numbers):
                file.write_text(f"{number}\n")
            for workers in (0, 3):
                print(row(program, name, address, files, workers), flush=True)
    harness.print_load("end")


if __name__ == "__main__":
    main()
