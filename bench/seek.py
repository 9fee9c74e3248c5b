#!/usr/bin/env python3
"""Says what runs that seek their address jump over, and what that costs and gains, outside the gate.

    python3 bench/seek.py [PROGRAM] [--times]

PROGRAM is the built `asc`, crates/asc_cli/out/asc_cli where it is not given. For each example it prints its steps, the share
of them that a run with `--seek` and otherwise defaults jumps over, that of a run at its best address, and the one by the
other. The best address is that of all to which a step leads back, tried one by one with `--ahead 4`.

With --times it prints seconds by the clock in place of these, the least of three: of a plain run, and how many times as fast
runs with three workers are that seek, with otherwise defaults and with `--ahead 16 --queue 6`. Behind each stands what they
jumped over. Some inputs are longer then. Of `life` there are three boards, and one with --times.
"""

import random
import sys

sys.dont_write_bytecode = True

import harness


def board(seed=15):
    """A board of life, of which each cell lives or not by chance."""
    draw = random.Random(seed)
    return b"".join(bytes(draw.choice(b".#") for _ in range(24)) + b"\n" for _ in range(24))


# The examples: the best address, the memory, and the input.
RUNS = {
    "collatz": ("10484", 1024, lambda: b"30000\n"),
    "collatz_chunks": ("100f4", 1024, lambda: b"20000\n"),
    "matrix": ("104ec", 1024, lambda: b"150\n"),
    "ising": ("106a8", 16384, lambda: b"200 32 1\n"),
    "sha256": ("10358", 1024, lambda: harness.text(300_000)),
    "word_count": ("10220", 1024, lambda: harness.text(1_900_000)),
    "life": ("10604", 1024, board),
    "copies": ("104fc", 1024, lambda: b""),
    "quicksort": ("10634", 1024, lambda: harness.numbers(60_000)),
    "mandel": ("100f4", 1024, lambda: b"60 160 400\n"),
    "queens": ("101a0", 1024, lambda: b"12\n"),
    "sieve": ("100f4", 1024, lambda: b"1600000\n"),
    "primes": ("100cc", 1024, lambda: b"200000\n"),
}
# Inputs that are longer, for times.
LONGER = {"collatz": b"500000\n", "collatz_chunks": b"200000\n", "matrix": b"256\n", "mandel": b"300 600 1000\n",
          "sieve": b"5500000\n"}
BOARDS = 15, 11, 16


def share(run):
    """What part of its steps a run jumped over, and how many it has."""
    numbers = harness.numbers_of(run)
    steps = numbers["executed"] + numbers["skipped"]
    return numbers["skipped"] / steps, steps


def shares(words, best, text):
    sought, steps = share(harness.well([*words, "--report", "--seek"], input=text))
    known, _ = share(harness.well([*words, "--report", "--pc", best], input=text))
    return f"{steps:12,}{100 * sought:8.1f} %{100 * known:8.1f} %{sought / known:8.2f}"


def times(words, text):
    plain = harness.least(3, "seconds", words, input=text).seconds
    row = f"{plain:8.3f} s"
    for more in ([], ["--ahead", 16, "--queue", 6]):
        seeking = [*words, "--seek", "--workers", 3, *more]
        skipped, _ = share(harness.well([*seeking, "--report"], input=text))
        row += f"{plain / harness.least(3, 'seconds', seeking, input=text).seconds:8.2f}{100 * skipped:8.1f} %"
    return row


def main():
    program, clock = harness.asc(*harness.asked(__doc__, 1, "--times")), "--times" in sys.argv
    harness.print_load("beginning")
    for name, (best, memory, made) in RUNS.items():
        words = [program, "run", harness.IMAGES / name, "--memory", memory]
        if clock:
            print(f"{name:15}{times(words, LONGER.get(name) or made())}", flush=True)
            continue
        for text in [board(seed) for seed in BOARDS] if name == "life" else [made()]:
            print(f"{name:15}{shares(words, best, text)}", flush=True)
    harness.print_load("end")


if __name__ == "__main__":
    main()
