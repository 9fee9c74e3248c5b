#!/usr/bin/env python3
"""Times runs with workers and otherwise defaults beside plain ones, outside the gate.

    python3 bench/defaults.py [--program PROGRAM] [--rounds N] [--workers W] [--only NAME..] [--count]

PROGRAM is the built asc, crates/asc_cli/out/asc_cli where it is not given. Each round (7) runs each program plainly and
with W workers (3), one after the other. What both write and their statuses have to be the same. For `ising` both have
--memory 16384. For each program are printed the steps of the run in millions, the visits of a further run with --report,
the least time by the clock of its plain runs in milliseconds, the least with workers over it, and the same of the
processor's time of all threads. With --count the last column is for the instructions of the run's own thread, as
callgrind counts them once.
"""

import os
import sys
import tempfile
from pathlib import Path

sys.dont_write_bytecode = True

import harness
from harness import EXAMPLES, numbers, text
from workers import Differs, Run

# Each program with its input and the options that it wants. Where the input is None it is the example's own.
CASES = {
    "collatz_chunks": (b"20000\n", []),
    "life": (None, []),
    "libc/frequencies": (text(100_000), []),
    "collatz": (b"20000\n", []),
    "matrix": (b"64\n", []),
    "sha256": (text(200_000), []),
    "libc/statistics": (b"".join(b"%d\n" % (k * k % 1009) for k in range(2_000)), []),
    "quicksort": (numbers(20_000), []),
    "word_count": (text(320_000), []),
    "copies": (None, []),
    "ising": (b"200 32 1\n", ["--memory", "16384"]),
    "adder": (None, []),
}


def least(runs, what):
    return min(getattr(run, what) for run in runs)


def counted(words, given):
    """The instructions of the run's own thread."""
    with open(given, "rb") as file:
        return harness.first_thread(words, stdin=file).instructions


def measure(program, name, rounds, workers, given, count):
    words_given, options = CASES[name]
    folder = EXAMPLES / name
    own = folder / "input"
    Path(given).write_bytes(words_given if words_given is not None else own.read_bytes() if own.exists() else b"")
    words = [program, "run", str(folder.parent / "images" / folder.name), *options]
    beside = [*words, "--workers", str(workers)]
    told = Run([*beside, "--report"], given)
    plain, others = [], []
    for _ in range(rounds):
        plain.append(Run(words, given))
        others.append(Run(beside, given))
    for run in others:
        if run.gave != plain[0].gave:
            raise Differs(f"{run.words}: gives something else than {plain[0].words}")
    told.check(plain[0], 1, 4)
    if "executed" not in told.numbers:
        raise Differs(f"{told.words}: tells no numbers ({told.gave[1:]})")
    steps = told.numbers["executed"] + told.numbers["skipped"]
    clock, processor = (least(others, what) / least(plain, what) for what in ("seconds", "processor"))
    own = f"{counted(beside, given) / counted(words, given):9.2f}" if count else ""
    print(f"{folder.name:16}{steps / 1e6:8.1f}{told.numbers['asked']:9}{least(plain, 'seconds') * 1e3:9.1f}"
          f"{clock:9.2f}{processor:11.2f}{own}", flush=True)


def main():
    parser = harness.parser_of(__doc__)
    parser.add_argument("--rounds", type=int, default=7, help="how often each program runs in each way (7)")
    parser.add_argument("--workers", type=int, default=3, help="how many workers (3)")
    parser.add_argument("--only", nargs="+", metavar="NAME", help="the programs to run (all)")
    parser.add_argument("--count", action="store_true", help="count instructions of the run's own thread too")
    asked = parser.parse_args()
    harness.asc(asked.program)
    names = {name.split("/")[-1]: name for name in CASES}
    unknown = set(asked.only or []) - set(names)
    if unknown:
        harness.end(f"no program {', '.join(sorted(unknown))}; there are {', '.join(names)}")
    harness.print_load("beginning")
    print("program           steps   visits  plain ms    clock  processor" + "      own" * asked.count)
    with tempfile.TemporaryDirectory() as folder:
        for name in (names[short] for short in names if short in (asked.only or names)):
            try:
                measure(asked.program, name, asked.rounds, asked.workers, os.path.join(folder, "input"),
                        asked.count)
            except Differs as differs:
                sys.exit(str(differs))
    harness.print_load("end")
    return 0


if __name__ == "__main__":
    sys.exit(main())
