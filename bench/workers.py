#!/usr/bin/env python3
"""Times runs with workers beside plain ones, outside the gate.

    python3 bench/workers.py [--program PROGRAM] [--rounds N] [--most W] [--only NAME..] [--quick | --input TEXT]
    python3 bench/workers.py [--program PROGRAM] [--only NAME..] --many N

PROGRAM is the built asc, crates/asc_cli/out/asc_cli where it is not given.

Each round runs a case in each way, one after the other, so that a busy time of the machine meets them all. The ways
are a plain run, one that follows its guesses itself (--report), and with 1 to W workers (3), each with the defaults and
with --ahead 16 --queue 2W. Times are those of a clock on the wall. In each run output and status have to be those of
the first, and the numbers have to add up. For a case are printed:

    how many processors W + 1 plain runs at once had, for each W: the middle one of the rounds, the least, the greatest
    steps, visits, the processor's time of a plain lap, and r: the time of one job in plain laps, in two ways
    of each way its time, and the plain run's time over it: the middle one of the rounds, the least and the greatest
    beside it what is reckoned for a long queue, max(1, W / r), and for a short one, 1 + W / r
    the gain over that of the short one, and over what is left of it where W workers and the run have no more of the
    processors than as many plain runs had
    the numbers of the workers in the last round

r by a worker is the time by the clock of the run with one worker, over the jobs that it ran. It is taken where the
worker always had a job: where at the end guesses were left, or had found no room. r by the serial run is its time on
the processor, less that of the steps which it executed by plain speed, over its guesses. The time of a run of no step
is taken off before. A busy machine makes the first too large, and visits are in the second: the lesser is reckoned
with. Where fewer processors were had than are wanted, times say nothing of workers.

With --many each example runs N times with 64 workers, in each of two ways, and what it writes and its status have to be
those of a plain run, and of its file `expected`. The status is 1 where they are not.
"""

import os
import re
import statistics
import subprocess
import sys
import tempfile
import time
from pathlib import Path

sys.dont_write_bytecode = True

import harness
from harness import EXAMPLES

# Each program with its input, and a short one.
CASES = {
    "collatz_chunks": (b"100000\n", b"1344\n"),
    "matrix": (b"200\n", b"12\n"),
    "ising": (b"4000 32 1\n", b"12 6 1\n"),
}

RUN = ("executed", "skipped", "asked", "hits", "made", "refused")
WORKERS = ("ran", "left", "stored", "known", "empty", "dropped", "stopped", "full")


def pattern(names):
    return "asc: " + " ".join(rf"{name} (\d+)" for name in names) + "\n"


REPORT = re.compile(f"({pattern(RUN)})({pattern(WORKERS)})?\\Z".encode())


class Differs(Exception):
    """A run that does not do what it must."""


class Run:
    """What a run gave: its seconds by the clock and on processors, output, status, the rest of standard error, and the
    numbers that it told."""

    def __init__(self, words, given):
        with open(given, "rb") as file:
            run = harness.measured(words, stdin=file)
        self.words, self.seconds, self.processor = run.line, run.seconds, run.processor
        told = REPORT.search(run.stderr)
        self.numbers = {}
        if told:
            texts = [text for text in told.groups() if text and text.isdigit()]
            self.numbers = dict(zip(RUN + WORKERS, map(int, texts)))
        self.gave = run.stdout, run.stderr[:told.start()] if told else run.stderr, run.returncode

    def check(self, first, kinds, ahead):
        """That it gave what the first one gave, and that its numbers add up."""
        if self.gave != first.gave:
            raise Differs(f"{self.words}: gives {self.gave[1:]} in place of {first.gave[1:]}, or another output")
        n = self.numbers
        wrong = []
        if "executed" in n and "executed" in first.numbers:
            wrong += ["steps"] * (n["executed"] + n["skipped"] != first.numbers["executed"] + first.numbers["skipped"])
        if "ran" in n:
            words = self.words.split()
            queue = int(words[words.index("--queue") + 1]) if "--queue" in words else 256
            due = kinds * (ahead + n["asked"] - 2) if n["asked"] > 1 else 0
            columns = sum(n[name] for name in ("stored", "known", "empty", "dropped", "stopped"))
            wrong += ["made"] * (n["made"] != n["ran"] + n["left"])
            wrong += ["ran"] * (n["ran"] != columns)
            wrong += ["guesses"] * (n["refused"] == 0 and n["made"] + n["full"] != due)
            wrong += ["room"] * (n["full"] > 0 and n["made"] < queue)
        if wrong:
            raise Differs(f"{self.words}: {', '.join(wrong)} do not add up in {n}")


# ---------------------------------------------------------------------------------------------------------------------
# Times

def ways_of(most):
    """Each way to run a case: its name, its options, how many workers it has, and how many visits ahead are guessed."""
    ways = [("plain", [], 0, 4), ("serial", ["--report"], 0, 4)]
    for workers in range(1, most + 1):
        long = ["--report", "--workers", str(workers)]
        short = [*long, "--ahead", "16", "--queue", str(2 * workers)]
        ways += [(f"{workers}, defaults", long, workers, 4), (f"{workers}, --ahead 16 --queue {2 * workers}", short,
                                                              workers, 16)]
    return ways


def middle(values, digits):
    """The middle one of some values, with the least and the greatest."""
    return f"{statistics.median(values):.{digits}f} ({min(values):.{digits}f} to {max(values):.{digits}f})"


def busy(run):
    """Whether the workers of a run had a job to its end, as far as its numbers tell."""
    return run.numbers["left"] > 0 or run.numbers["full"] > 0


def job_times(runs, nothing, steps, visits):
    """The processor's time of a plain lap, and the time of one job in plain laps: by the clock of a worker that always
    had a job, and by the processor's time of the serial run. None where it is not known."""
    plain = statistics.median(run.processor for run in runs["plain"]) - nothing[0].processor
    lap = plain / visits
    alone = [(run.seconds - nothing[1].seconds) / run.numbers["ran"] / lap
             for name, rows in runs.items() if name.startswith("1, ")
             for run in rows if run.numbers["ran"] > 1 and busy(run)]
    serial = []
    for run in runs["serial"]:
        n = run.numbers
        jobs = run.processor - nothing[0].processor - plain * n["executed"] / steps
        serial += [jobs / n["made"] / lap] if n["made"] else []
    # Of runs that take no longer than one of no step nothing is known.
    return lap, *(r if r is not None and r > 0 else None
                  for r in (min(alone, default=None), statistics.median(serial) if serial else None))


def processors_had(words, given, count):
    """How many processors so many plain runs at once had: their time one after another over that of all at once."""
    alone = Run(words, given).seconds
    files = [open(given, "rb") for _ in range(count)]
    begun = time.perf_counter()
    runs = [subprocess.Popen(words, stdin=file, stdout=subprocess.DEVNULL, stderr=subprocess.DEVNULL) for file in files]
    for run in runs:
        run.wait()
    seconds = time.perf_counter() - begun
    for file in files:
        file.close()
    return count * min(alone, Run(words, given).seconds) / seconds


def measure(program, name, text, rounds, most, given):
    """Runs a case in each way, so many times, and prints what came of it."""
    address, memory = harness.PLACES[name]
    Path(given).write_bytes(text)
    words = [program, "run", str(EXAMPLES / "images" / name), "--memory", memory]
    first = Run([*words, "--pc", address, "--guess", "none", "--report"], given)
    if first.numbers.get("asked", 0) < 3:
        raise Differs(f"{first.words}: it has no visits ({first.gave[1:]}); tools/asc-pc tells this image's addresses")
    visits, steps = first.numbers["asked"], first.numbers["executed"]
    runs, nothing, had = {}, [], {}
    for workers in (0, 1):
        empty = [*words, "--steps", "0", "--workers", str(workers)]
        nothing.append(min((Run(empty, given) for _ in range(3)), key=lambda run: run.seconds))
    for _ in range(rounds):
        for way, options, _, ahead in ways_of(most):
            run = Run([*words, "--pc", address, *options] if options else words, given)
            run.check(first, 1, ahead)
            runs.setdefault(way, []).append(run)
        for count in range(2, most + 2):
            had.setdefault(count, []).append(processors_had(words, given, count))
    for count, found in had.items():
        print(f"{name}: {count} plain runs at once had {middle(found, 2)} processors")
    lap, *found = job_times(runs, nothing, steps, visits)
    shown = ", ".join(f"{'unknown' if r is None else f'{r:.2f}'} by {how}"
                      for r, how in zip(found, ("a worker", "the serial run")))
    print(f"{name} --pc {address}: {steps / 1e6:.1f} million steps, {visits} visits, a lap {lap * 1e6:.1f} "
          f"microseconds, r {shown}")
    show(runs, min((r for r in found if r), default=None), most, had)


def show(runs, r, most, had):
    """A row for each way."""
    heads = " ".join(f"{name:>8}" for name in ("asked", "hits", "made", *WORKERS))
    print(f"  {'way':26} {'seconds':>22} {'plain over it':>22} {'long':>6} {'short':>6} {'part':>6} {'had':>6} {heads}")
    plain = [run.seconds for run in runs["plain"]]
    for way, _, workers, _ in ways_of(most):
        seconds = [run.seconds for run in runs[way]]
        ratios = [before / now for before, now in zip(plain, seconds)]
        bounds = " " * 27
        if r and workers:
            short, gain = 1 + workers / r, statistics.median(ratios)
            each = statistics.median(had[workers + 1]) / (workers + 1)
            bounds = f"{max(1, workers / r):6.2f} {short:6.2f} {gain / short:6.2f} {gain / short / each:6.2f}"
        n = runs[way][-1].numbers
        told = " ".join(f"{n.get(name, ''):>8}" for name in ("asked", "hits", "made", *WORKERS))
        print(f"  {way:26} {middle(seconds, 3):>22} {middle(ratios, 2):>22} {bounds} {told}".rstrip(), flush=True)


# ---------------------------------------------------------------------------------------------------------------------
# Every example, many times

def many(program, times, only):
    """How many runs of the examples with 64 workers give something else than a plain run."""
    wrong = compared = 0
    for expected in sorted([*EXAMPLES.glob("*/expected"), *EXAMPLES.glob("libc/*/expected")]):
        folder = expected.parent
        if only and folder.name not in only:
            continue
        given = folder / "input" if (folder / "input").exists() else os.devnull
        words = [program, "run", str(folder.parent / "images" / folder.name)]
        plain = Run(words, given)
        if plain.gave != (expected.read_bytes(), b"", 0):
            print(f"{plain.words}: a plain run gives something else than {expected}")
            wrong += 1
        for options in (["--guess", "both"], ["--ahead", "16", "--queue", "128", "--min", "2"]):
            for _ in range(times):
                run = Run([*words, "--report", "--workers", "64", *options], given)
                compared += 1
                try:
                    run.check(plain, 2 if "both" in options else 1, 16 if "--ahead" in options else 4)
                except Differs as differs:
                    print(differs)
                    wrong += 1
        print(f"{folder.name}: done", flush=True)
    print(f"{compared} runs compared, {wrong} differ")
    return wrong


def main():
    parser = harness.parser_of(__doc__)
    parser.add_argument("--rounds", type=int, default=5, help="how often each case runs in each way (5)")
    parser.add_argument("--most", type=int, default=3, help="the most workers (3)")
    parser.add_argument("--only", nargs="+", metavar="NAME", help="the cases or examples to run (all)")
    inputs = parser.add_mutually_exclusive_group()
    inputs.add_argument("--quick", action="store_true", help="short inputs, to try the script: their times say nothing")
    inputs.add_argument("--input", metavar="TEXT", help="the input of each case that is run, in place of its own")
    parser.add_argument("--many", type=int, metavar="N", help="run each example N times with 64 workers, and compare")
    asked = parser.parse_args()
    harness.asc(asked.program)
    if asked.many is not None:
        return 1 if many(asked.program, asked.many, asked.only) else 0
    harness.print_load("beginning")
    with tempfile.TemporaryDirectory() as folder:
        given = os.path.join(folder, "input")
        for name in (name for name in CASES if name in (asked.only or CASES)):
            try:
                long, short = CASES[name]
                text = asked.input.encode() + b"\n" if asked.input is not None else short if asked.quick else long
                measure(asked.program, name, text, max(1, asked.rounds), asked.most, given)
            except Differs as differs:
                sys.exit(str(differs))
    harness.print_load("end")
    return 0


if __name__ == "__main__":
    sys.exit(main())
