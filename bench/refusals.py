#!/usr/bin/env python3
"""Refuses memory to the whole program, one allocation after another, and sees how each run ends, outside the gate.

    python3 bench/refusals.py [--program PROGRAM] [--misses N]

PROGRAM is the built asc, crates/asc_cli/out/asc_cli where it is not given. `cc` compiles bench/refusing.c, an allocator
that is preloaded and refuses. It wants Linux with glibc.

Thirteen commands are run. Five are of a loop of 13 steps, with guesses: `asc run` with --report, alone, with two workers, in
rounds with two, and with saved entries, and `asc save`. Three are so with --join: the save, and the run alone and with one
worker. One is a run of a longer loop with --seek. Two are a batch over two inputs, alone and with a worker. The others are
`asc trial 0` and `asc make 0`. In one row of runs the first allocation alone is refused, then the second alone, and so on.
In another row all are refused from the first on, from the second on, and so on. A row ends where a run made fewer
allocations than that. With workers that number is not the same each time, and a row ends where N runs did so one after
another (5).

Each run has to end in one of two ways: with status 71, the line `asc: out of memory` and nothing put out; or as with
memory. Then the status is 0, output is the same, and steps executed and skipped are all, or of the trial as many as it
tells. Numbers of workers have to add up. For each row are printed how many allocations the command makes with memory,
how many runs ended in each way, how many of the latter reported that memory was wanting (`refused` above 0), and how
many ended otherwise. The status is 1 where any did, or where without workers none reported so.
"""

import os
import re
import shutil
import struct
import subprocess
import sys
import tempfile
from pathlib import Path

sys.dont_write_bytecode = True

import harness
from loops import EXIT, addi, bne, image, lui

# A loop of two instructions from 0x10008 on, which counts x5 from 0 to 4, and then an end with code 0.
COUNTS = [addi(5, 0, 0), addi(6, 0, 4), addi(5, 5, 1), bne(5, 6, -4), *EXIT]
STEPS = 13
# A loop of two instructions that ends soon behind the first stretch of a search, in which its head is noted.
LONG_COUNTS = [addi(5, 0, 0), lui(6, 8), addi(6, 6, 8), addi(5, 5, 1), bne(5, 6, -4), *EXIT]
LONG_STEPS = 65_558

RUN = re.compile(rb"asc: executed (\d+) skipped (\d+) asked (\d+) hits \d+ made (\d+) refused (\d+)\n"
                 rb"(?:asc: ran (\d+) left (\d+) stored (\d+) known (\d+) empty (\d+) dropped (\d+) stopped (\d+)"
                 rb" full (\d+)\n)?")
TRIAL = re.compile(rb"trial 0: status 0, steps (\d+), output \d+\nexecuted (\d+), skipped (\d+), asked \d+, hits \d+, "
                   rb"made \d+\n")
MEMORY = (71, b"", b"asc: out of memory\n")
SECONDS = 60


# ---------------------------------------------------------------------------------------------------------------------
# How a run ended

def run_is_right(output, report, workers, steps=STEPS):
    """Whether a run that ended by itself has the numbers that it must have, and how often memory was wanting."""
    found = RUN.fullmatch(report)
    if output or not found or (found[6] is not None) != (workers > 0):
        return False, 0
    executed, skipped, asked, made, refused, *told = (int(number or 0) for number in found.groups())
    right = executed + skipped == steps
    if workers:
        ran, left, stored, known, empty, dropped, stopped, full = told
        due = 2 * asked if asked > 1 else 0
        right = right and made == ran + left and ran == stored + known + empty + dropped + stopped
        right = right and (refused > 0 or made + full == due)
    return right, refused


def batch_is_right(output, report, workers):
    """The same of a batch of two runs, each of which has numbers of its own."""
    head, *runs = re.split(rb"asc: run \d: exit 0 after 13\n", report)
    told = [run_is_right(output, run, workers) for run in runs]
    return not head and len(told) == 2 and all(right for right, _ in told), sum(refused for _, refused in told)


def trial_is_right(output, report, first):
    """The same of a trial, whose first line does not change. What its helper was refused is not told."""
    found = TRIAL.fullmatch(output)
    same = found and output.splitlines()[0] == first.splitlines()[0]
    return bool(same) and not report and int(found[1]) == int(found[2]) + int(found[3]), 0


def make_is_right(output, report, first):
    return output == first and not report, 0


class Command:
    """A command line, and how its runs are judged once they ended by themselves."""

    def __init__(self, name, words, workers=0):
        self.name, self.words, self.workers = name, words, workers
        self.has_threads, self.first = "--workers" in words, b""

    def is_right(self, output, report):
        if self.words[0] == "run":
            return run_is_right(output, report, self.workers, LONG_STEPS if "--seek" in self.words else STEPS)
        if self.words[0] == "batch":
            return batch_is_right(output, report, self.workers)
        return (trial_is_right if self.words[0] == "trial" else make_is_right)(output, report, self.first)


# ---------------------------------------------------------------------------------------------------------------------
# Runs

class Refusing:
    """The program under an allocator that refuses."""

    def __init__(self, program, folder):
        self.program, self.count = program, Path(folder, "count")
        self.library = Path(folder, "refusing.so")
        source = harness.ROOT / "bench/refusing.c"
        done = subprocess.run(["cc", "-O2", "-Wall", "-shared", "-fPIC", "-o", self.library, source],
                              capture_output=True, text=True)
        if done.returncode or done.stderr:
            harness.end(f"{source} is not compiled:\n{done.stderr}")

    def run(self, words, number, on):
        """The status, output and report of a run, and how much memory it asked for. Number 0 refuses nothing."""
        self.count.write_bytes(bytes(8))
        settings = {**os.environ, "LD_PRELOAD": str(self.library), "REFUSING_COUNT": str(self.count),
                    "REFUSING_FIRST": str(number)}
        if on and number:
            settings["REFUSING_ON"] = "1"
        try:
            run = subprocess.run([self.program, *words], stdin=subprocess.DEVNULL, capture_output=True, env=settings,
                                 timeout=SECONDS)
            ended = run.returncode, run.stdout, run.stderr
        except subprocess.TimeoutExpired as late:
            ended = f"no end in {SECONDS} seconds", late.stdout or b"", late.stderr or b""
        return ended, struct.unpack("<Q", self.count.read_bytes())[0]


class Ends:
    """How many runs ended in each way."""

    def __init__(self):
        self.memory = self.right = self.reported = self.wrong = 0

    def note(self, command, number, on, ended):
        status, output, report = ended
        if ended == MEMORY:
            self.memory += 1
            return
        right, refused = command.is_right(output, report) if status == 0 else (False, 0)
        if right:
            self.right += 1
            self.reported += refused > 0
            return
        self.wrong += 1
        print(f"{command.name}: with memory refused {'from' if on else 'at'} {number}{' on' if on else ''}: status "
              f"{status}, output {output[-200:]!r}, report {report[-200:]!r}")


def row(refusing, command, on, misses):
    """How the runs of a row ended."""
    ends, number, missed = Ends(), 0, 0
    while missed < (misses if command.has_threads else 1):
        number += 1
        ended, count = refusing.run(command.words, number, on)
        missed = missed + 1 if count < number else 0
        ends.note(command, number, on, ended)
    return ends


def tried(refusing, command, misses):
    """Runs both rows of a command, prints them, and answers whether all ended as they must."""
    ended, count = refusing.run(command.words, 0, False)
    command.first = ended[1]
    right = ended[0] == 0 and command.is_right(*ended[1:])[0]
    if not right or not count:
        print(f"{command.name}: with memory it ends with {ended}, after {count} allocations that could be refused")
        return False
    reported, wrong = 0, 0
    for on in (False, True):
        ends = row(refusing, command, on, misses)
        reported, wrong = reported + ends.reported, wrong + ends.wrong
        print(f"{command.name:22} {'from it on' if on else 'one alone':11} {count:11} {ends.memory:8} {ends.right:10} "
              f"{ends.reported:9} {ends.wrong:6}", flush=True)
    if command.words[0] in ("run", "batch") and not command.workers and not reported:
        print(f"{command.name}: no run reported that memory was wanting")
        return False
    return not wrong


def main():
    parser = harness.parser_of(__doc__)
    parser.add_argument("--misses", type=int, default=5, help="how many runs with workers end a row (5)")
    asked = parser.parse_args()
    harness.asc(asked.program)
    if not shutil.which("cc"):
        harness.end("no cc")
    with tempfile.TemporaryDirectory() as folder:
        counting, long = Path(folder, "counting"), Path(folder, "long")
        counting.write_bytes(image(COUNTS))
        long.write_bytes(image(LONG_COUNTS))
        guesses = [str(counting), "--pc", "10008", "--guess", "both", "--ahead", "2"]
        run, save, kept = ["run", *guesses, "--report"], ["save", *guesses], Path(folder, "kept")
        batch = ["batch", str(counting), "/dev/null", "/dev/null", *guesses[1:], "--report"]
        commands = [Command("run, no workers", run), Command("run, two workers", [*run, "--workers", "2"], 2),
                    Command("run, in rounds", [*run, "--workers", "2", "--rounds"]),
                    Command("run, saved entries", [*run, "--load", str(kept)]), Command("save", save),
                    Command("run, joins", [*run, "--join"]), Command("save, joins", [*save, "--join"]),
                    Command("run, joins, a worker", [*run, "--join", "--workers", "1"], 1),
                    Command("run, seeking", ["run", str(long), "--seek", "--report"]),
                    Command("batch", batch), Command("batch, a worker", [*batch, "--workers", "1"], 1),
                    Command("trial 0", ["trial", "0"]), Command("make 0", ["make", "0"])]
        refusing = Refusing(asked.program, folder)
        kept.write_bytes(refusing.run(save, 0, False)[0][1])
        print(f"{'command':22} {'refused':11} {'allocations':>11} {'memory':>8} {'as with it':>10} {'wanting':>9} "
              f"{'wrong':>6}")
        right = [tried(refusing, command, max(1, asked.misses)) for command in commands]
    return 0 if all(right) else 1


if __name__ == "__main__":
    sys.exit(main())
