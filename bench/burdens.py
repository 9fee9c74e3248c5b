#!/usr/bin/env python3
"""Times runs that workers may burden beside plain ones, outside the gate, or counts what they take.

    python3 bench/burdens.py [--program PROGRAM] [--rounds N] [--workers W..] [--kinds KIND..] [--only NAME..] [--all]
    python3 bench/burdens.py --count STEPS [--program PROGRAM] [--workers W..] [--kinds KIND..] [--only NAME..] [--all]

PROGRAM is the built asc, crates/asc_cli/out/asc_cli where it is not given. Each case is a program with an address for
--pc. It runs plainly N times (3), and N times with each kind of guess (none, stride, both) and each number of workers
(1, 3, 64). What is written and the status have to be the same. The least time by the clock with workers is divided by the
plain run's least. A case may take twice a plain run's time, and four times where a lap has fewer than 20 steps. For each
case, the steps of a lap and the greatest ratio are printed, and with --all each. The status is 1 where a case takes more.

With --count each run goes over so many steps at most, and once. In place of times stand the instructions that callgrind
counts of the run's own thread, in millions those of the plain run. It wants no idle processors.

    spin     an endless loop of one instruction, up to a limit, visited at each step
    spread   a loop that puts a word into each page of 16 MiB in a lap
    others   the examples, at each address that asc_show finds them to come back to at least 50 times
"""

import os
import sys
import tempfile
from importlib.machinery import SourceFileLoader
from importlib.util import module_from_spec, spec_from_loader
from pathlib import Path

sys.dont_write_bytecode = True

import harness
from defaults import CASES
from harness import EXAMPLES
from loops import EXIT, addi, bne, image, jal, lui, op, sw
from workers import Run

# The inputs of runs of some 0.3 seconds or more, where those of defaults.py are shorter.
LONGER = {"matrix": b"160\n", "life": None, "ising": b"2500 32 1\n", "collatz_chunks": b"60000\n"}

# x8 goes over 16 MiB from 0x20000 on in steps of 4096, x5 counts down what is left of a lap, and x9 laps.
SPREAD = [
    lui(9, 1), addi(9, 9, 0),
    lui(8, 0x20), lui(5, 1), lui(7, 1),
    sw(9, 8, 0), op(0, 0, 8, 8, 7), addi(5, 5, -1), bne(5, 0, -12),
    addi(9, 9, -1), bne(9, 0, -32), *EXIT,
]


def own_cases(folder):
    """The two programs of this file: their name, words of a command line, input, and addresses."""
    for name, words, options, address in (("spin", [jal(0, 0)], ["--steps", "60000000"], "10000"),
                                          ("spread", SPREAD, ["--memory", "20480"], "10008")):
        path = os.path.join(folder, name)
        Path(path).write_bytes(image(words))
        yield name, [path, *options], b"", [address]


def cases(folder):
    """Each program: its name, words of a command line, input, and addresses."""
    yield from own_cases(folder)
    loader = SourceFileLoader("asc_pc", str(harness.ROOT / "tools/asc-pc"))
    tool = module_from_spec(spec_from_loader("asc_pc", loader))
    loader.exec_module(tool)
    given = os.path.join(folder, "profiled")
    for name, (text, options) in CASES.items():
        short = name.split("/")[-1]
        path = str((EXAMPLES / name).parent / "images" / short)
        own = EXAMPLES / name / "input"
        text = LONGER.get(short, text)
        text = text if text is not None else own.read_bytes() if own.exists() else b""
        Path(given).write_bytes(text)
        heads = tool.Shows(tool.asc_tools.shower(), [path, *options], given).profile().heads
        yield short, [path, *options], text, [f"{head.pc:x}" for head in heads]


class Counted:
    """What a run gave: its output and status, and in place of seconds the instructions of its own thread, in thousands of
    millions."""

    def __init__(self, words, given):
        with open(given, "rb") as file:
            run = harness.first_thread(words, stdin=file)
        self.words, self.seconds, self.gave = run.line, run.instructions / 1e9, (run.stdout, run.returncode)


class Case:
    """A program that is run again and again."""

    def __init__(self, asked, words, given):
        self.asked, self.words, self.given = asked, words, given
        if asked.count and "--steps" in words:
            self.words = words[:words.index("--steps")]
        if asked.count:
            self.words = [*self.words, "--steps", str(asked.count)]
        self.plain = self.best([])

    def best(self, options):
        words = [self.asked.program, "run", *self.words, *options]
        if self.asked.count:
            return Counted(words, self.given)
        return min((Run(words, self.given) for _ in range(self.asked.rounds)), key=lambda run: run.seconds)

    def ratio(self, options):
        run = self.best(options)
        if run.gave != self.plain.gave:
            sys.exit(f"{run.words}: gives something else than {self.plain.words}")
        return run.seconds / self.plain.seconds

    def lap(self, address):
        """The steps of a lap, or 0 where the address is met fewer than 50 times."""
        told = Run([self.asked.program, "run", *self.words, "--guess", "none", "--pc", address, "--report"],
                   self.given).numbers
        met = told.get("asked", 0)
        return (told["executed"] + told["skipped"]) / met if met >= 50 else 0


def look(asked, name, case, address):
    """Whether a program takes no more time than it may at an address."""
    lap = case.lap(address)
    if not lap:
        return True
    ratios = {(kind, workers): case.ratio(["--guess", kind, "--workers", str(workers), "--pc", address])
              for kind in asked.kinds for workers in asked.workers}
    most = max(ratios, key=ratios.get)
    within = ratios[most] <= (2 if lap >= 20 else 4)
    print(f"{name:16}{address:>8}{lap:12.1f}{case.plain.seconds * 1e3:9.0f}{ratios[most]:8.2f}  {most[0]}, {most[1]}"
          f"{'' if within else '  more than it may'}", flush=True)
    if asked.all:
        print("   ", *(f"{kind} {workers}: {ratio:.2f}" for (kind, workers), ratio in ratios.items()), flush=True)
    return within


def main():
    parser = harness.parser_of(__doc__)
    parser.add_argument("--rounds", type=int, default=3, help="how often each case runs in each way (3)")
    parser.add_argument("--workers", type=int, nargs="+", default=[1, 3, 64], help="how many workers (1, 3, 64)")
    parser.add_argument("--kinds", nargs="+", default=["none", "stride", "both"], help="kinds of guesses")
    parser.add_argument("--only", nargs="+", metavar="NAME", help="the programs to run (all)")
    parser.add_argument("--all", action="store_true", help="print each ratio")
    parser.add_argument("--count", type=int, metavar="STEPS", help="count instructions, over so many steps")
    asked = parser.parse_args()
    harness.asc(asked.program)
    print(f"program              pc         lap{' millions' if asked.count else ' plain ms'}    most  with")
    within = True
    with tempfile.TemporaryDirectory() as folder:
        for name, words, text, addresses in cases(folder):
            if name in (asked.only or [name]):
                given = os.path.join(folder, "input")
                Path(given).write_bytes(text)
                case = Case(asked, words, given)
                within &= all([look(asked, name, case, address) for address in addresses])
    return 0 if within else 1


if __name__ == "__main__":
    sys.exit(main())
