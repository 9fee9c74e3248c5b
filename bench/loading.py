#!/usr/bin/env python3
"""Counts what loading saved entries takes beside making them, outside the gate.

    python3 bench/loading.py [PROGRAM]

PROGRAM is the built `asc`, crates/asc_cli/out/asc_cli where it is not given. A guest adds 1 to each of 110 words in 1,100
laps. `asc save` keeps 1,024 entries of its laps, each of 500 touched places. Instructions are the processor's, as
`valgrind --tool=callgrind` counts them.

For three sizes of memory it prints those of one entry: made by a guess, with its visit, and loaded. Behind these stand
their ratio, and the seconds that a run of no step takes more with the file than without, the least of five.
"""

import sys
import tempfile
from pathlib import Path

sys.dont_write_bytecode = True

import harness
from loops import addi, bne, counted, image, lui, lw, sw

LAPS, WORDS, KEPT = 1100, 110, 1024

# The words begin at 0x18000: x8 points there, and x9 counts them.
INNER = [lw(6, 8, 0), addi(6, 6, 1), sw(6, 8, 0), addi(8, 8, 4), addi(9, 9, -1)]
LAP = [lui(8, 0x18), addi(9, 0, WORDS), *INNER, bne(9, 0, -4 * len(INNER))]

# Two words stand before the loop.
ADDRESS = ["--pc", "10008"]

# Runs end with code 0, or at their limit.
ENDS = {"ends": (0, 75), "wide": True}

def instructions(words):
    return harness.instructions(words, **ENDS)

def seconds(words):
    return harness.least(5, "seconds", words, **ENDS).seconds

def main():
    program = harness.asc(*harness.asked(__doc__, 1))
    print(f"{'memory':>10}{'made':>10}{'loaded':>10}{'ratio':>8}{'seconds':>9}")
    with tempfile.TemporaryDirectory() as folder:
        guest, kept = f"{folder}/guest", f"{folder}/kept"
        Path(guest).write_bytes(image(counted(LAPS, [], LAP)))
        for memory in ("64", "1024", "65536"):
            room = ["--memory", memory]
            save = [program, "save", guest, *room, *ADDRESS]
            Path(kept).write_bytes(harness.well(save, **ENDS).stdout)
            count = int.from_bytes(Path(kept).read_bytes()[16:20], "little")
            if count != KEPT:
                harness.end(f"{count} entries were saved, and not {KEPT}")
            told = harness.numbers_of(harness.well([program, "run", guest, *room, *ADDRESS, "--report"], **ENDS))
            plain = [program, "run", guest, *room]
            none, all_steps = instructions([*plain, "--steps", "0"]), instructions(plain)
            price = (all_steps - none) / (told["executed"] + told["skipped"])
            made = (instructions(save) - none - price * told["executed"]) / told["made"]
            begin = [program, "run", guest, *room, "--steps", "0"]
            loaded = (instructions([*begin, "--load", kept]) - none) / KEPT
            more = seconds([*begin, "--load", kept]) - seconds(begin)
            print(f"{memory + ' KiB':>10}{made:10.0f}{loaded:10.0f}{loaded / made:8.2f}{more:9.3f}")

if __name__ == "__main__":
    main()
