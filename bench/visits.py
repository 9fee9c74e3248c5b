#!/usr/bin/env python3
"""Times visits of the helper of a run without workers beside plain laps, outside the gate.

    python3 bench/visits.py            prints the processor's microseconds, the least of five runs
    python3 bench/visits.py --count    prints the processor's instructions, as `valgrind --tool=callgrind` counts them

`programs/asc_visiting` is added to a copy of the crates under it in a temporary folder, proved and built there with
`rt run`, and run. A lap is one turn of a loop of 24 or 1,004 steps that uses two pages, in memory of 64 KiB, 1 MiB and
64 MiB. The helper is visited after each lap, and guesses one visit ahead by stride; nothing is jumped over. A visit
keeps a copy of the state, traces one guess, which is a lap of steps, and keeps its entry.
"""

import sys
import tempfile

sys.dont_write_bytecode = True

import harness
from harness import instructions, seconds

def main():
    harness.asked(__doc__, 0, "--count")
    cost, unit, laps = (instructions, 1, 200) if "--count" in sys.argv else (seconds, 1e6, 20_000)
    with tempfile.TemporaryDirectory() as folder:
        path = harness.build("asc_visiting: asc_run asc_step asc_find asc_shape asc_outside", folder, "1 64 10 2")
        print("   KiB  steps of a lap  plain lap    visit")
        for turns in (10, 500):
            for size in (64, 1024, 65536):
                # What a lap costs beyond the first two.
                def lap(visits):
                    words = lambda laps: [path, visits, size, turns, laps]
                    return (cost(words(laps)) - cost(words(2))) / (laps - 2) * unit
                plain = lap(0)
                visit = lap(1) - plain
                print(f"{size:6}{4 + 2 * turns:16}{plain:11.2f}{visit:9.2f}", flush=True)

if __name__ == "__main__":
    main()
