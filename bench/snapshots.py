#!/usr/bin/env python3
"""Times snapshots of a state beside whole copies, outside the gate.

    python3 bench/snapshots.py           prints the processor's microseconds, the least of five runs
    python3 bench/snapshots.py --count   prints the processor's instructions, as `valgrind --tool=callgrind` counts them

`programs/asc_copies` is added to a copy of the crates under it in a temporary folder, proved and built there with
`rt run`, and run.

Microseconds are of memory of 256 KiB, 1 MiB and 64 MiB of which 60 KiB are used: for a whole copy, for a freeze after
the pc and a byte in each of 1, 4 and 16 places 16 KiB apart changed, for a guess of two copies that is written into a
state, and for `fill` after one byte changed.

Instructions are of memory of 64 KiB, 1 MiB and 64 MiB of which 4, 64 or 480 KiB are used: for a freeze after the pc
changed, and after a byte of one page changed too, each in the memory of the copy before the last; and for `fill`. What the
changes cost is taken off. The last column is a byte in the first page and one in the last. Below stands what a word of
a guess costs, of one copy and of two, with some 11 of the loop around it.
"""

import sys
import tempfile

sys.dont_write_bytecode = True

import harness
from harness import instructions, seconds

COPY, FREEZE, WORD, WORD_OF_TWO, GUESS, FILL, CHANGE = range(7)

def a_round(cost, path, what, size, used, pages, apart, rounds):
    """What a round costs beyond the program's beginning."""
    words = lambda count: [path, what, size, used, pages, apart, count]
    return (cost(words(rounds + 2)) - cost(words(2))) / rounds

def time(path):
    def microseconds(what, size, pages, rounds):
        return a_round(seconds, path, what, size, 60, pages, 4, rounds) * 1e6
    print("   KiB  whole copy  freeze 1       4      16    guess    fill")
    for size in (256, 1024, 65536):
        few = 40 if size == 65536 else 5000
        rounds = 20000
        whole = microseconds(COPY, size, 0, few)
        freezes = [microseconds(FREEZE, size, pages, rounds) for pages in (1, 4, 16)]
        both = [microseconds(GUESS, size, 1, few), microseconds(FILL, size, 1, few)]
        print(f"{size:6}{whole:12.1f}{freezes[0]:10.2f}{freezes[1]:8.2f}{freezes[2]:8.2f}"
              f"{both[0]:9.2f}{both[1]:8.2f}", flush=True)

def count(path):
    def of(what, size, used, pages, apart):
        return a_round(instructions, path, what, size, used, pages, apart, 100)
    def freeze(size, used, pages, apart):
        return of(FREEZE, size, used, pages, apart) - of(CHANGE, size, used, pages, apart)
    print("   KiB  used   none    one     fill  first and last")
    for size, used in ((64, 4), (64, 64), (1024, 4), (1024, 480), (65536, 4), (65536, 480)):
        fill = of(FILL, size, used, 1, 1) - of(CHANGE, size, used, 1, 1)
        print(f"{size:6}{used:6}{freeze(size, used, 0, 1):7.0f}{freeze(size, used, 1, 1):7.0f}{fill:9.0f}"
              f"{freeze(size, used, 2, size // 4 - 2):16.0f}", flush=True)
    print("a word of one copy, of two:", *(of(what, 256, 256, 1, 1) / 1000 for what in (WORD, WORD_OF_TWO)))

def main():
    harness.asked(__doc__, 0, "--count")
    with tempfile.TemporaryDirectory() as folder:
        path = harness.build("asc_copies: asc_shape", folder, "0 256 1 1 1 1")
        count(path) if "--count" in sys.argv else time(path)

if __name__ == "__main__":
    main()
