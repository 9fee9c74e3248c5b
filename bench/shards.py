#!/usr/bin/env python3
"""Times look-ups in a shard beside a scan of a list of entries, outside the gate.

    python3 bench/shards.py [--count]

`programs/asc_looks` is added to a copy of the crates under it in a temporary folder, proved and built there with
`rt run`, and run. It makes 1,024 entries of a loop over 272 bytes of memory, and looks for the longest that matches a
state: with `longest_match`, which compares entry after entry, and with `Shard::find`. For each kind of entries and of
answer it prints the processor's nanoseconds of a look-up, the least of three runs, and their ratio:

    one   all read the same places, and differ in a register
    own   each reads memory from another word on, and they differ in the register that points there
    same  all read the same places, and differ in the first word of memory alone, so that no fingerprint tells them apart
    many  they read 890 lists of registers, and the instructions that read them differ
    some  the same with 30 lists, and they differ in a register too
    hit   one of the entries matches the state
    miss  none does

With --count it prints the processor's instructions, as `valgrind --tool=callgrind` counts them: of a look-up that finds
none and of one that finds an entry, by `Shard::find` and by the scan, and of an insertion into the full shard with the
question whether the entry is held. Long copies of the C library are counted as wide moves.

It ends with an error where an answer is not the one that it must be, or the last entry does not read so many parts of words.
"""

import sys
import tempfile

sys.dont_write_bytecode = True

import harness

LINE = "asc_looks: asc_shard asc_traj asc_depvec asc_shape asc_outside asc_model"
SCAN, FIND, INSERT, MAKE = range(4)

KINDS = ("one", "own", "same", "many", "some")

# How many parts of words the last entry of each kind reads.
READS = (79, 79, 79, 82, 83)

def written(run, answer):
    """A run, which must have printed this answer."""
    told = run.stdout.decode()
    return run if told.split() == answer.split() else harness.end(f"{run.line}: {told.strip()}, and not {answer}")

def seconds(words, answer):
    """The processor's seconds of a run that must write this answer, the least of three."""
    return min(written(harness.well(words, wide=True), answer).processor for _ in range(3))

def instructions(words, answer):
    """The processor's instructions of a run that must write this answer."""
    return written(harness.callgrind(words, wide=True), answer).instructions

def looked(cost, path, kind, what, hits, rounds):
    """What a look-up costs beyond the program's beginning."""
    words = lambda count: [path, kind, what, hits, count]
    answer = lambda count: f"{count * hits} {READS[kind]}"
    return (cost(words(rounds), answer(rounds)) - cost(words(0), answer(0))) / rounds

def inserted(path, kind, rounds):
    """The instructions of an insertion."""
    words = lambda what: [path, kind, what, 0, rounds]
    done = instructions(words(INSERT), f"{rounds} {READS[kind]}")
    return (done - instructions(words(MAKE), f"0 {READS[kind]}")) / rounds

def count(path):
    print("        none found    found  insertion  by the scan: none found    found")
    for kind, name in enumerate(KINDS):
        find = [looked(instructions, path, kind, FIND, hits, 1000) for hits in (0, 1)]
        scan = [looked(instructions, path, kind, SCAN, hits, 100) for hits in (0, 1)]
        print(f"{name:4}{find[0]:14.0f}{find[1]:9.0f}{inserted(path, kind, 500):11.0f}{scan[0]:25.0f}{scan[1]:9.0f}",
              flush=True)

def main():
    harness.asked(__doc__, 0, "--count")
    with tempfile.TemporaryDirectory() as folder:
        path = harness.build(LINE, folder, "0 0 0 0")
        if "--count" in sys.argv:
            return count(path)
        print("               scan    find  ratio")
        for kind, name in enumerate(KINDS):
            for hits, answer in ((1, "hit"), (0, "miss")):
                nanoseconds = lambda what, rounds: looked(seconds, path, kind, what, hits, rounds) * 1e9
                scan = nanoseconds(SCAN, 5000)
                find = nanoseconds(FIND, 2000 if name == "many" else 50000)
                print(f"{name:4}  {answer:6}{scan:8.0f}{find:8.0f}{scan / find:7.1f}", flush=True)

if __name__ == "__main__":
    main()
