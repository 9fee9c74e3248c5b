#!/usr/bin/env python3
"""Times look-ups in doubled shards with and without a writer at work, and insertions with their publication, outside
the gate.

    python3 bench/doubled.py

`programs/asc_doubled` is added to a copy of the crates under it in a temporary folder, proved and built there with
`rt run`, and run. It fills 3 shards with 1,024 entries each, of a loop over 272 bytes of memory. Then its first thread
looks up, or inserts, and a second thread may do the other. What is printed are nanoseconds of the first thread on a
processor, for each look-up or insertion, the least of five runs, and how many entries the writer stored beside:

    alone   no other thread
    beside  with a writer that inserts into the first two shards in turn, or with a reader that looks up
    one     all entries read the same places, and differ in a register
    own     each reads memory from another word on, and they differ in the register that points there
    hit     an entry of the last shard matches the state, which then jumps and is set back
    miss    none does

It ends with an error where an answer is not the one that it must be.
"""

import sys
import tempfile

sys.dont_write_bytecode = True

import harness

LINE = "asc_doubled may_wait=9: asc_work asc_cache asc_shard asc_find asc_traj asc_depvec asc_shape asc_outside asc_model"
LOOK, INSERT = range(2)

def nanoseconds(path, what, kind, hits, count, beside):
    """What one look-up or insertion takes, the least of five runs, and how many entries the other thread stored then."""
    words = [path, what, kind, hits, count, beside]
    wanted = count if what == INSERT or hits else 0
    runs = []
    for _ in range(5):
        run = harness.well(words)
        found, taken, other = map(int, run.stdout.split())
        if found != wanted or (what == LOOK and beside and other == 0):
            harness.end(f"{run.line}: {found} {other}, and not {wanted}")
        runs.append((taken / count, other))
    return min(runs)

def main():
    harness.asked(__doc__, 0)
    with tempfile.TemporaryDirectory() as folder:
        path = harness.build(LINE, folder, "0 0 0 0 0")
        print("                alone  beside  ratio  stored beside")
        for kind, name in enumerate(("one", "own")):
            rows = [("hit", LOOK, 1, 1_000_000), ("miss", LOOK, 0, 2_000_000), ("insert", INSERT, 0, 50_000)]
            for row, what, hits, count in rows:
                (alone, _), (beside, other) = (nanoseconds(path, what, kind, hits, count, flag) for flag in range(2))
                stored = f"{other:15}" if what == LOOK else ""
                print(f"{name:4}  {row:6}{alone:8.0f}{beside:8.0f}{beside / alone:7.1f}{stored}", flush=True)

if __name__ == "__main__":
    main()
