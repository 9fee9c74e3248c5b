#!/usr/bin/env python3
"""Types to the example adder, a line at a time, and says whether each is answered before the next is typed.

    python3 examples/typed.py COMMAND..

COMMAND is what runs it: `asc run examples/images/adder`. The status is 0 where all answers come and are right, and else
1. An answer is waited for ten seconds.
"""

import os
import select
import subprocess
import sys
import time

# What is typed, and what is written before the next is.
TALK = [("", "> "), ("5\n", "5\n> "), ("-12\n", "-7\n> "), ("3 4\n", "-4\n> 0\n> "), ("40\n", "40\n> ")]


def answer(pipe, size):
    """What comes within ten seconds, up to so many bytes."""
    told, end = b"", time.monotonic() + 10
    while len(told) < size and select.select([pipe], [], [], max(0, end - time.monotonic()))[0]:
        piece = os.read(pipe.fileno(), size - len(told))
        if not piece:
            break
        told += piece
    return told.decode(errors="replace")


def main():
    with subprocess.Popen(sys.argv[1:], stdin=subprocess.PIPE, stdout=subprocess.PIPE, bufsize=0) as run:
        for typed, wanted in TALK:
            run.stdin.write(typed.encode())
            told = answer(run.stdout, len(wanted))
            if told != wanted:
                run.kill()
                sys.exit(f"examples/typed.py: {typed!r} is answered by {told!r} in place of {wanted!r}")
        run.stdin.close()
        last = run.stdout.read()
    if (last, run.returncode) != (b"\n", 0):
        sys.exit(f"examples/typed.py: the end is {last!r} with status {run.returncode}")


if __name__ == "__main__":
    main()
