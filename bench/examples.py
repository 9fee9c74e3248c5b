#!/usr/bin/env python3
"""Times the examples on asc and on QEMU side by side, outside the gate.

    python3 bench/examples.py [ROUNDS] [PROGRAM]

ROUNDS is how often each is run, 3 where it is not given; the least time counts. PROGRAM is the built `asc`,
crates/asc_cli/out/asc_cli where it is not given. `qemu-riscv32` is that of Debian's package
qemu-user.

For each program a line is printed: its name, how many million guest steps it does, how many of them asc does
in a second, and how many times as many QEMU does, twice: as it is, which translates the guest's code in
blocks, and with -one-insn-per-tb (-singlestep before version 8.1), which translates each instruction alone
and goes back to its own loop after each. Times are the processor's, of user and system together, from start
to end of the emulator. What the three write has to be the same bytes.

How many steps a program does is told by asc: in a copy of the image the call that ends the program is an
EBREAK, and the fault there has the count.
"""

import os
import re
import shutil
import struct
import subprocess
import sys
import tempfile
from pathlib import Path

sys.dont_write_bytecode = True

import harness

EBREAK = 0x00100073
# The two instructions behind the call of main in examples/start.s: li a7, 93 and ecall.
END = (0x05D00893, 0x00000073)


# Each program with its input, and the options that asc wants for it.
CASES = {
    "word_count": (lambda: harness.text(8_000_000), []),
    "quicksort": (lambda: harness.numbers(200_000), ["--memory", "4096"]),
    "sha256": (lambda: harness.text(1_000_000), []),
    "matrix": (lambda: b"256\n", []),
    "collatz": (lambda: b"100000\n", []),
    "ising": (lambda: b"8000 32 1\n", ["--memory", "16384"]),
}


def counting_copy(image):
    """The image with EBREAK where the program ends."""
    (entry,) = struct.unpack_from("<I", image, 24)
    offset = entry - 0x10000
    at = offset + 4
    if struct.unpack_from("<2I", image, at) != END:
        sys.exit("an image does not begin as examples/start.s does")
    return image[:at + 4] + struct.pack("<I", EBREAK) + image[at + 8:]


def steps_of(program, image, options, given, folder):
    """How many steps the program does, the one that ends it too."""
    path = os.path.join(folder, "counting")
    Path(path).write_bytes(counting_copy(image))
    run = subprocess.run([program, "run", path, *options], input=given, capture_output=True)
    told = re.search(rb"asc: fault 6 at [0-9a-f]{8} value [0-9a-f]{8} after (\d+)\n\Z", run.stderr)
    if not told:
        sys.exit(f"the count is not told: {run.stderr.decode(errors='replace')}")
    return int(told[1]) + 1


def timed(words, path):
    """The processor's seconds of a command whose standard input is a file, and what it writes."""
    with open(path, "rb") as given:
        run = harness.well(words, stdin=given)
    if run.stderr:
        harness.end(f"{run.line}: {run.stderr.decode(errors='replace')}")
    return run.processor, run.stdout


def single_option():
    """QEMU's option to translate each instruction alone."""
    shown = subprocess.run(["qemu-riscv32", "-h"], capture_output=True, text=True).stdout
    return "-one-insn-per-tb" if "-one-insn-per-tb" in shown else "-singlestep"


def main():
    sys.stdout.reconfigure(line_buffering=True)
    given = harness.asked(__doc__, 2)
    rounds = int(given[0]) if given else 3
    program = harness.asc(*given[1:])
    if not shutil.which("qemu-riscv32"):
        harness.end("no qemu-riscv32; Debian's package qemu-user has it")
    single = single_option()
    print(f"{'':12}{'million steps':>14}{'asc, million/s':>16}{'QEMU':>10}{'QEMU ' + single:>23}")
    with tempfile.TemporaryDirectory() as folder:
        for name, (input_of, options) in CASES.items():
            image, given = harness.IMAGES / name, input_of()
            path = os.path.join(folder, "input")
            Path(path).write_bytes(given)
            steps = steps_of(program, image.read_bytes(), options, given, folder)
            commands = [[program, "run", image, *options], ["qemu-riscv32", image],
                        ["qemu-riscv32", single, image]]
            # One after the other in each round, so that a busy time of the machine meets them all.
            runs = [[timed(words, path) for words in commands] for _ in range(rounds)]
            if len({wrote for each in runs for _, wrote in each}) != 1:
                sys.exit(f"{name}: what they write differs")
            asc, qemu, alone = (min(seconds) for seconds in zip(*[[run[0] for run in each] for each in runs]))
            speed = steps / asc / 1e6
            print(f"{name:12}{steps / 1e6:14.1f}{speed:16.0f}{asc / qemu:9.1f}x{asc / alone:22.2f}x")


if __name__ == "__main__":
    main()
