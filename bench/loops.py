#!/usr/bin/env python3
"""Times long loops of the built program, outside the gate.

    python3 bench/loops.py [STEPS] [PROGRAM]
    python3 bench/loops.py --count [PROGRAM]

STEPS is how many guest steps each loop does, 100,000,000 where it is not given. PROGRAM is the built `asc`,
crates/asc_cli/out/asc_cli where it is not given; `rt run` in crates/asc_cli builds it. For each loop its name, the
processor's seconds and the million guest steps a second are printed:

    alu     six operations on registers and two on immediates, a counter and a branch
    memory  three stores, three loads and two sums, a counter and a branch
    call    a call of a function of two instructions, a counter and a branch

With --count it prints the processor's instructions of one step, as `valgrind --tool=callgrind` counts them and
independent of load: by what a run of 200,000 steps takes more than one of 100,000. There are three numbers: in a plain
run; with --report and an address that is never met; and with one that is met in each turn of the loop. Nothing is
guessed.
"""

import struct
import sys
import tempfile
from pathlib import Path

sys.dont_write_bytecode = True

import harness

# ---------------------------------------------------------------------------------------------------------------------
# Instructions

def addi(rd, rs1, immediate):
    return (immediate & 0xFFF) << 20 | rs1 << 15 | rd << 7 | 0x13

def lui(rd, upper):
    return (upper & 0xFFFFF) << 12 | rd << 7 | 0x37

def op(funct7, funct3, rd, rs1, rs2):
    return funct7 << 25 | rs2 << 20 | rs1 << 15 | funct3 << 12 | rd << 7 | 0x33

def bne(rs1, rs2, offset):
    return (
        (offset >> 12 & 1) << 31 | (offset >> 5 & 0x3F) << 25 | rs2 << 20 | rs1 << 15 | 1 << 12
        | (offset >> 1 & 0xF) << 8 | (offset >> 11 & 1) << 7 | 0x63
    )

def lw(rd, rs1, offset):
    return (offset & 0xFFF) << 20 | rs1 << 15 | 2 << 12 | rd << 7 | 0x03

def sw(rs2, rs1, offset):
    return (offset >> 5 & 0x7F) << 25 | rs2 << 20 | rs1 << 15 | 2 << 12 | (offset & 0x1F) << 7 | 0x23

def jal(rd, offset):
    return (
        (offset >> 20 & 1) << 31 | (offset >> 1 & 0x3FF) << 21 | (offset >> 11 & 1) << 20 | (offset >> 12 & 0xFF) << 12
        | rd << 7 | 0x6F
    )

def jalr(rd, rs1, offset):
    return (offset & 0xFFF) << 20 | rs1 << 15 | rd << 7 | 0x67

# x17 is 93 and x10 is 0: the guest ends with 0.
EXIT = [addi(17, 0, 93), addi(10, 0, 0), 0x73]

# ---------------------------------------------------------------------------------------------------------------------
# Programs

def counted(turns, before, body, behind=()):
    """A loop that does `body` so often, counting x5 down, and then ends; `behind` stands behind the end."""
    upper = (turns + 0x800) >> 12
    loop = [*body, addi(5, 5, -1)]
    return [
        lui(5, upper), addi(5, 5, turns - (upper << 12)), *before,
        *loop, bne(5, 0, -4 * len(loop)), *EXIT, *behind,
    ]

def loops(steps):
    alu = [
        addi(6, 6, 1), op(0, 0, 7, 6, 5), op(0x20, 0, 9, 7, 6), op(0, 4, 10, 7, 9),
        op(0, 7, 11, 10, 6), op(0, 6, 12, 11, 7), op(0, 3, 13, 12, 5), addi(14, 13, 3),
    ]
    memory = [
        sw(5, 8, 0), lw(6, 8, 0), sw(6, 8, 4), lw(7, 8, 4), addi(6, 7, 1), sw(6, 8, 8), lw(9, 8, 8), addi(9, 9, 1),
    ]
    call = [jal(1, 4 * 6)]
    return {
        "alu": counted(steps // 10, [], alu),
        "memory": counted(steps // 10, [lui(8, 0x20)], memory),
        "call": counted(steps // 5, [], call, [addi(6, 6, 1), jalr(0, 1, 0)]),
    }

def image(words):
    """The smallest ELF file around these words, loaded and entered at 0x10000."""
    size = 4 * len(words)
    header = struct.pack("<4s12B", b"\x7fELF", 1, 1, 1, *[0] * 9)
    header += struct.pack("<HHIIIIIHHHHHH", 2, 243, 1, 0x10000, 52, 0, 0, 52, 32, 1, 0, 0, 0)
    segment = struct.pack("<8I", 1, 84, 0x10000, 0x10000, size, size, 7, 4)
    return header + segment + struct.pack(f"<{len(words)}I", *words)

# ---------------------------------------------------------------------------------------------------------------------

# The three ways in which steps are counted: the branch of the loop is met in each of its turns.
def ways(words):
    met = 0x10000 + 4 * next(i for i, word in enumerate(words) if word & 0x707F == 0x1063)
    return [], ["--report", "--guess", "none", "--pc", "ffffc"], ["--report", "--guess", "none", "--pc", f"{met:x}"]

def count(program):
    print("        no address  never met      met")
    with tempfile.TemporaryDirectory() as folder:
        few, more = loops(100_000), loops(200_000)
        for name in few:
            path, taken = Path(folder, name), []
            for words, sign in ((few[name], -1), (more[name], 1)):
                path.write_bytes(image(words))
                taken.append([sign * harness.instructions([program, "run", *way, path]) for way in ways(words)])
            print(f"{name:8}" + "".join(f"{(a + b) / 100_000:{n}.1f}" for n, a, b in zip((10, 11, 9), *taken)))

def main():
    counts = "--count" in sys.argv
    given = harness.asked(__doc__, 1 if counts else 2, "--count")
    if counts:
        return count(harness.asc(*given))
    steps = int(given[0]) if given else 100_000_000
    program = harness.asc(*given[1:])
    with tempfile.TemporaryDirectory() as folder:
        for name, words in loops(steps).items():
            path = Path(folder, name)
            path.write_bytes(image(words))
            seconds = harness.well([program, "run", path]).user
            print(f"{name:8}{seconds:8.2f} s{steps / seconds / 1e6:8.0f} million steps a second")

if __name__ == "__main__":
    main()
