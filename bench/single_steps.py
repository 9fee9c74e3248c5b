#!/usr/bin/env python3
"""Writes crates/asc_tests/src/single_steps.rt: single steps, with what QEMU makes of each.

    python3 bench/single_steps.py            writes the file, and prints how many cases each instruction has
    python3 bench/single_steps.py --check    says whether the file is what this script would write

It wants `llvm-mc` (of LLVM) and `qemu-riscv32` (Debian's package qemu-user) on the path.

A case is one instruction, two registers and two words of memory. llvm-mc makes the instruction's word; a word that it
has no text for (fields that a FENCE ignores) is written `.word`, after the manual's encoding. For each case this script
writes a whole RISC-V program, an ELF file of one segment that is loaded at 0x10000, and has QEMU run it:

    0x10000  the instruction under test, alone
    0x10100  the two words of data
    0x14000  where the program is entered: it asks for a signal handler on a stack of its own, sets all 31 registers,
             and jumps to 0x10000
    0x15000  the signal handler: it writes out the registers at the signal and memory below 0x14000, and exits
    0x17000  what the calls that ask for the handler read
    0x18000  the stack of the handler
    all else EBREAK

So wherever the instruction leads, the next fetch ends in a signal: an EBREAK inside memory (SIGTRAP), or an address
where nothing is mapped (SIGSEGV). The handler is given the pc and the registers of that moment, so that no code has to
run in between that would change one. Where the instruction itself faults, the signal has another pc or another number,
and this script stops: it leaves no case out. A jump to itself would never end, and no case has one.

Beside what the table keeps, it is seen to on QEMU that every other register, and every other byte below 0x14000, is as
it was.
"""

import re
import struct
import subprocess
import sys
import tempfile
from pathlib import Path

sys.dont_write_bytecode = True

import harness

TARGET = harness.ROOT / "crates/asc_tests/src/single_steps.rt"

BASE, SIZE = 0x10000, 0x10000
DATA = 0x10100
ENTRY = 0x14000
HANDLER = 0x15000
STACK = 0x18000
EBREAK = 0x00100073

# What x12, which is the destination of most words, and the registers that no case names have before the step.
X12 = 0x5A5A5A5A
FILLER = 0x01010101

SIGTRAP, SIGSEGV = 5, 11

# ---------------------------------------------------------------------------------------------------------------------
# Words

def assemble(lines):
    """The words of these instructions, one for each line, as llvm-mc makes them."""
    made = subprocess.run(
        ["llvm-mc", "-triple=riscv32", "-mattr=+m,+a", "-show-encoding"],
        input="".join(line + "\n" for line in lines), capture_output=True, text=True, check=True,
    )
    # A word that is given as data is shown as it was given, and has no encoding.
    shown = re.findall(r"# encoding: \[(.*)\]|^\s*\.word\s+(\S+)", made.stdout, re.MULTILINE)
    if len(shown) != len(lines):
        sys.exit(f"llvm-mc made {len(shown)} words of {len(lines)} lines")
    return [int(data, 0) if data else int.from_bytes(bytes(int(byte, 16) for byte in code.split(",")), "little")
            for code, data in shown]


def load(register, value):
    """The two instructions that put a word into a register."""
    upper = (value + 0x800) >> 12 & 0xFFFFF
    lower = (value & 0xFFF) - (0x1000 if value & 0x800 else 0)
    return [f"lui x{register}, {upper}", f"addi x{register}, x{register}, {lower}"]


# ---------------------------------------------------------------------------------------------------------------------
# What QEMU makes of a case

# In a signal frame, where the context that the handler is given has the pc and then x1 to x31.
CONTEXT_PC = 160
# Where a signal's information has its address.
INFO_ADDRESS = 12

# What the code before and behind the step is read from: the stack for sigaltstack, and the action for rt_sigaction.
STACK_T, SIGACTION = 0x17000, 0x17010
SA_SIGINFO, SA_ONSTACK = 0x4, 0x08000000


def call(number, *arguments):
    """The instructions of a system call. An argument is a number, or the name of a register that holds it."""
    lines = []
    for k, argument in enumerate(arguments):
        lines += [f"addi x{10 + k}, {argument}, 0"] if isinstance(argument, str) else load(10 + k, argument)
    return lines + load(17, number) + ["ecall"]


def before_the_step(registers):
    """The instructions before the step, from ENTRY on."""
    lines = call(132, STACK_T, 0)  # sigaltstack
    for signal in (4, SIGTRAP, 7, SIGSEGV):
        lines += call(134, signal, SIGACTION, 0, 8)  # rt_sigaction
    for k in range(1, 32):
        lines += load(k, registers[k])
    return lines + [f"jal x0, {BASE - (ENTRY + 4 * len(lines))}"]


def handler():
    """The instructions of the signal handler, which is given the signal, its information and its context."""
    return (["addi x8, x10, 0", "addi x9, x11, 0", f"addi x18, x12, {CONTEXT_PC}", f"addi x9, x9, {INFO_ADDRESS}"]
            + call(64, 1, "x18", 128)  # write: the pc and the registers
            + call(64, 1, "x9", 4)  # write: the address of the signal
            + call(64, 1, BASE, ENTRY - BASE)  # write: memory
            + call(93, "x8"))  # exit, with the signal as status


class Program:
    """The programs of the cases. They differ in the word under test, x10, x11 and the two words of data."""

    def __init__(self):
        self.handler = assemble(handler())
        self.setup = {}

    def image(self, word, registers, data):
        """Memory before the first instruction, as bytes."""
        words = [EBREAK] * (SIZE // 4)

        def put(address, new):
            at = (address - BASE) // 4
            words[at:at + len(new)] = new

        key = tuple(registers)
        if key not in self.setup:
            self.setup[key] = assemble(before_the_step(registers))
        put(BASE, [word])
        put(DATA, data)
        put(ENTRY, self.setup[key])
        put(HANDLER, self.handler)
        put(STACK_T, [STACK, 0, BASE + SIZE - STACK])
        put(SIGACTION, [HANDLER, SA_SIGINFO | SA_ONSTACK, 0, 0])
        return struct.pack(f"<{len(words)}I", *words)


def elf(memory):
    """An ELF file for 32-bit RISC-V of one segment, which is all of memory, for reading, writing and fetching."""
    ident = b"\x7fELF" + bytes([1, 1, 1]) + bytes(9)
    header = ident + struct.pack("<HHIIIIIHHHHHH", 2, 243, 1, ENTRY, 52, 0, 0, 52, 32, 1, 0, 0, 0)
    segment = struct.pack("<8I", 1, 0x1000, BASE, BASE, len(memory), len(memory), 7, 0x1000)
    return (header + segment).ljust(0x1000, b"\0") + memory


def step(program, text, word, a, b, data):
    """What QEMU makes of a case: the pc, the register that may have changed, its value, and the two words of data."""

    def refuse(why):
        sys.exit(f"{text} with {a:#x}, {b:#x}: {why}")

    registers = [FILLER * k & 0xFFFFFFFF for k in range(32)]
    registers[10:13] = a, b, X12
    memory = program.image(word, registers, data)
    with tempfile.NamedTemporaryFile(suffix=".elf") as file:
        file.write(elf(memory))
        file.flush()
        Path(file.name).chmod(0o755)
        try:
            run = subprocess.run(["qemu-riscv32", file.name], stdin=subprocess.DEVNULL, capture_output=True, timeout=20)
        except subprocess.TimeoutExpired:
            refuse("QEMU did not end")
    if len(run.stdout) != 128 + 4 + ENTRY - BASE:
        refuse(f"QEMU ended with {run.returncode} and {len(run.stdout)} bytes. {run.stderr.decode(errors='replace')}")

    pc, *after = struct.unpack("<32I", run.stdout[:128])
    (address,) = struct.unpack("<I", run.stdout[128:132])
    memory_after = run.stdout[132:]

    # The step was taken, and the next fetch ended in the signal.
    if pc == BASE:
        refuse(f"signal {run.returncode} at the instruction itself")
    inside = BASE <= pc < BASE + SIZE
    if inside and (run.returncode != SIGTRAP or memory[pc - BASE:pc - BASE + 4] != struct.pack("<I", EBREAK)):
        refuse(f"signal {run.returncode} at {pc:#x}, which is no EBREAK")
    if not inside and (run.returncode != SIGSEGV or address != pc):
        refuse(f"signal {run.returncode} at {pc:#x}, for {address:#x}")

    # No register but the destination has changed, and no byte but those of the data.
    rd = destination(text)
    for k in range(1, 32):
        if k != rd and after[k - 1] != registers[k]:
            refuse(f"x{k} has become {after[k - 1]:#x}")
    from_, to = DATA - BASE, DATA - BASE + 8
    if memory_after[:from_] != memory[:from_] or memory_after[to:] != memory[to:ENTRY - BASE]:
        refuse("memory beside the data has changed")
    return pc, rd, after[rd - 1] if rd else 0, struct.unpack("<2I", memory_after[from_:to])


def destination(text):
    """The register that an instruction writes. It is x12 where it writes none, which then has to stay."""
    name, _, operands = text.partition(" ")
    if name in BRANCHES + STORES or name.startswith(("fence", ".word")):
        return 12
    return int(operands.split(",")[0].strip()[1:])


# ---------------------------------------------------------------------------------------------------------------------
# The cases

ONES, LEAST, MOST = 0xFFFFFFFF, 0x80000000, 0x7FFFFFFF

BRANCHES = ["beq", "bne", "blt", "bge", "bltu", "bgeu"]
STORES = ["sb", "sh", "sw"]
ZEROS = (0, 0)


class Case:
    """An instruction as llvm-mc reads it, and x10, x11 and the two words of data before the step."""

    def __init__(self, text, a=0, b=0, data=ZEROS):
        self.text, self.a, self.b, self.data = text, a, b, data


def upper(name):
    """LUI and AUIPC: the ends of the immediate, and of its sign."""
    cases = [Case(f"{name} x12, {i:#x}") for i in (0, 1, 0x7FFFF, 0x80000, 0xFFFFF, 0x12345)]
    return cases + [Case(f"{name} x0, 0xabcde"), Case(f"{name} x10, 0xabcde", 7)]


def jal():
    """JAL: near and far, in both directions, each part of the immediate alone, and out of memory."""
    offsets = (4, 8, 1024, 2048, 4096, 0x8000, 0x80000, 0xFFFFC, -4, -8, -2048, -4096, -0x100000)
    cases = [Case(f"jal x12, {i}") for i in offsets]
    return cases + [Case("jal x0, 512"), Case("jal x0, -512"), Case("jal x10, 512", 7)]


def jalr():
    """JALR: the ends of the immediate, odd sums, sums past 2^32 and below 0, and the base as destination."""
    sums = [(0x10200, 0), (0x10200, 4), (0x10204, -4), (0x10A00, -2048), (0x11001, 2047), (0x10201, 0), (0x10200, 1),
            (0x101FF, 2), (0x10203, -2), (0x10A01, -2048), (0x10801, -1024), (ONES, 1), (0xFFFFFFFD, 4), (0, -4),
            (0, 2044), (0xF000, 0)]
    cases = [Case(f"jalr x12, {i}(x10)", a) for a, i in sums]
    return cases + [
        Case("jalr x0, 0(x10)", 0x10200), Case("jalr x0, 1(x10)", 0x10200), Case("jalr x10, 8(x10)", 0x10200),
        Case("jalr x10, -3(x10)", 0x10204), Case("jalr x12, 2044(x0)"), Case("jalr x12, 0(x11)", 0x10300, 0x10200),
    ]


def branch(name):
    """A branch: edges of both operands, forwards and backwards in turn; then far, and from the same register twice."""
    pairs = [(0, 0), (0, 1), (1, 0), (ONES, 0), (0, ONES), (ONES, ONES), (LEAST, MOST), (MOST, LEAST), (LEAST, LEAST),
             (LEAST, ONES), (MOST, 0x7FFFFFFE), (0x80000001, 0x00000001)]
    cases = [Case(f"{name} x10, x11, {-8 if k % 2 else 8}", a, b) for k, (a, b) in enumerate(pairs)]
    taken = (5, 5) if name in ("beq", "bge", "bgeu") else (3, 4)
    stays = (3, 4) if name in ("beq", "bge", "bgeu") else (5, 5)
    cases += [Case(f"{name} x10, x11, {i}", *taken) for i in (-4096, 4092, -4, 2048)]
    # The target of a branch that is not taken need not be a multiple of 4.
    cases += [Case(f"{name} x10, x11, {i}", *stays) for i in (-4096, 4094, 4, 2)]
    return cases + [Case(f"{name} x10, x10, 16", 9), Case(f"{name} x0, x10, 16", LEAST)]


# The bytes 7F 80 FF 00 80 7F FE 01: with and without the sign of a byte, of two and of four, at each address.
SIGNS = (0x00FF807F, 0x01FE7F80)


def load_case(name, size):
    """A load: each address from which its bytes are data, both ends of the immediate, and destinations."""
    cases = [Case(f"{name} x12, {k}(x10)", DATA, 0, SIGNS) for k in range(9 - size)]
    cases += [Case(f"{name} x12, {i}(x10)", a, 0, SIGNS)
              for a, i in ((DATA + 1, -1), (DATA + 2048, -2048), (DATA - 2047, 2047), (DATA + 2049, -2048))]
    return cases + [Case(f"{name} x0, 0(x10)", DATA, 0, SIGNS), Case(f"{name} x10, 1(x10)", DATA, 0, SIGNS),
                    Case(f"{name} x12, 0(x11)", 0, DATA + 2, SIGNS)]


def store_case(name, size):
    """A store: each address at which its bytes are data, both ends of the immediate, and x0 and the base as value."""
    data, b = (0x33221100, 0x77665544), 0x89ABCDEF
    cases = [Case(f"{name} x11, {k}(x10)", DATA, b, data) for k in range(9 - size)]
    cases += [Case(f"{name} x11, {i}(x10)", a, b, data)
              for a, i in ((DATA + 1, -1), (DATA + 2048, -2048), (DATA - 2047, 2047), (DATA - 30, 31), (DATA + 32, -32))]
    return cases + [Case(f"{name} x0, 0(x10)", DATA, b, data), Case(f"{name} x10, 1(x10)", DATA, b, data),
                    Case(f"{name} x10, 0(x11)", b, DATA + 2, data)]


def immediate(name):
    """An instruction with an immediate: edges of the register, and both ends of the immediate."""
    pairs = [(0, 0), (0, 1), (0, -1), (ONES, 1), (ONES, -1), (MOST, 1), (MOST, -1), (LEAST, -1), (LEAST, 0), (0, 2047),
             (0, -2048), (ONES, 2047), (0xFFFFF800, -2048), (0xFFFFF7FF, -2048), (2047, 2047), (2046, 2047),
             (0x55555555, -1366), (0x12345678, 1929)]
    cases = [Case(f"{name} x12, x10, {i}", a) for a, i in pairs]
    return cases + [Case(f"{name} x0, x10, 5", 3), Case(f"{name} x10, x10, -7", 5), Case(f"{name} x12, x0, -5", 3)]


def shift_immediate(name):
    """A shift by an immediate: amounts 0, 1 and 31 of both signs."""
    pairs = [(0x80000001, 0), (0x80000001, 1), (0x80000001, 31), (MOST, 0), (MOST, 1), (MOST, 31), (ONES, 16),
             (ONES, 31), (0, 31), (0x12345678, 4)]
    cases = [Case(f"{name} x12, x10, {i}", a) for a, i in pairs]
    return cases + [Case(f"{name} x0, x10, 3", ONES), Case(f"{name} x10, x10, 3", 0x87654321)]


def registers(name, pairs):
    """An instruction of two registers, on these pairs, and then with each destination and source that differs."""
    cases = [Case(f"{name} x12, x10, x11", a, b) for a, b in pairs]
    a, b = 0x87654321, 0x00000005
    return cases + [Case(f"{name} {operands}", a, b) for operands in (
        "x0, x10, x11", "x10, x10, x11", "x11, x10, x11", "x12, x11, x10", "x12, x10, x10", "x12, x0, x10",
        "x12, x10, x0")]


SUMS = [(0, 0), (0, 1), (1, ONES), (ONES, 1), (0, ONES), (ONES, ONES), (MOST, 1), (LEAST, ONES), (LEAST, LEAST),
        (MOST, LEAST), (LEAST, MOST), (0, LEAST), (MOST, MOST), (0x12345678, 0x9ABCDEF0)]
SHIFTS = [(0x80000001, 0), (0x80000001, 1), (0x80000001, 31), (0x80000001, 32), (0x80000001, 33), (0x80000001, ONES),
          (MOST, 1), (MOST, 31), (ONES, 0xFFFFFFE0), (0, 31), (0x12345678, 4)]
PRODUCTS = [(0, 0), (0, ONES), (1, ONES), (ONES, 1), (ONES, ONES), (LEAST, ONES), (ONES, LEAST), (LEAST, LEAST),
            (MOST, MOST), (MOST, LEAST), (LEAST, MOST), (MOST, ONES), (ONES, MOST), (0x10000, 0x10000),
            (0x12345678, 0x9ABCDEF0)]
QUOTIENTS = [(0, 0), (1, 0), (ONES, 0), (LEAST, 0), (MOST, 0), (LEAST, ONES), (LEAST, 1), (ONES, LEAST), (MOST, ONES),
             (7, 2), (7, 0xFFFFFFFE), (0xFFFFFFF9, 2), (0xFFFFFFF9, 0xFFFFFFFE), (0, 5), (1, LEAST), (LEAST, LEAST),
             (LEAST, 2)]


def load_reserved():
    """LR.W alone: both words, all order bits, and destinations."""
    data = (LEAST, ONES)
    cases = [Case(f"lr.w{order} x12, (x10)", a, 0, data)
             for order, a in (("", DATA), ("", DATA + 4), (".aq", DATA), (".rl", DATA + 4), (".aqrl", DATA))]
    return cases + [Case("lr.w x0, (x10)", DATA, 0, data), Case("lr.w x10, (x10)", DATA, 0, data),
                    Case("lr.w x12, (x11)", 0, DATA + 4, data)]


def store_conditional():
    """SC.W where nothing is reserved: it fails."""
    data = (MOST, 0)
    cases = [Case(f"sc.w{order} x12, x11, (x10)", a, ONES, data)
             for order, a in (("", DATA), ("", DATA + 4), (".aq", DATA), (".rl", DATA + 4), (".aqrl", DATA))]
    return cases + [Case("sc.w x0, x11, (x10)", DATA, 5, data), Case("sc.w x10, x11, (x10)", DATA, 5, data),
                    Case("sc.w x11, x11, (x10)", DATA, 5, data), Case("sc.w x12, x0, (x10)", DATA, 5, data)]


def atomic(name):
    """An AMO: edges of the word and of the register, all order bits, and destinations."""
    pairs = [(0, 0), (1, ONES), (ONES, 1), (MOST, 1), (LEAST, ONES), (LEAST, MOST), (MOST, LEAST), (LEAST, LEAST),
             (0, LEAST), (0x12345678, 0x9ABCDEF0)]
    cases = [Case(f"{name} x12, x11, (x10)", DATA, b, (t, 0xBAD)) for t, b in pairs]
    cases += [Case(f"{name}{order} x12, x11, (x10)", DATA + 4, 0x0FF0FF00, (0xBAD, 0xF0F0F0F0))
              for order in ("", ".aq", ".rl", ".aqrl")]
    data = (0x00FF00FF, 0)
    return cases + [Case(f"{name} {operands}", DATA, 0x0F0F0F0F, data) for operands in (
        "x0, x11, (x10)", "x10, x11, (x10)", "x11, x11, (x10)", "x12, x0, (x10)", "x12, x10, (x10)")]


def groups():
    """The cases of each instruction, by its name in the manual."""
    yield "LUI", upper("lui")
    yield "AUIPC", upper("auipc")
    yield "JAL", jal()
    yield "JALR", jalr()
    for name in BRANCHES:
        yield name.upper(), branch(name)
    for name, size in (("lb", 1), ("lh", 2), ("lw", 4), ("lbu", 1), ("lhu", 2)):
        yield name.upper(), load_case(name, size)
    for name, size in (("sb", 1), ("sh", 2), ("sw", 4)):
        yield name.upper(), store_case(name, size)
    for name in ("addi", "slti", "sltiu", "xori", "ori", "andi"):
        yield name.upper(), immediate(name)
    for name in ("slli", "srli", "srai"):
        yield name.upper(), shift_immediate(name)
    for name in ("add", "sub", "sll", "slt", "sltu", "xor", "srl", "sra", "or", "and"):
        yield name.upper(), registers(name, SHIFTS if name in ("sll", "srl", "sra") else SUMS)
    # With fm 1000 (FENCE.TSO), as PAUSE, and with all fields that are ignored.
    fences = ("fence", "fence r, w", "fence.tso", ".word 0x0100000F", ".word 0xFFF5060F")
    yield "FENCE", [Case(text, DATA, 1) for text in fences]
    yield "FENCE.I", [Case(text, DATA, 1) for text in ("fence.i", ".word 0xFFF5160F")]
    for name in ("mul", "mulh", "mulhsu", "mulhu"):
        yield name.upper(), registers(name, PRODUCTS)
    for name in ("div", "divu", "rem", "remu"):
        yield name.upper(), registers(name, QUOTIENTS)
    yield "LR.W", load_reserved()
    yield "SC.W", store_conditional()
    for name in ("swap", "add", "xor", "and", "or", "min", "max", "minu", "maxu"):
        yield f"AMO{name.upper()}.W", atomic(f"amo{name}.w")


def steps():
    """Each instruction's name with its rows: the case, its word, and what QEMU makes of it."""
    named = list(groups())
    words = iter(assemble([case.text for _, cases in named for case in cases]))
    program = Program()
    for name, cases in named:
        rows = []
        for case in cases:
            word = next(words)
            rows.append((case, word, step(program, case.text, word, case.a, case.b, case.data)))
        yield name, rows


# ---------------------------------------------------------------------------------------------------------------------
# The file

HEAD = """//! Single steps, with values from another implementation.
//!
//! What stands here of each step is what QEMU's user-mode emulator for 32-bit RISC-V made of it:
//! {qemu}.
//! The words were made by llvm-mc ({llvm}), but for {data} that it has no text for,
//! which are written after the manual's encoding. `bench/single_steps.py` writes this file, and says how the values were
//! read from QEMU.

use asc_shape::{{Shape, State}};
use asc_step::{{Stepped, try_step}};
use std::alloc::Global;
use std::process::Abort;

/// A step of the word at 0x10000. Before it x12 is 0x5A5A5A5A, and each register k but x10 and x11 is k times
/// 0x01010101. The step changes no other register than rd, and no byte beside the two words of data.
struct Case {{
    word: u32,
    x10: u32,
    x11: u32,
    /// The words at 0x10100 and 0x10104 before the step.
    data: [u32; 2],
    /// The pc after the step.
    pc: u32,
    /// The register that the step writes, and what it is after the step. It is x12 where the step writes none.
    rd: u32,
    value: u32,
    /// The words at 0x10100 and 0x10104 after the step.
    data_after: [u32; 2],
}}

/// The array of these cases: what there was before the step, and after `=>` what there is after it.
macro_rules! cases {{
    ($($word:literal: $x10:literal $x11:literal [$low:literal $high:literal]
        => $pc:literal $rd:literal $value:literal [$low_after:literal $high_after:literal];)*) => {{
        [$(Case {{
            word: $word,
            x10: $x10,
            x11: $x11,
            data: [$low, $high],
            pc: $pc,
            rd: $rd,
            value: $value,
            data_after: [$low_after, $high_after],
        }}),*]
    }};
}}

#[test]
fn single_steps(rt: HostRuntime) {{
    for case in &CASES {{
        try_case(&rt, rt.alloc(), case);
    }}
}}

/// Takes the step of a case, and looks at the pc, the registers and the first KiB of memory after it.
fn try_case<R: Abort>(rt: &R, alloc: Global, case: &Case) {{
    let (word, x10, x11) = (case.word, case.x10, case.x11);
    let mut state = state_of(rt, alloc, case, 0x10000, case.data);
    assert_eq!(rt;
        try_step(&mut state),
        Stepped::Went,
        "{{word:#x}} with {{x10:#x}}, {{x11:#x}}"
    );
    let mut want = state_of(rt, alloc, case, case.pc, case.data_after);
    assert!(rt; case.rd < 32, "{{word:#x}}");
    want.set_reg(case.rd, case.value);
    assert_eq!(rt;
        state.pc(),
        want.pc(),
        "the pc after {{word:#x}} with {{x10:#x}}, {{x11:#x}}"
    );
    for k in 0..32 {{
        assert_eq!(rt;
            state.reg(k),
            want.reg(k),
            "x{{k}} after {{word:#x}} with {{x10:#x}}, {{x11:#x}}"
        );
    }}
    assert!(rt;
        state.holds(0x10000, 0x400) && want.holds(0x10000, 0x400),
        "{{word:#x}}"
    );
    let same = state.mem(0x10000, 0x400) == want.mem(0x10000, 0x400);
    assert!(rt; same, "memory after {{word:#x}} with {{x10:#x}}, {{x11:#x}}");
}}

/// A state of version Two with this pc, these words of data, and the word and the registers of a case.
fn state_of<R: Abort>(rt: &R, alloc: Global, case: &Case, pc: u32, data: [u32; 2]) -> State {{
    let shape = Shape::two(0x10000, 0x10000).expect(rt, "a shape");
    let mut state = State::new(alloc, shape).expect(rt, "memory");
    state.set_pc(pc);
    for k in 1..32 {{
        state.set_reg(k, k * 0x0101_0101);
    }}
    state.set_reg(10, case.x10);
    state.set_reg(11, case.x11);
    state.set_reg(12, 0x5A5A_5A5A);
    for (at, word) in [(0x10000, case.word), (0x10100, data[0]), (0x10104, data[1])] {{
        assert!(rt; state.holds(at, 4), "memory at {{at:#x}}");
        state.write(at, &word.to_le_bytes());
    }}
    state
}}

static CASES: [Case; {count}] = cases! {{
"""


def number(value):
    """A number as it stands in the table."""
    if value < 10:
        return str(value)
    return f"0x{value:08X}" if value >> 20 else f"0x{value:X}"


def line(case, word, made):
    """The line of a case."""
    pc, rd, value, after = made
    before = f"{number(case.a)} {number(case.b)} [{number(case.data[0])} {number(case.data[1])}]"
    then = f"{number(pc)} {rd} {number(value)} [{number(after[0])} {number(after[1])}]"
    return f"    0x{word:08X}: {before} => {then}; // {case.text}\n"


def version(program):
    """The line in which a program says its version."""
    shown = subprocess.run([program, "--version"], capture_output=True, text=True, check=True).stdout
    return next(line.strip() for line in shown.splitlines() if "version" in line)


def main():
    harness.asked(__doc__, 0, "--check")
    named = list(steps())
    cases = [case for _, rows in named for case, _, _ in rows]
    text = HEAD.format(qemu=version("qemu-riscv32"), llvm=version("llvm-mc"), count=len(cases),
                       data=sum(case.text.startswith(".word") for case in cases))
    for name, rows in named:
        text += f"    // {name}\n" + "".join(line(*row) for row in rows)
        print(f"{len(rows):4} {name}")
    text += "};\n"
    print(f"{len(cases):4} in all, of {len(named)} instructions")
    if "--check" in sys.argv:
        if TARGET.read_text() != text:
            sys.exit(f"{TARGET} is not what this script writes")
    else:
        TARGET.write_text(text)


if __name__ == "__main__":
    main()
