#!/usr/bin/env python3
"""Tries the tools of this folder, the man page, the links and the list of the documents, and the program to be copied.

    python3 tools/check.py [PROGRAM]

PROGRAM is the built asc, crates/asc_cli/out/asc_cli where none is given. What wants crates/asc_show/out/asc_show, bash,
groff or the cross compiler is left out where these are missing, and a line says so. The status is 0 where all is as it
is to be, and else 1.
"""

import importlib.machinery
import importlib.util
import os
import pty
import re
import select
import shutil
import signal
import struct
import subprocess
import sys
import tempfile
import time
import xml.etree.ElementTree
from pathlib import Path

TOOLS = Path(__file__).resolve().parent
ROOT = TOOLS.parent
IMAGES = ROOT / "examples/images"
SHOW = ROOT / "crates/asc_show/out/asc_show"
failed = tried = 0


def same(what, found, wanted):
    global failed, tried
    tried += 1
    if found != wanted:
        failed += 1
        print(f"tools/check.py: {what}: {found!r} in place of {wanted!r}")


def has(tool, what):
    if shutil.which(tool):
        return True
    print(f"tools/check.py: no {tool}: {what} is left out")
    return False


def shows(what):
    if SHOW.exists():
        return True
    print(f"tools/check.py: no program {SHOW}: {what} is left out")
    return False


def module(path):
    """A tool as a module of Python."""
    sys.dont_write_bytecode = True
    loader = importlib.machinery.SourceFileLoader(path.name.replace("-", "_"), str(path))
    made = importlib.util.module_from_spec(importlib.util.spec_from_loader(loader.name, loader))
    loader.exec_module(made)
    return made


# ---- the options of asc, which the man page, asc-why and the completion repeat

def rows_of(text, name):
    """The rows of a list of arguments."""
    rows = re.search(rf"^{name} =(.*?)∷ \[\]", text, re.M | re.S)[1]
    return [row.strip() for row in rows.split("∷")]


def options():
    """Each option of `asc run`, from its definition: its range or its words and its default, or what it takes. Those that
    `asc save` has too stand first; how many these are is also answered."""
    limits = (ROOT / "crates/asc_model/src/limits.rt").read_text()
    limit = dict(re.findall(r"^pub const (\w+): \w+ = (.*);$", limits, re.M))
    text = (ROOT / "crates/asc_words/specs/Command.antt").read_text()
    text = re.sub(r"\b[A-Z]+_[A-Z_]+\b", lambda name: limit[name[0]].replace("_", ""), text)
    lines = (ROOT / "crates/asc_words/specs/Line.antt").read_text()
    workers = re.search(r"^workers_option = (.*)$", text, re.M)[1]
    shared, (first, *others) = rows_of(text, "shared_arguments"), rows_of(text, "run_arguments")
    same("what run_arguments begins with", first, "shared_arguments ++ workers_option")
    same("what asc save takes", re.findall(r"^save_arguments = (.*)$", text, re.M), ["shared_arguments"])
    found = {}
    others[others.index("rounds_flag")] = re.search(r"^rounds_flag = (.*)$", text, re.M)[1]
    for row in [*shared, workers, *others]:
        kind, name, rest = re.fullmatch(r"(\w+) \(codes \"(\w+)\"\)(.*)", row).groups()
        numbers = re.fullmatch(r" (\d+|\(2 \^ \d+\)) (\d+|\(2 \^ \d+\)) \(codes \"(\w+)\"\)", rest)
        if kind == "number_option" and numbers:
            least, most = (eval(number.replace("^", "**")) for number in numbers.groups()[:2])
            found[f"--{name}"] = (least, most), int(numbers[3])
        elif kind == "text_with_default":
            guesses = re.search(r"^guesses_of text =\n(.*?)\n\n", lines, re.M | re.S)[1]
            found[f"--{name}"] = (tuple(re.findall(r"codes \"(\w+)\"", guesses)),
                                  re.search(r'codes "(\w+)"', rest)[1])
        elif kind in ("text_option", "flag"):
            found[f"--{name}"] = {"pc": "an address", "load": "a file"}.get(name, "nothing"), None
        else:
            same(f"the kind of {name} in run_arguments", kind, "required")
    return found, len(shared) - 1


def check_options(why):
    known, shared = options()
    same("options that asc-why knows", why.OPTIONS, {name: taken for name, (taken, _) in known.items()})
    same("options of asc save that it knows", list(why.COMMANDS["save"][1]), list(known)[:shared])
    same("options of asc batch that it knows", list(why.COMMANDS["batch"][1]), [*list(known)[:shared], "--workers", "--report"])
    same("options without a value that the tools know", sorted(why.asc_tools.FLAGS),
         sorted(name for name, (taken, _) in known.items() if taken == "nothing"))
    same("asc-why's defaults", (why.DEFAULT_MEMORY, why.DEFAULT_MACHINE), (known["--memory"][1], known["--machine"][1]))
    page = (ROOT / "docs/asc.1").read_text()
    plain = page.replace("\\-", "-")
    same("options of the man page", re.findall(r"^\.BI? (--\w+)", plain, re.M), list(known))
    same("options of its synopsis", re.findall(r"\[ (--\w+)", plain), [*known, "--workers", "--rounds"])
    for name, (taken, default) in known.items():
        if default is None:
            continue
        described = re.search(rf"^\.BI {name} .*?(?=^\.TP|^\.SH)", plain, re.M | re.S)
        range_of = [f"from {taken[0]} to {taken[1]}"] if isinstance(default, int) else list(taken)
        wanted = [*range_of, f"\n{default} where it is not given."]
        same(f"the man page's range and default of {name}",
             [text for text in wanted if not described or text not in described[0]], [])
    if has("groff", "the layout of the man page"):
        run = subprocess.run(["groff", "-man", "-ww", "-z", ROOT / "docs/asc.1"], capture_output=True, text=True)
        same("groff's warnings of the man page", (run.returncode, run.stderr), (0, ""))
    return known


# The options behind the first three, as the tests of asc_words write them.
BEHIND = ("--guess --pc --profile --min --laps --span --ahead --workers --lanes --queue --seek --join --report "
          "--load").split()


def meaning(command, behind, values, known):
    """A command line as the tests of asc_words write it: what differs from its default stands behind the first four. In
    rounds there are lanes in place of workers."""
    if values.get("--rounds"):
        values = {**values, "--workers": 0, "--lanes": values.get("--workers", 0)}
    if command in ("make", "trial"):
        both = f" workers {values.get('--workers', 0)} lanes {values.get('--lanes', 0)}"
        return f"{command} {behind}" + (both if command == "trial" else "")
    defaults = {"--lanes": 0, **{name: default for name, (_, default) in known.items()}}
    told = [str(values.get(name, defaults[name])) for name in ("--memory", "--steps", "--machine")]
    for name in BEHIND:
        value = values.get(name, defaults[name])
        if value != defaults[name]:
            flag = name[2:] if name in ("--seek", "--join", "--report") else f"{name[2:]} {value}"
            told.append(value if name == "--guess" else flag)
    if command == "batch":
        inputs = values["inputs"]
        told += ["of", str(len(inputs)), *(name for name in inputs if name != "x")]
    return " ".join([*([command] if command != "run" else []), behind, *told])


def check_words(why, known):
    """asc-why finds what is wrong in just the command lines that asc refuses, as its own tests list them."""
    text = (ROOT / "crates/asc_run_tests/src/words.rt").read_text()
    tables = re.findall(r"static \w*LINES: .*?; (\d+)\] = \[\n(.*?)\n\];", text, re.S)
    lines = [re.findall(r"\(\s*\"(.*?)\",\s*(?:(\d+),\s*)?\"(.*?)\",?\s*\)", table) for _, table in tables]
    same("rows of command lines", [len(rows) for rows in lines], [int(count) for count, _ in tables])
    for line, more, wanted in [row for rows in lines for row in rows]:
        try:
            found = meaning(*why.line_of(line.split(" ")[1:] + ["x"] * int(more or 0)), known)
        except why.Wrong:
            found = "refused"
        same(f"what asc-why makes of `{line}` and {more or 0}", found,
             "refused" if wanted in ("no address", "too many inputs") else wanted)


# ---- images

def elf(code=(0x00100073,), segments=None, entry=0x10054, **fields):
    """A file with one program header, or as many as are given, and code behind them; fields are put over it."""
    body = struct.pack(f"<{len(code)}I", *code)
    segments = segments or [(1, 0, 0x10000, 84 + len(body), 84 + len(body))]
    names = "ident type machine version entry phoff shoff flags ehsize phentsize phnum shentsize shnum shstrndx"
    values = dict(zip(names.split(), [b"\x7fELF\1\1\1", 2, 243, 1, entry, 52, 0, 0, 52, 32, len(segments), 0, 0, 0]))
    values.update(fields)
    table = b"".join(struct.pack("<8I", kind, offset, address, address, filled, size, 7, 4096)
                     for kind, offset, address, filled, size in segments)
    return struct.pack("<16sHHIIIIIHHHHHH", *values.values()) + table + body


# Files that are refused, and what is said of each.
REFUSED = [
    (b"", "it has fewer than 52 bytes: an empty file, or one cut short"),
    (b"#!/bin/sh\n" + 60 * b"#",
     "it is no ELF file: asc wants what the linker makes, and no source, script or raw binary"),
    (elf(ident=b"\x7fELF\2\1\1"), "it is not for 32 bits: build it with -march=rv32im -mabi=ilp32"),
    (elf(ident=b"\x7fELF\1\2\1"), "it is big-endian: built for another machine"),
    (elf(ident=b"\x7fELF\1\1\2"), "its header has another file version: a damaged file"),
    (elf(type=1), "it is an object file: link it, which is to build without -c"),
    (elf(type=3), "it may lie anywhere, or is a library: build it with -static -no-pie, and without -shared"),
    (elf(machine=40), "it is for another machine than RISC-V: build it with a RISC-V compiler"),
    (elf(flags=5), "its flags are 0x5: compressed instructions: leave the c out of -march; "
                   "floating point in arguments: -mabi=ilp32"),
    (elf(flags=8), "its flags are 0x8: fewer registers: -march=rv32im -mabi=ilp32, and no rv32e"),
    (elf(phentsize=56), "its program headers do not have 32 bytes: a damaged file"),
    (elf(phoff=4000), "its program headers pass its end: a file cut short"),
    (elf(segments=[(3, 0, 0, 0, 0)]), "it asks for dynamic linking: build it with -static"),
    (elf(segments=[(1, 0, 0x10000, 88, 88), (1, 80, 0x20000, 5000, 6000)]),
     "header 1 has 5000 bytes from 80 on for 6000 bytes of memory at 0x20000, and the file has 120: a file cut short"),
    (elf(segments=[(6, 0, 0, 0, 0)]), "it has nothing to load: a linker script without a segment"),
    (elf(segments=[(1, 0, 0x10000, 88, 2000000)]), "its segments lie from 0x10000 to 0x1f8480: "
     "--memory 1954 holds them, and --memory 2018 has 64 KiB more for the stack"),
    (elf(segments=[(1, 0, 0x10000, 88, 88), (1, 0, 0x80000000, 4, 4)]), "its segments lie from 0x10000 to 0x80000004, "
     "which no --memory holds: a linker script that puts them closer to one another"),
    (elf(entry=0), "its entry is 0x0: a linker script with neither ENTRY nor a section .text"),
]


def kept(count=0, entries=b"", magic=b"ASCE", form=1, machine=2, base=0x10000, size=1 << 20):
    """A file of saved entries."""
    return magic + struct.pack("<BBHIII", form, machine, 0, base, size, count) + entries


# Files of saved entries that are refused, and what is said of each.
NOT_LOADED = [
    (b"ASCE", "it ends too early: a file cut short"),
    (kept(count=1), "it ends too early: a file cut short"),
    (kept(magic=b"\x7fELF"), "it is no file of saved entries: asc wants what `asc save` writes"),
    (kept(form=2), "it is of another version of such files"),
    (kept(machine=3), "its header tells of no machine that there is: a damaged file"),
    (kept(base=1), "its header tells of no memory that there may be: a damaged file"),
    (kept(count=1025), "its header tells of more than 1024 entries: a damaged file"),
    (kept(1, struct.pack("<QII", 0, 0, 0)), "entry 0 has steps, counts or places out of range: a damaged file"),
    (kept(entries=b"x"), "bytes follow its last entry: a damaged file"),
    (kept(1, struct.pack("<QII", 1, 0, 0)), "entry 0 is not what its steps do: a damaged file, or a forged one"),
    (kept(machine=1, base=0x20000, size=1 << 16), "it is of 64 KiB from 0x20000 on and machine 1, and the run has 1024 KiB "
                                                  "from 0x10000 on and machine 2"),
]

# Code that meets a fault, options, and what is said of it.
OUTSIDE = ", outside memory, which is 0x10000 to 0x10ffff"
FAULTS = [
    ([0x00200513, 0x00050067], [], "a jump to 0x00000002, which is no multiple of 4"),
    ([0x00000067], [], f"a fetch at 0x00000000{OUTSIDE}: a call through a wrong pointer, or a return address that was "
                       "written over, or no start-up code"),
    ([0], [], "0x00000000 is no instruction of this machine: zeros are no code: past its end?"),
    ([0x00010001], [], "0x00010001 is no instruction of this machine: a compressed one, or no code"),
    ([0x02B57553], [], "0x02b57553 is no instruction of this machine: floating point: -march=rv32im has none"),
    ([0xC0002573], [], "0xc0002573 is no instruction of this machine: a control and status register, or a privileged "
                       "instruction: asc has none"),
    ([0x00B5252F], ["--machine", "1"], "0x00b5252f is no instruction of this machine: an atomic, for which --machine 2 "
                                       "is wanted, or one that RV32A on words does not have"),
    ([0x00402503], [], f"a load from 0x00000004{OUTSIDE}: a null pointer"),
    ([0x00110537, 0x00052503], [], f"a load from 0x00110000{OUTSIDE}: it lies above, as with too little --memory"),
    ([0x80000537, 0x00052503], [], f"a load from 0x80000000{OUTSIDE}: a wild pointer"),
    ([0x000105B7, 0xFEA5AE23], ["--memory=64"], "a store to 0x0000fffc, outside memory, which is 0x10000 to 0x1ffff: "
                                                "it lies just below, as a stack that grew too far"),
    ([0x00100073], [], "EBREAK, which gcc puts where a program's behaviour is undefined, and for __builtin_trap"),
    ([0x00200513, 0x00B5252F], [], "an atomic at 0x00000002, which is no multiple of 4"),
]
NO_SYMBOLS = "; an image with symbols, without -s, tells where"

# Code, a command line in a shell, and what is said where asc_show tells where the program stood. The last reads a byte.
READING = [0x00000513, 0x00000597, 0x00100613, 0x03F00893, 0x00000073, 0x0005C683, 0x06200713, 0x00E68463, 0x0000006F,
           0x0000006F]
MORE = "a greater --steps lets it go on, up to 1099511627776"
STOOD = [
    ([0x00000013, 0x0000006F], '"$@" image --steps 9', f"it stands at 0x00010058; the stack pointer is 0x0010ffc0; {MORE}"),
    ([0x00010137, 0x0000006F], '"$@" image --steps=9',
     f"it stands at 0x00010058; the stack pointer is 0x00010000, inside the image: a stack overflow; {MORE}"),
    ([0x00000297, 0x0002A423, 0x00000013], '"$@" image', "where code was overwritten, which is another word in the image: "
     "0x00000000 is no instruction of this machine; the stack pointer is 0x0010ffc0"),
    ([0x00010137, 0xFF010113, 0x00012023], '"$@" image', f"a store to 0x0000fff0{OUTSIDE}: it lies just below, as a stack "
     f"that grew too far; the stack pointer is 0x0000fff0, below memory: a stack overflow{NO_SYMBOLS}"),
    ([0x00000067], '"$@" --memory 64 image', "a fetch at 0x00000000, outside memory, which is 0x10000 to 0x1ffff: a call "
     "through a wrong pointer, or a return address that was written over, or no start-up code; the stack pointer is "
     "0x0001ffc0"),
    (READING, '{ dd bs=1 count=1 of=/dev/null 2>/dev/null; "$@" image --steps 20; cat; } <given',
     f"it stands at 0x00010078; the stack pointer is 0x0010ffc0; {MORE}"),
    (READING, '"$@" image --steps 20 </dev/null', f"it stands at 0x00010074; the stack pointer is 0x0010ffc0; {MORE}"),
    (READING, 'echo b | "$@" image --steps 20', f"where it stands is told where its input is a file; {MORE}"),
    (READING, 'echo b | "$@" image --steps 3', f"it stands at 0x00010060; the stack pointer is 0x0010ffc0; {MORE}"),
]

# Command lines in a shell, with what is said of each; "$@" is the program and the word run.
HELLO, ECHO, MATRIX = (IMAGES / name for name in ("hello", "echo", "matrix"))
LINES = [
    (f'"$@" {HELLO}', None),
    (f'echo 0 | "$@" {MATRIX}', None),
    (f'"$@" {HELLO} --mem 64',
     "there is no option --mem: there are --memory, --steps, --machine, --guess, --pc, --profile, "
     "--min, --laps, --span, --ahead, --queue, --join, --seek, --workers, --rounds, --load, --report, and none is "
     "abbreviated"),
    (f'"$@" {HELLO} --memory 63', "--memory 63 is out of range, which is 64 to 65536"),
    (f'"$@" {HELLO} --memory 1M', "--memory wants a number in decimal digits, from 64 to 65536, and '1M' is none"),
    (f'"$@" {HELLO} --pc 0x10054',
     "--pc wants an address, of 1 to 8 hexadecimal digits and no 0x, and '0x10054' is none"),
    (f'"$@" {HELLO} --report=yes', "--report takes no value"),
    (f'"$@" {HELLO} --report', None),
    (f'"$@" {HELLO} --report --steps 3', "a greater --steps lets it go on, up to 1099511627776"),
    (f'"$@" {HELLO} more', "'more' is one word more than the image"),
    ('"$@"', "there is no image"),
    ('"$@" none', "there is no file none"),
    (f'"$@" {HELLO} --load none', "there is no file none"),
    (f'"$@" {HELLO} --load', "--load wants the name of a file"),
    ('"$@" -', "there is no file -; standard input is /dev/stdin"),
    ('"$@" /', "/ is a folder"),
    (f'"$@" {HELLO} --steps 3', "a greater --steps lets it go on, up to 1099511627776"),
    (f'"$@" {HELLO} >/dev/full', "standard output: the device failed, as a full disk"),
    (f'"$@" {HELLO} >&-', "standard output: it is closed"),
    (f'"$@" {HELLO} 2>/dev/full >/dev/full', None),
    (f'"$@" {ECHO} <&-', "standard input: it is closed"),
    (f'"$@" {ECHO} 0>/dev/null', "standard input: it is open for writing alone"),
]


def outcome(words, **given):
    run = subprocess.run(words, capture_output=True, stdin=given.pop("stdin", subprocess.DEVNULL), **given)
    return run.stdout, run.stderr, run.returncode


# The same of the word save.
SAVES = [
    (f'"$@" {HELLO} >/dev/null', None),
    (f'"$@" {HELLO} --report', "there is no option --report: there are --memory, --steps, --machine, --guess, --pc, "
     "--profile, --min, --laps, --span, --ahead, --queue, --join, --seek, and none is abbreviated"),
    (f'"$@" {HELLO} >/dev/full', "standard output: the device failed, as a full disk"),
]


def explained(what, program, line, wanted, folder, command="run", show="none"):
    """One command line on asc and on asc-why: the same but for a line more, which is as wanted."""
    alone = outcome(["sh", "-c", line, "sh", program, command], cwd=folder)
    told = outcome(["sh", "-c", line, "sh", TOOLS / "asc-why", "--asc", program, "--show", show, command], cwd=folder)
    added = f"asc-why: {wanted}\n".encode() if wanted else b""
    same(f"asc-why: {what}", told, (alone[0], alone[1] + added, alone[2]))


def check_why(program, folder):
    for line, wanted in LINES:
        explained(line, program, line, wanted, folder)
    for line, wanted in SAVES:
        explained(f"save: {line}", program, line, wanted, folder, "save")
    path = folder / "image"
    for file, wanted in REFUSED:
        path.write_bytes(file)
        explained(wanted, program, '"$@" image', f"image: {wanted}", folder)
    path.write_bytes(elf())
    for file, wanted in NOT_LOADED:
        (folder / "kept").write_bytes(file)
        explained(wanted, program, '"$@" image --load kept', f"kept: {wanted}", folder)
    for code, options, wanted in FAULTS:
        path.write_bytes(elf(code))
        more = "" if "fetch" in wanted else NO_SYMBOLS
        explained(wanted, program, f'"$@" image {" ".join(options)}', wanted + more, folder)
    path.write_bytes(elf([0x00000297, 0x0002A423, 0x00000013]))
    explained("a word that was met", program, '"$@" image', "where code was overwritten, which is another word in the "
              "image: 0x00000000 is no instruction of this machine", folder)
    check_stood(program, folder)
    check_ends(program, folder)
    if has("riscv64-unknown-elf-gcc", "the line of a fault"):
        (folder / "crash.c").write_text("static int height(volatile int *at)\n{\n    return at[1];\n}\n\n"
                                        "int main(void)\n{\n    return height(0);\n}\n")
        built(folder, "crash", "-g", "-Og", ROOT / "examples/start.s", "crash.c")
        explained("a line of source", program, '"$@" crash', "in height, at crash.c:3, lw a0,4(a0): "
                  f"a load from 0x00000004{OUTSIDE}: a null pointer", folder)


def check_stood(program, folder):
    """What is said of where a program stood; and programs in place of asc_show that have no answer."""
    (folder / "given").write_text("abc")
    path = folder / "image"
    path.write_bytes(elf(STOOD[0][0]))
    for name in ("silent", "killed", "refusing"):
        show = script(folder, name, {"silent": "exit 0", "killed": "kill -s KILL $$", "refusing": "exit 64"}[name])
        explained(f"asc_show is {name}", program, STOOD[0][1], MORE, folder, show=show)
    if shows("where a program stood"):
        for code, line, wanted in STOOD:
            path.write_bytes(elf(code))
            explained(wanted, program, line, wanted, folder, show=SHOW)


def check_ends(program, folder):
    """A pipe whose reader has gone, input that would have to be waited for, and a signal."""
    why = [TOOLS / "asc-why", "--show", "none", "--asc", program, "run"]
    gone = b"asc: output failed\nasc-why: standard output: it is a pipe whose reader has gone\n74\n"
    line = f'{{ sleep 0.3; "$@" {ECHO} <{ROOT}/README.md; echo $? >status; }} 2>errors | :; cat errors status'
    same("asc-why: a closed pipe", outcome(["sh", "-c", line, "sh", *why], cwd=folder)[0], gone)
    ours, theirs = os.pipe()
    os.set_blocking(ours, False)
    refused = (b"asc: input failed\nasc-why: standard input: it is set not to wait (O_NONBLOCK), and asc does not ask "
               b"again\n")
    same("asc-why: input that is not waited for", outcome([*why, ECHO], stdin=ours), (b"", refused, 74))
    os.close(ours)
    os.close(theirs)
    same("asc-why: a time that is out", outcome(["timeout", "0.3", *why, spin(folder)]), (b"", b"", 124))
    killed = b"asc-why: it was killed, as where the system has no more memory\n"
    for number, told in ((signal.SIGINT, b""), (signal.SIGKILL, killed)):
        same(f"asc-why: {number.name}", signalled(number, why, folder), (told, -number))
    told = outcome(["sh", "-c", 'ulimit -f 0; "$@" >file; echo $?', "sh", *why, HELLO], cwd=folder)
    same("asc-why: a limit on files", (told[0], told[1].splitlines()[:1]),
         (b"153\n", [b"asc-why: a limit on the size of files (ulimit -f) ended asc"]))


def signalled(number, why, folder):
    """What is said where this signal ends the program, for which a script stands in, and the status."""
    stand_in = folder / "stand_in"
    stand_in.write_text(f"#!/bin/sh\nkill -s {number.name[3:]} $$\n")
    stand_in.chmod(0o755)
    # Where this script runs behind others, a shell may have it ignore SIGINT, and what it starts would too.
    before = signal.signal(signal.SIGINT, signal.default_int_handler)
    try:
        return outcome([*why[:-2], stand_in, why[-1], HELLO])[1:]
    finally:
        signal.signal(signal.SIGINT, before)


def spin(folder):
    """A program that does not end: j to itself."""
    path = folder / "spin"
    path.write_bytes(elf([0x0000006F]))
    return path


def check_steps(program, folder):
    def steps(*words, given=b""):
        return outcome([TOOLS / "asc-steps", "--asc", program, *words], stdin=None, input=given)

    same("asc-steps: hello", steps(HELLO), (b"9\n", b"", 0))
    # Ten times around two instructions, and then li a7, 93 in two, so that no copy tells the count.
    path = folder / "loop"
    path.write_bytes(elf([0x00A00513, 0xFFF50513, 0xFE051EE3, 0x05C00893, 0x00188893, 0x00000073]))
    same("asc-steps: a loop", steps(path), (b"24\n", b"", 0))
    # The first call behind li a7, 93 is brk, and the second one ends the program.
    path.write_bytes(elf([0x05D00893, 0x0D600893, 0x00000073, 0x05D00893, 0x00000013, 0x00000073]))
    same("asc-steps: a guess that is wrong", steps(path), (b"6\n", b"", 0))
    same("asc-steps: input is given to each run", steps(ECHO, given=b"text")[1:], (b"", 0))
    same("asc-steps: a limit", steps(spin(folder), "--steps", "1000"), (b"", b"asc: limit after 1000\n", 75))
    same("asc-steps: a report beside", steps("--report", HELLO), (b"9\n", b"", 0))
    same("asc-steps: a limit, and a report beside", steps(spin(folder), "--steps=7", "--report"),
         (b"", b"asc: limit after 7\n", 75))
    same("asc-steps: no file", steps(folder / "none"), (b"", b"asc: store failed\n", 66))
    for name in ("collatz", "word_count"):
        given = (ROOT / "examples" / name / "input").read_bytes()
        count = int(steps(IMAGES / name, given=given)[0])
        statuses = [subprocess.run([program, "run", IMAGES / name, f"--steps={limit}"], input=given,
                                   capture_output=True).returncode for limit in (count - 1, count)]
        same(f"asc-steps: {name} with a step less, and with as many", statuses, [75, 0])


# In place of asc, for pictures that are known: laps of 1000 steps, jumps at all visits but the first ten; with a queue at
# 10058 alone, and by one lap each. It does 300,000 steps a second.
STAND_IN = """#!/usr/bin/env python3
import sys
import time
options = dict(word[2:].partition("=")[::2] for word in sys.argv[1:] if word.startswith("--"))
steps = min(int(options.get("steps", 100000)), 100000)
asked = steps // 1000
none = options.get("guess") == "none" or "queue" in options and "--pc 10058 --laps 1 " not in " ".join(sys.argv)
hits = 0 if none else max(0, asked - 10)
time.sleep((steps - 900 * hits) / 300_000)
numbers = f"executed {steps - 900 * hits} skipped {900 * hits} asked {asked} hits {hits}"
sys.stderr.write(f"asc: {numbers} made 0 refused 0\\n")
if options.get("workers", "0") != "0":
    sys.stderr.write("asc: ran 0 left 0 stored 0 known 0 empty 0 dropped 0 stopped 0 full 0\\n")
"""


def stand_in(folder):
    return script(folder, "guessing", STAND_IN)


def script(folder, name, text):
    path = folder / name
    path.write_text(text if text.startswith("#!") else f"#!/bin/sh\n{text}\n")
    path.chmod(0o755)
    return path


def nested(folder):
    """Five times 20 times around two instructions: 218 steps, with heads at 0x10058 and 0x1005c."""
    path = folder / "nested"
    path.write_bytes(elf([0x00500593, 0x01400513, 0xFFF50513, 0xFE051EE3, 0xFFF58593, 0xFE0598E3, 0x05D00893,
                          0x00000073]))
    return path


# In place of asc_show, for the stand-in of asc: laps of 1000 steps at two addresses; the trace at 1005c ends at the span.
SHOW_STAND_IN = """case $1 in
    profile) echo "steps 100000 up to its end"; echo "chosen 0001005c"
        echo "  00010054 met 3 first 0 last 99000 back"
        for pc in 10058 1005c; do echo "  000$pc met 100 first 0 last 99000 back"; done ;;
    entry) [ "$3" = 10058 ] && echo "steps 1000 up to the visit" || echo "steps 1000 up to the span" ;;
    seek) echo "steps 100000 up to its end"; echo "address 0001005c"; echo "visits 99 jumps 9 skipped 54321" ;;
    *) echo steps ;;
esac
"""
ALL, STEPS = (f"{steps} steps up to its end; without --pc asc chooses " for steps in (218, 100000))
HEADS, TRIED = "      --pc     visits          lap  within", "  lap ends       hits  skipped"
UNTRIED = b"asc-pc: no laps have %d steps, so none is tried; --lap takes another least\n"
ROW, NUMBERS = "        100       1000.0   99.0%", "         90    81.0%"
SOUGHT = "with --seek a run is visited last at 1005c, and 54.3% are skipped\n"


def show_stand_in(folder):
    return script(folder, "standing", SHOW_STAND_IN)


def check_pc(program, folder):
    check_profile(program, folder)
    image, guessing, standing = nested(folder), stand_in(folder), show_stand_in(folder)
    known = [TOOLS / "asc-pc", "--asc", guessing, "--show", standing, "--lap=1000"]
    rows = f"{ROW}  visit   {NUMBERS}", f"{ROW}  span    {NUMBERS}\n  with --span 4000{' ' * 34}{NUMBERS}"
    same("asc-pc: trials", outcome([*known, image, "--guess", "last"]), (
        f"{STEPS}1005c\n{HEADS}{TRIED}  where\n*    10058{rows[0]}\n     1005c{rows[1]}\n{SOUGHT}".encode(), b"", 0))
    same("asc-pc: little is jumped over", outcome([*known, image, "--guess=none"])[1:], (
        f"asc-pc: little is jumped over; asc-show --miss {image} 10058 3 tells what guesses have wrong\n".encode(), 0))
    same("asc-pc: no laps are as long", outcome([*known[:-1], "--lap=2000", image]), (
        f"{STEPS}1005c\n{HEADS}{TRIED}  where\n     10058{ROW}\n     1005c{ROW}\n{SOUGHT}".encode(), UNTRIED % 2000, 0))
    many = script(folder, "many", "echo 'steps 9000 up to its end'; echo 'chosen none'; for k in $(seq 100 121); do "
                                  "echo \"  00010$k met 9 first 0 last 9 back\"; done")
    same("asc-pc: many rows", [outcome([TOOLS / "asc-pc", "--show", many, *words, image])[0].decode().splitlines()[-1]
                               for words in ([], ["--no-try"])],
         ["  2 more with --no-try", "     10121          9          1.1    0.1%"])
    best = [*known[:1], "--best", *known[1:], "--seconds=60", image, "--workers=2"]
    line, gained, status = outcome(best)
    same("asc-pc: the best options", (re.sub(rb"ahead \d+ --queue \d+", b"ahead A --queue Q", line), status), (
        b"--pc 10058 --laps 1 --span 4000 --ahead A --queue Q --workers 2\n", 0))
    gained = re.sub(rb"asc-pc: \d+ s: .*\n", b"", gained)
    same("asc-pc: what they gain", re.sub(rb"\d\.\d\d times", b"G times", gained),
         b"asc-pc: on the first 100000 steps G times as fast as a plain run, 81% skipped\n")
    same("asc-pc: no kind is on", outcome([*best, "--guess=none"]), (
        b"", b"asc-pc: nothing gained: no kind of guess is on\n", 1))
    same("asc-pc: no long laps", outcome([*best, "--lap=2000"]), (b"", (
        b"asc-pc: nothing gained: no address with laps of 2000 steps or more was met 4 times from above in 100000 steps\n"
        ), 1))
    slow = script(folder, "slow", f"sleep 5.5\n{SHOW_STAND_IN}")
    same("asc-pc: what is being done", outcome([*known[:3], "--show", slow, "--no-try", image])[1:], (
        b"asc-pc: 5 s: the profile is being made\n", 0))


def check_profile(program, folder):
    """What asc-pc makes of programs, with asc_show."""
    if not shows("the profile of asc-pc"):
        return

    def told(*words):
        return outcome([TOOLS / "asc-pc", "--asc", program, "--show", SHOW, *words])

    image = nested(folder)
    outer, inner = "    10058          5         43.0   78.9%", "     1005c        100          2.1   96.3%\n"
    same("asc-pc: two loops", told(image, "--no-try"), (
        f"{ALL}10058\n{HEADS}  where\n {outer}\n{inner}".encode(), b"", 0))
    same("asc-pc: a trial", told("--lap=10", image), (
        f"{ALL}10058\n{HEADS}{TRIED}  where\n*{outer}  visit             3    59.6%\n{inner}".encode(), b"", 0))
    limited = f"200 steps up to the limit; without --pc asc chooses 10058\n{HEADS}{TRIED}  where\n"
    same("asc-pc: a trial up to a limit", told("--lap=10", "--steps=200", image, "--workers", "2", "--span", "50"), (
        f"{limited}*    10058          5         43.0   86.0%  visit             2    43.0%\n"
        "     1005c         93          2.1   98.0%\n".encode(), b"", 0))
    same("asc-pc: a limit", told(image, "--steps", "20", "--pc=10058"), (
        f"20 steps up to the limit; without --pc asc chooses 1005c\n{HEADS}{TRIED}  where\n"
        "     1005c          9          2.0   80.0%\n".encode(), UNTRIED % 100, 0))
    same("asc-pc: no head", told(HELLO), (
        f"9 steps up to its end; without --pc asc chooses none\n{HEADS}{TRIED}  where\n".encode(), UNTRIED % 100, 0))
    same("asc-pc: no file", told(folder / "none"), (b"", b"asc_show: the file can't be read\n", 66))
    same("asc-pc: wrong words", told(image, "--pages=4")[2], 64)
    if has("riscv64-unknown-elf-gcc", "function and line of asc-pc"):
        (folder / "sum.c").write_text("int main(void)\n{\n    volatile int sum = 0;\n    for (int k = 0; k < 10; k++)\n"
                                      "        sum += k;\n    return 0;\n}\n")
        built(folder, "sum", "sum.c", "-g", "-Os", ROOT / "examples/start.s")
        rows = told("--no-try", folder / "sum")[0].decode().splitlines()[2:]
        same("asc-pc: function and line", [re.sub(r"  +", " ", row).split(" ")[-2:] for row in rows],
             [["main", "sum.c:5"]])


def built(folder, name, *words):
    """A program of the cross compiler."""
    subprocess.run(["riscv64-unknown-elf-gcc", "-march=rv32im", "-mabi=ilp32", "-ffreestanding", "-nostdlib", "-static",
                    "-T", ROOT / "examples/link.ld", "-o", name, *words], cwd=folder, check=True)


ENTRY = """steps 2 up to the visit
reads
  pc       {0}
  a0       00000013
  {0} fff50513
  {1} fe051ee3
writes
  pc       {0}
  a0       00000012
"""
CODE = """code
  {0} addi a0,a0,-1
  {1} bne a0,zero,{2} <again>
"""


def check_show(folder):
    """The second of twenty laps, with and without instructions, and what asc_show refuses."""
    if not shows("the trial of asc-show"):
        return

    def shown(*words):
        return outcome([TOOLS / "asc-show", "--show", SHOW, *words])

    image = nested(folder)
    same("asc-show: no code", shown(image, "1005c", "2"), (ENTRY.format("0001005c", "00010060").encode(), b"", 0))
    told = shown(image, "1005c", "101")
    same("asc-show: no such visit", told, (
        b"", b"asc_show: the program ended before that visit; visits so far: 100\n", 69))
    same("asc-show: no file", shown(folder / "none", "1005c", "1"), (b"", b"asc_show: the file can't be read\n", 66))
    same("asc-show: wrong words", shown(image, "1005c")[2], 64)
    if has("riscv64-unknown-elf-gcc", "the instructions of asc-show"):
        (folder / "again.s").write_text(".globl _start\n_start: li a0, 20\nagain: addi a0, a0, -1\nbnez a0, again\n"
                                        "li a7, 93\necall\n")
        built(folder, "again", "again.s")
        at = ("00010078", "0001007c", "10078")
        same("asc-show: code", shown(folder / "again", "10078", "2"), ((ENTRY + CODE).format(*at).encode(), b"", 0))
        data = "".join(line for line in ENTRY.splitlines(True) if not line.startswith(("  {0}", "  {1}")))
        same("asc-show: data alone", shown("--data", folder / "again", "10078", "2"),
             ((data + "code 2 instructions\n").format(*at).encode(), b"", 0))
    check_misses(shown, image, folder)


# Options behind --miss, and what is printed: of the inner loop of `nested`, whose a0 goes down from 20 to 1 five times.
MISSES = [
    ("3 18", "stride: right at 18 of 18\n"),
    ("3 40", "stride: right at 36 of 40\n  a0 differs at 4 of 40; at visit 21 guessed 00000000, met 00000014\n"),
    ("12", "stride: right at 9 of 10\n  a0 differs at 1 of 10; at visit 21 guessed 00000000, met 00000014\n"),
    ("95 --guess=last", "last: right at 0 of 6\n  a0 differs at 6 of 6; at visit 95 guessed 00000007, met 00000006\n"),
    ("3 1 --guess both", "last: right at 0 of 1\n  a0 differs at 1 of 1; at visit 3 guessed 00000013, met 00000012\n"
                         "stride: right at 1 of 1\n"),
]
# A loop that doubles a variable, and a word of the stack and of the break with it.
DOUBLING = """.globl _start
_start: la s0, counts
li a0, 20
again: lw t0, 12(s0)
slli t0, t0, 1
addi t0, t0, 1
sw t0, 12(s0)
sw t0, -16(sp)
lw t1, -16(sp)
lw t2, 512(s0)
addi t2, t2, 1
mul t2, t2, t2
sw t2, 512(s0)
addi a0, a0, -1
bnez a0, again
li a7, 93
ecall
.data
.type counts, @object
.size counts, 64
counts: .zero 64
"""


def check_misses(shown, image, folder):
    for words, wanted in MISSES:
        same(f"asc-show --miss {words}", shown("--miss", image, "1005c", *words.split()), (wanted.encode(), b"", 0))
    same("asc-show --miss: no such visit", shown("--miss", image, "1005c", "101"), (
        b"", b"asc_show: the program ended before that visit; visits so far: 100\n", 69))
    same("asc-show --miss: no guesses", shown("--miss", image, "1005c", "3", "--guess=none"), (
        b"", b"asc-show: no kind of guess is on\n", 0))
    for words in ([], ["1"], ["two"], ["3", "--pages=4"]):
        same(f"asc-show --miss: wrong words {words}", shown("--miss", image, "1005c", *words)[::2], (b"", 64))
    if has("riscv64-unknown-elf-gcc", "the names of asc-show --miss"):
        (folder / "doubling.s").write_text(DOUBLING)
        built(folder, "doubling", "doubling.s")
        told = shown("--miss", folder / "doubling", "10080", "4", "1")[0].decode()
        same("asc-show --miss: names", re.findall(r"^(stride.*?):|^  \w{8} (.*) differs", told, re.M),
             [("stride, at again", ""), ("", "counts+12"), ("", "taken memory")])


def check_plot(folder):
    def picture(*words, said=rb""):
        told = outcome([TOOLS / "asc-plot", *words])
        same(f"asc-plot {words[0]}", (bool(re.fullmatch(said, told[1])), told[2]), (True, 0))
        drawn = xml.etree.ElementTree.fromstring(told[0])
        return {kind: drawn.findall(f"{{http://www.w3.org/2000/svg}}{kind}") for kind in ("rect", "polyline", "text")}

    guessing, image = stand_in(folder), nested(folder)
    for name, limit in (("all", 100000), ("part", 40000)):
        (folder / name).write_bytes(outcome([guessing, f"--steps={limit}", "--workers=1"])[1])
    drawn = picture("steps", folder / "all", folder / "part")
    same("asc-plot steps: heights", [float(bar.get("height")) for bar in drawn["rect"][3:]], [57.0, 243.0, 39.0, 81.0])
    same("asc-plot steps: texts", [text.text for text in drawn["text"][-4:]],
         ["all", "81.0% skipped", "part", "67.5% skipped"])
    drawn = picture("hits", "--asc", guessing, "--parts", "4", image, "--pc=10058")
    same("asc-plot hits: its points", drawn["polyline"][0].get("points"),
         "90.0,350.0 222.5,305.0 355.0,230.0 487.5,155.0 620.0,80.0")
    same("asc-plot hits: its title", drawn["text"][0].text, "nested: 90 jumps at 100 visits, 81.0% of steps skipped")
    row = rb"asc-plot: --workers %d: \d\.\d{3} s, \d\.\d\d times as fast as a plain run\n"
    drawn = picture("workers", "--asc", guessing, "--most", "3", "--times", "1", image,
                    said=b"".join(row % workers for workers in range(4)))
    same("asc-plot workers: its points", len(drawn["polyline"][0].get("points").split()), 4)
    same("asc-plot workers: its texts", [text.text for text in drawn["text"][:3]],
         ["nested: time against workers", "workers", "seconds"])
    (folder / "empty").write_bytes(b"")
    same("asc-plot: no numbers", outcome([TOOLS / "asc-plot", "steps", folder / "empty"])[2], 1)
    same("asc-plot: no file", outcome([TOOLS / "asc-plot", "steps", folder / "none"]), (
        b"", f"asc-plot: {folder / 'none'}: No such file or directory\n".encode(), 1))


def check_full(program, folder):
    """A full device as standard output, and a pipe whose reader has ended."""
    image, guessing = nested(folder), stand_in(folder)
    asked = {"asc-pc": ["--show", show_stand_in(folder), "--no-try", image], "asc-steps": ["--asc", program, image],
             "asc-plot": ["hits", "--asc", guessing, image], "asc-why": ["--help"],
             "asc-show": ["--show", script(folder, "showing", "echo steps"), image, "1005c", "2"]}
    for tool, words in asked.items():
        told = outcome([TOOLS / tool])
        if tool != "asc-why":
            same(f"{tool}: no words", (told[0], told[1].decode().count(f"    {tool} ") > 0, told[2]), (b"", True, 64))
        full = f"{tool}: No space left on device\n".encode()
        for line in (words, ["--help"]):
            reading, writing = os.pipe()
            os.close(reading)
            for out, wanted in ((os.open("/dev/full", os.O_WRONLY), (full, 74)), (writing, (b"", -signal.SIGPIPE))):
                run = subprocess.run([TOOLS / tool, *line], stdin=subprocess.DEVNULL, stdout=out,
                                     stderr=subprocess.PIPE)
                os.close(out)
                same(f"{tool} {line[0]}: a full device, or a pipe without a reader", (run.stderr, run.returncode), wanted)


class Started:
    """A tool with processes of its own, which a Ctrl-C meets together. It has a minute."""

    def __init__(self, words, folder, given=subprocess.DEVNULL):
        before = signal.signal(signal.SIGINT, signal.default_int_handler)
        self.run = subprocess.Popen(words, stdin=given, stdout=subprocess.PIPE, stderr=subprocess.PIPE, cwd=folder,
                                    start_new_session=True, bufsize=0)
        signal.signal(signal.SIGINT, before)

    def line(self):
        """The first line on standard error."""
        return self.run.stderr.readline() if select.select([self.run.stderr], [], [], 60)[0] else b""

    def outcome(self):
        try:
            return *self.run.communicate(timeout=60), self.run.returncode
        except subprocess.TimeoutExpired:
            os.killpg(self.run.pid, signal.SIGKILL)
            return *self.run.communicate(), "it goes on"

    def interrupted(self):
        os.killpg(self.run.pid, signal.SIGINT)
        return self.outcome()


def check_terminal(program, folder):
    """A terminal as standard input, at which nobody types, or one Ctrl-D ends what is typed."""
    image, guessing = nested(folder), stand_in(folder)
    showing = script(folder, "showing", "echo steps")
    waits = b": the guest's input is read from the terminal; end it with Ctrl-D\n"
    ours, theirs = pty.openpty()
    for tool, *words in (("asc-pc", "--asc", program, image), ("asc-pc", "--best", "--asc", program, image),
                         ("asc-show", "--miss", "--show", showing, image, "1005c", "3"),
                         ("asc-steps", "--asc", program, image), ("asc-plot", "hits", "--asc", guessing, image),
                         ("asc-plot", "workers", "--asc", guessing, image)):
        started = Started([TOOLS / tool, *words], folder, theirs)
        same(f"{tool} {words[0]}: nobody types", (started.line(), started.interrupted()),
             (tool.encode() + waits, (b"", b"", -signal.SIGINT)))
    for tool, *words in (("asc-plot", "steps", "none"), ("asc-show", "--show", showing, image, "1005c", "2"),
                         ("asc-why", "--asc", program, "run", HELLO)):
        told = Started([TOOLS / tool, *words], folder, theirs).outcome()
        same(f"{tool} {words[0]}: no input", (b"Ctrl-D" in told[1], told[2] == "it goes on"), (False, False))
    for typed in (b"\x04", b"a line\n\x04"):
        started = Started([TOOLS / "asc-steps", "--asc", program, HELLO], folder, theirs)
        os.write(ours, typed)
        same(f"asc-steps: {typed} is typed", started.outcome(), (b"9\n", b"asc-steps" + waits, 0))
    os.close(ours)
    os.close(theirs)


# In place of asc: a run at 1005c that does not end. It says so once the tool has seen the end of the one at 10058.
ENDLESS = STAND_IN + """
import os
if "--pc=10058" in sys.argv:
    os.symlink(str(os.getpid()), "number")
    os.replace("number", "counted")
if "--pc=1005c" in sys.argv:
    while not os.path.lexists("counted") or os.path.exists(f"/proc/{os.readlink('counted')}"):
        time.sleep(0.1)
    time.sleep(1)
    open("runs", "w").close()
    time.sleep(600)
"""


def check_interrupt(folder):
    """A Ctrl-C while the program of a tool runs."""
    def told(tool, *words):
        for name in ("runs", "counted"):
            (folder / name).unlink(missing_ok=True)
        started = Started([TOOLS / tool, *words], folder)
        for _ in range(600):
            if (folder / "runs").exists():
                return started.interrupted()
            time.sleep(0.1)
        return "no run goes on", started.interrupted()

    image, endless = nested(folder), script(folder, "endless", ">runs; exec sleep 600")
    for tool, *words in (("asc-pc", "--show", endless, image), ("asc-pc", "--best", "--asc", endless, image),
                         ("asc-plot", "hits", "--asc", endless, image), ("asc-steps", "--asc", endless, image),
                         ("asc-show", "--show", endless, image, "1005c", "2"),
                         ("asc-show", "--miss", "--show", endless, image, "1005c", "3"),
                         ("asc-why", "--asc", endless, "run", image)):
        profiling = b"asc-pc: an interrupt ended the profile; --steps bounds a long run\n"
        said = profiling if words[0] == "--show" and tool == "asc-pc" else b""
        same(f"{tool} {words[0]}: an interrupt", told(tool, *words), (b"", said, -signal.SIGINT))
    trying = script(folder, "trying", ENDLESS)
    asked = ["asc-pc", "--show", show_stand_in(folder), "--asc", trying, image]
    known = (f"{STEPS}1005c\n{HEADS}{TRIED}  where\n*    10058{ROW}  visit   {NUMBERS}\n"
             f"     1005c{ROW}  span              -        -\n")
    same("asc-pc: an interrupt among trials", told(*asked), (
        known.encode(), b"asc-pc: an interrupt ended it; 1 of 2 addresses tried\n", -signal.SIGINT))
    spanned = f"  with --span 4000{' ' * 34}          -        -\n"
    same("asc-pc: trials that are not done in time", outcome([TOOLS / "asc-pc", *asked[1:], "--seconds=2"], cwd=folder), (
        f"{known}{spanned}{SOUGHT}".encode(), b"", 0))


def check_shell(program, folder):
    """A reader that wants one line, a tool that is named by a link from another folder or is a copy there, and programs that
    a signal ends or that report nothing."""
    line = '{ "$@"; echo $? >status; } 2>errors | head -1; cat errors'
    standing = ["--show", show_stand_in(folder), nested(folder)]
    told = outcome(["sh", "-c", line, "sh", TOOLS / "asc-pc", "--no-try", *standing], cwd=folder)
    same("asc-pc | head -1", (told, (folder / "status").read_text() in ("0\n", "141\n")),
         ((f"{STEPS}1005c\n".encode(), b"", 0), True))
    (folder / "linked").symlink_to(TOOLS / "asc-steps")
    same("asc-steps by a link", outcome([folder / "linked", "--asc", program, HELLO], cwd="/"), (b"9\n", b"", 0))
    copied = folder / "copied"
    copied.mkdir()
    for name in ("asc-steps", "asc_tools.py"):
        shutil.copy(TOOLS / name, copied)
    same("a copy of asc-steps", outcome([copied / "asc-steps", "--asc", program, HELLO], cwd="/"), (b"9\n", b"", 0))
    for place in (TOOLS, copied):
        same(f"what the tools leave in {place}", list(place.glob("__pycache__")), [])
    killed = script(folder, "killed", "kill -s KILL $$")
    same("asc-show: its program is killed", outcome([TOOLS / "asc-show", "--show", killed, "image"]),
         (b"", b"", -signal.SIGKILL))
    for path, status in ((killed, -9), (script(folder, "silent", "exit 0"), 0)):
        same(f"asc-pc: {path.name}", outcome([TOOLS / "asc-pc", "--asc", path, *standing])[1:], (
            f"asc-pc: a run ended with status {status} and no numbers\n".encode(), 1))
        same(f"asc-pc: asc_show is {path.name}", outcome([TOOLS / "asc-pc", "--show", path, HELLO]), (
            b"", f"asc-pc: asc_show ended with status {status} and no profile\n".encode(), 1))


# ---- documents

def headings(text):
    """The names by which links lead to a document's headings."""
    plain = re.sub(r"^```.*?^```", "", text, flags=re.M | re.S)
    return [re.sub(r"[^\w\- ]", "", line.lower()).replace(" ", "-") for line in re.findall(r"^#+ (.*)$", plain, re.M)]


def check_links():
    """Each link of a document leads to a file, and to a heading of it where it names one."""
    for document in [ROOT / "README.md", ROOT / "CHANGELOG.md", *sorted((ROOT / "docs").glob("*.md"))]:
        for link in re.findall(r"\]\(([^)]*)\)", document.read_text()):
            name, _, heading = link.partition("#")
            target = document.parent / name if name else document
            found = target.exists() and (not heading or heading in headings(target.read_text()))
            same(f"the link {link} of {document.name}", found, True)


def check_definitions():
    """The list of definitions is what docs/definitions.py makes of the files as they are."""
    same("definitions.py --check", outcome([sys.executable, ROOT / "docs/definitions.py", "--check"]), (b"", b"", 0))


def check_copy(folder):
    """The copy of the program over the crates has each crate that a line of it names, and none else."""
    script, copied = ROOT / "examples/embed/copy.sh", folder / "simulator"
    same("copy.sh", outcome([script, copied]), (b"", b"", 0))
    same("copy.sh into a folder that is there", outcome([script, copied])[2], 73)
    lines = [line.partition(":") for line in (copied / "crates.txt").read_text().splitlines()]
    ours = {re.match(r"\w+", line)[0] for line in (ROOT / "crates.txt").read_text().splitlines() if line[:1] != "#"}
    wanted = {"embed"} | {name for line in lines for name in line[2].split() if name in ours}
    same("the crates that copy.sh lists", sorted(line[0].split()[0] for line in lines), sorted(wanted))
    same("the crates that it copies", sorted(path.name for path in (copied / "crates").iterdir()), sorted(wanted))
    texts = [path.read_text() for path in copied.glob("crates/embed/*/**/*") if path.suffix in (".rt", ".antt")]
    same("the name that it has before", [len(texts), any("asc_embed" in text for text in texts)], [12, False])


# A library that lets no thread be made.
THREADLESS = b"#include <errno.h>\nint pthread_create(void) { return EAGAIN; }\n"


def check_rounds(program, folder, numbers_of):
    """In rounds each example reports what it reports without workers, to each byte, for any number of lanes; and one does so
    to its end, also where no thread can be made."""
    def told(image, *options, **environment):
        given = ROOT / "examples" / image / "input"
        with open(given if given.exists() else os.devnull, "rb") as stdin:
            return outcome([program, "run", "--report", "--guess=both", *options, IMAGES / image], stdin=stdin,
                           env={**os.environ, **environment})

    for image in sorted(path.name for path in IMAGES.iterdir()):
        alone = told(image, "--steps=10000")
        for lanes in (1, 3, 64):
            same(f"{image} in rounds with {lanes}", told(image, "--steps=10000", f"--workers={lanes}", "--rounds"), alone)
    alone = told("collatz", "--pc=10484")
    same("collatz jumps", numbers_of(alone[1])["hits"] > 0, True)
    same("collatz in rounds", told("collatz", "--pc=10484", "--workers=3", "--rounds"), alone)
    if has("cc", "rounds without threads"):
        library = folder / "threadless.so"
        made = subprocess.run(["cc", "-shared", "-fPIC", "-o", library, "-x", "c", "-"], input=THREADLESS)
        same("cc's status", made.returncode, 0)
        same("collatz in rounds without threads",
             told("collatz", "--pc=10484", "--workers=3", "--rounds", LD_PRELOAD=str(library)), alone)


def check_completion(known):
    if not has("bash", "the completion"):
        return

    def offered(*words):
        script = 'source "$1"; shift; COMP_WORDS=("$@"); COMP_CWORD=$(($# - 1)); _asc; printf "%s\\n" "${COMPREPLY[@]}"'
        return outcome(["bash", "-c", script, "bash", TOOLS / "asc.bash", *words], cwd=ROOT)[0].decode().split()

    same("the first word", offered("asc", ""), ["run", "save", "make", "trial", "batch"])
    same("options of trial", offered("asc", "trial", "7", "--"), ["--workers", "--rounds"])
    same("numbers of trial's workers", offered("asc", "trial", "--workers", ""), ["0", "64"])
    same("options of make", offered("asc", "make", ""), [])
    same("options", offered("asc", "run", "--"), list(known))
    same("options of save", offered("asc", "save", "--"),
         [name for name in known if name not in ("--workers", "--rounds", "--load", "--report")])
    same("options of batch", offered("asc", "batch", "--"), [name for name in known if name not in ("--rounds", "--load")])
    same("numbers of save", offered("asc", "save", "--queue", ""), ["1", "256", "1024"])
    same("a part of one", offered("asc", "run", "--st"), ["--steps"])
    for words in (["run"], ["save"], ["batch"], ["batch", "image"], ["run", "--load"], ["run", "--load", "="]):
        same(f"files behind {' '.join(words)}", offered("asc", *words, "examples/images/h"), ["examples/images/hello"])
    for tool, first, own, others in (
            ("asc-pc", [], "--asc --show --no-try --best --lap --seconds", list(known)),
            ("asc-plot", ["hits"], "--asc --parts", list(known)),
            ("asc-plot", ["workers"], "--asc --most --times", list(known)), ("asc-plot", ["steps"], "", []),
            ("asc-show", [], "--show --data --miss --help", "--memory --steps --machine --laps --span".split()),
            ("asc-show", ["--miss"], "--guess", "--memory --steps --machine --laps --span".split()),
            ("asc_show", ["profile"], "--all", list(known)), ("asc_show", ["entry"], "", list(known)),
            ("asc_show", ["seek"], "", [name for name in known if name != "--seek"]),
            ("asc-steps", [], "--asc --help", list(known)), ("asc-why", [], "--asc --show --help", [])):
        wanted = own.split() + (["--help"] if tool == "asc-pc" else []) + others
        what = " ".join([tool, *first])
        same(f"options of {what}", offered(tool, *first, "--"), wanted)
        same(f"files of {what}", offered(tool, *first, *["--asc"] * (wanted[:1] == ["--asc"]), "examples/images/h"),
             ["examples/images/hello"])
    same("what asc-plot draws", offered("asc-plot", ""), ["steps", "hits", "workers"])
    same("what asc_show is asked", offered("asc_show", ""), ["entry", "miss", "at", "profile", "seek"])
    for words in (["run"], ["--asc", "program", "run"], ["--show", "shower", "--asc", "program", "run"]):
        same(f"options behind asc-why {' '.join(words)}", offered("asc-why", *words, "--"), list(known))
    for name, (taken, default) in known.items():
        if default is None:
            continue
        wanted = {str(value) for value in (*taken, default)}
        same(f"numbers of {name}", set(offered("asc", "run", name, "")), wanted)
        same(f"numbers of {name}=", set(offered("asc", "run", name, "=")), wanted)
        same(f"numbers of {name}={default}", set(offered("asc", "run", name, "=", str(default))),
             {word for word in wanted if word.startswith(str(default))})


def main():
    program = str(Path(sys.argv[1] if len(sys.argv) > 1 else ROOT / "crates/asc_cli/out/asc_cli").resolve())
    if not os.access(program, os.X_OK):
        sys.exit(f"tools/check.py: no program {program}; rt run in crates/asc_cli builds it")
    why = module(TOOLS / "asc-why")
    known = check_options(why)
    check_words(why, known)
    for tool, lines in (("asc-why", 1), ("asc-steps", 1), ("asc-pc", 2), ("asc-plot", 3), ("asc-show", 2)):
        for asked in ("--help", "-h"):
            told = outcome([TOOLS / tool, asked])
            same(f"{tool} {asked}", (told[0].decode().count(f"    {tool} "), told[1:]), (lines, (b"", 0)))
    check_links()
    check_definitions()
    with tempfile.TemporaryDirectory() as folder:
        check_why(program, Path(folder))
        check_steps(program, Path(folder))
        check_pc(program, Path(folder))
        check_show(Path(folder))
        check_plot(Path(folder))
        check_full(program, Path(folder))
        check_terminal(program, Path(folder))
        check_interrupt(Path(folder))
        check_shell(program, Path(folder))
        check_copy(Path(folder))
    check_completion(known)
    with tempfile.TemporaryDirectory() as folder:
        check_rounds(program, Path(folder), why.asc_tools.numbers_of)
    print(f"tools/check.py: {tried} trials, {failed} failed")
    return 1 if failed else 0


if __name__ == "__main__":
    sys.exit(main())
