"""What the scripts of this folder share: their words, the programs that they run, and how a run is measured.

A script sets sys.dont_write_bytecode before it imports this, so that no compiled file is left beside it."""

import argparse
import hashlib
import operator
import os
import random
import re
import resource
import shutil
import subprocess
import sys
import tempfile
import time
from pathlib import Path

ROOT = Path(__file__).resolve().parent.parent
sys.path.insert(0, str(ROOT / "tools"))
import asc_tools

EXAMPLES = ROOT / "examples"
IMAGES = EXAMPLES / "images"
ASC = str(ROOT / "crates/asc_cli/out/asc_cli")

# The best address of each of these examples, and the memory that it wants.
PLACES = {"collatz": ("10484", "1024"), "collatz_chunks": ("100f4", "1024"), "matrix": ("104ec", "1024"),
          "ising": ("106a8", "16384"), "mandel": ("100f4", "1024"), "sieve": ("100f4", "1024"),
          "queens": ("101a0", "1024")}

# By this the C library fills and copies long pieces by wide writes. Else it takes string instructions, of which callgrind
# counts each byte.
WIDE = {"GLIBC_TUNABLES": ":".join(f"glibc.cpu.x86_rep_{name}_threshold={1 << 30}" for name in ("stosb", "movsb"))}


# ---- words

def end(why):
    """Ends the script with a line."""
    sys.exit(f"bench/{Path(sys.argv[0]).name}: {why}")


def asked(text, most, *flags):
    """The words of the command line but these flags. --help prints this text, and too many words end the script."""
    words = [word for word in sys.argv[1:] if word not in flags]
    if words in (["-h"], ["--help"]):
        print(text, end="")
        sys.exit()
    if len(words) > most or any(word.startswith("-") for word in words):
        sys.exit(text.rstrip("\n"))
    return words


def parser_of(text):
    """A parser of a command line with --program."""
    parser = argparse.ArgumentParser(description=text, formatter_class=argparse.RawDescriptionHelpFormatter)
    parser.add_argument("--program", default=ASC, help="the built asc")
    return parser


# ---- inputs

def numbers(count):
    draw = random.Random(1)
    return b"".join(b"%d\n" % draw.randrange(-2**31, 2**31) for _ in range(count))


def text(size):
    """Lines of words, some of them long."""
    draw = random.Random(2)
    digits = (hashlib.sha256(b"%d" % k).hexdigest().encode() for k in range(size // 8))
    words = b" ".join(word[:draw.randrange(1, 15)] for word in digits)
    return re.sub(rb"(.{60}\S*) ", rb"\1\n", words)[:size]


# ---- programs

def asc(program=ASC):
    """The built asc, or this one, if it can be run."""
    return program if os.access(program, os.X_OK) else end(f"no program {program}; rt run in crates/asc_cli builds it")


def numbers_of(run):
    """The numbers that asc reported in a run, to which no memory was refused."""
    numbers = asc_tools.numbers_of(run.stderr)
    return numbers if numbers and not numbers["refused"] else end(f"{run.line}: no numbers, or memory was wanting")


def build(line, folder, words, **texts):
    """Builds a program of bench/programs in a copy of the crates that it stands on, by a run with these words, and answers
    its path. This is its line in the copy's crates.txt, and each text is put in place of its name in the program.

    Its files are kept with .txt behind their names, since rt ci wants each .rt and .antt file to be of a crate that
    crates.txt lists."""
    name_of = lambda row: row.partition(":")[0].split()[0]
    known = {name_of(row): row for row in (ROOT / "crates.txt").read_text().splitlines() if not row.startswith("#")}
    rows = [line]
    for row in rows:
        below = [known[crate] for crate in row.partition(":")[2].split() if crate in known]
        rows += [other for other in below if other not in rows]
    Path(folder, "crates.txt").write_text("\n".join(rows) + "\n")
    shutil.copy(ROOT / "HANDLES", folder)
    for row in rows[1:]:
        shutil.copytree(ROOT / "crates" / name_of(row), Path(folder, "crates", name_of(row)))
    source, crate = ROOT / "bench/programs" / name_of(line), Path(folder, "crates", name_of(line))
    for file in source.rglob("*.txt"):
        target, text = crate / file.relative_to(source).with_suffix(""), file.read_text()
        for name, inserted in texts.items():
            text = text.replace(name, inserted)
        target.parent.mkdir(parents=True, exist_ok=True)
        target.write_text(text)
    done = subprocess.run(["rt", "run", "--", *words.split()], cwd=crate, stdout=subprocess.PIPE, stderr=subprocess.STDOUT,
                          text=True)
    return crate / "out" / crate.name if done.returncode == 0 else sys.exit(done.stdout)


# ---- runs

def measured(words, **given):
    """A command that has ended: what it wrote, its status, and its seconds by the clock and on processors, and those of the
    latter that were the user's."""
    before, begun = resource.getrusage(resource.RUSAGE_CHILDREN), time.perf_counter()
    run = subprocess.run(list(map(str, words)), capture_output=True, **given)
    run.seconds = time.perf_counter() - begun
    after = resource.getrusage(resource.RUSAGE_CHILDREN)
    run.user = after.ru_utime - before.ru_utime
    run.processor = run.user + after.ru_stime - before.ru_stime
    run.line = " ".join(run.args)
    return run


def well(words, ends=(0,), wide=False, **given):
    """The same of a command that has to end with one of these statuses."""
    run = measured(words, env={**os.environ, **(WIDE if wide else {})}, **given)
    return run if run.returncode in ends else end(f"{run.line}: status {run.returncode}, "
                                                  f"{run.stderr.decode(errors='replace')}")


def least(count, by, words, **given):
    """That of so many runs which took least by the clock (seconds), or on processors (processor, user)."""
    return min((well(words, **given) for _ in range(count)), key=operator.attrgetter(by))


def seconds(words):
    """The processor's seconds of a run, the least of five."""
    return least(5, "processor", words).processor


def callgrind(words, **given):
    """A run, with the processor's instructions as callgrind counts them."""
    run = well(["valgrind", "--tool=callgrind", f"--callgrind-out-file={os.devnull}", *words], **given)
    run.instructions = int(re.search(rb"Collected : (\d+)", run.stderr)[1])
    return run


def instructions(words, **given):
    """The processor's instructions of a run."""
    return callgrind(words, **given).instructions


def first_thread(words, **given):
    """A run, with the instructions that callgrind counts of its first thread. Its threads take turns."""
    with tempfile.TemporaryDirectory() as folder:
        counts = Path(folder, "counts")
        run = measured(["valgrind", "--tool=callgrind", "--fair-sched=yes", "--separate-threads=yes",
                        f"--callgrind-out-file={counts}", *words], env={**os.environ, **WIDE}, **given)
        text = Path(f"{counts}-01").read_text() if run.returncode != 1 else end(f"{run.line}: {run.stderr!r}")
        run.instructions = int(re.search(r"^totals: (\d+)", text, re.MULTILINE)[1])
    return run


def print_load(when):
    """Prints how busy the machine is, and at the beginning how many processors there are."""
    processors = f"{asc_tools.processors()} processors, " if when == "beginning" else ""
    print(f"{processors}load {os.getloadavg()[0]:.1f} at the {when}")
