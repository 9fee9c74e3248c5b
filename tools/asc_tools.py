"""What the tools of this folder share: their words, the programs that they run, and how they end."""

import os
import re
import resource
import shutil
import signal
import subprocess
import sys
import threading
from concurrent.futures import ThreadPoolExecutor
from pathlib import Path

# Options without a value, and those of the tools whose value is no number.
FLAGS = ("--join", "--report", "--rounds", "--seek")
PROGRAMS = ("--asc", "--show")
OBJDUMPS = ("riscv64-unknown-elf-objdump", "riscv32-unknown-elf-objdump", "llvm-objdump")
ADDR2LINES = ("riscv64-unknown-elf-addr2line", "riscv32-unknown-elf-addr2line", "llvm-addr2line")
NUMBERS = re.compile(rb"^asc: executed (\d+) skipped (\d+) asked (\d+) hits (\d+) made (\d+) refused (\d+)\n", re.M)
NAMES = ("executed", "skipped", "asked", "hits", "made", "refused")


# ---- words

def taken(tool, words, names):
    """The values of these options before a `--`, and the words that are left. A value is a number, but that of --asc and
    --show; an option that is False where it is not given takes none."""
    values, kept, rest = dict(names), [], iter(words)
    for word in rest:
        if word == "--":
            return values, kept + [word, *rest]
        name, equals, value = word.partition("=")
        is_flag = isinstance(values.get(name), bool)
        if name not in values or is_flag and equals:
            kept.append(word)
        elif is_flag:
            values[name] = True
        else:
            value = value if equals else next(rest, "")
            if name not in PROGRAMS and not value.isdecimal():
                sys.exit(f"{tool}: {name} wants a number")
            values[name] = value if name in PROGRAMS else int(value)
    return values, kept


def parted(words):
    """The image of a run, which is the first word that is no option and no option's value, and the other words."""
    others, rest = [], iter(words)
    for word in rest:
        if word == "--":
            return next(rest, None), others + list(rest)
        if word == "-" or not word.startswith("-"):
            return word, others + list(rest)
        others.append(word)
        if "=" not in word and word not in FLAGS:
            others += [value for value in [next(rest, None)] if value is not None]
    return None, others


def image_of(words):
    return parted(words)[0]


def without(words, left_out):
    """The words before a `--` without these options and their values."""
    kept, rest = [], iter(words)
    for word in rest:
        if word == "--":
            return kept + [word, *rest]
        if word.partition("=")[0] not in left_out:
            kept.append(word)
        elif "=" not in word and word not in FLAGS:
            next(rest, None)
    return kept


def asked_of_show(words, *between):
    """The words of a run as asc_show wants them: the image, these words, and then the others."""
    image, others = parted(words)
    image = image or ""
    return [os.path.join(".", image) if image.startswith("-") else image, *between, *others]


# ---- programs

def processors():
    """How many processors this process may use."""
    return len(os.sched_getaffinity(0))


def built(name="asc", crate="asc_cli"):
    """The program on the path, or else where the repository that this file is in has it built."""
    return shutil.which(name) or str(Path(__file__).resolve().parent.parent / f"crates/{crate}/out/{crate}")


def shower():
    """asc_show, as `built` finds it."""
    return built("asc_show", "asc_show")


def program_of(words):
    """The program that words begin with, or the built asc, and the words that are left for it."""
    return (words[1], words[2:]) if words[:1] == ["--asc"] and len(words) > 1 else (built(), words)


def no_program(tool, program, error, crate="asc_cli"):
    """The line of a tool whose program can't be run."""
    return f"{tool}: no program {program} ({error.strerror}); rt run in crates/{crate} builds it"


def printed_by(names, words):
    """What the first of these tools that is there prints, or nothing."""
    for name in names:
        if shutil.which(name):
            return subprocess.run([name, *words], stdin=subprocess.DEVNULL, capture_output=True, text=True,
                                  errors="replace").stdout
    return ""


def numbers_of(report):
    """The last numbers that a report has, or None."""
    found = NUMBERS.findall(report[-4000:])
    return dict(zip(NAMES, map(int, found[-1]))) if found else None


# ---- runs beside one another

# The runs that go on, and whether an interrupt ended them; then no more go on.
GOING, INTERRUPTED = set(), threading.Event()


def end_runs():
    """Ends all runs."""
    INTERRUPTED.set()
    for process in list(GOING):
        process.kill()


def texts_of(process, seconds=None):
    """What a run writes to standard output and error, or None where it takes too long."""
    with process:
        GOING.add(process)
        try:
            texts = None if INTERRUPTED.is_set() else process.communicate(timeout=seconds)
        except subprocess.TimeoutExpired:
            texts = None
        finally:
            process.kill()
            GOING.discard(process)
    if INTERRUPTED.is_set():
        raise KeyboardInterrupt
    return texts


def all_of(work, given):
    """What this work gives for each one, as many at a time as there are processors. An interrupt ends all runs."""
    with ThreadPoolExecutor(processors()) as pool:
        try:
            return list(pool.map(work, given))
        except KeyboardInterrupt:
            end_runs()
            raise


# ---- images

def bytes_of(path):
    """The bytes of a file. A pipe is not read again, and has none."""
    try:
        return Path(path).read_bytes() if os.path.isfile(path) else b""
    except OSError:
        return b""


class Image:
    """An ELF32 file, of which what is cut off reads as zeros."""

    def __init__(self, path):
        self.bytes = bytes_of(path)
        self.flags = self.word(36)
        self.type = self.half(16)
        self.headers = [[self.word(self.word(28) + 32 * k + 4 * field) for field in range(8)]
                        for k in range(min(self.half(44), len(self.bytes)))]
        self.segments = [header for header in self.headers if header[0] == 1 and header[5]]
        self.symbols = sorted(self.all_symbols())

    def word(self, at):
        return int.from_bytes(self.bytes[at:at + 4], "little")

    def half(self, at):
        return int.from_bytes(self.bytes[at:at + 2], "little")

    def base(self):
        return min((header[2] for header in self.segments), default=0) & ~4095

    def end(self):
        return max((header[2] + header[5] for header in self.segments), default=0)

    def word_at(self, address):
        """The word that the file puts at an address, or None where it has none there. A later segment wins."""
        for _, offset, begin, _, filled, *_ in reversed(self.segments):
            if begin <= address and address + 4 <= begin + filled:
                return self.word(offset + address - begin)
        return None

    def all_symbols(self):
        """The functions, labels and variables: the address of each, its size, its kind and its name."""
        sections = [[self.word(self.word(32) + 40 * k + 4 * field) for field in range(10)]
                    for k in range(self.half(48)) if self.word(32) + 40 * k < len(self.bytes)]
        for table in sections:
            if table[1] != 2 or table[6] >= len(sections):
                continue
            names = sections[table[6]][4]
            for at in range(table[4], min(table[4] + table[5], len(self.bytes)) - 15, 16):
                name, address, size = (self.word(at + 4 * field) for field in range(3))
                kind, section = self.bytes[at + 12] & 15, self.half(at + 14)
                if kind <= 2 and 0 < section < 0xFF00 and name:
                    text = self.bytes[names + name:].split(b"\0", 1)[0].decode(errors="replace")
                    if not text.startswith((".L", "$")):
                        yield address, size, kind, text

    def function_at(self, address):
        """The last function or label that begins at or below an address: where it begins, and its name. Or None."""
        found = [(begin, kind, name) for begin, _, kind, name in self.symbols if kind != 1 and begin <= address]
        begin, _, name = max(found, default=(0, 0, ""))
        return (begin, name) if name else None

    def name_of(self, address):
        """The variable that an address lies in, or else the function or label, with how far in; or nothing."""
        for begin, size, kind, name in self.symbols:
            if kind == 1 and begin <= address < begin + size:
                return f"{name}+{address - begin}" if address > begin else name
        begin, name = self.function_at(address) or (address, "")
        together = any(low <= begin and address < low + size for _, _, low, _, _, size, *_ in self.segments)
        return f"{name}+{address - begin}" if together and address > begin else name if together else ""


def places_of(path, addresses):
    """Function and line of each address, as far as addr2line finds them; without one the function alone."""
    lines = printed_by(ADDR2LINES, ["-s", "-f", "-e", path, *map(hex, addresses)]).splitlines() if addresses else []
    if len(lines) != 2 * len(addresses):
        image = Image(path)
        return [(image.function_at(address) or ("", ""))[1] for address in addresses]
    told = [(function, line.split(" ")[0]) for function, line in zip(lines[::2], lines[1::2])]
    return [" ".join(text for text in pair if not re.search(r"^\?|:\?$", text)) for pair in told]


# ---- standard streams, and the end

def say(tool, text):
    """Writes a line to standard error, where there is one."""
    if sys.stderr:
        sys.stderr.write(f"{tool}: {text}\n")


def keep_input(tool, file):
    """Reads standard input to its end, and keeps it in a file."""
    if sys.stdin and sys.stdin.isatty():
        say(tool, "the guest's input is read from the terminal; end it with Ctrl-D")
    # A read that is not buffered ends at the first Ctrl-D; a buffered one would want a second.
    while piece := sys.stdin and sys.stdin.buffer.raw.read(65536):
        file.write(piece)
    file.flush()


def flush():
    """Writes what is printed and not yet written. An empty print would write even where nothing is."""
    if sys.stdout:
        sys.stdout.flush()


def end_by(number):
    """Ends as a program does that this signal ended. Where the signal is held back, its status is answered."""
    resource.setrlimit(resource.RLIMIT_CORE, (0, 0))
    if number not in (signal.SIGKILL, signal.SIGSTOP):
        signal.signal(number, signal.SIG_DFL)
    os.kill(os.getpid(), number)
    return 128 + number


def whole(tool, text, main):
    """Runs main, or prints this text for -h and --help, and answers the status once all is written. A negative status is
    of a signal, which then ends the tool; so do an interrupt, and a pipe whose reader has gone. Where another write
    fails, there is a line, and the status is 74."""
    try:
        if sys.argv[1:2] in (["-h"], ["--help"]):
            print(text, end="")
            status = 0
        else:
            status = main()
        flush()
        return status if status >= 0 else end_by(-status)
    except KeyboardInterrupt:
        # From here on one more interrupt ends the tool at once.
        signal.signal(signal.SIGINT, signal.SIG_DFL)
        try:
            flush()
        except OSError:
            pass
        return end_by(signal.SIGINT)
    except OSError as error:
        os.dup2(os.open(os.devnull, os.O_WRONLY), 1)
        if isinstance(error, BrokenPipeError):
            return end_by(signal.SIGPIPE)
        say(tool, f"{error.filename + ': ' if error.filename else ''}{error.strerror}")
        return 74
