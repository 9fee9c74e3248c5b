#!/usr/bin/env python3
"""Runs the commands of documents as they are written, and compares what they print with what stands there.

    python3 docs/commands.py [--program PROGRAM] DOCUMENT..

PROGRAM is the built asc, crates/asc_cli/out/asc_cli where it is not given. Of a document are read:

    ```sh          commands. They run in a copy of the repository's examples, benches, documents and built
                   programs, at its top; all of a document in one shell, with no input and an empty home folder
    ```text        behind commands: just what they print, to standard output and standard error. Commands with
                   no such block print nothing
    ```c NAME      what the file NAME holds, at the top of that copy

and this line, which is not shown:

    <!-- wants TOOL WORDS: TEXT -->    where the tool is missing, or does not print this text for these words,
                                       what stands between this line and the next heading is left out, and a line
                                       says so. Above the first heading it is for the whole document

The status is 0 where nothing differs, and else 1.
"""

import difflib
import os
import re
import shutil
import subprocess
import sys
import tempfile
from pathlib import Path

ROOT = Path(__file__).resolve().parent.parent
BUILT = "crates/asc_cli/out/asc_cli"
SHOW = "crates/asc_show/out/asc_show"
COPIED = ["README.md", "docs", "examples", "tools", "bench", "crates/asc_cli/data"]
PART = re.compile(r"^```(?P<kind>\w+)(?: (?P<name>\S+))?\n(?P<body>.*?)^```$"
                  r"|^<!-- wants (?P<words>.*?): (?P<wanted>.*?) -->$|^#+ (?P<heading>.*?)$", re.MULTILINE | re.DOTALL)


def copy_to(room, program):
    for name in COPIED:
        (shutil.copytree if (ROOT / name).is_dir() else shutil.copy)(ROOT / name, Path(room, name))
    for built, made in ((BUILT, program), (SHOW, ROOT / SHOW)):
        Path(room, built).parent.mkdir(parents=True, exist_ok=True)
        if Path(made).exists():
            shutil.copy(made, Path(room, built))


def lacks(part):
    """What is missing of the tool that a part wants, or None."""
    tool = part["words"].split()
    has = shutil.which(tool[0]) and subprocess.run(tool, capture_output=True, text=True)
    return None if has and part["wanted"] in has.stdout else f"{tool[0]} {part['wanted']}"


def read(document, text, room):
    """Commands, each with what they are to print; the files of the document are written."""
    found, above, lacked, heading = [], True, None, None
    for part in PART.finditer(text):
        if part["heading"]:
            above, heading = False, part["heading"]
            lacked = None
        elif part["words"]:
            missing = lacks(part)
            if missing:
                what = f'"{heading}" of {document}' if heading else document
                print(f"docs/commands.py: no {missing}: {what} is left out")
            if missing and above:
                return []
            lacked = lacked or missing
        elif part["name"]:
            Path(room, part["name"]).write_text(part["body"])
        elif part["kind"] == "sh" and not lacked:
            found.append([part["body"], ""])
        elif part["kind"] == "text" and not lacked and found and not found[-1][1]:
            found[-1][1] = part["body"]
    return found


def printed(found, room):
    """What each block of commands prints."""
    outputs = os.path.join(room, "outputs")
    os.mkdir(outputs)
    script = "".join(f"{{\n{body}}} >{outputs}/{k} 2>&1\n" for k, (body, _) in enumerate(found))
    home = os.path.join(room, "home")
    os.mkdir(home)
    subprocess.run(["sh", "-c", script], cwd=os.path.join(room, "top"), stdin=subprocess.DEVNULL,
                   env={**os.environ, "HOME": home})
    files = [Path(outputs, str(k)) for k in range(len(found))]
    return [file.read_text(errors="replace") if file.exists() else "not run\n" for file in files]


def run(document, program):
    """How many blocks of commands of a document print something else."""
    with tempfile.TemporaryDirectory() as room:
        top = os.path.join(room, "top")
        os.mkdir(top)
        copy_to(top, program)
        found = read(document, Path(document).read_text(), top)
        differing = 0
        for (body, wanted), made in zip(found, printed(found, room)):
            if made != wanted:
                differing += 1
                print(f"docs/commands.py: {document}: these commands print something else:\n{body}", end="")
                both = wanted.splitlines(True), made.splitlines(True)
                print("".join(difflib.unified_diff(*both, "written", "printed")))
        print(f"docs/commands.py: {document}: {len(found)} blocks of commands run, {differing} differ")
        return differing


def main():
    words = sys.argv[1:]
    program = ROOT / BUILT
    if words[:1] == ["--program"]:
        program, words = words[1], words[2:]
    if not Path(program).exists():
        sys.exit(f"docs/commands.py: no program {program}; rt run in crates/asc_cli builds it")
    sys.exit(1 if sum(run(document, program) for document in words) else 0)


if __name__ == "__main__":
    main()
