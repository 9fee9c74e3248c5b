#!/usr/bin/env python3
"""Writes the list of docs/DEFINITIONS.md: the files of definitions, crate by crate.

    python3 docs/definitions.py            writes the list, between the two lines that mark it
    python3 docs/definitions.py --check    says whether the list is what this script would write

The crates are in the order of crates.txt, and the files of one in that of its specs/Lib.antt. Of a file are told the first
sentence of its first comment, without a standard in brackets. Words of private contracts are left out.
"""

import re
import sys
from pathlib import Path

ROOT = Path(__file__).resolve().parent.parent
TARGET = ROOT / "docs/DEFINITIONS.md"
MARKED = re.compile(r"(?<=<!-- list: docs/definitions\.py writes it -->\n).*?(?=^<!-- end of the list -->$)",
                    re.MULTILINE | re.DOTALL)
# A definition, or one of a module without a name: there a line with pub alone is a field.
DEFINITION = re.compile(r"^(?:(?:abbrev |unfoldable )?pub (?!mod |use )(?:record |data )?"
                        r"| +(?:abbrev |unfoldable )pub | +pub (?:record |data ))(\S+)", re.MULTILINE)
# A standard in brackets: the table of the document has it.
STANDARD = re.compile(r" \([^()]*(?:manual|ABI|ASPLOS)[^()]*\)")


def crates():
    """The names of the crates, each behind those that it stands on."""
    lines = (ROOT / "crates.txt").read_text().splitlines()
    return [re.match(r"\w+", line)[0] for line in lines if line and not line.startswith("#")]


def modules(folder):
    """The files of a crate's definitions, as its Lib.antt lists them."""
    lib = folder / "Lib.antt"
    names = re.findall(r"^pub mod (\w+)$", lib.read_text(), re.MULTILINE) if lib.exists() else []
    return [folder / f"{name}.antt" for name in names]


def head(text):
    """The first sentence of a file's first comment, without the standard behind it."""
    lines = []
    for line in text.splitlines():
        if not line.startswith("-- "):
            break
        lines.append(line[3:].strip())
    return STANDARD.sub("", re.split(r"(?<=\.) (?=[A-Z])", " ".join(lines))[0])


def row(path):
    """The line of one file, or nothing where it has no public definition."""
    text = path.read_text()
    if not DEFINITION.search(text) or "private contracts" in head(text):
        return ""
    return f"- [{path.stem}](../{path.relative_to(ROOT).as_posix()}): {head(text)}\n"


def listing():
    """The list, with a heading for each crate that has public definitions."""
    text = ""
    for name in crates():
        rows = "".join(row(path) for path in modules(ROOT / "crates" / name / "specs"))
        text += f"\n### {name}\n\n{rows}" if rows else ""
    return text + "\n"


def main():
    if sys.argv[1:] not in ([], ["--check"]):
        sys.exit(__doc__)
    old = TARGET.read_text()
    new, found = MARKED.subn(lambda _: listing(), old)
    if found != 1:
        sys.exit(f"docs/definitions.py: {found} places for the list in {TARGET.relative_to(ROOT)}, and not one")
    if not sys.argv[1:]:
        TARGET.write_text(new)
    elif new != old:
        sys.exit("docs/definitions.py: the list of docs/DEFINITIONS.md is not current; without --check it is written")


if __name__ == "__main__":
    main()
