#!/usr/bin/env python3
"""Writes the list of docs/EMBEDDING.md: the signatures that a program over the crates wants, as the sources have them.

    python3 docs/signatures.py            writes the list, between the two lines that mark it
    python3 docs/signatures.py --check    says whether the list is what this script would write
"""

import re
import sys
import textwrap
from pathlib import Path

ROOT = Path(__file__).resolve().parent.parent
TARGET = ROOT / "docs/EMBEDDING.md"
MARKED = re.compile(r"(?<=<!-- list: docs/signatures\.py writes it -->\n).*?(?=^<!-- end of the list -->$)",
                    re.MULTILINE | re.DOTALL)
# The functions of each crate, and the methods of its types, in the order in which a program comes to them.
NAMED = {
    "asc_elf": "read Image::shape Image::put Image::low Image::high",
    "asc_outside": "Steps::new",
    "asc_shape": "State::new Snapshot::of Guess::last",
    "asc_step": "step_until",
    "asc_depvec": "Tracer::new",
    "asc_traj": "Entry::traced Entry::matches Entry::put",
    "asc_calls": "Calls::new Calls::serve",
}
# A function up to its clauses or its body, and the line that opens the block of a type's methods, or ends it.
FUNCTION = re.compile(r"^ *pub (?:const )?fn (\w+)(.*?)(?=^ *(?:ghost|requires|ensures)\b|\{$)", re.MULTILINE | re.DOTALL)
BLOCK = re.compile(r"^(?:impl(?:<.*?>)? (?P<type>\w+)(?!.* for )|\})", re.MULTILINE)


def owner(text, place):
    """The type in whose block of methods this place is, with two colons behind it, or nothing."""
    before = [match["type"] for match in BLOCK.finditer(text, 0, place)]
    return f"{before[-1]}::" if before and before[-1] else ""


def signatures(crate):
    """The public functions of a crate: what follows each one's name, on one line."""
    found = {}
    for source in sorted((ROOT / "crates" / crate / "src").glob("*.rt")):
        text = source.read_text()
        for match in FUNCTION.finditer(text):
            line = re.sub(r",? ?\)", ")", " ".join(match[2].split())).replace("( ", "(")
            found.setdefault(owner(text, match.start()) + match[1], line)
    return found


def listing():
    """The list, with a line above the functions of each crate."""
    text = ""
    for crate, names in NAMED.items():
        found, text = signatures(crate), text + f"\n    {crate}\n"
        for name in names.split():
            if name not in found:
                sys.exit(f"docs/signatures.py: no function {name} in {crate}")
            # A line is broken behind a comma alone.
            whole = re.sub("(?<!,) ", "\u00a0", name + found[name])
            lines = textwrap.wrap(whole, 112, initial_indent=" " * 6, subsequent_indent=" " * 10)
            text += "".join(line.replace("\u00a0", " ") + "\n" for line in lines)
    return text + "\n"


def main():
    if sys.argv[1:] not in ([], ["--check"]):
        sys.exit(__doc__)
    old = TARGET.read_text()
    new, found = MARKED.subn(lambda _: listing(), old)
    if found != 1:
        sys.exit(f"docs/signatures.py: {found} places for the list in {TARGET.relative_to(ROOT)}, and not one")
    if not sys.argv[1:]:
        TARGET.write_text(new)
    elif new != old:
        sys.exit("docs/signatures.py: the list of docs/EMBEDDING.md is not current; without --check it is written")


if __name__ == "__main__":
    main()
