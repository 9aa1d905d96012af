#!/usr/bin/env -S python3 -B
# The table of crates that stands in docs/ARCHITECTURE.md, made of crates.txt and of the first sentence of each crate's
# own comment: its section, its level (1 stands on no crate of the repository, each other one above the highest that it
# stands on), what it is for, and which crates of the repository it stands on.
#
#   docs/crates.py            prints the table
#   docs/crates.py --write    puts it between the two marks in docs/ARCHITECTURE.md
#   docs/crates.py --check    fails where the table there differs
#
# A section begins in crates.txt with a comment that is its name alone, as '# by hand'.
import re
import sys
from pathlib import Path

TOP = Path(__file__).resolve().parent.parent
PAGE = TOP / "docs" / "ARCHITECTURE.md"
BEGIN, END = "<!-- docs/crates.py -->\n", "<!-- end -->\n"
SECTION = re.compile(r"# (base|crypto|data|governance|consensus|ledger|files|node|schedule|by hand|program|tests)\.?$")


def crates():
    """Each crate with its section and what it stands on, in the order of crates.txt."""
    section, found = "", {}
    for line in (TOP / "crates.txt").read_text().splitlines():
        named = SECTION.match(line.strip())
        section = named.group(1) if named else section
        line = line.split("#")[0]
        if ":" in line:
            name, below = line.split(":", 1)
            found[name.split()[0]] = (section, below.split())
    return found


def level(name, found):
    return 1 + max((level(below, found) for below in found[name][1] if below in found), default=0)


def purpose(name):
    """The first sentence of the comment at the head of the crate."""
    for root in (TOP / "crates" / name / "src" / file for file in ("lib.rt", "main.rt")):
        if root.exists():
            lines = [line[3:].strip() for line in root.read_text().splitlines() if line.startswith("//!")]
            return re.split(r"(?<=[.])\s", " ".join(lines) + " ")[0].rstrip(".").replace("|", "\\|")
    return ""


def table():
    found = crates()
    rows = ["| section | level | crate | what it is for | stands on |", "|---|---|---|---|---|"]
    before = None
    for name, (section, below) in found.items():
        own = " ".join(f"`{other}`" for other in below if other in found)
        shown = section if section != before else ""
        rows.append(f"| {shown} | {level(name, found)} | `{name}` | {purpose(name)} | {own} |")
        before = section
    return "\n".join(rows) + "\n"


def main(words):
    if not words:
        print(table(), end="")
        return
    page = PAGE.read_text()
    head, rest = page.split(BEGIN, 1)
    old, tail = rest.split(END, 1)
    if words == ["--write"]:
        PAGE.write_text(head + BEGIN + table() + END + tail)
    elif words == ["--check"]:
        if old != table():
            sys.exit("docs/ARCHITECTURE.md has another table than docs/crates.py makes: run docs/crates.py --write")
    else:
        sys.exit("docs/crates.py [--write | --check]")


main(sys.argv[1:])
