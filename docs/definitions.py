#!/usr/bin/env -S python3 -B
# The definitions of the contracts, from the comments above them in crates/*/specs.
#
#   docs/definitions.py NAME..         prints the public definitions of these crates: name, meaning, public standard
#   docs/definitions.py --standards    writes docs/STANDARDS.md: of all crates those that name a public standard
#   docs/definitions.py --check        fails where that page differs from what it would write
import re
import sys
from pathlib import Path

TOP = Path(__file__).resolve().parent.parent
PAGE = TOP / "docs" / "STANDARDS.md"

HEAD = """# Definitions of public standards

Each row is a definition of the specifications that says what a public standard says, with the section that its comment
names. `docs/definitions.py --standards` writes this page from the files themselves. All definitions of a crate, with the
comment that stands above each, are printed by `docs/definitions.py NAME`.

| crate | definition | meaning | standard |
|---|---|---|---|
"""

DEFINITION = re.compile(
    r"^\s*(?:(?:unfoldable|abbrev)\s+)?pub\s+(?:(record|data|codata)\s+)?(\S+)(?=\s|$)")
SKIPPED = {"mod", "use", "open", "syntax"}
STANDARD = re.compile(r"\((?:see )?((?:RFC \d+|FIPS 180-4|CCF documentation|Raft)[^()]*)\)")
# A section alone is one of the standard that the head of the file names.
NAMED = re.compile(r"RFC \d+|FIPS 180-4")
SECTION = re.compile(r"\((?:section )?(\d+\.\d+[\d.]*(?: and \d+\.\d+[\d.]*)?|(?<=section )\d+|appendix [A-Z])\)")


def crates():
    lines = (TOP / "crates.txt").read_text().splitlines()
    return [line.split(":")[0].split()[0] for line in lines if ":" in line and not line.startswith("#")]


def about(crate):
    """The first sentence of a crate's own comment."""
    for name in ("lib.rt", "main.rt"):
        root = TOP / "crates" / crate / "src" / name
        if root.exists():
            words = [line[3:].strip() for line in root.read_text().splitlines() if line.startswith("//!")]
            return " ".join(words)
    return ""


def definitions(text):
    """The comment at the head of a file, and its public definitions, each with the comment above it."""
    head, found, comment, fields = None, [], [], None
    for line in text.splitlines():
        stripped = line.strip()
        if stripped.startswith("--"):
            comment.append(stripped[2:].strip())
            continue
        match = DEFINITION.match(line)
        indent = len(line) - len(line.lstrip())
        if fields is not None and (not stripped or indent > fields):
            comment = []
            continue
        fields = None
        if match and match.group(2) not in SKIPPED:
            found.append((match.group(2), " ".join(comment)))
            if match.group(1):
                fields = indent
        elif head is None and comment:
            head = " ".join(comment)
        if head is None:
            head = ""
        comment = []
    return head, found


def parts(name, comment, head):
    """The name of a definition, what it means, and the sections of standards that its comment names."""
    standards = STANDARD.findall(comment)
    meaning = STANDARD.sub("", comment)
    named = NAMED.search(head)
    if named:
        standards += [f"{named.group(0)}, {section}" for section in SECTION.findall(meaning)]
        meaning = SECTION.sub("", meaning)
    for was, now in ((" .", "."), (" ,", ","), (" :", ":"), ("  ", " ")):
        meaning = meaning.replace(was, now)
    return name, meaning.strip(), "; ".join(standards)


def files_of(crate):
    """The files of a crate's specifications, each with the comment at its head and its definitions."""
    for file in sorted((TOP / "crates" / crate / "specs").glob("*.antt")):
        head, found = definitions(file.read_text())
        if file.name != "Lib.antt" and found:
            yield file, head, [parts(name, comment, head) for name, comment in found]


def print_crate(crate):
    print(f"{crate}: {about(crate)}")
    for file, head, rows in files_of(crate):
        print(f"\n{file.relative_to(TOP)}: {head}\n")
        for name, meaning, standards in rows:
            print(f"  {name}: {meaning or 'a step of the definition above'}" + (f" ({standards})" if standards else ""))
    print()


def escaped(text):
    return text.replace("|", "\\|")


def page():
    rows = []
    for crate in crates():
        for file, _, found in files_of(crate):
            for name, meaning, standards in found:
                if standards:
                    link = f"[`{escaped(name)}`](../crates/{crate}/specs/{file.name})"
                    rows.append(f"| `{crate}` | {link} | {escaped(meaning)} | {escaped(standards)} |")
    return HEAD + "\n".join(rows) + "\n"


def main(words):
    if words == ["--standards"]:
        PAGE.write_text(page())
    elif words == ["--check"]:
        if PAGE.read_text() != page():
            sys.exit("docs/STANDARDS.md is not what docs/definitions.py makes: run docs/definitions.py --standards")
    elif words and set(words) <= set(crates()):
        for crate in words:
            print_crate(crate)
    else:
        sys.exit("docs/definitions.py NAME.. | --standards | --check, where NAME is a crate:\n" + " ".join(crates()))


main(sys.argv[1:])
