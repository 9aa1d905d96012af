#!/usr/bin/env -S python3 -B
# Tries each relative link of the documents: the file has to be there, and the heading that it names. Prints those that
# lead nowhere, and fails where there is one.
import re
import sys
from pathlib import Path

TOP = Path(__file__).resolve().parent.parent
LINK = re.compile(r"\]\(([^)\s]+)\)")


def slug(heading):
    """The anchor of a heading, as code hosts make it."""
    text = re.sub(r"\[([^\]]*)\]\([^)]*\)", r"\1", heading).replace("`", "").strip().lower()
    return re.sub(r"[^\w\- ]", "", text).replace(" ", "-")


def anchors(page):
    return {slug(line.lstrip("#")) for line in page.read_text().splitlines() if line.startswith("#")}


def pages():
    found = [*TOP.glob("*.md"), *TOP.glob("docs/*.md"), *TOP.glob("crates/*/README.md"), TOP / "bench" / "README.md"]
    return sorted([*found, *TOP.glob("examples/*/README.md")])


def lost(page):
    for number, line in enumerate(page.read_text().splitlines(), 1):
        for link in LINK.findall(line):
            if re.match(r"[a-z]+:", link):
                continue
            path, _, anchor = link.partition("#")
            target = (page.parent / path).resolve() if path else page
            if not target.exists() or (anchor and target.suffix == ".md" and anchor not in anchors(target)):
                yield f"{page.relative_to(TOP)}:{number}: {link}"


def main():
    found = [line for page in pages() for line in lost(page)]
    print("\n".join(found), end="\n" if found else "")
    sys.exit(1 if found else 0)


main()
