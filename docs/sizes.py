#!/usr/bin/env -S python3 -B
# Prints the table of sizes that stands in docs/ARCHITECTURE.md: of each crate the lines of code without its tests, of
# definitions and of proof, and how many wrong bodies it has.
import re
from pathlib import Path

TOP = Path(__file__).resolve().parent.parent
TESTS = re.compile(r"#\[cfg\(test\)\]\s*(?:pub )?mod (\w+)")


def crates():
    lines = (TOP / "crates.txt").read_text().splitlines()
    return [line.split(":")[0].split()[0] for line in lines if ":" in line and not line.startswith("#")]


def lines_of(files):
    return sum(len(file.read_text().splitlines()) for file in files)


def code(src):
    """The files of the code, without the modules that are there for tests alone."""
    roots = [src / name for name in ("lib.rt", "main.rt") if (src / name).exists()]
    tests = {name for root in roots for name in TESTS.findall(root.read_text())}
    return [f for f in src.rglob("*.rt") if f.relative_to(src).parts[0].removesuffix(".rt") not in tests]


def edits(folder):
    return len(list(folder.glob("*.edit")))


def row(crate):
    at = TOP / "crates" / crate
    sizes = [lines_of(code(at / "src")), lines_of((at / "specs").rglob("*.antt")), lines_of((at / "proofs").rglob("*.antt"))]
    return sizes + [edits(at / "must-fail"), edits(at / "wrong-bodies")]


def main():
    print("| crate | code | definitions | proof | at the gate | in `wrong-bodies/` |")
    print("|---|---|---|---|---|---|")
    rows = [(f"`{crate}`", row(crate)) for crate in crates()]
    rows.append(("all", [sum(column) for column in zip(*(sizes for _, sizes in rows))]))
    for name, sizes in rows:
        print(" | ".join([f"| {name}"] + [f"{size:,}" for size in sizes]) + " |")


main()
