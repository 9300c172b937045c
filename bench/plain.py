#!/usr/bin/env python3
"""Writes the Rattle code as plain Rust: the contracts, the ghost lines and the `#[cycle]` and `#[tactic]` marks are dropped, nothing else changes.

Run: plain.py CRATE OUTPUT-FOLDER, for a library of the repository. So the program that the benchmark compares with has the same steps, to the letter; of the kit's
crate arrayvec it takes what bench/arrayvec.rs has in its place.
"""

import pathlib
import re
import sys


def rust(text):
    lines, out = text.split("\n"), []
    for line in lines:
        dropped = re.match(r"\s*((ghost|requires|ensures)\b|#\[(cycle|tactic)\()", line)
        if dropped:
            # the last clause of a function without a body ends it
            if dropped.group(2) in ("requires", "ensures") and line.rstrip().endswith(";"):
                out.append(";")
            continue
        out.append(line)
    return "\n".join(out)


def main():
    name, folder = sys.argv[1:]
    source = pathlib.Path(__file__).resolve().parent.parent / "crates" / name / "src"
    target = pathlib.Path(folder) / name
    target.mkdir(parents=True, exist_ok=True)
    for file in sorted(source.glob("*.rt")):
        (target / (file.stem + ".rs")).write_text(rust(file.read_text()).replace("#![", "// #!["))


if __name__ == "__main__":
    main()
