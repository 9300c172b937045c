#!/usr/bin/env python3
"""Writes known.txt: for each sheet of samples/ its name and the line of `second verdict`.

Run, after samples/make.py:
    cargo build --release --offline --manifest-path tests/second/Cargo.toml
    python3 tests/make_known.py
Each line is checked against the numbers that 01 gives (samples/make.py has them); a difference is an error.
To compare another program: for each line of known.txt, what it prints for samples/NAME.sheet is the rest of the line.
"""

import pathlib
import subprocess
import sys

HERE = pathlib.Path(__file__).resolve().parent
SECOND = HERE / "second" / "target" / "release" / "second"
sys.path.insert(0, str(HERE.parent / "samples"))
import make  # noqa: E402


def main():
    lines = []
    for name, _, sheet, _, given in make.SAMPLES:
        printed = subprocess.run([SECOND, "verdict"], input=sheet, capture_output=True, check=True).stdout.decode().strip()
        for ours, theirs in zip(printed.split(), given.split(), strict=True):
            if theirs not in ("-", ours):
                sys.exit(f"{name}: 01 gives {given}, the second program {printed}")
        lines.append(f"{name} {printed}\n")
    (HERE / "known.txt").write_text("".join(lines))
    print(f"{len(lines)} sheets agree with 01")


if __name__ == "__main__":
    main()
