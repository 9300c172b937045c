#!/usr/bin/env python3
"""Times quantifier elimination by z3 (tactic qe) and cvc5 (get-qe) beside the archive, over the same sheets, in one run.

Run: solvers.py RACE LIBRARY.so SHEET.., as bench/run does. Only sheets count that the archive answers with a result. Each solver gets all of them in one
process, and what it takes to start is subtracted. A sheet that takes it more than ten seconds is left out of that process, for the archive too; a second
line counts such a sheet at ten seconds, which is less than it takes. A solver that is not
installed is passed over. The archive is timed by the program RACE before and after each solver.
"""

import pathlib
import shutil
import struct
import subprocess
import sys
import time

LIMIT, ENDLESS = 10, float("inf")


def number(value):
    return str(value) if value >= 0 else f"(- {-value})"


def term(sheet, at=0):
    """The formula at an offset as an SMT-LIB term, and where the next begins."""
    length, kind = struct.unpack_from("<HH", sheet, at)
    if kind <= 3:
        numbers = struct.unpack_from("<9i", sheet, at + 4)
        parts = [f"(* {number(c)} x{v})" for v, c in enumerate(numbers[:8]) if c]
        return f"({['<', '<=', '='][kind - 1]} (+ 0 {' '.join(parts + [number(numbers[8])])}) 0)", at + length
    if kind == 4:
        inner, end = term(sheet, at + 4)
        return f"(not {inner})", end
    if kind in (5, 6):
        count, end, inner = struct.unpack_from("<H", sheet, at + 4)[0], at + 6, []
        for _ in range(count):
            one, end = term(sheet, end)
            inner.append(one)
        if not inner:
            return ("true" if kind == 5 else "false"), end
        return f"({'and' if kind == 5 else 'or'} {' '.join(inner)})" if len(inner) > 1 else inner[0], end
    if kind in (7, 8):
        v, = struct.unpack_from("<H", sheet, at + 4)
        inner, end = term(sheet, at + 6)
        return f"({'exists' if kind == 7 else 'forall'} ((x{v} Real)) {inner})", end
    v, low, high = struct.unpack_from("<Hii", sheet, at + 4)
    return f"(and (<= {number(low)} x{v}) (<= x{v} {number(high)}))", at + length


DECLARED = "".join(f"(declare-const x{v} Real)\n" for v in range(8))
SOLVERS = {
    "z3": (["z3", "-in"], "", lambda t: f"(push)\n(assert {t})\n(apply (then simplify qe))\n(pop)\n"),
    "cvc5": (["cvc5", "--lang=smt2", "--incremental"], "(set-logic LRA)\n", lambda t: f"(get-qe {t})\n"),
}


def timed(command, text, limit):
    """Seconds, None where the solver fails, endless where it takes longer than the limit."""
    start = time.perf_counter()
    try:
        done = subprocess.run(command, input=text, capture_output=True, text=True, timeout=limit)
    except subprocess.TimeoutExpired:
        return ENDLESS
    return time.perf_counter() - start if done.returncode == 0 and "error" not in done.stdout else None


def archive(race, library, sheets):
    """Microseconds a sheet."""
    said = subprocess.run([race, "-s", f"now={library}", "--", *sheets], capture_output=True, text=True, check=True).stdout
    return float(said.split(":")[1].split("µs")[0])


def delivered(race, library, sheets):
    """The sheets that are answered by 0."""
    said = subprocess.run([race, f"now={library}", "--", *sheets], capture_output=True, text=True, check=True).stdout
    rows = [line.split("|") for line in said.split("\n") if ".sheet |" in line]
    return [sheet for sheet, row in zip(sheets, rows, strict=True) if row[3].strip() == "0"]


def main():
    race, library, *sheets = sys.argv[1:]
    sheets = delivered(race, library, sheets)
    terms = {name: term(pathlib.Path(name).read_bytes())[0] for name in sheets}
    for name, (command, head, question) in SOLVERS.items():
        if not shutil.which(command[0]):
            print(f"{name}: not installed")
            continue
        head += DECLARED
        start = min(timed(command, head, LIMIT) for _ in range(5))
        alone = {sheet: timed(command, head + question(terms[sheet]), LIMIT) for sheet in sheets}
        asked = [sheet for sheet in sheets if alone[sheet] is not None]
        done = [sheet for sheet in asked if alone[sheet] < ENDLESS]
        late = len(asked) - len(done)
        if not done:
            print(f"{name}: no sheet was answered")
            continue
        before = archive(race, library, done)
        whole = timed(command, head + "".join(question(terms[sheet]) for sheet in done), LIMIT * len(done))
        after = archive(race, library, done)
        if whole is None or whole == ENDLESS:
            print(f"{name}: answers the sheets one by one but not in one process")
            continue
        took, mine = (whole - start) / len(done) * 1e6, (before + after) / 2
        over_all, mine_all = (whole - start + LIMIT * late) / len(asked) * 1e6, archive(race, library, asked)
        print(f"{name}: {took:.0f} µs a sheet over {len(done)} of {len(sheets)}, in one process; the archive {mine:.2f} µs ({before:.2f} before, {after:.2f} after): {took / mine:.0f} times")
        if late:
            print(f"{name}: with {late} sheets that it does not answer in {LIMIT} s, each counted at {LIMIT} s: {over_all:.0f} µs a sheet; the archive {mine_all:.2f} µs: {over_all / mine_all:.0f} times")
    return 0


if __name__ == "__main__":
    sys.exit(main())
