#!/usr/bin/env python3
"""Asks a solver whether sheets and the conditions that the archive delivers for them mean the same.

Run, with z3 or cvc5 installed (Debian: apt-get install z3 cvc5), after tests/run has built the comparison:
    python3 tests/meaning.py [COUNT [SEED [SOLVER]]]      2,000 sheets, seed 1 and z3 unless given
It takes the samples and then COUNT random sheets with a quantifier that come out with answer 0, half of them neither true nor false. A sheet
and its result become terms of SMT-LIB, and the solver looks for values at which they differ: `unsat` means that they agree.
It ends with an error if there are such values; a question that isn't settled in time is counted and passed over.
"""

import shutil
import struct
import subprocess
import sys

from trees import Dice, HERE, container, random_sheet
from make import SAMPLES

SECONDS = 10
ARCHIVE = HERE / "compare" / "target" / "release" / "compare"


def smt_number(value):
    return str(value) if value >= 0 else f"(- {-value})"


def smt_sum(numbers):
    parts = [f"(* {smt_number(c)} x{v})" for v, c in enumerate(numbers[:8]) if c != 0]
    return "(+ 0 " + " ".join(parts + [smt_number(numbers[8])]) + ")"


def smt_term(sheet, place=0):
    """The formula at `place` as a term, and the offset after it."""
    length, kind = struct.unpack_from("<HH", sheet, place)
    fields, end = sheet[place + 4:place + length], place + length
    if kind in (1, 2, 3):
        return f"({'< <= ='.split()[kind - 1]} {smt_sum(struct.unpack('<9i', fields))} 0)", end
    if kind == 4:
        inner, end = smt_term(sheet, end)
        return f"(not {inner})", end
    if kind in (5, 6):
        members = []
        for _ in range(struct.unpack("<H", fields)[0]):
            member, end = smt_term(sheet, end)
            members.append(member)
        return f"({'and' if kind == 5 else 'or'} {'true' if kind == 5 else 'false'} {' '.join(members)})", end
    if kind in (7, 8):
        inner, end = smt_term(sheet, end)
        return f"({'exists' if kind == 7 else 'forall'} ((x{struct.unpack('<H', fields)[0]} Real)) {inner})", end
    variable, lo, hi = struct.unpack("<Hii", fields)
    return f"(and (<= {smt_number(lo)} x{variable}) (<= x{variable} {smt_number(hi)}))", end


def question(sheet, result):
    lines = ["(set-logic LRA)"] + [f"(declare-const x{v} Real)" for v in range(8)]
    lines += [f"(assert (not (= {smt_term(sheet)[0]} {smt_term(result)[0]})))", "(check-sat)"]
    return "\n".join(lines)


def solved(solver, sheet, result):
    command = {"z3": ["z3", f"-T:{SECONDS}", "-in"], "cvc5": ["cvc5", "--lang=smt2", f"--tlimit={SECONDS * 1000}"]}[solver]
    run = subprocess.run(command, input=question(sheet, result), capture_output=True, text=True)
    return (run.stdout + run.stderr).strip()


def delivered(sheets):
    """What the archive delivers: for each sheet the words of its line and the result's bytes."""
    run = subprocess.run([ARCHIVE, "deliver"], input=container(sheets), capture_output=True, check=True)
    for line in run.stdout.decode().splitlines():
        words = line.split()
        yield words[:4], bytes.fromhex(words[4]) if len(words) > 4 else b""


def candidates(count, seed):
    """Random accepted sheets with a quantifier, half of them with verdict 2, and what the archive delivers."""
    dice, wanted = Dice(seed), {"0": count // 4, "1": count // 4, "2": count - count // 4 * 2}
    while any(wanted.values()):
        sheets = [random_sheet(dice) for _ in range(1000)]
        for sheet, (line, result) in zip(sheets, delivered(sheets), strict=True):
            number, verdict = line[:2]
            if number == "0" and wanted[verdict] and ("exists" in smt_term(sheet)[0] or "forall" in smt_term(sheet)[0]):
                wanted[verdict] -= 1
                yield sheet, line, result


def main():
    count = int(sys.argv[1]) if len(sys.argv) > 1 else 2000
    seed = int(sys.argv[2]) if len(sys.argv) > 2 else 1
    solver = sys.argv[3] if len(sys.argv) > 3 else "z3"
    if not shutil.which(solver):
        sys.exit(f"{solver} is not installed: apt-get install {solver}")
    samples = [sample[2] for sample in SAMPLES]
    known = [(sheet, line, result) for sheet, (line, result) in zip(samples, delivered(samples), strict=True) if line[0] == "0"]
    agreed, open_questions = [0, 0, 0], 0
    for sheet, line, result in known + list(candidates(count, seed)):
        reply = solved(solver, sheet, result)
        if reply == "unsat":
            agreed[int(line[1])] += 1
        elif reply == "sat":
            sys.exit(f"they differ: {sheet.hex()} and {result.hex()}")
        elif "unknown" in reply or "timeout" in reply or "interrupted" in reply:
            open_questions += 1
        else:
            sys.exit(f"{solver} says: {reply[:300]}")
    print(f"{solver}: {sum(agreed)} sheets agree (false {agreed[0]}, true {agreed[1]}, other {agreed[2]}); {open_questions} not settled in time")


if __name__ == "__main__":
    main()
