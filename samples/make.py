#!/usr/bin/env python3
"""Writes 01's "Sheets with known results", and some at the limits and of a film's size, as NAME.sheet beside this script, and LIST.md with what each says.

Run it from anywhere, without arguments: python3 samples/make.py
Running it again changes nothing. The lines that 01 itself gives are in SAMPLES; `-` is a number 01 leaves open.
"""

import pathlib

from records import M, X, Y, Z, allof, anyof, atmost, equal, every, less, negation, some, window

HERE = pathlib.Path(__file__).resolve().parent


def nots(count):
    sheet = less({X: 1})
    for _ in range(count):
        sheet = negation(sheet)
    return sheet


def values(count):
    return some(X, anyof(*[equal({X: 1}, -k) for k in range(1, count + 1)]))


def thirty_two():
    members = []
    for k in range(1, 17):
        members += [less({X: -1, Y: 1}, k), less({X: 1, Z: -1}, -k)]
    return some(X, allof(*members))


def longest():
    return anyof(*[less({k % 8: 2}, 4 * k + 1) for k in range(409)], *[anyof()] * 3)


def film():
    """Eight chapters, each inside the one before. The talk takes variable 0, the music stops at 1, a moment of the chapter is 2, the dome's clock runs behind by 3.

    In each chapter there is a moment after its beginning and the talk and before the music stops; its scenes begin and end in order; and the next chapter
    holds, or the music has stopped by then. All of it for every delay of the clock from 0 to 30 seconds.
    """
    chapter = window(0, 40, 70)
    for k in range(8, 0, -1):
        begins = 400 * (k - 1)
        moment = some(2, allof(less({2: -1, 0: 1}, begins), less({2: 1, 1: -1}, 20), atmost({2: -2}, 2 * begins + 1)))
        scenes = [atmost({4 + scene % 3: 1, 5 + scene % 3: -1}, begins + 10 * scene) for scene in range(17)]
        changes = [anyof(less({4 + scene: 3, 1: -2}, begins + scene), negation(window(4 + scene, begins, begins + 60))) for scene in range(4)]
        chapter = allof(moment, *scenes, *changes, anyof(chapter, atmost({1: 1}, -begins)))
    return every(3, anyof(negation(window(3, 0, 30)), chapter))


# Name, whether 01 stars it, the sheet, what it says, and 01's answer, verdict, place, length.
SAMPLES = [
    ("between", True,
     some(X, allof(less({X: 3}, -9), less({X: -7}, 13))),
     "some x: 3x + 1 < 10 and 7x − 6 > 7 (003), atoms 3x − 9 < 0, −7x + 13 < 0: true; 17/7 does it", "0 1 0 6"),
    ("y-and-z", True,
     some(X, allof(less({X: -2, Y: 1}), less({X: 3, Z: -1}))),
     "some x: 2x > y and 3x < z (003), atoms −2x + y < 0, 3x − z < 0: ALLOF of 3y − 2z < 0 twice", "0 2 0 86"),
    ("window", True,
     every(X, anyof(negation(window(X, 40, 70)), atmost({X: 1}, -50), atmost({X: -1}, 60))),
     "every x: not window(x, 40, 70), or x ≤ 50, or x ≥ 60 (110 bytes): false, by 55", "0 0 0 6"),
    ("at-most-one", True,
     some(Z, allof(atmost({Z: -1}), atmost({Z: 1, Y: 1}, -1))),
     "some z: −z ≤ 0 and z + y − 1 ≤ 0 (002): means y ≤ 1", "0 2 0 172"),
    ("above-five", True,
     some(X, allof(less({X: -1}, 5), less({X: 1, Y: -1}))),
     "some x: x > 5 and y > x: means y > 5 (001 prints y > 6, right for integers only)", "0 2 0 86"),
    ("half", True,
     some(X, equal({X: 2, Y: -1})),
     "some x: 2x = y: true, verdict 1 though y is free", "0 1 0 6"),
    ("every-some", True,
     every(X, some(Y, less({X: 1, Y: -1}))),
     "every x some y: x < y: true", "0 1 0 6"),
    ("some-every", True,
     some(Y, every(X, less({X: 1, Y: -1}))),
     "some y every x: x < y: false", "0 0 0 6"),
    ("not-three", True,
     some(X, allof(negation(equal({X: 1}, -3)), less({X: 1}, -3))),
     "some x: not (x = 3) and x < 3: true", "0 1 0 6"),
    ("bound-again", True,
     some(X, allof(less({X: 1}), some(X, less({X: -1})))),
     "some x: (x < 0 and some x: x > 0): true", "0 1 0 6"),
    ("empty", True, b"", "the empty sheet: refused, 3 at 0", "3 3 0 0"),
    ("true", True, allof(), "ALLOF of 0: true", "0 1 0 6"),
    ("nots-23", False, nots(23), "23 NOTs and an atom, x < 0: accepted", "0 - 0 -"),
    ("nots-24", False, nots(24), "24 NOTs and an atom: too deep, at the atom", "8 3 96 0"),
    ("terms-64", False, values(64), "some x: any of x = 1 .. x = 64: true", "0 1 0 6"),
    ("terms-65", False, values(65), "some x: any of x = 1 .. x = 65: more than 64 boundary terms", "10 3 0 0"),
    ("large-one", False, some(X, less({X: M, Y: -1})), "some x: Mx − y < 0: true", "0 1 0 6"),
    ("large-two", False,
     some(X, allof(less({X: M, Y: -1}), less({X: -(M - 1), Z: 1}))),
     "some x: Mx − y < 0 and −(M − 1)x + z < 0: a reduced number outside −M..M", "11 3 0 0"),
    ("atoms-32", False, thirty_two(),
     "some x: x > y + k and x < z + k, k = 1..16 under one ALLOF: over 65,536 bytes", "12 3 0 0"),
    ("coefficient-m", False, less({X: M}, -1), "the atom Mx − 1 < 0: accepted", "0 - 0 -"),
    ("coefficient-m-plus-1", False, less({X: M + 1}, -1), "the atom (M + 1)x − 1 < 0: refused", "7 3 - 0"),
    ("longest", False, longest(), "16,384 bytes, as long as a sheet may be: accepted", "0 - 0 -"),
    ("longest-plus-1", False, longest() + b"\0", "a byte more: too long", "2 3 0 0"),
    ("windows-762", False, allof(*[window(k % 8, -k, k) for k in range(762)]),
     "762 windows and no quantifier: over 65,536 bytes in the finishing pass, at the sheet's length", "12 3 10674 0"),
    ("film", False, film(), "a film of eight chapters, about 9,000 bytes and 20 deep (what it says: `film` in make.py)", "0 2 0 -"),
]

HEAD = """# Sheets with known results

The sheets of 01 with known results, and some at the limits and of a film's size, one file each; made by `make.py`. x, y, z are variables 0, 1, 2 and
M = 1,073,741,823. The line is answer, verdict, place, result length as 01 gives them, `-` where it leaves one open;
the lines in full are in `tests/known.txt`. A star marks the proved set.

| file | bytes | | what it says | line |
|---|---|---|---|---|
"""


def main():
    rows = []
    for name, starred, sheet, says, line in SAMPLES:
        (HERE / f"{name}.sheet").write_bytes(sheet)
        star = "\\*" if starred else ""
        rows.append(f"| {name}.sheet | {len(sheet)} | {star} | {says} | `{line}` |\n")
    (HERE / "LIST.md").write_text(HEAD + "".join(rows), encoding="utf-8")


if __name__ == "__main__":
    main()
