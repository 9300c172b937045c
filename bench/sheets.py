#!/usr/bin/env python3
"""Writes the sheets of the benchmark: sheets.py FOLDER makes FOLDER/heavy, FOLDER/large, FOLDER/long, FOLDER/small and
FOLDER/growth.

heavy: steps with many points, much to copy, or both. large: random coefficients up to 30,000, where a step is often not tame. small: random sheets
with one to four quantifiers. long: more than 4,096 bytes. growth: more and more terms and atoms. Each run writes the same bytes.
"""

import pathlib
import sys

ROOT = pathlib.Path(__file__).resolve().parent.parent
sys.path += [str(ROOT / "tests"), str(ROOT / "samples")]

from make import film, longest  # noqa: E402
from records import allof, anyof, atmost, equal, every, less, negation, some, window  # noqa: E402
from trees import Dice, random_sheet  # noqa: E402


def bounds(lower, upper, low=1, high=2):
    """x0 above `lower` sums of one variable and below `upper` of another."""
    return [less({0: -1, low: 1}, k) for k in range(1, lower + 1)] + [less({0: 1, high: -1}, -k) for k in range(1, upper + 1)]


def turns(count):
    """Bounds from below and from above in turn."""
    return [less({0: -1, 1: 1}, k) if k % 2 == 0 else less({0: 1, 2: -1}, -k) for k in range(count)]


def nested(count):
    """Three quantifiers over a few atoms with several variables."""
    atoms = [(less, atmost)[k % 2]({0: 1 - 2 * (k % 2), 1: 1 + k, 2: 2 - k, 3: 1}, k) for k in range(count)]
    return some(2, every(1, some(0, allof(*atoms))))


def rows(dice, count, most, kind=allof):
    """SOME over atoms with eight random coefficients and a constant, each of at most `most`."""
    def number():
        return dice.below(2 * most + 1) - most
    return some(0, kind(*[dice.one_of([less, atmost])({v: number() or 1 for v in range(8)}, number()) for _ in range(count)]))


def under(levels, body):
    for _ in range(levels):
        body = allof(body)
    return body


def windows_true_at_one_point(quantifiers, count, body):
    """Nested SOMEs over ALLOF of a body and windows that hold together at 0 alone."""
    for v in range(1, 1 + quantifiers):
        body = some(v, allof(body, *[window(v, -k, k) for k in range(count)]))
    return body


def heavy():
    thirds = [less({0: 3, 1: 1, 2: 2}, k % 64) for k in range(100)]
    long = some(0, allof(*bounds(16, 4, 6, 7)))
    return {
        "16 bounds, a long result": some(0, allof(*turns(16))),
        "16 bounds under 12 lists of one": some(0, under(12, allof(*turns(16)))),
        "32 atoms, 12 at the end": some(0, allof(*turns(32))),
        "64 terms, 94 atoms, undecided": every(0, anyof(*thirds[:94])),
        "64 terms, 100 atoms, decided by the last": some(0, anyof(*thirds[:99], equal({0: 3, 1: 1, 2: 2}, 63))),
        "two quantifiers, a long second body": some(1, some(0, allof(*turns(12)))),
        "three quantifiers, 4 atoms": nested(4),
        "three quantifiers, 5 atoms": nested(5),
        "32 windows": some(0, allof(*[window(0, k, k + 1000) for k in range(32)])),
        "rows of 8 small numbers, 10 atoms": rows(Dice(1), 10, 9),
        "rows of 8 small numbers, 16 atoms": rows(Dice(2), 16, 9),
        "rows of 8 numbers to 200, 14 atoms": rows(Dice(3), 14, 200),
        "rows of 8 numbers to 200, ANYOF": rows(Dice(4), 14, 200, anyof),
        "a long body, 2,082 points": some(1, allof(long, *[less({1: 1, 2: 1}, k) for k in range(32)], *[less({1: -1, 3: 1}, k) for k in range(32)])),
        "windows true at one point, 1 SOME": windows_true_at_one_point(1, 32, long),
        "windows true at one point, 5 SOMEs": windows_true_at_one_point(5, 30, some(0, allof(*bounds(13, 4, 6, 7)))),
    }


def large():
    dice = Dice(30000)
    return {f"rows of numbers to {most}, {count} atoms, {k}": rows(dice, count, most) for most in (1000, 5000, 30000) for count in (3, 6) for k in range(4)}


def long():
    """Sheets of 4,097 to 16,384 bytes."""
    def scenes(count):
        return [some(2, allof(less({2: -1, 0: 1}, k), less({2: 1, 1: -1}, 2 * k))) for k in range(count)]

    def open_atoms(count):
        return [less({4 + k % 3: 1, 7: 2 + k % 5}, k) for k in range(count)]
    every_delay = lambda *parts: every(3, anyof(negation(window(3, 0, 30)), allof(*parts)))  # noqa: E731
    return {
        "a film, 20 deep": film(),
        "the same without the delay": film()[30:],
        "4,176 bytes, one EVERY over all": every_delay(*scenes(45)),
        "8,000 bytes, one EVERY over all": every_delay(*scenes(40), *open_atoms(105)),
        "16,000 bytes, 176 SOMEs": allof(*scenes(176)),
        "16,000 bytes, one EVERY over all": every_delay(*scenes(20), *open_atoms(350)),
        "16,384 bytes, no quantifier": longest(),
        "762 windows, 12 at the end": allof(*[window(k % 8, -k, k) for k in range(762)]),
    }


def small():
    """Random sheets with one to four quantifiers."""
    dice, found = Dice(11), {}
    while len(found) < 400:
        sheet = random_sheet(dice)
        quantifiers, at = 0, 0
        while at < len(sheet):
            quantifiers += int.from_bytes(sheet[at + 2:at + 4], "little") in (7, 8)
            at += int.from_bytes(sheet[at:at + 2], "little")
        if 1 <= quantifiers <= 4 and len(sheet) <= 600:
            found[f"{len(found):03}"] = sheet
    return found


def growth():
    sizes = [(4, 4), (8, 8), (16, 16), (32, 32), (64, 64), (64, 80), (64, 100)]
    return {f"{terms} terms, {atoms} atoms": every(0, anyof(*[less({0: 30011, 1: 1, 2: 2}, k % terms) for k in range(atoms)])) for terms, atoms in sizes}


def main():
    folder = pathlib.Path(sys.argv[1])
    for group in (heavy, large, long, small, growth):
        (folder / group.__name__).mkdir(parents=True, exist_ok=True)
        for name, sheet in group().items():
            assert len(sheet) <= 16_384, (name, len(sheet))
            (folder / group.__name__ / f"{name}.sheet").write_bytes(sheet)


if __name__ == "__main__":
    main()
