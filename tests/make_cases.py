#!/usr/bin/env python3
"""Writes the input of the gate's program `cases_reading`, sound and damaged sheets for the reading call and the look, and its output.

Run:
    cargo build --release --offline --manifest-path tests/second/Cargo.toml
    python3 tests/make_cases.py
A case is four bytes of length, little-endian, and then the sheet's bytes. The output has a line a case: number and
place under the sheet's limits (16,384 bytes, 24 levels), number and place under the look's (65,536 bytes, 25 levels),
the look's offset and length, then the length of its part and the 64-bit FNV-1a checksum of the part's bytes; nothing
follows the length 0. Running it again changes nothing.
"""

import collections
import struct

from trees import Dice, M, container, random_sheet, stored
from make import SAMPLES
from records import LENGTH, allof, anyof, atmost, equal, every, less, negation, records, some, window

SMALL = 110
LIMIT = 1_200_000


def replaced(sheet, at, new):
    return sheet[:at] + new + sheet[at + len(new):]


def chain(count, inside, *wrappers):
    """`inside` under `count` records, taking the wrappers in turn."""
    for i in range(count):
        inside = wrappers[i % len(wrappers)](inside)
    return inside


SOME_X = lambda body: some(0, body)  # noqa: E731
EVERY_Y = lambda body: every(1, body)  # noqa: E731
WRAPPERS = [(negation,), (allof,), (anyof,), (SOME_X,), (EVERY_Y,), (negation, SOME_X, allof, EVERY_Y, anyof)]
EDGES = [M, M + 1, -M, -M - 1, 2**31 - 1, -2**31]


def cuts(sheet):
    return [sheet[:end] for end in range(len(sheet))]


def trailing(sheet):
    return [sheet + more for more in (b"\0", b"\xff\xff", b"\4\0\4\0", less({0: 1}), sheet)]


def header_changes(sheet):
    """Each length byte and kind byte of each record changed to several values."""
    cases = []
    for at, length in records(sheet):
        kind = sheet[at + 2]
        for value in (0, 4, 6, 14, 39, 40, length ^ 1, 255):
            cases.append(replaced(sheet, at, bytes([value])))
        for value in (1, 255):
            cases.append(replaced(sheet, at + 1, bytes([value])))
            cases.append(replaced(sheet, at + 3, bytes([value])))
        for value in list(range(11)) + [255]:
            cases.append(replaced(sheet, at + 2, bytes([value])))
            if value in LENGTH and LENGTH[value] != LENGTH[kind]:
                cases.append(replaced(sheet, at, struct.pack("<HH", LENGTH[value], value)))
    return [case for case in cases if case != sheet]


def field_changes(sheet):
    """Counts, variables, coefficients, constants, lo and hi at and beyond their limits."""
    cases = []
    for at, length in records(sheet):
        kind = sheet[at + 2]
        if kind in (5, 6):
            count = struct.unpack_from("<H", sheet, at + 4)[0]
            for value in (0, 1, count - 1, count + 1, count + 256, 65535):
                cases.append(replaced(sheet, at + 4, struct.pack("<H", value % 65536)))
        if kind in (7, 8, 9):
            for value in (0, 7, 8, 9, 255, 256, 263, 32768, 65535):
                cases.append(replaced(sheet, at + 4, struct.pack("<H", value)))
        if kind in (1, 2, 3):
            edges = EDGES if len(sheet) < 60 else [M, M + 1, -M - 1]
            for field in range(9):
                for value in edges:
                    cases.append(replaced(sheet, at + 4 + 4 * field, struct.pack("<i", value)))
        if kind == 9:
            for field in (6, 10):
                for value in EDGES:
                    cases.append(replaced(sheet, at + field, struct.pack("<i", value)))
    return [case for case in cases if case != sheet]


def depths():
    """Around 24 and 25 levels, and 16, the limit before: chains of each record over each leaf, and lists with one deep member."""
    cases = []
    leaves = [less({0: 1}), window(1, 0, 1), allof(), anyof(), less({0: M + 1}), window(8, 0, 1), window(1, 0, M + 1), b"\0" * 8,
              b"\5\0\4\0", b"\x28\0\1\0", b"\x0e\0", b""]
    for wrappers in WRAPPERS:
        for leaf in leaves:
            for count in [15, 16, *range(22, 28)]:
                cases.append(chain(count, leaf, *wrappers))
    for count in [15, *range(21, 27)]:
        deep = chain(count, less({0: 1}), negation)
        cases += [allof(deep, less({0: 1})), anyof(less({0: 1}), deep), allof(anyof(), deep, window(9, 0, 0)), some(0, anyof(deep, deep)),
                  allof(window(9, 0, 0), deep), allof(every(1, anyof()), deep), allof(deep) + b"\0"]
    return cases


def orders():
    """Two faults at one record, and two faulty records: which of them is told."""
    cut_atom = less({0: 1})[:20]
    bad_variable = window(8, 0, 0)
    singles = [
        b"\x28\0\x0a\0", b"\x29\0\x0a\0", b"\x28\0\0\0" + b"\0" * 36, b"\x29\0\1\0", b"\x27\0\1\0" + b"\0" * 35, cut_atom,
        replaced(cut_atom, 0, b"\x14"), replaced(cut_atom, 4, struct.pack("<i", M + 1)), bad_variable[:13], bad_variable[:6],
        window(8, M + 1, 0), window(8, 0, -M - 1), window(7, M + 1, -M - 1), window(7, M, -M), window(7, -M, M), some(8, b""), some(7, b""),
        some(8, b"\1"), some(7, b"\1"), every(65535, anyof()), every(7, bad_variable), some(8, bad_variable), allof(bad_variable, b"\0" * 4),
        less({v: M for v in range(8)}, -M), less({v: -M for v in range(8)}, M), less({v: -M - 1 for v in range(8)}, M), equal({}, 0),
        atmost({7: 1}, M + 1), atmost({}, -M - 1), less({3: -2**31}, 0), negation(b""), negation(b"\4"), negation(b"\4\0\4"),
    ]
    cases = []
    for first in singles:
        cases += [first, first + b"\0", allof(first, less({0: M + 1})), anyof(less({0: 1}), first), negation(first), some(1, first)]
    cases += [allof(less({0: 1}), b""), allof(less({0: 1}), b"\x28"), allof(less({0: 1}), b"\x28\0\1\0"), allof(allof(allof(b""))),
              struct.pack("<HHH", 6, 5, 2) + anyof(), struct.pack("<HHH", 6, 6, 0) + anyof(), b"\x06\0\5\0", b"\x06\0\5\0\1", b"\0", b"\0\0\0\0"]
    return cases


def filled(count, *more):
    """ANYOF of `count` atoms and more members."""
    return anyof(*[less({i % 8: 1}, i) for i in range(count)], *more)


def sizes():
    """Sheets of 16,384 bytes, one byte more, and the next sound length; and of 4,096 and 4,097, the limit before."""
    before = filled(102, negation(allof()))
    assert len(before) == 4096
    full = filled(409, allof(), allof(), anyof())
    assert len(full) == 16_384
    cases = [before, before[:-1], before + b"\0", filled(102, allof(), anyof()), b"\xff" * 4097]
    cases += [full, full[:-1], full + b"\0", filled(409, *[allof()] * 4), filled(409, allof(), allof()) + b"\0" * 6]
    cases += [filled(408, every(1, less({0: 1})), allof(), allof())[:16_384], filled(407, every(1, window(1, 0, 5)), some(0, negation(less({0: 1})))),
              struct.pack("<HHH", 6, 6, 65535) + allof() * 2729, struct.pack("<HHH", 6, 6, 2729) + allof() * 2729,
              struct.pack("<HHH", 6, 6, 2730) + allof() * 2730, b"\xff" * 16_385, b"\0" * 16_385, b"\xff" * 16_384]
    return cases


def large():
    """65,536 bytes: sound with a quantifier near the end, one byte more, cut in an atom at the end, with bytes after it; 65,538 sound."""
    full = filled(1636, some(3, negation(allof())), negation(window(2, -1, 1)), every(5, less({5: 1})), negation(allof()))
    assert len(full) == 65536, len(full)
    return [full, full + b"\0", replaced(full, len(full) - 10, b"\x28\0\1\0"), filled(1638, allof()) + b"\0" * 4,
            filled(1638, allof(), anyof())]


def random_damage(dice, count):
    cases = []
    for _ in range(count):
        sheet = random_sheet(dice)
        while not 4 < len(sheet) <= 260:
            sheet = random_sheet(dice)
        cases.append(sheet)
        at = dice.below(len(sheet))
        cases.append(replaced(sheet, at, bytes([dice.below(256)])))
        head = dice.one_of(records(sheet))[0]
        cases.append(replaced(sheet, head + dice.below(min(6, len(sheet) - head)), bytes([dice.below(12)])))
        cases.append(sheet[:dice.below(len(sheet))])
        if dice.chance(40):
            cases.append(sheet[:at] + sheet[at + dice.between(1, 6):])
    return cases


def quantifiers(sheet):
    """How many a sound sheet has."""
    return sum(sheet[at + 2] in (7, 8) for at, _ in records(sheet))


def main():
    cases = [sheet for _, _, sheet, _, _ in SAMPLES]
    for sheet in list(cases):
        if len(sheet) <= SMALL:
            cases += cuts(sheet)
            cases += trailing(sheet)
            if len(records(sheet)) < 9:
                cases += header_changes(sheet)
            cases += field_changes(sheet)
    cases += depths() + orders() + sizes() + large()
    cases = list(dict.fromkeys(cases))
    cases += random_damage(Dice(101), 400)
    cases = list(dict.fromkeys(cases))
    data = container(cases)
    assert len(data) < LIMIT, len(data)
    lines = stored("readings", data)
    assert len(lines) == len(cases)
    print(f"{len(cases)} cases, {len(data)} bytes")
    for name, column in (("sheet", 0), ("look", 2)):
        counts = collections.Counter(int(line.split()[column]) for line in lines)
        print(f"numbers under the {name}'s limits:", dict(sorted(counts.items())))
    looks = [case for case, line in zip(cases, lines) if line.split()[5] != "0"]
    several = sum(quantifiers(case) > 1 for case in looks)
    assert several > 100, several
    print(f"looks that are not empty: {len(looks)}, past an earlier quantifier: {several}")


if __name__ == "__main__":
    main()
