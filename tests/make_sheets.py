#!/usr/bin/env python3
"""Writes sheets for the elimination and for the test at fractions, with what the second program makes of them.

Run:
    cargo build --release --offline --manifest-path tests/second/Cargo.toml
    python3 tests/make_sheets.py                        the stored sets; running it again changes nothing
    python3 tests/make_sheets.py random COUNT SEED FILE   COUNT further random sheets for the elimination

The input of the gate's program `cases_elimination`: four bytes of length, little-endian, then the sheet; again for each case. Its output has
a line a case: answer verdict place length, then for a result of 1 to 600 bytes a blank and the bytes in hex, for a longer one
` fnv ` and the 64-bit FNV-1a checksum of its bytes in decimal; nothing follows the length 0.
The input of `cases_test`: the same, and after each sheet nine numbers of eight bytes, signed, little-endian: eight values and the
denominator. Its output has a line a case: number verdict place.
"""

import collections
import pathlib
import struct
import subprocess
import sys

from trees import PROGRAMS, SECOND, SHEET_BYTES, Dice, M, Style, container, random_formula, random_sheet, stored
from make import SAMPLES, nots, thirty_two, values
from records import X, Y, Z, allof, anyof, atmost, equal, every, less, negation, some, window

TRUE, FALSE = allof(), anyof()


def bounds(lower, upper):
    """x above y + 1 .. y + lower and below z + 1 .. z + upper."""
    return [less({X: -1, Y: 1}, k) for k in range(1, lower + 1)] + [less({X: 1, Z: -1}, -k) for k in range(1, upper + 1)]


def large_step():
    """A SOME whose replacement has LARGE bytes."""
    return some(X, allof(*bounds(18, 4)))


LARGE = 63_798
RESULT_BYTES = 65_536


def filler(size):
    """True members of `size` bytes together, all dropped by the finishing pass."""
    atoms = (size - 20) // 40
    size -= 40 * atoms
    longer = next(n for n in range(6) if size >= 10 * n and (size - 10 * n) % 6 == 0)
    return [equal({}, 0)] * atoms + [negation(FALSE)] * longer + [TRUE] * ((size - 10 * longer) // 6)


def opened(size):
    """Members whose finished forms have `size` bytes together: atoms of 40, windows and negated EQUALs of 86."""
    many = next(n for n in range(21) if size >= 86 * n and (size - 86 * n) % 40 == 0)
    wide = [window(k % 3, -k, k + 1) if k % 2 else negation(equal({Y: 1, 3: k + 1}, k)) for k in range(many)]
    return wide + [atmost({4: 1}, k) for k in range((size - 86 * many) // 40)]


def limits():
    """Results of just 65,536 bytes and just above, in a step and in the finishing pass."""
    room = RESULT_BYTES - 6 - LARGE
    return [
        large_step(),
        allof(large_step(), *filler(room)),
        allof(large_step(), *filler(room + 2)),
        anyof(*[FALSE] * (room // 6), large_step()),
        anyof(*[FALSE] * (room // 6 + 1), large_step()),
        allof(large_step(), *opened(room)),
        allof(large_step(), *opened(room + 2)),
        allof(*opened(room + 20), large_step()),
        allof(FALSE, large_step(), *opened(room + 2)),
        negation(allof(large_step(), *opened(room + 2))),
        every(5, allof(large_step(), *opened(room))),
        every(5, allof(large_step(), *opened(room + 2))),
        anyof(TRUE, thirty_two()),
        allof(FALSE, negation(thirty_two())),
        every(X, anyof(*bounds(7, 12))),
        every(X, anyof(*bounds(12, 8))),
        some(X, anyof(TRUE, *bounds(16, 16))),
        some(X, anyof(equal({X: 1}, -5), allof(*bounds(16, 16)))),
        every(X, allof(negation(equal({X: 1}, -5)), anyof(*bounds(16, 16)))),
        some(X, allof(anyof(equal({X: 1}, -5), allof(*bounds(16, 16))), less({Y: 2}, 4))),
    ] + [every(5, body) for body in longer_when_pushed()]


def longer_when_pushed():
    """Bodies that fit, don't fit once their windows are opened, and come out short."""
    windows = [window(k % 3, -k, k + 1) for k in range(40)]
    return [
        allof(FALSE, large_step(), *windows),
        anyof(less({Y: 2}, 4), allof(FALSE, large_step(), *windows)),
        anyof(less({5: 1, Y: 2}, 4), less({5: -3, Z: 2}), allof(*windows, large_step(), FALSE)),
        allof(large_step(), *windows),
    ]


def terms():
    """Around 64 boundary terms, and steps without any."""
    windows = [window(X, 2 * k, 2 * k + 1) for k in range(32)]
    mixed = [less({X: 2, Y: 1}, k) for k in range(40)]
    return [
        values(64), values(65), some(X, allof(FALSE, *[equal({X: 1}, -k) for k in range(65)])),
        some(X, anyof(*windows)), some(X, anyof(*windows, less({X: 1}, 5))), some(X, anyof(*windows, less({X: 2}, -126))),
        some(X, anyof(*windows, *[equal({X: -3}, 3 * k) for k in range(20)])),
        every(X, negation(anyof(*windows))), every(X, negation(anyof(negation(window(X, 3, 3)), *windows))),
        every(Y, anyof(some(X, allof(*mixed)), some(X, anyof(*windows, *windows, equal({X: 1}, -64))))),
        every(Y, some(X, allof(*bounds(6, 5)))), some(Z, some(Y, some(X, allof(*bounds(3, 2))))),
        some(Y, anyof(*[equal({Y: 1, Z: 1}, -k) for k in range(30)])),
        every(X, TRUE), every(X, FALSE), some(X, TRUE), some(X, FALSE), every(X, less({Y: 4}, -6)), some(X, less({Y: 4}, -6)),
        every(X, window(Y, 1, 2)), some(X, negation(window(Y, 2, 1))), some(X, anyof(less({Y: 0, Z: 9}, 3), less({}, -1))),
        every(X, allof(less({}, -1))), some(X, equal({}, 0)), every(X, atmost({}, 1)), some(X, allof(equal({Y: -6, Z: 9}, 3))),
    ]


def large_numbers():
    """Around M: reduced before they are judged, judged also in lists that fall away, not judged without a variable."""
    big = [less({X: M, Y: -1}), less({X: -(M - 1), Z: 1})]
    half = M // 2
    # All points of these two are in range; only the first one's atom at the point M is not.
    wide = [less({X: 1, Y: 1}, M), less({X: 1}, -M)]
    fallen = [some(X, allof(FALSE, *wide)), some(X, anyof(TRUE, *wide)), every(X, allof(less({X: 1}), *wide)), some(X, anyof(wide[1], wide[0])),
              every(X, anyof(TRUE, allof(FALSE, anyof(*wide)))), some(X, anyof(equal({}, 0), negation(allof(*wide)))),
              some(X, anyof(atmost({X: 1}, -M), *wide)), allof(FALSE, some(X, allof(*wide))), every(Y, some(X, allof(*wide, FALSE)))]
    return fallen + [
        some(X, allof(*big)), some(X, anyof(*big)), every(X, anyof(*big)), some(X, allof(FALSE, *big)), some(X, anyof(TRUE, *big)),
        some(X, allof(anyof(TRUE, *big), less({X: 1}))), allof(FALSE, some(X, allof(*big))), every(Z, some(X, allof(*big))),
        some(X, allof(less({X: 30000, Y: -1}), less({X: -30000, Z: 1}))), some(X, allof(less({X: 40000, Y: -1}), less({X: -40001, Z: 1}))),
        some(X, allof(less({X: 23170, Y: -1}), less({X: -23171, Z: 1}))), some(X, allof(less({X: 23170, Y: -1}), less({X: -23172, Z: 2}))),
        some(X, allof(less({X: 1}, -M), less({X: -1}, -M))), some(X, allof(less({X: 1}, M), less({X: -1}, M))),
        some(X, allof(less({X: 1, Y: 1}, -M), less({X: -1}, -M))), some(X, allof(less({X: 1, Y: 1}, M), less({X: 1}, -M))),
        some(X, allof(less({X: 1, Y: 1}, half), less({X: 1}, -half))), some(X, allof(less({X: 1, Y: 1}, half), less({X: 1}, -half - 1))),
        some(X, allof(less({X: 1, Y: 1}, half), less({X: 1}, -half - 2))), some(X, window(X, -M, M)), every(X, window(X, -M, M)),
        some(X, allof(window(X, -M, M), equal({X: M, Y: M}, M))), some(X, negation(window(X, M, -M))), some(X, equal({X: M, Y: -M, Z: M}, M)),
        some(X, equal({X: 2, Y: M})), some(X, allof(equal({X: 2, Y: M}), less({X: 2, Y: M}, 1))),
        some(X, allof(equal({X: 2, Y: M}), less({X: 1}, 0))), some(X, allof(equal({X: 1}, -M), less({X: M}, M), less({Y: 4}, 6))),
        some(X, allof(equal({X: M - 1}, -2), less({X: M}, -M))), some(X, allof(equal({X: M}, -1), equal({X: M - 1}, -1))),
        negation(equal({X: M, Y: -M}, 0)), equal({X: M, Y: -M}, 3), less({X: -M, Y: -M}, -M), window(X, M, -M), window(X, -M, M),
        some(X, allof(*[less({X: 1, v: M}, M) for v in range(1, 8)])), some(X, allof(less({X: 4, Y: 2}, 6), less({X: -6, Y: 3}, 9))),
        some(X, allof(less({X: 1, Y: M}), less({X: 1, Y: -M}), less({X: 1, Z: 1}))),
    ]


def shapes():
    """Pushing, lists, opening, order and what stays outside a step."""
    xy, yz = less({X: 1, Y: -1}), less({Y: 2, Z: -4}, 6)
    deep = window(X, 0, 1)
    for k in range(23):
        deep = negation(deep) if k % 3 else allof(deep)
    return [
        allof(allof(allof(xy))), anyof(xy), anyof(allof(), xy), anyof(anyof(), xy), allof(anyof(), xy), allof(xy, allof(xy, xy), xy),
        negation(allof(xy, anyof(equal({X: 2}, 4), window(Y, 1, 2)))), negation(equal({X: -2, Y: 4}, 6)), equal({X: -2, Y: 4}, 6),
        negation(negation(equal({}, 1))), negation(window(Z, 5, 5)), window(Z, 5, 4), deep, some(X, deep[4:]), nots(23),
        allof(xy, some(X, xy), every(Y, yz), window(X, 1, 2)), anyof(some(X, some(X, xy)), negation(some(Y, yz)), less({X: 8}, 4)),
        some(X, allof(xy, some(X, allof(xy, less({X: -1}, 3))))), some(X, allof(some(X, less({X: 1, Y: 1})), less({X: 2, Y: -3}, 1))),
        every(X, anyof(less({X: 1, Y: 1}), every(X, less({X: 1, Y: 1})))), negation(every(X, some(Y, negation(xy)))),
        every(X, negation(some(Y, allof(xy, yz)))), some(X, allof(window(X, 0, 4), window(Y, 0, 4), less({X: 1, Y: 1}, -6))),
        every(X, anyof(negation(window(X, 0, 4)), less({X: 1, Y: -1}))), some(X, anyof(equal({X: 3, Y: 1}), negation(equal({X: 3, Y: 1})))),
        some(X, allof(equal({X: 3, Y: 1}), negation(equal({X: 3, Y: 1})))), some(X, allof(negation(equal({X: 1, Y: 1})), equal({X: -2, Z: 4}, 6))),
        every(X, some(Y, every(Z, anyof(xy, less({Y: 1, Z: -1}))))), some(X, allof(atmost({X: -1}), atmost({X: 1}, -1), atmost({X: 1, Y: 1}, 0))),
        some(X, allof(less({X: 1}, -1), less({X: 1}, 1), less({X: 1, Y: 1}))), some(X, anyof(equal({X: 1}, -1), allof(xy, yz), anyof())),
        some(7, allof(less({7: 5, 6: -3}, 2), atmost({7: -2, 5: 4}, 8), equal({6: 1, 5: -1}))), filled_sheet(),
        some(X, filled_sheet())[:SHEET_BYTES], b"\0" * 20_000, b"", some(8, xy), some(X, less({X: M + 1})), some(X, xy) + b"\0", xy[:39], nots(24),
    ] + [nots(k) for k in (15, 16, 17)]


def filled_sheet():
    """A sound sheet of just 16,384 bytes."""
    return anyof(*[less({k % 8: 2}, 4 * k + 2) for k in range(409)], TRUE, TRUE, FALSE)


def random_chosen(dice, wanted):
    """Random sheets by answer and verdict, none with a result that is too long to store."""
    chosen = []
    while any(wanted.values()):
        sheets = [random_sheet(dice) for _ in range(1000)]
        for sheet, line in zip(sheets, stored("eliminations", container(sheets)), strict=True):
            number, verdict, _, length = line.split()[:4]
            size = "long" if int(length) > 600 else "short"
            key = (number, verdict) if verdict != "2" else (number, verdict, size)
            if wanted.get(key) and (number != "0" or len(sheet) > 90):
                wanted[key] -= 1
                chosen.append(sheet)
    return chosen


def write(name, data, count):
    lines = stored(name, data)
    assert len(lines) == count
    answers = collections.Counter(tuple(map(int, line.split()[:2])) for line in lines)
    print(f"{name}: {count} cases, {len(data)} bytes; (answer, verdict):", dict(sorted(answers.items())))
    return lines


def eliminations():
    cases = [sheet for _, _, sheet, _, _ in SAMPLES] + limits() + terms() + large_numbers() + shapes()
    cases += random_chosen(Dice(202), {("0", "0"): 25, ("0", "1"): 25, ("0", "2", "short"): 60, ("0", "2", "long"): 35,
                                       ("10", "3"): 8, ("11", "3"): 22, ("12", "3"): 12})
    cases = list(dict.fromkeys(cases))
    lines = write("eliminations", container(cases), len(cases))
    size = sum((PROGRAMS / "cases_elimination" / file).stat().st_size for file in ("stdin", "stdout"))
    assert size < 600_000, size
    assert all(len(case) <= SHEET_BYTES for case, line in zip(cases, lines) if line[0:2] == "0 ")


def point(dice, kind):
    """Eight values and a denominator within the limits."""
    if kind == "edge":
        return [dice.one_of([-1000000, 1000000, 999999, 0]) for _ in range(8)] + [dice.one_of([1, 2, 999999, 1000000])]
    size = {"whole": 6, "fraction": 30, "large": 1000000}[kind]
    denominator = {"whole": 1, "fraction": dice.between(2, 12), "large": dice.between(1, 1000000)}[kind]
    return [dice.between(-size, size) for _ in range(8)] + [denominator]


def quantifier_free(dice):
    """A random sheet without quantifiers, or the delivered condition of one with them."""
    if dice.chance(70):
        while True:
            style = Style(dice)
            style.quantified = 0
            sheet = random_formula(dice, style, style.depth)
            if 40 < len(sheet) <= 1500:
                return sheet
    while True:
        run = subprocess.run([SECOND, "result"], input=random_sheet(dice), capture_output=True, check=True)
        line, text = run.stdout.decode().split("\n")[:2]
        if line.startswith("0 2") and len(text) <= 5000:
            return bytes.fromhex(text)


def on_the_line():
    """Values at which sums are just 0, or just not."""
    cases = []
    for numerator, denominator in [(17, 7), (34, 14), (16, 7), (18, 7), (13, 7), (3, 1), (1000000, 333333), (999999, 333333)]:
        values_there = [numerator] + [0] * 7 + [denominator]
        for sheet in (less({X: 7}, -17), atmost({X: -7}, 17), equal({X: 7}, -17), window(X, 3, 3), window(X, 1, 2),
                      allof(less({X: 3}, -9), less({X: -7}, 13))):
            cases.append((sheet, values_there))
    edge = [1000000] * 8 + [1]
    for sign in (1, -1):
        everything = {v: sign * M for v in range(8)}
        for sheet in (less(everything, M), less(everything, -M), atmost(everything, 0), equal(everything, 0)):
            cases += [(sheet, edge), (sheet, [-value for value in edge[:8]] + [1000000]), (sheet, [0] * 8 + [1000000])]
    cases.append((equal({v: M if v % 2 else -M for v in range(8)}, 0), edge))
    cases.append((equal({v: M if v % 2 else -M for v in range(8)}, 1), edge))
    return cases


def test_refusals():
    """2 to 9, then 13, then 14, and which comes first."""
    origin, free = [0] * 8 + [1], less({X: 1}, -1)
    far = [[1000001] + [0] * 7 + [1], [0] * 7 + [-1000001, 1], [0] * 8 + [0], [0] * 8 + [-1], [0] * 8 + [1000001], [2**63 - 1] * 9,
           [-2**63] * 9, [0] * 3 + [2**32] + [0] * 4 + [1], [0] * 8 + [2**32 + 1], [1000001] * 8 + [0]]
    deep = nots(24)
    bodies = anyof(*[less({k % 8: 1}, k + 1) for k in range(1638)], negation(TRUE))
    bad = [b"", free[:39], b"\x28\0\x0a\0", b"\x27\0\1\0" + b"\0" * 35, some(8, free), less({X: M + 1}), window(9, 0, 0), negation(deep),
           free + b"\0", allof(free, free)[:60], allof(some(X, free), window(8, 0, 0))]
    quantified = [some(X, free), allof(free, negation(every(Y, some(X, free))), some(Z, free)), anyof(window(X, 0, 1), TRUE, some(7, TRUE)),
                  every(X, free)]
    cases = [(sheet, numbers) for sheet in bad for numbers in (origin, far[0])]
    cases += [(sheet, numbers) for sheet in quantified for numbers in (origin, far[2])]
    cases += [(free, numbers) for numbers in far] + [(TRUE, far[4]), (FALSE, far[3]), (deep, origin), (nots(23), origin), (nots(16), origin)]
    cases += [(bodies, origin), (bodies, [-1000000] * 8 + [1]), (bodies + b"\0", origin)]
    cases += [(free, values_there) for values_there in ([1000000] * 8 + [1000000], [-1000000] * 8 + [1], [1000000] + [0] * 7 + [999999])]
    return cases


def tests():
    dice, cases = Dice(303), on_the_line() + test_refusals()
    for _ in range(210):
        cases.append((quantifier_free(dice), point(dice, dice.one_of(["whole", "whole", "fraction", "large", "edge"]))))
    data = b"".join(struct.pack("<I", len(sheet)) + sheet + struct.pack("<9q", *numbers) for sheet, numbers in cases)
    write("tests", data, len(cases))


def main():
    if sys.argv[1:2] == ["random"]:
        count, seed, file = sys.argv[2:]
        dice = Dice(int(seed))
        pathlib.Path(file).write_bytes(container([random_sheet(dice) for _ in range(int(count))]))
    else:
        eliminations()
        tests()


if __name__ == "__main__":
    main()
