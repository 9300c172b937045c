#!/usr/bin/env python3
"""Writes boxes for the Monday list (#102), with what the second program prints for them.

Run:
    cargo build --release --offline --manifest-path tests/second/Cargo.toml
    python3 tests/make_seasons.py                          the stored season; running it again changes nothing
    python3 tests/make_seasons.py small FOLDER             many small inputs, a file each: no box, one, cut ones, bad headers
    python3 tests/make_seasons.py random COUNT SEED FILE   COUNT further random boxes, and mostly a bad one after them

The stored season is the input and the output of the program `monday`. A box is its length (two bytes, little-endian, its four header
bytes among them), kind 16 (two bytes), then the sheet. The output has a line a box: number answer verdict steps terms length; for a bad box
15 and its offset; and a last line: boxes with answer 0, with verdict 0, 1, 2, and the sum of result lengths.
"""

import collections
import pathlib
import struct
import subprocess
import sys

from trees import PROGRAMS, SECOND, SHEET_BYTES, Dice, M, random_sheet
from make import SAMPLES, nots, thirty_two, values
from records import X, Y, Z, allof, anyof, every, less, records, some, window

KIND, HEADER, LONGEST = 16, 4, 65_535
LIMIT = 400_000
SAMPLE = {name: sheet for name, _, sheet, _, _ in SAMPLES}


def stated(length, kind, sheet):
    """A box with any length and kind in its header."""
    return struct.pack("<HH", length, kind) + sheet


def boxed(sheet):
    return stated(HEADER + len(sheet), KIND, sheet)


def replaced(sheet, at, new):
    return sheet[:at] + new + sheet[at + len(new):]


def counted_sheets():
    """Steps and terms of many sizes: refused early, refused late, and with the most terms in an early or a late step."""
    above = [less({X: -1, Y: 1}, k) for k in range(1, 19)]
    below = [less({X: 1, Z: -1}, -k) for k in range(1, 5)]
    first, many = some(Y, less({Y: 1, X: 3})), values(7)
    big = SAMPLE["large-two"]
    after = [values(65), big, thirty_two(), less({X: 1, Y: 1}), values(64), values(63)]
    windows = [window(3, -k, k) for k in range(800)]
    nested = less({v: v + 1 for v in range(8)}, 1)
    for v in range(8):
        nested = (some, every)[v % 2](v, nested)
    return [anyof(one, first, many) for one in after] + [anyof(first, many, one) for one in after] + [
        allof(some(X, allof(*above, *below)), *[less({Y: 1}, 9)] * n) for n in (43, 44)] + [
        allof(*windows, many), allof(*windows), nested, anyof(*[first] * 100),
        some(Z, every(Y, some(X, allof(*above[:2], *below[:2])))), every(X, allof()), some(7, anyof())]


def edges():
    """Sheets at the limits of a sheet and of a box."""
    full = anyof(*[less({k % 8: 2}, 4 * k + 2) for k in range(409)], allof(), allof(), anyof())
    assert len(full) == SHEET_BYTES
    return [full, full + b"\0", b"\0" * (LONGEST - HEADER), b"\x10", b"\4\0", b"\4\0\x10", b"\4\0\x10\0", stated(10, KIND, allof())]


def faulty():
    """Each of 3 to 9."""
    atom = less({X: 1}, -1)
    return [b"", atom[:39], allof(atom, atom)[:50], b"\x28\0\x0a\0", b"\x28\0\0\0" + b"\0" * 36, b"\x27\0\1\0" + b"\0" * 35, some(8, atom),
            window(9, 0, 0), less({X: M + 1}), window(X, 0, -M - 1), nots(24), some(X, nots(23)), atom + b"\0", allof() + atom]


def damaged(dice, sheet):
    """The sheet with a byte changed, a record's head changed, its end cut off, or more bytes after it."""
    way = dice.below(4)
    if way == 0:
        return replaced(sheet, dice.below(len(sheet)), bytes([dice.below(256)]))
    if way == 1:
        head = dice.one_of(records(sheet))[0]
        return replaced(sheet, head + dice.below(min(6, len(sheet) - head)), bytes([dice.below(12)]))
    if way == 2:
        return sheet[:dice.below(len(sheet))]
    return sheet + bytes(dice.below(256) for _ in range(dice.between(1, 9)))


def random_one(dice):
    """A sheet for one box: mostly a sound one, sometimes an empty, a damaged or a sample."""
    way = dice.below(20)
    if way == 0:
        return b""
    if way == 1:
        return SAMPLE[dice.one_of(sorted(SAMPLE))] if dice.chance(20) else dice.one_of(faulty())
    sheet = random_sheet(dice)
    return damaged(dice, sheet) if way < 6 else sheet


def bad_box(dice):
    """A bad box: cut in its header or its sheet, of another kind, or too short; after one that is not cut sound boxes may follow."""
    sheet = random_sheet(dice)
    way = dice.below(4)
    if way == 0:
        return boxed(sheet)[:dice.below(HEADER)]
    if way == 1:
        return boxed(sheet)[:dice.between(HEADER, HEADER + len(sheet) - 1)]
    after = boxed(allof()) * dice.below(3)
    if way == 2:
        return stated(HEADER + len(sheet), dice.one_of([0, 1, 15, 17, 272, 4096, 65535]), sheet) + after
    return stated(dice.below(HEADER), KIND, sheet) + after


def random_season(dice, count):
    boxes = [boxed(random_one(dice)) for _ in range(count)]
    return b"".join(boxes) + (bad_box(dice) if dice.chance(75) else b"")


def small_inputs():
    """Name and bytes of each small input."""
    true, one, two = boxed(SAMPLE["true"]), boxed(SAMPLE["every-some"]), boxed(SAMPLE["half"])
    inputs = {"no-box": b"", "empty-sheet": boxed(b""), "empty-sheets": boxed(b"") * 3}
    for name, sheet in sorted(SAMPLE.items()):
        inputs[f"one-{name}"] = boxed(sheet)
    for end in range(1, len(one)):
        inputs[f"cut-{end}"] = one[:end]
    for end in range(1, len(two)):
        inputs[f"second-cut-{end}"] = one + two[:end]
    for kind in (0, 1, 15, 17, 18, 272, 4096, 4112, 65535):
        inputs[f"kind-{kind}"] = stated(10, kind, allof())
        inputs[f"second-kind-{kind}"] = one + stated(10, kind, allof()) + true
    for length in [*range(12), 255, 256, 266, 4106, 65535]:
        inputs[f"length-{length}"] = stated(length, KIND, allof())
        inputs[f"second-length-{length}"] = one + stated(length, KIND, allof()) + true
    for number, sheet in enumerate(counted_sheets() + edges() + faulty()):
        inputs[f"sheet-{number}"] = boxed(sheet)
        inputs[f"sheet-{number}-between"] = true + boxed(sheet) + one
    inputs["longest-box-cut"] = boxed(b"\0" * (LONGEST - HEADER))[:-1]
    return inputs


def season():
    """The stored season: samples, sheets with known counts, edges, faults, random sheets by answer, then a bad box and a sound one after it."""
    dice = Dice(404)
    sheets = list(SAMPLE.values()) + counted_sheets() + edges() + faulty()
    chosen = [random_one(dice) for _ in range(600)]
    sheets += [sheet for sheet in chosen if len(sheet) <= 1000]
    data = b"".join(map(boxed, sheets))
    return data + stated(10, 17, allof()) + boxed(allof()), len(sheets), len(data)


def listed(file):
    """What the second program prints for a file of boxes, a line a box."""
    with open(file, "rb") as boxes:
        return subprocess.run([SECOND, "monday"], stdin=boxes, capture_output=True, check=True).stdout.decode()


def store():
    data, count, end = season()
    assert len(data) < LIMIT, len(data)
    program = PROGRAMS / "monday"
    program.mkdir(exist_ok=True)
    (program / "stdin").write_bytes(data)
    text = listed(program / "stdin")
    (program / "stdout").write_text(text)
    lines = [tuple(map(int, line.split())) for line in text.splitlines()]
    assert [line[0] for line in lines[:count]] == list(range(1, count + 1)) and lines[count] == (15, end) and len(lines) == count + 2
    answers = collections.Counter(line[1] for line in lines[:count])
    # 1 is for a caller's short buffers, and the list has none
    assert sorted(answers) == [0, *range(2, 13)], answers
    done = [line for line in lines[:count] if line[1] == 0]
    verdicts = [sum(line[2] == verdict for line in done) for verdict in (0, 1, 2)]
    assert lines[-1] == (len(done), *verdicts, sum(line[5] for line in done))
    print(f"{count} boxes, {len(data)} bytes; answers:", dict(sorted(answers.items())))
    print("steps:", dict(sorted(collections.Counter(line[3] for line in lines[:count]).items())))
    print("terms:", dict(sorted(collections.Counter(line[4] for line in lines[:count]).items())))


def main():
    if sys.argv[1:2] == ["random"]:
        count, seed, file = sys.argv[2:]
        pathlib.Path(file).write_bytes(random_season(Dice(int(seed)), int(count)))
    elif sys.argv[1:2] == ["small"]:
        for name, data in small_inputs().items():
            (pathlib.Path(sys.argv[2]) / name).write_bytes(data)
    else:
        store()


if __name__ == "__main__":
    main()
