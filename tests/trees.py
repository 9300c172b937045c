"""Random sound sheets and the container of cases, for make_cases.py, make_sheets.py, make_seasons.py and meaning.py.

The dice are written out here, so that a seed gives the same sheets under every Python.
"""

import pathlib
import struct
import subprocess
import sys

HERE = pathlib.Path(__file__).resolve().parent
PROGRAMS = HERE.parent / "crates"
SECOND = HERE / "second" / "target" / "release" / "second"
sys.path.insert(0, str(HERE.parent / "samples"))
from records import M, allof, anyof, atom, every, negation, some, window  # noqa: E402

SHEET_BYTES, SHEET_LEVELS = 16_384, 24


class Dice:
    """The generator splitmix64."""

    def __init__(self, seed):
        self.state = seed

    def below(self, bound):
        self.state = (self.state + 0x9E3779B97F4A7C15) % 2**64
        mixed = self.state
        mixed = (mixed ^ mixed >> 30) * 0xBF58476D1CE4E5B9 % 2**64
        mixed = (mixed ^ mixed >> 27) * 0x94D049BB133111EB % 2**64
        return (mixed ^ mixed >> 31) % bound

    def between(self, low, high):
        return low + self.below(high - low + 1)

    def one_of(self, choices):
        return choices[self.below(len(choices))]

    def chance(self, percent):
        return self.below(100) < percent


class Style:
    """What a random sheet is like: its variables, the size of its numbers, how deep and how wide it grows."""

    def __init__(self, dice):
        self.variables = dice.one_of([[0], [0, 1], [0, 1], [0, 1, 2], [0, 1, 2], [0, 3, 7], list(range(8))])
        self.numbers = dice.one_of(["tiny", "small", "small", "small", "common", "large", "mixed"])
        self.depth = dice.one_of([2, 3, 3, 4, 4, 5, 6, 9])
        self.width = dice.one_of([2, 2, 3, 3, 4])
        self.quantified = dice.one_of([0, 8, 15, 25, 40])
        self.negated = dice.one_of([0, 10, 20, 30])
        self.windows = dice.one_of([0, 10, 30])
        self.budget = dice.one_of([2, 4, 6, 10, 16])


def number(dice, style):
    kind = style.numbers
    if kind == "mixed":
        kind = dice.one_of(["small", "small", "common", "large"])
    if kind == "tiny":
        return dice.between(-1, 1)
    if kind == "small":
        return dice.between(-5, 5)
    if kind == "common":
        return dice.one_of([6, 10, 12, 30, 60, 360]) * dice.between(-4, 4)
    size = dice.one_of([1000, 30000, 32768, 46341, 1000000, M // 2, M - 2, M - 1, M])
    return dice.one_of([size, -size, size - dice.below(3), 0])


def random_atom(dice, style):
    coefficients = {}
    for variable in style.variables:
        if dice.chance(60 if len(style.variables) < 4 else 25):
            coefficients[variable] = number(dice, style)
    return atom(dice.one_of([1, 1, 2, 2, 3]), coefficients, number(dice, style))


def random_formula(dice, style, depth):
    """A formula of at most `depth` levels; style.budget counts the leaves still wanted."""
    if depth <= 1 or style.budget <= 1:
        style.budget -= 1
        if dice.chance(2):
            return dice.one_of([allof(), anyof()])
        if dice.chance(style.windows):
            return window(dice.one_of(style.variables), *sorted_mostly(dice, number(dice, style), number(dice, style)))
        return random_atom(dice, style)
    if dice.chance(style.quantified):
        quantifier = dice.one_of([some, every])
        return quantifier(dice.one_of(style.variables), random_formula(dice, style, depth - 1))
    if dice.chance(style.negated):
        return negation(random_formula(dice, style, depth - 1))
    if dice.chance(15):
        return random_formula(dice, style, 1)
    count = dice.between(0 if dice.chance(10) else 1, style.width)
    return dice.one_of([allof, anyof])(*[random_formula(dice, style, depth - 1) for _ in range(count)])


def sorted_mostly(dice, lo, hi):
    return (hi, lo) if lo > hi and dice.chance(80) else (lo, hi)


def random_sheet(dice):
    """A random sound sheet: a random formula under none to four quantifiers."""
    while True:
        style = Style(dice)
        sheet = random_formula(dice, style, style.depth)
        for _ in range(dice.one_of([0, 1, 1, 1, 2, 2, 3, 4])):
            sheet = dice.one_of([some, every])(dice.one_of(style.variables), sheet)
        if dice.chance(10):
            for variable in style.variables:
                sheet = dice.one_of([some, every])(variable, sheet)
        if len(sheet) <= SHEET_BYTES and depth_of(sheet) <= SHEET_LEVELS:
            return sheet


def depth_of(sheet):
    """The nesting of a sound sheet."""
    def at(place):
        length, kind = struct.unpack_from("<HH", sheet, place)
        place += length
        members = {4: 1, 7: 1, 8: 1}.get(kind, 0)
        if kind in (5, 6):
            members = struct.unpack_from("<H", sheet, place - 2)[0]
        deepest = 0
        for _ in range(members):
            depth, place = at(place)
            deepest = max(deepest, depth)
        return deepest + 1, place
    return at(0)[0]


def container(cases):
    """Four bytes of length, little-endian, before each case."""
    return b"".join(struct.pack("<I", len(case)) + case for case in cases)


def stored(operation, data):
    """Stores cases as the input of the gate's program for that operation, and what the second program prints for them as its output."""
    program = PROGRAMS / {"readings": "cases_reading", "eliminations": "cases_elimination", "tests": "cases_test"}[operation]
    (program / "stdin").write_bytes(data)
    lines = second_lines(operation, program / "stdin")
    (program / "stdout").write_text("".join(line + "\n" for line in lines))
    return lines


def second_lines(operation, file):
    """What the second program prints for a file of cases, a line a case."""
    run = subprocess.run([SECOND, "cases", operation, file], capture_output=True, check=True)
    return run.stdout.decode().splitlines()
