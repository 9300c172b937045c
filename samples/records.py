"""The records of a sheet as bytes ("A sheet on disk" in 01), for the scripts that make sheets.

Nothing is checked here: damaged and oversized records are made with the same functions.
"""

import struct

M = 1073741823
X, Y, Z = 0, 1, 2

LENGTH = {1: 40, 2: 40, 3: 40, 4: 4, 5: 6, 6: 6, 7: 6, 8: 6, 9: 14}


def atom(kind, coefficients, constant):
    """Coefficients come as a table from variable to number."""
    numbers = [coefficients.get(v, 0) for v in range(8)] + [constant]
    return struct.pack("<HH9i", 40, kind, *numbers)


def less(coefficients, constant=0):
    return atom(1, coefficients, constant)


def atmost(coefficients, constant=0):
    return atom(2, coefficients, constant)


def equal(coefficients, constant=0):
    return atom(3, coefficients, constant)


def negation(formula):
    return struct.pack("<HH", 4, 4) + formula


def allof(*members):
    return struct.pack("<HHH", 6, 5, len(members)) + b"".join(members)


def anyof(*members):
    return struct.pack("<HHH", 6, 6, len(members)) + b"".join(members)


def some(variable, body):
    return struct.pack("<HHH", 6, 7, variable) + body


def every(variable, body):
    return struct.pack("<HHH", 6, 8, variable) + body


def window(variable, lo, hi):
    return struct.pack("<HHHii", 14, 9, variable, lo, hi)


def records(sheet):
    """Offset and length of each record of a sound sheet, front to back."""
    at, found = 0, []
    while at < len(sheet):
        length = struct.unpack_from("<H", sheet, at)[0]
        found.append((at, length))
        at += length
    return found
