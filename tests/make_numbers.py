#!/usr/bin/env python3
"""Writes crates/cases_exact/stdin and crates/cases_exact/stdout: numeric cases, and what they come out as, computed here with whole numbers of any
size and math.gcd, from the paper and not from the code. Run it in the repository's root; it is reproducible."""
import math
import random

M = 1073741823
RNG = random.Random(17)
cases, answers = [], []


def reduced(row):
    g = math.gcd(*row)
    return [z // g for z in row] if g else list(row)


def inside(row):
    return all(-M <= z <= M for z in row)


def truth(b):
    return "yes" if b else "no"


def line(letter, numbers, words):
    cases.append(letter + " " + " ".join(str(z) for z in numbers))
    answers.append(" " + " ".join(str(w) for w in words))


def gcd_case(a, b):
    line("G", [a, b], [math.gcd(a, b)])


def row_case(row):
    line("R", row, [truth(inside(row))] + reduced(row))


def same_case(a, b):
    line("S", a + b, [truth(a == b)])


def term_case(x, ns):
    if not inside(ns) or x > 7 or ns[x] == 0:
        line("T", [x] + ns, ["-"])
        return
    a = ns[x]
    t = [0 if i == x else z for i, z in enumerate(ns)]
    # x = -t/a, with the denominator above 0
    raw = [-z for z in t] + [a] if a > 0 else t + [-a]
    line("T", [x] + ns, reduced(raw))


def mid(t, u):
    d, e = t[9], u[9]
    return reduced([t[i] * e + u[i] * d for i in range(9)] + [2 * d * e])


def mid_case(t, u):
    if not inside(t + u):
        line("M", t + u, ["-"])
        return
    m = mid(t, u)
    line("M", t + u, m + [truth(inside(m))])


def settled(kind, ns):
    if not any(ns[:8]):
        c = ns[8]
        return ["true" if (c < 0 if kind == 1 else c <= 0 if kind == 2 else c == 0) else "false"]
    r = reduced(ns)
    return r if inside(r) else ["large"]


def atom_case(kind, place, x, ns, n):
    given = [kind, place, x] + ns + n
    if not inside(ns + n) or x > 7 or kind > 3:
        line("A", given, ["-"])
        return
    a = ns[x]
    if a == 0 or place == 3:
        out = settled(kind, ns)
    elif place == 2:
        # a·n + d·t
        out = settled(kind, [a * n[i] + n[9] * (0 if i == x else ns[i]) for i in range(9)])
    else:
        falls = (a > 0) == (place == 0)
        out = ["true" if falls and kind in (1, 2) else "false"]
    line("A", given, out)


def single(v, a, c):
    return [a if i == v else 0 for i in range(8)] + [c]


def fraction(c, d):
    return [0] * 8 + [c, d]


def number(most):
    return RNG.choice([0, 0, 1, -1, most, -most, RNG.randint(-9, 9), RNG.randint(-most, most)])


def term():
    return [number(RNG.choice([9, 1000, 40000, M])) for _ in range(9)] + [RNG.choice([1, 2, 7, M, RNG.randint(1, 40000), RNG.randint(1, M)])]


def row(most):
    k = RNG.choice([1, 1, 2, 6, 30])
    return [number(most // k) * k for _ in range(9)]


# zeros, neighbours of Fibonacci's row, numbers at the ends
for a, b in [(0, 0), (0, 7), (-7, 0), (12, -18), (M, M), (M, M - 1), (-M, 715827882), (7540113804746346429, 4660046610375530309), (2**62, 2**61), (2**62, 3**39)]:
    gcd_case(a, b)
row_case([0] * 9)
row_case([M] * 9)
row_case([-M] * 9)
row_case([M + 1] + [0] * 8)
row_case([2 * M] * 8 + [-4 * M])
row_case([9223372036854775799] * 9)
row_case([0] * 8 + [-5])
row_case([6, -9, 0, 12, 0, 0, 0, 0, -15])
same_case([0] * 9, [0] * 9)
same_case([1] * 9, [1] * 8 + [-1])
same_case([-1] + [0] * 8, [1] + [0] * 8)
same_case([M] * 9, [M] * 9)
# 3x + 1 < 10 and 7x - 6 > 7; a coefficient below 0; the ends; no coefficient; what is refused
term_case(0, single(0, 3, -9))
term_case(0, single(0, -7, 13))
term_case(7, single(7, -M, M))
term_case(7, single(7, M, M - 1))
term_case(3, [M] * 9)
term_case(3, [M, -M, M, -1, M, M, M, M, -M])
term_case(1, single(0, 3, -9))
term_case(8, single(0, 3, -9))
term_case(0, single(0, M + 1, 0))
# 17/7; a term with itself; just inside and just outside M
mid_case(fraction(3, 1), fraction(13, 7))
mid_case(fraction(17, 7), fraction(17, 7))
mid_case(fraction(M, 1), fraction(M, 1))
mid_case(fraction(M, 1), fraction(-M, 1))
mid_case(fraction(M, 1), fraction(M - 1, 1))
mid_case(fraction(M, 1), fraction(M - 2, 1))
mid_case(fraction(1, 32767), fraction(1, 16384))
mid_case(fraction(1, 32768), fraction(1, 16384))
mid_case(fraction(0, 32768), fraction(1, 16384))
mid_case(fraction(1, M), fraction(1, M - 1))
mid_case([M] * 9 + [M], [M] * 9 + [M])
mid_case([M] * 9 + [M], [-M] * 9 + [M])
mid_case([0] * 10, [0] * 10)
mid_case(fraction(M + 1, 1), fraction(0, 1))
# every kind at every kind of point, coefficients of each sign
for kind in (1, 2, 3):
    for place in (0, 1, 2, 3):
        for a in (2, -2, 0):
            atom_case(kind, place, 0, single(0, a, 6), fraction(3, 1))
            atom_case(kind, place, 0, [a, 4, 0, 0, 0, 0, 0, -8, 6], fraction(-3, 2))
    atom_case(kind, 2, 0, single(0, 1, -3), fraction(3, 1))
    atom_case(kind, 3, 0, [0] * 9, fraction(0, 1))
atom_case(1, 2, 0, [M, -1, 0, 0, 0, 0, 0, 0, 0], fraction(1, M))
atom_case(1, 2, 0, [M, -1, 0, 0, 0, 0, 0, 0, 0], fraction(1, M - 1))
atom_case(3, 2, 0, single(0, M, M), fraction(M, M))
atom_case(2, 2, 5, [M] * 9, [M] * 10)
atom_case(2, 2, 5, [-M] * 9, [M] * 10)
atom_case(2, 2, 5, [M] * 9, [-M] * 9 + [M])
atom_case(4, 2, 0, single(0, 1, 0), fraction(0, 1))
atom_case(1, 2, 8, single(0, 1, 0), fraction(0, 1))
for _ in range(40):
    gcd_case(RNG.randint(-M, M) * RNG.randint(0, 9), RNG.randint(-M, M))
    row_case(row(RNG.choice([50, M, M * M])))
    a = row(9)
    same_case(a, [z if RNG.random() < 0.97 else -z for z in a])
    term_case(RNG.randint(0, 7), row(RNG.choice([9, 1000, M])))
    mid_case(term(), term())
    atom_case(RNG.randint(1, 3), RNG.choice([0, 1, 2, 2, 2, 3]), RNG.randint(0, 7), row(RNG.choice([9, 1000, M])), term())

with open("crates/cases_exact/stdin", "w") as f:
    f.write("\n".join(cases) + "\n")
with open("crates/cases_exact/stdout", "w") as f:
    f.write("\n".join(answers) + "\n")
