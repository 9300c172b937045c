#!/usr/bin/env python3
"""Searches for sheets that take long: worst.py LIBRARY.so MINUTES [SEED]. Shapes and sizes are varied at random, and what takes longest is varied further.

A sheet: an inner SOME or EVERY whose replacement is long, under further quantifiers, each over a list of what is inside and of windows and atoms; or several of these beside each other. Only
sheets that reading accepts count. What takes longer than every sheet in bench/worst is saved there; the last line names the worst sheet and its time.
Times are of one call on this machine: run it on a quiet one.
"""

import ctypes
import pathlib
import random
import sys
import time

ROOT = pathlib.Path(__file__).resolve().parent.parent
sys.path += [str(ROOT / "tests"), str(ROOT / "samples")]

from records import allof, anyof, atmost, equal, every, less, negation, some, window  # noqa: E402

BUFFER = 65_536
KEPT = ROOT / "bench" / "worst"


class Reply(ctypes.Structure):
    _fields_ = [(name, ctypes.c_uint64) for name in ("number", "verdict", "place", "length")]


class Archive:
    def __init__(self, library):
        self.call = ctypes.CDLL(str(pathlib.Path(library).resolve())).vb_eliminate
        self.call.restype = Reply
        self.call.argtypes = [ctypes.c_char_p, ctypes.c_size_t] * 3
        self.buffers = ctypes.create_string_buffer(BUFFER), ctypes.create_string_buffer(BUFFER)

    def seconds(self, sheet):
        """The time of one call and its answer."""
        result, work = self.buffers
        start = time.perf_counter()
        reply = self.call(sheet, len(sheet), ctypes.cast(result, ctypes.c_char_p), BUFFER, ctypes.cast(work, ctypes.c_char_p), BUFFER)
        return time.perf_counter() - start, reply.number


def windows(style, v, count):
    """Windows that hold together at one point, at a few, or nowhere."""
    if style == 0:
        return [window(v, -2 * k - 2, 2 * k + 1) for k in range(count - 1)] + [window(v, 0, 0)]
    if style == 1:
        return [window(v, k, k + 2 * count) for k in range(count)]
    return [window(v, 3 * k, 3 * k + 1) for k in range(count)]


def built(gene):
    """The sheet of a gene."""
    scale, big = gene["scale"], gene["big"]
    lower = [less({0: -big, 7: scale}, scale * k) for k in range(1, gene["lower"] + 1)]
    upper = [less({0: big, 6: -3 * scale}, -scale * k) for k in range(1, gene["upper"] + 1)]
    inside = (some, every)[gene["every"]](0, (allof, anyof)[gene["any"]](*lower, *upper))
    for v, level in enumerate(gene["levels"], start=1):
        extra = [[atmost({7: 2}, 4)], [atmost({}, -4)], [equal({6: 6, 7: 10}, 15)], [negation(less({7: 1}, k)) for k in range(3)], []][level["extra"]]
        other = windows(level["style"], v % 6, level["windows"]) + [less({v % 6: level["big"], 7: 1}, k) for k in range(level["atoms"])]
        members = [inside, *other, *extra] if level["first"] else [*other, inside, *extra]
        inside = (some, every)[level["every"]](v % 6, (allof, anyof)[level["any"]](*members))
        if level["not"]:
            inside = negation(inside)
    return inside if gene["beside"] == 1 else (anyof, allof)[gene["every"]](*[inside] * gene["beside"])


def level(dice):
    return {"every": dice.random() < 0.1, "any": dice.random() < 0.1, "style": dice.choice([0, 0, 0, 1, 2]), "windows": dice.randint(1, 33), "atoms": dice.choice([0, 0, 0, 1, 4, 12]),
            "big": dice.choice([1, 1, 1, 30011]), "extra": dice.randrange(5), "first": dice.random() < 0.8, "not": dice.random() < 0.1}


def fresh(dice):
    return {"lower": dice.randint(1, 18), "upper": dice.randint(1, 18), "scale": dice.choice([1, 1, 2, 7]), "big": dice.choice([1, 1, 3, 30011]), "every": dice.random() < 0.1,
            "any": dice.random() < 0.1, "beside": dice.choice([1, 1, 1, 1, 2, 3, 4]), "levels": [level(dice) for _ in range(dice.randint(1, 11))]}


def varied(dice, gene):
    new = {**gene, "levels": [dict(one) for one in gene["levels"]]}
    for _ in range(dice.randint(1, 3)):
        choice = dice.randrange(7)
        if choice == 0:
            key = dice.choice(["lower", "upper"])
            new[key] = max(0, new[key] + dice.choice([-2, -1, 1, 2]))
        elif choice == 1:
            new[dice.choice(["scale", "big"])] = dice.choice([1, 2, 3, 7, 30011])
        elif choice == 2 and len(new["levels"]) < 11:
            new["levels"].insert(dice.randrange(len(new["levels"]) + 1), level(dice))
        elif choice == 3 and len(new["levels"]) > 1:
            new["levels"].pop(dice.randrange(len(new["levels"])))
        elif choice == 4:
            new["beside"] = max(1, new["beside"] + dice.choice([-1, 1]))
        else:
            one = dice.choice(new["levels"])
            key = dice.choice(list(one))
            one[key] = level(dice)[key] if key != "windows" else max(1, one[key] + dice.choice([-3, -1, 1, 3]))
    return new


def main():
    library, minutes, seed = sys.argv[1], float(sys.argv[2]), int(sys.argv[3]) if len(sys.argv) > 3 else time.time_ns()
    print(f"seed {seed}")
    archive, dice, tried = Archive(library), random.Random(seed), 0
    KEPT.mkdir(exist_ok=True)
    worst = max([(archive.seconds(file.read_bytes())[0], file.stem) for file in sorted(KEPT.glob("*.sheet"))] + [(0.0, "none")])
    print(f"the worst so far: {worst[1]}, {worst[0]:.3f} s")
    pool, end = [], time.time() + 60 * minutes
    while time.time() < end:
        gene = fresh(dice) if len(pool) < 12 or dice.random() < 0.15 else varied(dice, dice.choice(pool)[1])
        sheet = built(gene)
        if len(sheet) > 16_384:
            continue
        tried += 1
        seconds, answer = archive.seconds(sheet)
        if 1 <= answer <= 9:
            continue
        pool = sorted(pool + [(seconds, gene)], key=lambda one: -one[0])[:24]
        if seconds > 1.05 * worst[0] and min(seconds, archive.seconds(sheet)[0], archive.seconds(sheet)[0]) > 1.02 * worst[0]:
            name = f"search-{len(sheet)}-bytes"
            (KEPT / f"{name}.sheet").write_bytes(sheet)
            worst = (seconds, name)
            print(f"{name}: {seconds:.3f} s, answer {answer}", flush=True)
    print(f"{tried} sheets tried; the worst: {worst[1]}, {worst[0]:.3f} s")


if __name__ == "__main__":
    main()
