#!/usr/bin/env python3
"""Works out the vectors of crates/ground/data/ and what `ground` must print (crates/ground/stdout), from document 01's words and
with Python's whole numbers, apart from the stage's own code. Run it from the repository's root after changing a vector; the gate
runs the program on the files as they are kept."""
import pathlib
import random

HERE = pathlib.Path(__file__).resolve().parent.parent / "crates" / "ground"
VECTOR = 64
WIDE = 17
BOUND = 2**24
random.seed(114)


def cells(*pairs):
    """Big-endian numbers, each given with its width, filled up to a whole vector."""
    out = b"".join(value.to_bytes(width, "big") for value, width in pairs)
    return out + bytes(VECTOR - len(out))


def words(end):
    """end/32 rounded up: the least count of words that holds the bytes."""
    count, rest = divmod(end, 32)
    return count + 1 if rest else count


def cost(a):
    return 3 * a + a * a // 512


def costs(ends):
    return [cells((e, 4), (words(e), 4), (cost(words(e)), WIDE)) for e in ends]


ENDS = [0, 1, 31, 32, 33, 64, 704, 705, 1023, 1024, 1025, 65536, BOUND - 1, BOUND, BOUND + 1, 2**32 - 1]

COSTS_WRONG = [
    cells((705, 4), (705 // 32, 4), (cost(705 // 32), WIDE)),  # words rounded down
    cells((705, 4), (23, 4), (200 * 23 + 23 * 23 // 512, WIDE)),  # the source's factor 200
    cells((33, 4), (2, 4), (5, WIDE)),  # one gas too few
    cells((33, 4), (2, 4), (6 + 2**128, WIDE)),  # a cost that is right in its last 16 bytes only
]

SPLITS = [
    cells((a, 4), (a * a >> 9, WIDE), (a * a >> 8 & 1, 1), (a * a & 255, 1))
    for a in [0, 1, 15, 16, 17, 22, 23, 511, 512, 524287, 524288, 2**31, 2**32 - 1]
]

WIDES = [0, 1, 255, BOUND - 1, BOUND, BOUND + 1, 2**64 - 1, 2**64, 2**64 + 1, 2**128 - 1, 2**128, 2**129 - 2, 256**16, 256**17 - 1]
WIDES += [random.randrange(256**17) for _ in range(6)]

ORDERS = [
    cells((a, WIDE), (b, WIDE), (a == b, 1), (a < b, 1), (a < BOUND, 1))
    for a in WIDES
    for b in sorted({0, a, max(a - 1, 0), min(a + 1, 256**17 - 1), a ^ 2**64, a ^ 2**130, 256**17 - 1})
]


def step(a, b, byte):
    whole = 256 * b + byte
    return cells((a, WIDE), (b, WIDE), (byte, 1), (whole % 256**17, WIDE), (a == whole, 1))


STEPS = []
for b in WIDES:
    for byte in [0, 1, 255]:
        whole = 256 * b + byte
        near = whole % 256**17
        STEPS += [step(a, b, byte) for a in sorted({near, near ^ 1, near ^ 2**64, near ^ 2**128, b})]

DIFFERENCES = [
    cells((a, WIDE), (n, 4), (max(a - n, 0), WIDE), (max(a - BOUND, 0), WIDE))
    for a in WIDES + [2**64 + 5, 2**128 + 5]
    for n in [0, 1, 5, 6, 2**24, 2**32 - 1]
]

CELLS = [
    cells((one, 1), (three, 3), (four, 4), (wide, WIDE), (three, 4))
    for one, three, four, wide in [(0, 0, 0, 0), (255, 2**24 - 1, 2**32 - 1, 256**17 - 1), (1, 0x020304, 0x05060708, 9), (0, 255, 0, 1), (0, 256, 0, 1), (0, 65536, 0, 1)]
    + [(random.randrange(256), random.randrange(2**24), random.randrange(2**32), random.randrange(256**17)) for _ in range(10)]
]


def damaged(vectors, first, end):
    """The first and the last vector with one bit of one answer byte turned, each byte of the answers in its turn."""
    out = []
    for vector in (vectors[0], vectors[-1]):
        for place in range(first, end):
            wrong = bytearray(vector)
            wrong[place] ^= 1
            out.append(bytes(wrong))
    return out


# each kind's right vectors, and where its answers stand in them
KINDS = {
    "costs": (costs(ENDS), 4, 25),
    "splits": (SPLITS, 4, 23),
    "orders": (ORDERS, 34, 37),
    "steps": (STEPS, 35, 53),
    "differences": (DIFFERENCES, 21, 55),
    "cells": (CELLS, 25, 29),
}

FILES = {}
for kind, (vectors, first, end) in KINDS.items():
    wrong = damaged(vectors, first, end) + (COSTS_WRONG if kind == "costs" else [])
    FILES[kind + ".bin"] = (vectors, 0)
    FILES[kind + "_wrong.bin"] = (wrong, len(wrong))

lines = [f"end={e} words={words(e)} cost={cost(words(e))}" for e in ENDS]
(HERE / "data").mkdir(exist_ok=True)
for name, (vectors, wrong) in FILES.items():
    (HERE / "data" / name).write_bytes(b"".join(vectors))
    lines.append(f"{name} vectors={len(vectors)} wrong={wrong}")
(HERE / "stdout").write_text("\n".join(lines) + "\n")
