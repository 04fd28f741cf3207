#!/usr/bin/env python3
"""Tiles of many sizes, and what their counts say: grow.py make DIR | grow.py timed DIR | grow.py table FILE.

make   writes case files: the bench tiles at a quarter and half of their height (the rows below are not read), and tiles of 16 by 16
       to 1024 by 1024 samples whose partitions are random bytes under tile-q75's header, so that their symbols are drawn by its
       probabilities.
timed  writes those that bench/time.sh times: such tiles up to 4096 by 4096, and tile-q75 with the second half of its token partition cut off.
table  reads lines `name macroblocks bytes instructions` and prints them as markdown with the fitted line
       instructions = A * macroblocks + B * bytes + C and each tile's distance from it."""
import os
import random
import struct
import sys

HERE = os.path.dirname(os.path.abspath(__file__))


def case(width, height, header, first, tokens):
    rest = struct.pack(">HHB", width, height, 1) + header + struct.pack(">II", len(first), len(tokens)) + first + tokens
    return struct.pack(">BI", 1, len(rest)) + rest


def bench_tile(q):
    """Header, first partition and token partition of a bench tile."""
    b = open(f"{HERE}/tile-q{q}.case", "rb").read()
    n, = struct.unpack(">I", b[2202:2206])
    return b[10:2202], b[2210:2210 + n], b[2210 + n:]


def noise(folder, sides):
    header, _, _ = bench_tile(75)
    draw = random.Random(75)
    for side in sides:
        blocks = side * side // 256
        first, tokens = (32, 420) if side <= 1024 else (12, 44)  # bytes a macroblock: enough for any, or for so many in the mean
        with open(f"{folder}/noise-{side}x{side}.case", "wb") as out:
            out.write(case(side, side, header, draw.randbytes(first * blocks + 64), draw.randbytes(tokens * blocks + 800)))


def make(folder):
    os.makedirs(folder, exist_ok=True)
    for q in (50, 75, 90):
        for height in (64, 128, 256):
            open(f"{folder}/q{q}-256x{height}.case", "wb").write(case(256, height, *bench_tile(q)))
    noise(folder, (16, 32, 64, 128, 256, 512, 1024))


def make_timed(folder):
    os.makedirs(folder, exist_ok=True)
    header, first, tokens = bench_tile(75)
    open(f"{folder}/q75-cut.case", "wb").write(case(256, 256, header, first, tokens[:len(tokens) // 2]))
    noise(folder, (16, 64, 256, 1024, 4096))


def fit(rows):
    """The factors of rows (x1, .., xn, y) by least squares of the relative distance: small tiles count as much as large ones."""
    n = len(rows[0]) - 1
    scaled = [[x / r[n] for x in r[:n]] + [1] for r in rows]
    grid = [[sum(r[i] * r[j] for r in scaled) for j in range(n + 1)] for i in range(n)]
    for i in range(n):
        p = max(range(i, n), key=lambda k: abs(grid[k][i]))
        grid[i], grid[p] = grid[p], grid[i]
        for k in range(n):
            if k != i:
                f = grid[k][i] / grid[i][i]
                grid[k] = [x - f * y for x, y in zip(grid[k], grid[i])]
    return [grid[i][n] / grid[i][i] for i in range(n)]


def table(path):
    rows = []
    for line in open(path):
        name, m, b, i = line.split()
        rows.append((name, int(m), int(b), int(i)))
    a, c, d = fit([(m, b, 1, i) for _, m, b, i in rows])
    print("| tile | macroblocks | bytes read | instructions | a macroblock | from the line |")
    print("|---|---|---|---|---|---|")
    for name, m, b, i in sorted(rows, key=lambda r: (r[0].split("-")[0], r[1])):
        print(f"| {name} | {m} | {b} | {i} | {i / m:.0f} | {100 * (i / (a * m + c * b + d) - 1):+.1f} % |")
    print(f"\nThe line: {a:.0f} instructions a macroblock, {c:.0f} a byte and {d:.0f} a call.")


{"make": make, "timed": make_timed, "table": table}[sys.argv[1]](sys.argv[2])
