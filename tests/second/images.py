#!/usr/bin/env python3
"""Makes pictures to encode: images.py SEED COUNT FOLDER [WIDTH HEIGHT] writes NNNN.ppm, each a mixture of slopes, ridges, noise and flat
parts, of a random size from 1 to 400 or of this one; and NNNN.i420, the same for vpxenc, four pictures long. Prints NNNN WIDTH HEIGHT a line."""
import math
import random
import sys

seed, count, folder = int(sys.argv[1]), int(sys.argv[2]), sys.argv[3]
size = tuple(map(int, sys.argv[4:6]))
draw = random.Random(seed)


def picture(w, h):
    kind = draw.randrange(5)
    a, b, c = draw.uniform(-3, 3), draw.uniform(-3, 3), draw.uniform(0, 255)
    f, g = draw.uniform(0.01, 0.6), draw.uniform(0.01, 0.6)
    rough = draw.choice([0, 0, 4, 20, 80])
    shift = [draw.uniform(-60, 60) for _ in range(3)]
    rows = []
    for y in range(h):
        row = []
        for x in range(w):
            if kind == 0:
                v = c + a * x + b * y
            elif kind == 1:
                v = 128 + 100 * math.sin(f * x) * math.cos(g * y)
            elif kind == 2:
                v = 255 if (x // 7 + y // 5) % 2 else 0
            elif kind == 3:
                v = c if x < w / 2 else 255 - c
            else:
                v = 128 + 60 * math.sin(f * x + g * y) + 50 * math.sin(0.07 * (x * y) ** 0.5)
            v += draw.uniform(-rough, rough)
            row.append([min(255, max(0, int(v + s))) for s in shift])
        rows.append(row)
    return rows


for i in range(count):
    w, h = size or draw.choice([(draw.randrange(1, 100), draw.randrange(1, 100)), (16 * draw.randrange(1, 9), 16 * draw.randrange(1, 9)), (draw.randrange(100, 400), draw.randrange(16, 120))])
    rows = picture(w, h)
    with open(f"{folder}/{i:04d}.ppm", "wb") as out:
        out.write(b"P6\n%d %d\n255\n" % (w, h))
        out.write(bytes(v for row in rows for p in row for v in p))
    with open(f"{folder}/{i:04d}.i420", "wb") as out:
        for turn in range(4):
            for plane in range(3):
                step = 1 if plane == 0 else 2
                out.write(bytes(rows[y][(x + 5 * turn) % w][plane] for y in range(0, h, step) for x in range(0, w, step)))
    print(f"{i:04d} {w} {h}")
