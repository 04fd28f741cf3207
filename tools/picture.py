#!/usr/bin/env python3
"""The pictures of README.md and docs: picture.py tile|tint OUT.png [HOOKBARLEY..] draws lit hills, has cwebp encode them at a low quality
and decodes the file three or four times with the program (tools/hookbarley). The pictures stand side by side, each sample twice as wide
and high.

tile, docs/tile.png: before the loop filter, after it, with the end of the frame's bytes cut off, and this one rescued.
tint, docs/tint.png: luma, and the same tinted by segments and by modes."""
import math
import random
import subprocess
import sys
import tempfile

from png import png

SIDE, GAP, LEFT = 128, 16, 0.72  # the share of the frame's bytes that is left


def hills():
    """Heights of a few octaves of waves, coloured by height and lit from one side."""
    r = random.Random(7)
    waves = [(2 ** o * r.uniform(0.6, 1.4), r.uniform(0, math.tau), r.uniform(0, math.tau), 3 ** -o) for o in range(3) for _ in range(4)]

    def height(x, y):
        return sum(a * math.sin(f * (x * math.cos(d) + y * math.sin(d)) * math.tau / SIDE + p) for f, d, p, a in waves)

    def colour(x, y):
        light = 0.55 + 1.6 * (height(x + 1, y) - height(x - 1, y) + height(x, y + 1) - height(x, y - 1))
        t = max(0.0, min(1.0, 0.5 + height(x, y) / 5))
        low, high = (60, 130, 60), (235, 215, 170)
        return [max(0, min(255, int((a + (b - a) * t) * (0.35 + light)))) for a, b in zip(low, high)]

    return bytes(v for y in range(SIDE) for x in range(SIDE) for v in colour(x, y))


def decoded(program, file, out, *options):
    """The samples that the program writes, red, green and blue: of luma three times the same."""
    said = subprocess.run(program + ["decode", *options, file, out], stdout=subprocess.PIPE, stderr=subprocess.STDOUT, text=True)
    print(said.stdout.strip())
    with open(out, "rb") as f:
        kind, _, _, samples = f.read().split(b"\n", 3)
    return samples if kind == b"P6" else bytes(v for v in samples for _ in range(3))


def encoded(folder, *options):
    file = folder + "/hills.webp"
    with open(folder + "/hills.ppm", "wb") as f:
        f.write(b"P6\n%d %d\n255\n" % (SIDE, SIDE) + hills())
    subprocess.run(["cwebp", "-quiet", *options, folder + "/hills.ppm", "-o", file], check=True)
    return file


def tile(program, folder):
    file = encoded(folder, "-q", "3", "-f", "70")
    with open(file, "rb") as f:
        frame = f.read()[20:]
    with open(folder + "/cut.vp8", "wb") as f:
        f.write(frame[:int(LEFT * len(frame))])
    before, after = decoded(program, file, folder + "/a.ppm", "--unfiltered"), decoded(program, file, folder + "/b.ppm")
    cut = [decoded(program, folder + "/cut.vp8", folder + "/c.ppm", *options) for options in ([], ["--rescue"])]
    return [before, after, *cut]


def tint(program, folder):
    file = encoded(folder, "-q", "10", "-f", "70", "-segments", "4", "-sns", "100")
    luma = decoded(program, file, folder + "/luma.pgm")
    return [luma] + [decoded(program, file, f"{folder}/{kind}.ppm", "--tint", kind) for kind in ("segments", "modes")]


def twice(samples, y):
    row = samples[3 * SIDE * y:3 * SIDE * (y + 1)]
    return b"".join(row[3 * x:3 * x + 3] * 2 for x in range(SIDE))


def main():
    panels_of = {"tile": tile, "tint": tint}[sys.argv[1]]
    out, program = sys.argv[2], sys.argv[3:] or ["tools/hookbarley"]
    with tempfile.TemporaryDirectory() as folder:
        panels = panels_of(program, folder)
    gap = b"\xff" * (3 * GAP)
    rows = [gap.join(twice(p, y) for p in panels) for y in range(SIDE) for _ in range(2)]
    png(out, len(rows[0]) // 3, 2 * SIDE, rows)


main()
