#!/usr/bin/env python3
"""Which macroblocks two pictures have in common, all samples of Y, U and V: blocks.py A.yuv B.yuv WIDTH HEIGHT prints them, for example
0-93 120-255. The sizes are multiples of 16."""
import itertools
import sys


def macroblocks(path, width, height):
    """The samples of each in raster order."""
    with open(path, "rb") as f:
        samples = f.read()
    luma, across = width * height, width // 16
    assert len(samples) == luma * 3 // 2, path + ": not such a picture"
    for k in range(luma // 256):
        rows = [(k // across * 16 + i) * width + k % across * 16 for i in range(16)]
        chroma = [plane + (k // across * 8 + i) * width // 2 + k % across * 8 for plane in (luma, luma * 5 // 4) for i in range(8)]
        yield [samples[at:at + 16] for at in rows] + [samples[at:at + 8] for at in chroma]


def main():
    size = int(sys.argv[3]), int(sys.argv[4])
    pairs = zip(macroblocks(sys.argv[1], *size), macroblocks(sys.argv[2], *size))
    runs = itertools.groupby(enumerate(a == b for a, b in pairs), key=lambda block: block[1])
    places = [[k for k, _ in run] for same, run in runs if same]
    print(" ".join(f"{run[0]}-{run[-1]}" for run in places))


main()
