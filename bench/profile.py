#!/usr/bin/env python3
"""Where the instructions go: profile.py PROGRAM SAMPLES COUNTS.. . COUNTS are what profile.so wrote for PROGRAM (linked -static
-no-pie) on each tile, SAMPLES the luma samples decoded. Prints markdown: each function's percent and instructions a luma sample."""
import bisect
import os
import shutil
import subprocess
import sys

program, samples, files = sys.argv[1], float(sys.argv[2]), sys.argv[3:]
nm = shutil.which("x86_64-linux-gnu-nm") or "nm"
text = subprocess.run([nm, program], capture_output=True, text=True, check=True).stdout
symbols = sorted((int(p[0], 16), " ".join(p[2:])) for p in (line.split() for line in text.splitlines()) if len(p) > 2 and p[1] in "tTwWi")
starts = [a for a, _ in symbols]


def counted(path):
    by = {}
    for line in open(path):
        p = line.split()
        if len(p) == 3:
            i = bisect.bisect_right(starts, int(p[0], 16)) - 1
            name = symbols[i][1] if i >= 0 else "?"
            name = "memset, memcpy" if name.startswith(("__memset", "__memcpy", "__memmove")) else name
            by[name] = by.get(name, 0) + int(p[1]) * int(p[2])
    return by


tiles = [(os.path.basename(f).rsplit(".", 1)[0], counted(f)) for f in files]
totals = [sum(by.values()) for _, by in tiles]
large = {n for (_, by), t in zip(tiles, totals) for n, c in by.items() if c >= t / 200}
print("| function | " + " | ".join(f"{name}, %" for name, _ in tiles) + " | " + " | ".join(f"{name}, a sample" for name, _ in tiles) + " |")
print("|---" * (1 + 2 * len(tiles)) + "|")


def row(name, counts):
    print(f"| {name} | " + " | ".join(f"{100 * c / t:.1f}" for c, t in zip(counts, totals)) + " | " + " | ".join(f"{c / samples:.1f}" for c in counts) + " |")


for n in sorted(large, key=lambda n: -tiles[0][1].get(n, 0)):
    row(f"`{n}`" if "," not in n else n, [by.get(n, 0) for _, by in tiles])
row("the rest", [sum(c for n, c in by.items() if n not in large) for _, by in tiles])
