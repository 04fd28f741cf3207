#!/usr/bin/env python3
"""Draws docs/speed-history.svg and docs/speed-growth.svg from the tables of docs/SPEED.md: python3 bench/plots.py [--check].

With --check nothing is written; the exit status says whether the drawings are those of the tables.
"""
import math
import os
import sys

ROOT = os.path.join(os.path.dirname(os.path.abspath(__file__)), "..")
TILES = (("q50", "#1b6ca8"), ("q75", "#2e8b57"), ("q90", "#b5482a"))
GREY = "#666"


def table(text, first):
    """The rows of the table whose heading starts with these cells."""
    lines = text.split("\n")
    at = next(i for i, line in enumerate(lines) if line.startswith("| " + " | ".join(first)))
    rows = []
    for line in lines[at + 2:]:
        if not line.startswith("|"):
            return rows
        rows.append([cell.strip() for cell in line.strip().strip("|").split(" | ")])
    return rows


class Drawing:
    def __init__(self, width, height, title):
        self.parts = [
            f'<svg xmlns="http://www.w3.org/2000/svg" viewBox="0 0 {width} {height}" font-family="sans-serif" font-size="12">',
            f"<title>{title}</title>",
            f'<rect width="{width}" height="{height}" fill="white"/>',
            f'<text x="60" y="24" font-size="15">{title}</text>',
        ]

    def line(self, a, b, colour, dash=""):
        dash = f' stroke-dasharray="{dash}"' if dash else ""
        self.parts.append(f'<line x1="{a[0]:.1f}" y1="{a[1]:.1f}" x2="{b[0]:.1f}" y2="{b[1]:.1f}" stroke="{colour}"{dash}/>')

    def path(self, points, colour):
        text = " ".join(f"{x:.1f},{y:.1f}" for x, y in points)
        self.parts.append(f'<polyline points="{text}" fill="none" stroke="{colour}" stroke-width="2"/>')

    def dot(self, point, colour):
        self.parts.append(f'<circle cx="{point[0]:.1f}" cy="{point[1]:.1f}" r="3" fill="{colour}"/>')

    def text(self, point, words, colour="black", anchor="start"):
        self.parts.append(f'<text x="{point[0]:.1f}" y="{point[1]:.1f}" fill="{colour}" text-anchor="{anchor}">{words}</text>')

    def done(self):
        return "\n".join(self.parts + ["</svg>"]) + "\n"


def history(text):
    rows = table(text, ("what changed", "q50"))
    libwebp = [float(row[3]) for row in table(text, ("tile", "bytes", "hookbarley"))]
    most = 50 * math.ceil(max(float(row[3]) for row in rows) / 50)
    width, top, bottom, left, right = 760, 50, 360, 60, 610
    out = Drawing(width, 400, "Instructions a luma sample, step by step (docs/SPEED.md, History)")

    def place(step, value):
        return left + (right - left) * step / (len(rows) - 1), bottom - (bottom - top) * value / most

    for value in range(0, most + 1, 50):
        out.line(place(0, value), place(len(rows) - 1, value), "#ddd")
        out.text((left - 8, place(0, value)[1] + 4), value, GREY, "end")
    for step in range(len(rows)):
        out.text((place(step, 0)[0], bottom + 16), step + 1, GREY, "middle")
    labels = []
    for i, (name, colour) in enumerate(TILES):
        values = [float(row[1 + i]) for row in rows]
        out.path([place(step, value) for step, value in enumerate(values)], colour)
        for step, value in enumerate(values):
            out.dot(place(step, value), colour)
        labels.append((place(0, values[-1])[1] + 4, f"{name}: {values[-1]}", colour))
        out.line(place(0, libwebp[i]), place(len(rows) - 1, libwebp[i]), colour, "5 4")
        labels.append((place(0, libwebp[i])[1] + 4, f"libwebp scalar {libwebp[i]}", colour))
    last = 0
    for y, words, colour in sorted(labels):
        last = max(y, last + 14)
        out.text((right + 8, last), words, colour)
    out.text((left, bottom + 34), "row of the table", GREY)
    return out.done()


def growth(text):
    rows = table(text, ("tile", "macroblocks", "bytes read"))
    points = [(row[0], int(row[1]), int(row[3])) for row in rows]
    width, top, bottom, left, right = 700, 50, 380, 80, 560
    out = Drawing(width, 420, "Instructions of a call by macroblocks (docs/SPEED.md, Growth)")
    low, high = 4, math.ceil(math.log10(max(p[2] for p in points)))

    def place(blocks, count):
        x = left + (right - left) * math.log2(blocks) / 12
        return x, bottom - (bottom - top) * (math.log10(count) - low) / (high - low)

    for power in range(low, high + 1):
        out.line(place(1, 10 ** power), place(4096, 10 ** power), "#ddd")
        out.text((left - 8, place(1, 10 ** power)[1] + 4), f"1e{power}", GREY, "end")
    for power in range(0, 13, 2):
        out.text((place(2 ** power, 10 ** low)[0], bottom + 16), 2 ** power, GREY, "middle")
    kinds = (("noise", GREY),) + TILES
    for i, (name, colour) in enumerate(kinds):
        mine = [place(p[1], p[2]) for p in points if p[0].startswith(name)]
        out.path(mine, colour)
        for point in mine:
            out.dot(point, colour)
        out.text((right + 16, top + 18 * i + 12), name, colour)
    out.text((left, bottom + 34), "macroblocks; both scales are logarithmic", GREY)
    return out.done()


def main():
    with open(os.path.join(ROOT, "docs", "SPEED.md"), encoding="utf-8") as f:
        text = f.read()
    status = 0
    for name, drawing in (("speed-history.svg", history(text)), ("speed-growth.svg", growth(text))):
        path = os.path.join(ROOT, "docs", name)
        if "--check" in sys.argv[1:]:
            if not os.path.exists(path) or open(path, encoding="utf-8").read() != drawing:
                print(f"docs/{name} is not what docs/SPEED.md has: run python3 bench/plots.py")
                status = 1
        else:
            with open(path, "w", encoding="utf-8") as f:
                f.write(drawing)
    sys.exit(status)


main()
