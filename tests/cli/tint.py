#!/usr/bin/env python3
"""What `decode --tint` wrote, beside plain luma: tint.py TINTED.ppm LUMA.pgm [--runs] COLOUR=COUNT.. finds the one colour that each
macroblock has over its luma and counts them. Plain ones are grey, and none that is tinted follows them. With --runs each colour is one run
of macroblocks, in the order given."""
import collections
import sys

PALETTE = {"blue": (0, 114, 178), "orange": (230, 159, 0), "green": (0, 158, 115), "purple": (204, 121, 167)}


def picture(path, mark, parts):
    with open(path, "rb") as f:
        kind, size, most, samples = f.read().split(b"\n", 3)
    width, height = map(int, size.split())
    assert (kind, most, len(samples)) == (mark, b"255", parts * width * height), path + ": not such a picture"
    return width, height, samples


def over(name, luma):
    return bytes(luma if name == "grey" else part * (128 + luma) // 383 for part in PALETTE.get(name, (0, 0, 0)))


def main():
    width, height, tinted = picture(sys.argv[1], b"P6", 3)
    assert (width, height) == picture(sys.argv[2], b"P5", 1)[:2], "the sizes differ"
    luma = picture(sys.argv[2], b"P5", 1)[2]
    found = []
    for top in range(0, height, 16):
        for left in range(0, width, 16):
            places = [y * width + x for y in range(top, min(top + 16, height)) for x in range(left, min(left + 16, width))]
            names = [n for n in [*PALETTE, "grey"] if all(tinted[3 * i:3 * i + 3] == over(n, luma[i]) for i in places)]
            assert len(names) == 1, f"the macroblock at {left} {top} has these colours: {names}"
            found += names
    counts = collections.Counter(found)
    assert "grey" not in found[:len(found) - counts["grey"]], "a tinted macroblock follows a grey one"
    runs = sys.argv[3] == "--runs"
    want = {name: int(count) for name, count in (word.split("=") for word in sys.argv[3 + runs:])}
    assert counts == want, f"{dict(counts)} and not {want}"
    assert not runs or found == sorted(found, key=list(want).index), "a colour has more than one run, or comes too soon"


main()
