#!/usr/bin/env python3
"""Whether key frames fit the cockpit profile (M-111), worked out without the crates: profile.py FILE..

For each FILE, a WebP file or a bare VP8 frame, a line: its name, the number of the refusal, the rule that fails (0: none), the macroblock
that rule 6 names. The header is read as in frame_header.py; behind it modes and tokens as in counts.py, from the same first partition.
"""
import sys

from counts import Missing, Partition, modes, residual
from frame_header import Bits, coded, taken


class First(Partition):
    """The first partition: the coded header, then the modes."""

    bit, number, signed = Partition.symbol, Bits.number, Bits.signed


def both(first, tokens, h, wide, high):
    """The macroblocks that are both skipped and small, of a picture that is read to its end."""
    found, columns = [], [([0] * 4, [0] * 9) for _ in range(wide)]
    for row in range(high):
        left = [0] * 4, [0] * 9
        for column, above in enumerate(columns):
            mb = modes(first, h, above[0], left[0])
            residual(tokens[row % len(tokens)], h, mb, above[1], left[1])
            if mb.skip and mb.small:
                found.append(row * wide + column)
    return found


def judged(frame):
    """The refusal's number, the rule, the macroblock."""
    number, what = taken(frame)
    if number:
        return number, 0, 0
    width, height, _, size, places, _, h = what
    wide, high = -(-width // 16), -(-height // 16)
    rules = wide == 16 and high == 16, len(places) in (1, 2, 4), h[2] == 0 and h[3] == 0, h[19] == 0
    if not all(rules):
        return 0, 1 + rules.index(False), 0
    first = First(frame[10:10 + size])
    coded(first)
    try:
        found = both(first, [Partition(frame[at:at + n]) for at, n in places], h, wide, high)
    except Missing:
        return 0, 5, 0
    return (0, 6, found[0]) if found else (0, 0, 0)


def main():
    for name in sys.argv[1:]:
        with open(name, "rb") as source:
            f = source.read()
        print(name, *judged(f[20:20 + int.from_bytes(f[16:20], "little")] if f[:4] == b"RIFF" else f))


if __name__ == "__main__":
    main()
