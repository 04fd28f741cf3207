#!/usr/bin/env python3
"""How many symbols a case file's picture reads (M-103), counted without the crates: counts.py [OUT SEED CUTS] FILE..

For each FILE a line: the answer's number, the macroblocks finished, the symbols read from the first partition and from token partitions. With OUT
the files are copied there as NNNN.case, each followed by CUTS copies in which one partition is cut to a length drawn from SEED.

A symbol is decided by comparing one big number, all bits of the partition that are left, with the split; a value is read by striking out, bit
by bit, the codes that it cannot be (sections 11.2, 11.3 and 13.2 of RFC 6386, as singles.py writes them). Every symbol that is given
counts one; where one is missing the picture ends.
"""
import random
import sys

from singles import BANDS, CODES, RFC, SMALL, TABLE, TREE, Macroblock, kind_and_first


class Missing(Exception):
    pass


class Partition:
    """Section 7.3 over all bits at once. A symbol is missing where one of the eight bits that decide it lies past the end."""

    def __init__(self, data):
        self.size, self.rest, self.range, self.gone, self.reads = 8 * len(data), int.from_bytes(data, "big"), 255, 0, 0

    def symbol(self, prob):
        if self.size < self.gone + 8:
            raise Missing
        unit = 1 << self.size - self.gone - 8
        split = 1 + ((self.range - 1) * prob >> 8)
        one = self.rest >= split * unit
        if one:
            self.rest -= split * unit
            self.range -= split
        else:
            self.range = split
        while self.range < 128:
            self.range *= 2
            self.gone += 1
        self.rest %= 1 << self.size - self.gone  # eight bits decide; what stands above them is gone
        self.reads += 1
        return int(one)

    def code(self, codes, probs):
        """The one of `codes`, (value, path of (bit, node)), whose path is read."""
        left, at = codes, 0
        while len(left) > 1 or at < len(left[0][1]):
            bit = self.symbol(probs[left[0][1][at][1]])
            left = [c for c in left if c[1][at][0] == bit]
            at += 1
        return left[0][0]


# ---- sections 9.3, 11, 19.3: modes
SEGMENT = [(s, [(s >> 1, 0), (s & 1, 1 + (s >> 1))]) for s in range(4)]
LARGE = [(None, [(0, 0)]), (0, [(1, 0), (0, 1), (0, 2)]), (2, [(1, 0), (0, 1), (1, 2)]), (3, [(1, 0), (1, 1), (0, 3)]), (1, [(1, 0), (1, 1), (1, 3)])]
CHROMA = [(0, [(0, 0)]), (2, [(1, 0), (0, 1)]), (3, [(1, 0), (1, 1), (0, 2)]), (1, [(1, 0), (1, 1), (1, 2)])]
SUBBLOCK = [(SMALL.index(name), path) for name, path in CODES.items()]


def modes(first, h, above, beside):
    """The macroblock, without its numbers yet; the modes above and to the left become its own."""
    segment = first.code(SEGMENT, [x % 256 for x in h[14:17]]) if h[3] else 0
    skip = first.symbol(h[1095] % 256) if h[1094] else 0
    mode = first.code(LARGE, (145, 156, 163, 128))
    luma = [] if mode is None else [mode]
    for i in range(16):
        if mode is None:
            at = 90 * RFC.index(SMALL[above[i % 4]]) + 9 * RFC.index(SMALL[beside[i // 4]])
            m = first.code(SUBBLOCK, TABLE[at:at + 9])
            luma.append(m)
        else:
            m = mode
        above[i % 4] = beside[i // 4] = m
    return Macroblock(segment, skip, luma, first.code(CHROMA, (142, 114, 183)), [])


# ---- section 13: tokens
TOKENS = [("end", [(0, 0)]), (0, [(1, 0), (0, 1)])] + [(t, [(1, 0), (1, 1)] + t[1]) for t in TREE]
AFTER_ZERO = [(value, path[1:]) for value, path in TOKENS[1:]]  # a zero is not followed by the end


def block(tokens, h, kind, first, ctx):
    """Its numbers in zigzag order, from place `first` up to its end."""
    codes, values = TOKENS, []
    for n in range(first, 16):
        p = [x % 256 for x in h[38 + ((kind * 8 + BANDS[n]) * 3 + ctx) * 11:][:11]]
        token = tokens.code(codes, p)
        if token == "end":
            break
        codes, ctx, value = (TOKENS, 2, 0) if token else (AFTER_ZERO, 0, 0)
        if token:
            least, _, extra = token
            for prob in extra:
                value = 2 * value + tokens.symbol(prob)
            value = (least + value) * (-1 if tokens.symbol(128) else 1)
            ctx = 1 if least == 1 else 2
        values.append(value)
    return values


def residual(tokens, h, mb, above, beside):
    """Its 25 blocks of numbers; the flags above and to the left, nine each (luma 0..3, U 4..5, V 6..7, Y2 8), become its own."""
    blocks = [[] for _ in range(25)]
    if mb.skip:
        for flags in (above, beside):
            flags[:8 if mb.small else 9] = [0] * (8 if mb.small else 9)
        return blocks
    places = [(8, 8)] + [(i % 4, i // 4) for i in range(16)] + [(base + i % 2, base + i // 2) for base in (4, 6) for i in range(4)]
    for b, (x, y) in enumerate(places):
        if b or not mb.small:
            blocks[b] = block(tokens, h, *kind_and_first(mb, b), above[x] + beside[y])
            above[x] = beside[y] = int(blocks[b] != [])
    return blocks


# ---- the picture
def picture(width, height, h, parts):
    first, tokens = Partition(parts[0]), [Partition(p) for p in parts[1:]]
    columns = [([0] * 4, [0] * 9) for _ in range(width // 16)]
    number = k = 0
    try:
        for row in range(height // 16):
            left = ([0] * 4, [0] * 9)
            for above in columns:
                number = 6
                mb = modes(first, h, above[0], left[0])
                number = 7
                residual(tokens[row % len(tokens)], h, mb, above[1], left[1])
                k += 1
        number = 0
    except Missing:
        pass
    return f"{number} {k} {first.reads} {sum(t.reads for t in tokens)}"


def taken_apart(f):
    """Width, height, entries and partitions of a case file (examples/c/decode_case.c has the layout); None where it is malformed."""
    def be(at, n):
        return int.from_bytes(f[at:at + n], "big")
    if len(f) < 2206 or f[0] != 1 or be(1, 4) + 5 != len(f) or len(f) < 2206 + 4 * f[9]:
        return None
    h = [(be(10 + 2 * i, 2) + 32768) % 65536 - 32768 for i in range(1096)]
    lengths = [be(2202 + 4 * i, 4) for i in range(1 + f[9])]
    at = 2206 + 4 * f[9]
    if at + sum(lengths) != len(f):
        return None
    parts = [f[at + sum(lengths[:i]):][:n] for i, n in enumerate(lengths)]
    return be(5, 2), be(7, 2), h, parts


def refusal(width, height, h, parts):
    """1, 2 or 3, or 0 where the picture is begun."""
    if any(n % 16 or not 16 <= n <= 16384 for n in (width, height)):
        return 1
    if not 1 <= len(parts) - 1 <= 8:
        return 2
    return 3 if any(not -255 <= x <= 255 for x in h) else 0


def line(f):
    case = taken_apart(f)
    number = refusal(*case) if case else 10
    return f"{number} 0 0 0" if number else picture(*case)


def with_parts(f, parts):
    """The same case with other partitions, as many as before."""
    rest = f[5:2202] + b"".join(len(x).to_bytes(4, "big") for x in parts) + b"".join(parts)
    return f[:1] + len(rest).to_bytes(4, "big") + rest


def cut(f, rnd):
    """The same case with one partition cut."""
    parts = taken_apart(f)[3]
    p = rnd.randrange(len(parts))
    parts[p] = parts[p][:rnd.randrange(len(parts[p]) + 1)]
    return with_parts(f, parts)


def main():
    arguments = sys.argv[1:]
    folder = None
    if len(arguments) > 3 and arguments[1].isdigit():
        folder, rnd, cuts = arguments[0], random.Random(int(arguments[1])), int(arguments[2])
        arguments = arguments[3:]
    files = []
    for name in arguments:
        with open(name, "rb") as source:
            f = source.read()
        files.append(f)
        if folder and taken_apart(f):
            files += [cut(f, rnd) for _ in range(cuts)]
    for i, f in enumerate(files):
        if folder:
            with open(f"{folder}/{i:04}.case", "wb") as copy:
                copy.write(f)
        print(line(f))


if __name__ == "__main__":
    main()
