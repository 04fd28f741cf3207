#!/usr/bin/env python3
"""Writes the dearest tile as a case file: python3 bench/dearest.py OUT.case [SIDE].

Every macroblock asks for as many symbols as the format allows: 119 of the first partition (segment 2, skip flag 1, B_PRED flag 1,
sixteen small modes of 7, chroma 3) and 7,296 of its token partition (24 blocks of 16 coefficients, each a token of 7 symbols, category
6, with 11 extra bits and a sign). Coefficient probabilities are 128, so that nearly every symbol also shifts the window.
The encoder is RFC 6386 section 7.3's; the tables are read from the sources.
"""
import os
import random
import re
import struct
import sys


class Encoder:
    def __init__(self):
        self.out, self.range, self.bottom, self.count = bytearray(), 255, 0, 24

    def carry(self):
        at = len(self.out) - 1
        while self.out[at] == 255:
            self.out[at] = 0
            at -= 1
        self.out[at] += 1

    def write(self, prob, bit):
        split = 1 + (((self.range - 1) * prob) >> 8)
        if bit:
            self.bottom += split
            self.range -= split
        else:
            self.range = split
        while self.range < 128:
            self.range <<= 1
            if self.bottom & (1 << 31):
                self.carry()
            self.bottom = (self.bottom << 1) & 0xFFFFFFFF
            self.count -= 1
            if self.count == 0:
                self.out.append(self.bottom >> 24)
                self.bottom &= (1 << 24) - 1
                self.count = 8

    def finish(self):
        if self.bottom & (1 << (32 - self.count)):
            self.carry()
        bottom = (self.bottom << (self.count & 7)) & 0xFFFFFFFF
        for _ in range(self.count >> 3):
            bottom = (bottom << 8) & 0xFFFFFFFF
        self.out += struct.pack(">I", bottom)
        return bytes(self.out)


def small_mode_table():
    """The 900 probabilities in the source's mode numbers, above first (crates/modes/src/table.rt)."""
    here = os.path.dirname(os.path.abspath(__file__))
    text = open(os.path.join(here, "..", "crates", "modes", "src", "table.rt"), encoding="utf-8").read()
    body = text[text.index("] = [") + len("] = ["):]
    numbers = [int(x) for x in re.findall(r"\d+", re.sub(r"//[^\n]*", "", body[:body.index("];")]))]
    assert len(numbers) == 900
    return numbers


HU = 9                                      # the leaf that lies deepest in the tree of small modes, with HD
HU_NODES = (0, 1, 2, 3, 6, 7, 8)            # a 1 at each
CATEGORY_6_NODES = (0, 1, 2, 3, 6, 8, 10)   # a 1 at each
CATEGORY_6_BITS = (254, 254, 243, 230, 196, 177, 153, 140, 133, 130, 129)
CHROMA = (142, 114, 183)


def modes(first, table, column, row, probabilities):
    segment, skip = probabilities
    first.write(segment[0], 1)
    first.write(segment[2], 1)
    first.write(skip, 0)
    first.write(145, 0)
    for i in range(16):
        above = HU if row > 0 or i >= 4 else 0
        left = HU if column > 0 or i % 4 > 0 else 0
        at = (above * 10 + left) * 9
        for node in HU_NODES:
            first.write(table[at + node], 1)
    for prob in CHROMA:
        first.write(prob, 1)


def tokens(token, draw):
    for _ in range(24 * 16):
        for _ in CATEGORY_6_NODES:
            token.write(128, 1)
        for prob in CATEGORY_6_BITS:
            token.write(prob, draw.randrange(2))
        token.write(128, draw.randrange(2))


def main():
    side = int(sys.argv[2]) if len(sys.argv) > 2 else 256
    header = [0] * 1096
    header[2], header[3] = 1, 1             # segments on, with a map
    header[14:17] = [128, 128, 128]
    header[18], header[31] = 63, 127        # filter level, quantizer
    header[38:1094] = [128] * 1056
    header[1094], header[1095] = 1, 128     # skip flags
    draw, table = random.Random(1), small_mode_table()
    first, token = Encoder(), Encoder()
    for row in range(side // 16):
        for column in range(side // 16):
            modes(first, table, column, row, ((128, 128, 128), 128))
            tokens(token, draw)
    first, token = first.finish(), token.finish()
    rest = struct.pack(">HHB", side, side, 1) + struct.pack(">1096h", *header)
    rest += struct.pack(">II", len(first), len(token)) + first + token
    with open(sys.argv[1], "wb") as out:
        out.write(b"\x01" + struct.pack(">I", len(rest)) + rest)


if __name__ == "__main__":
    main()
