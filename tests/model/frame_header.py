#!/usr/bin/env python3
"""An independent reading of a key frame's own header (RFC 6386, sections 9 and 19.2), which shares nothing with the crates:

    python3 tests/model/frame_header.py <FRAME

prints what the program crates/try_frame prints. The boolean decoder here has no window and loads no bytes: the rest of the partition is
one big number, and a symbol compares its top eight bits with the split."""
import sys
from tables import DEFAULTS, UPDATES


class RanOut(Exception):
    pass


class Bits:
    """Section 7.3 over all bits at once; sixteen zero bits stand past the end."""

    def __init__(self, data):
        self.size = 8 * len(data)
        self.whole = 1 << (self.size + 16)
        self.rest = int.from_bytes(data, "big") << 16
        self.range = 255
        self.gone = 0  # bits shifted out

    def bit(self, probability):
        if self.size < self.gone + 8:
            raise RanOut
        split = 1 + ((self.range - 1) * probability >> 8)
        one = self.rest >> (self.size + 8) >= split
        if one:
            self.rest -= split << (self.size + 8)
            self.range -= split
        else:
            self.range = split
        while self.range < 128:
            self.range *= 2
            self.rest = self.rest * 2 % self.whole
            self.gone += 1
        return int(one)

    def number(self, bits):
        value = 0
        for _ in range(bits):
            value = 2 * value + self.bit(128)
        return value

    def signed(self, bits):
        """A flag; where it is set, the magnitude and then the sign."""
        if not self.number(1):
            return 0
        size = self.number(bits)
        return -size if self.number(1) else size

    def reader(self):
        """The same state as the library's reader has it: the place of the next byte, range, shifts since a byte came in, window."""
        shifts = self.gone % 8
        window = self.rest >> self.size
        return self.gone // 8 + 2, self.range, shifts, window >> shifts << shifts


def coded(bits):
    """The coded header in the order of section 19.2: its entries, and what stands beside them."""
    entry = [0] * 1096
    bits.number(1)  # color_space
    bits.number(1)  # clamping_type
    if bits.number(1):  # segmentation_enabled
        entry[2] = 1
        entry[3] = bits.number(1)  # update_mb_segmentation_map
        if bits.number(1):  # update_segment_feature_data
            entry[5] = bits.number(1)
            for i in range(4):
                entry[6 + i] = bits.signed(7)
            for i in range(4):
                entry[10 + i] = bits.signed(6)
        if entry[3]:
            for i in range(3):
                entry[14 + i] = bits.number(8) if bits.number(1) else 255
    simple = bits.number(1)  # filter_type
    entry[18] = bits.number(6)
    entry[19] = bits.number(3)
    entry[20] = bits.number(1)  # loop_filter_adj_enable
    if entry[20] and bits.number(1):
        deltas = [bits.signed(6) for _ in range(8)]
        entry[22], entry[26] = deltas[0], deltas[4]
    partitions = 1 << bits.number(2)
    entry[31] = bits.number(7)
    for i in range(5):
        entry[32 + i] = bits.signed(4)
    bits.number(1)  # refresh_entropy_probs
    for i in range(1056):
        entry[38 + i] = bits.number(8) if bits.bit(UPDATES[i]) else DEFAULTS[i]
    entry[1094] = bits.number(1)  # mb_no_skip_coeff
    if entry[1094]:
        entry[1095] = bits.number(8)
    return entry, simple, partitions


def taken(frame):
    """(number, None), or (0, all that is taken)."""
    tag = int.from_bytes(frame[:3], "little")
    if len(frame) < 10 or tag & 1 or frame[3:6] != b"\x9d\x01\x2a" or tag >> 1 & 7 > 3:
        return 12, None
    width = int.from_bytes(frame[6:8], "little") & 0x3FFF
    height = int.from_bytes(frame[8:10], "little") & 0x3FFF
    if width == 0 or height == 0:
        return 12, None
    size = tag >> 5
    if len(frame) < 10 + size:
        return 13, None
    if size < 2:
        return 14, None
    bits = Bits(frame[10 : 10 + size])
    try:
        entry, simple, partitions = coded(bits)
    except RanOut:
        return 14, None
    table = 10 + size
    at = table + 3 * (partitions - 1)
    if len(frame) < at:
        return 13, None
    tokens = []
    for i in range(partitions - 1):
        length = int.from_bytes(frame[table + 3 * i : table + 3 * i + 3], "little")
        tokens.append((at, length))
        at += length
    if len(frame) < at:
        return 13, None
    tokens.append((at, len(frame) - at))
    return 0, (width, height, simple, size, tokens, bits.reader(), entry)


def printed(frame):
    number, what = taken(frame)
    if number:
        return f"{number}\nsize 0 0 sides 0 0\nfirst 0 0\nreader 0 0 0 0\n" + " 77" * 1096 + "\n"
    width, height, simple, size, tokens, reader, entry = what
    up = lambda n: -(-n // 16) * 16
    out = f"0\nsize {width} {height} sides {up(width)} {up(height)}{' simple' if simple else ''}\nfirst 10 {size}"
    for start, length in tokens:
        out += f"\ntoken {start} {length}"
    return out + "\nreader " + " ".join(map(str, reader)) + "\n " + " ".join(map(str, entry)) + "\n"


if __name__ == "__main__":
    sys.stdout.write(printed(sys.stdin.buffer.read()))
