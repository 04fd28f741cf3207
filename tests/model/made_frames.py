"""Frames made up by the grammar of RFC 6386, every field drawn: what encoders never write is here too.

`frame(draw)` has a coded header (section 19.2) and random bytes as tokens: for readers of the header. `whole(draw, kind)` goes on to the last
token (sections 19.3 and 13): a legal frame with macroblocks of every mode, both filters, odd sizes, 1 to 8 token partitions. Its kinds:

    tame    no number leaves the range that encoders keep: indices in 0..127, small sums in the transforms, no block that ends in zeros
    wild    any index, any coefficient, coded zeros to a block's end
    formal  tame; and what the RFC allows and its own decoder refuses: clamping_type 1, an only token partition of no byte

    made_frames.py SEED COUNT FOLDER    COUNT whole frames, the kinds in turn, as FOLDER/NNNNN-KIND.vp8
"""
import os
import random
import sys

from singles import AC, Macroblock, kind_and_first, put_modes, put_tokens
from tables import DEFAULTS, UPDATES

KINDS = ("tame", "wild", "tame", "wild", "formal")


class Writer:
    """The boolean encoder of section 7.3, on one big number: bottom, and how many bits it has."""

    def __init__(self):
        self.low, self.range, self.shifts = 0, 255, 0

    def bit(self, value, probability):
        split = 1 + ((self.range - 1) * probability >> 8)
        if value:
            self.low += split
            self.range -= split
        else:
            self.range = split
        more = 8 - self.range.bit_length()
        self.range <<= more
        self.low <<= more
        self.shifts += more

    put = bit

    def code(self, bits, probabilities):
        for b, p in zip(bits, probabilities):
            self.bit(b, p)

    def number(self, value, bits):
        for i in reversed(range(bits)):
            self.bit(value >> i & 1, 128)

    def bytes(self, more):
        """As many whole bytes as hold it, and a few more."""
        total = -(-(self.shifts + 8) // 8) + more
        return (self.low << (8 * total - 8 - self.shifts)).to_bytes(total, "big")


class Header:
    """The coded header, each field drawn and written: `entries` are its 1096 numbers (docs/SCOPE.md), `count` is how many token partitions there are.
    Without a kind the two bits in front are drawn too, one of which the RFC reserves."""

    def __init__(self, w, draw, kind=None):
        self.w, self.draw, self.kind, self.entries = w, draw, kind, [0] * 1096
        self.index = draw.choice((0, 127, draw.randrange(128), draw.randrange(128)))
        w.number(self.flag() if kind is None else 0, 1)
        w.number(self.flag() if kind in (None, "formal") else 0, 1)
        self.segments()
        self.filter()
        partitions = draw.randrange(4)
        w.number(partitions, 2)
        self.count = 1 << partitions
        self.quantizers()
        self.probabilities()

    def flag(self):
        return self.draw.random() < 0.5

    def bit(self, entry):
        self.number(entry, int(self.flag()), 1)
        return self.entries[entry]

    def number(self, entry, value, bits):
        self.entries[entry] = value
        self.w.number(value, bits)

    def signed(self, entry, bits, low=-255, high=255):
        """A flag, and where it is set a number from low to high and its sign."""
        if self.given():
            most = (1 << bits) - 1
            value = self.draw.randint(max(-most, low), min(most, high))
            self.entries[entry] = value
            self.w.number(abs(value), bits)
            self.w.number(value < 0 if value else self.flag(), 1)

    def given(self):
        """A flag that says whether something follows."""
        on = self.flag()
        self.w.number(on, 1)
        return on

    def segments(self):
        if not self.bit(2):
            return
        data = self.flag()
        self.bit(3)
        self.w.number(data, 1)
        if data:
            absolute = self.bit(5)
            tame = self.kind in ("tame", "formal")
            low, high = (-255, 255) if not tame else (0, 127) if absolute else (-self.index, 127 - self.index)
            for i in range(4):
                self.signed(6 + i, 7, low, high)
            for i in range(4):
                self.signed(10 + i, 6)
        for i in range(3 if self.entries[3] else 0):
            self.entries[14 + i] = 255
            if self.given():
                self.number(14 + i, self.draw.choice((0, 1, 255, self.draw.randrange(256), self.draw.randrange(64, 192))), 8)

    def filter(self):
        self.w.number(self.flag(), 1)
        self.number(18, self.draw.choice((0, 63, *[self.draw.randrange(64) for _ in range(6)])), 6)
        self.number(19, self.draw.randrange(8), 3)
        if self.bit(20) and self.given():
            for i in range(8):
                self.signed(22 + i, 6)

    def quantizers(self):
        self.number(31, self.index, 7)
        for i in range(5):
            self.signed(32 + i, 4)

    def probabilities(self):
        self.w.number(self.flag(), 1)
        often = self.draw.choice((0, 0.01, 0.2, 1))
        self.entries[38:1094] = DEFAULTS
        for i, p in enumerate(UPDATES):
            on = self.draw.random() < often
            self.w.bit(on, p)
            if on:
                self.number(38 + i, self.draw.randrange(256), 8)
        if self.bit(1094):
            self.number(1095, self.draw.choice((0, 255, self.draw.randrange(256))), 8)


def joined(tag, sides, first, tokens):
    """The frame: tag without the first partition's size, start code, sides, partitions."""
    sizes = b"".join(len(t).to_bytes(3, "little") for t in tokens[:-1])
    tag |= len(first) << 5
    return tag.to_bytes(3, "little") + b"\x9d\x01\x2a" + sides + first + sizes + b"".join(tokens)


def tag(draw):
    return draw.randrange(2) << 4 | draw.randrange(4) << 1


def side(draw, size):
    return (size | draw.randrange(4) << 14).to_bytes(2, "little")


def frame(draw):
    w = Writer()
    count = Header(w, draw).count
    first = w.bytes(draw.randrange(3))
    sides = b"".join(side(draw, draw.choice((1, 15, 16, 17, draw.randrange(1, 16384), 16383))) for _ in range(2))
    return joined(tag(draw), sides, first, [draw.randbytes(draw.choice((0, 1, 2, 40))) for _ in range(count)])


class Style:
    """How a frame's macroblocks are drawn: how often modes are small, a macroblock is skipped or has no numbers, a block has some; how large."""

    def __init__(self, draw, h, kind):
        self.wild = kind == "wild"
        self.small = draw.choice((0, 0.3, 0.7, 1))
        self.skip = draw.choice((0, 0.3, 0.9, 1)) if h[1094] else 0
        self.blank = draw.choice((0, 0.4))
        self.coded = draw.choice((0, 0.1, 0.5, 1))
        self.zeros = draw.choice((0, 0.2, 0.8))
        # how often a block without numbers is coded all the same, as zeros to its end: Y2, others
        self.nothing = (draw.choice((0, 0.5)), draw.choice((0, 0.01, 0.3))) if self.wild else (0, 0)
        self.more = draw.choice((0.3, 0.8, 0.97))
        index = max([h[31]] + [h[6 + i] + (0 if h[5] else h[31]) for i in range(4) if h[2]])
        # |a sum of coefficients| stays below 16 bits through both transforms
        self.room = 2114 * 16 if self.wild else max(1, 12000 // (AC[min(index + 15, 127)] * 155 // 100 + 1))
        self.high = draw.choice((4, 66, 2114, 2114) if self.wild else (1, 2, 10, 66, 2114))

    def values(self, draw, b, first, blank):
        """A block's numbers in zigzag order. Tame ones end with a number that is not 0, as an encoder's do."""
        if blank or draw.random() >= self.coded:
            return [0] * (16 - first) if draw.random() < self.nothing[b > 0] else []
        out, room = [], self.room
        while len(out) < 16 - first and room > 0:
            high = min(self.high, room)
            v = 0 if draw.random() < self.zeros else draw.randint(1, draw.choice((1, min(4, high), high)))
            room -= v
            out.append(-v if draw.random() < 0.5 else v)
            if draw.random() >= self.more and (v or self.wild):
                break
        while out and out[-1] == 0 and not (self.wild and len(out) == 16 - first):
            out.pop()
        return out


def macroblock(draw, h, style):
    small = draw.random() < style.small
    modes = [draw.randrange(10) for _ in range(16)] if small else [draw.randrange(4)]
    mb = Macroblock(draw.randrange(4) if h[3] else 0, int(draw.random() < style.skip), modes, draw.randrange(4), [[] for _ in range(25)])
    blank = draw.random() < style.blank
    for b in range(25):
        if not mb.skip and (b or not small):
            mb.blocks[b] = style.values(draw, b, kind_and_first(mb, b)[1], blank)
    return mb


def whole(draw, kind):
    w = Writer()
    header = Header(w, draw, kind)
    h, count = header.entries, header.count
    width, height = (draw.choice((1, 16, 17, 33, draw.randrange(1, 100), draw.randrange(1, 60), draw.randrange(60, 130))) for _ in range(2))
    if draw.random() < 0.3:
        height = draw.randrange(1, 16 * 2 * count + 1)  # so that every partition has a row, and some two
    across, down = -(-width // 16), -(-height // 16)
    style = Style(draw, h, kind)
    tokens = [Writer() for _ in range(count)]
    columns = [([0] * 4, [0] * 9) for _ in range(across)]
    for row in range(down):
        left = [0] * 4, [0] * 9
        for above in columns:
            mb = macroblock(draw, h, style)
            put_modes(w, h, mb, above[0], left[0])
            above[0][:], left[0][:] = mb.modes[12:], mb.modes[3::4]
            above[1][:], left[1][:] = put_tokens(tokens[row % count], h, mb, above[1], left[1])
    parts = [t.bytes(draw.randrange(3)) for t in tokens]
    for i, t in enumerate(tokens):
        # no symbol was written: perhaps no byte either, but the last partition's only where the RFC's decoder need not take it
        if t.range == 255 and not t.shifts and draw.random() < 0.3 and (i < count - 1 or kind == "formal"):
            parts[i] = b""
    return joined(tag(draw), side(draw, width) + side(draw, height), w.bytes(draw.randrange(3)), parts)


def main():
    seed, count, folder = int(sys.argv[1]), int(sys.argv[2]), sys.argv[3]
    os.makedirs(folder, exist_ok=True)
    for i in range(count):
        kind = KINDS[i % len(KINDS)]
        with open(os.path.join(folder, f"{i:05}-{kind}.vp8"), "wb") as out:
            out.write(whole(random.Random(f"{seed} {i}"), kind))


if __name__ == "__main__":
    main()
