#!/usr/bin/env python3
"""Tiles that break the rules of the cockpit profile (M-111), each rule alone and every set of them: made_tiles.py FOLDER SEED

Writes a frame for each of the 64 sets into FOLDER, named after the rules that it breaks, and prints the line of profile.py that it is made
to have: its name, 0, the first of these rules, the macroblock that rule 6 names.
"""
import random
import sys

from frame_header import Bits, coded
from singles import Encoder, Macroblock, numbers, put_modes, put_tokens
from tables import UPDATES

OTHER_SIZES = [(240, 256), (256, 272), (257, 256), (16, 16), (512, 128)]


class Writer(Encoder):
    def number(self, value, bits):
        for i in reversed(range(bits)):
            self.put(value >> i & 1, 128)


def put_header(e, rnd, broken, count):
    """Section 19.2, without a new probability."""
    e.number(0, 2)
    e.number(3 in broken, 1)
    if 3 in broken:
        e.number(on_map := rnd.randrange(2), 1)
        e.number(0, 1)
        for _ in range(3 * on_map):
            e.number(1, 1)
            e.number(rnd.randrange(1, 256), 8)
    e.number(rnd.randrange(2), 1)
    e.number(rnd.randrange(64), 6)
    e.number(rnd.randrange(1, 8) if 4 in broken else 0, 3)
    e.number(0, 1)
    e.number(count.bit_length() - 1, 2)
    e.number(rnd.randrange(128), 7)
    e.number(0, 6)
    for p in UPDATES:
        e.put(0, p)
    skipping = 6 in broken or rnd.random() < .8
    e.number(skipping, 1)
    if skipping:
        e.number(rnd.randrange(1, 256), 8)


def macroblock(rnd, h, both):
    """Skipped or small, most often neither; skipped and small only where `both`."""
    small = both or rnd.random() < .3
    skip = both or bool(h[1094]) and not small and rnd.random() < .4
    luma = [rnd.randrange(10) for _ in range(16)] if small else [rnd.randrange(4)]
    blocks = [numbers(rnd) if rnd.random() < .1 else [] for _ in range(25)]
    return Macroblock(rnd.randrange(4), skip, luma, rnd.randrange(4), blocks)


def put_macroblocks(e, tokens, rnd, h, wide, high, named):
    columns = [([0] * 4, [0] * 9) for _ in range(wide)]
    for row in range(high):
        modes, flags = [0] * 4, [0] * 9
        for column in range(wide):
            above = columns[column]
            mb = macroblock(rnd, h, row * wide + column in named)
            put_modes(e, h, mb, above[0], modes)
            below, flags = put_tokens(tokens[row % len(tokens)], h, mb, above[1], flags)
            columns[column], modes = (mb.modes[12:], below), mb.modes[3::4]


def made(rnd, broken):
    """A frame that breaks these rules, and the macroblocks that are both skipped and small."""
    width, height = rnd.choice(OTHER_SIZES) if 1 in broken else (rnd.randrange(241, 257), rnd.randrange(241, 257))
    wide, high = -(-width // 16), -(-height // 16)
    count = 8 if 2 in broken else rnd.choice((1, 2, 4))
    named = {rnd.randrange(wide * high) for _ in range(rnd.choice((1, 1, 2, 5)))} if 6 in broken else set()
    e, tokens = Writer(), [Encoder() for _ in range(count)]
    put_header(e, rnd, broken, count)
    put_macroblocks(e, tokens, rnd, coded(Bits(e.bytes()))[0], wide, high, named)
    parts = [e.bytes()] + [t.bytes() for t in tokens]
    if 5 in broken:  # each has not a byte more than its symbols ask
        p = rnd.choice([i for i, part in enumerate(parts) if part])
        parts[p] = parts[p][:-1]
    first, rest = parts[0], parts[1:]
    tag = len(first) << 5 | 1 << 4
    sides = width.to_bytes(2, "little") + height.to_bytes(2, "little")
    sizes = b"".join(len(part).to_bytes(3, "little") for part in rest[:-1])
    return tag.to_bytes(3, "little") + b"\x9d\x01\x2a" + sides + first + sizes + b"".join(rest), named


def main():
    folder, rnd = sys.argv[1], random.Random(int(sys.argv[2]))
    for which in range(64):
        broken = [rule for rule in range(1, 7) if which >> rule - 1 & 1]
        frame, named = made(rnd, broken)
        name = f"{folder}/breaks-{''.join(map(str, broken)) or 'none'}.vp8"
        with open(name, "wb") as out:
            out.write(frame)
        print(name, 0, broken[0] if broken else 0, min(named) if broken == [6] else 0)


if __name__ == "__main__":
    main()
