#!/usr/bin/env python3
"""The same key frames with a filter level of 0: level_zero.py IN OUT, both .webp or both .ivf.

Segments, their levels and the deltas stay as they are, which encoders never write beside a level of 0. The first partition is read symbol
by symbol, header and modes, by tests/model, and written anew with six other bits; token partitions stay byte for byte."""
import sys
from pathlib import Path

sys.path.insert(0, str(Path(__file__).resolve().parent.parent / "model"))
from counts import Partition, modes
from frame_header import Bits, coded
from made_frames import Writer


class Recorded(Partition):
    """A partition that keeps every symbol read of it with its probability, and the place of the header's level among them."""

    def __init__(self, data):
        super().__init__(data)
        self.symbols, self.level, self.in_signed = [], None, False

    def symbol(self, prob):
        one = super().symbol(prob)
        self.symbols.append((one, prob))
        return one

    bit = symbol

    def number(self, bits):
        if bits == 6 and not self.in_signed:
            self.level = len(self.symbols)
        return Bits.number(self, bits)

    def signed(self, bits):
        self.in_signed = True
        value = Bits.signed(self, bits)
        self.in_signed = False
        return value


def zeroed(frame):
    tag, size = int.from_bytes(frame[:3], "little"), int.from_bytes(frame[:3], "little") >> 5
    side = lambda at: -(-(int.from_bytes(frame[at:at + 2], "little") & 0x3FFF) // 16)
    first = Recorded(frame[10:10 + size])
    entry = coded(first)[0]
    columns = [[0] * 4 for _ in range(side(6))]
    for _ in range(side(8)):
        left = [0] * 4
        for above in columns:
            modes(first, entry, above, left)
    w = Writer()
    for i, (one, prob) in enumerate(first.symbols):
        w.bit(one and not first.level <= i < first.level + 6, prob)
    new = w.bytes(0)
    return (len(new) << 5 | tag & 31).to_bytes(3, "little") + frame[3:10] + new + frame[10 + size:]


def webp(file):
    frame = zeroed(file[20:20 + int.from_bytes(file[16:20], "little")])
    chunk = b"VP8 " + len(frame).to_bytes(4, "little") + frame + bytes(len(frame) % 2)
    return b"RIFF" + (4 + len(chunk)).to_bytes(4, "little") + b"WEBP" + chunk


def ivf(file):
    out, at = file[:32], 32
    while at < len(file):
        end = at + 12 + int.from_bytes(file[at:at + 4], "little")
        frame = zeroed(file[at + 12:end])
        out += len(frame).to_bytes(4, "little") + file[at + 4:at + 12] + frame
        at = end
    return out


source, to = map(Path, sys.argv[1:])
to.write_bytes((webp if source.suffix == ".webp" else ivf)(source.read_bytes()))
