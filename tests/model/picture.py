#!/usr/bin/env python3
"""What the picture call and the rescue call (M-108) leave in lent memory, worked out without the crates:

    picture.py FILE..                       a line a case file: number, k, FNV-1a 64 of Y, U, V, columns, modes and strengths
    picture.py --rescue FILE..              the same of the rescue call, and its marks (`-`: not touched)
    picture.py --cuts PARTITION FILE [STEP] the length and such a line for every STEPth length of a token partition (the first is 0), from no byte on

Every lent byte is 0xA5 before. Columns have 4 bytes (M-107), strengths 6 (M-106). `10 0` stands for a file that the case program does not take.

Symbols, modes and tokens are read as in counts.py (RFC 6386, sections 7.3, 11 and 13), samples and strengths made as in singles.py (sections 9.6,
12, 14 and 15). Here are the order of things and what is left after each ending. All is read before anything is painted: what a macroblock's
samples are does not bear on what is read.
"""
import sys

from counts import Missing, Partition, modes, refusal, residual, taken_apart, with_parts
from singles import Plane, paint, residuals, strengths

NO_NUMBERS = [[]] * 25


class Grey(Plane):
    def __init__(self, width, height):
        self.width, self.samples = width, [128] * (width * height)


class Reading:
    """All that is read of a picture up to its end, macroblocks in raster order.

    `number` is the picture call's own, `whole` counts the macroblocks that it finishes. With `rescue` the modes are read on where tokens are
    missing: those macroblocks have no numbers and leave no flags. A macroblock whose modes are missing leaves nothing."""

    def __init__(self, width, height, h, parts, rescue):
        first, tokens = Partition(parts[0]), [Partition(p) for p in parts[1:]]
        self.number, self.whole, self.macroblocks = 0, 0, []
        self.columns = [([0] * 4, [0] * 9) for _ in range(width // 16)]
        for row in range(height // 16):
            left = [0] * 4, [0] * 9
            for column in range(width // 16):
                above = tuple(list(part) for part in self.columns[column])
                try:
                    mb = modes(first, h, above[0], left[0])
                except Missing:
                    self.number = self.number or 6
                    return
                if self.number == 0:
                    try:
                        mb.blocks = residual(tokens[row % len(tokens)], h, mb, above[1], left[1])
                        self.whole += 1
                    except Missing:
                        self.number = 7
                        if not rescue:
                            return
                if self.number == 7:
                    mb.blocks = NO_NUMBERS
                    above[1][:] = [0] * 9
                self.macroblocks.append(mb)
                self.columns[column] = above


def packed(modes, flags):
    """A column in M-107's form."""
    return sum(m << 4 * i for i, m in enumerate(modes)).to_bytes(2, "big") + sum(f << i for i, f in enumerate(flags)).to_bytes(2, "big")


def painted(width, height, h, macroblocks):
    """Y, U, V, mode memory and strengths; where no macroblock is, samples are 128 and records 0."""
    planes = Grey(width, height), Grey(width // 2, height // 2), Grey(width // 2, height // 2)
    across, down = width // 16, height // 16
    records, filters = b"", b""
    for k, mb in enumerate(macroblocks):
        added, empty = residuals(h, mb)
        paint(planes, k % across, k // across, mb, added)
        records += bytes([mb.segment, mb.skip, mb.small, *mb.modes, mb.chroma])
        filters += bytes(strengths(h, mb, mb.small or not empty) + [mb.segment, mb.small])
    return [bytes(p.samples) for p in planes] + [records.ljust(20 * across * down, b"\0"), filters.ljust(6 * across * down, b"\0")]


def fnv(data):
    h = 0xcbf29ce484222325
    for byte in data:
        h = (h ^ byte) * 0x100000001b3 % 2**64
    return f"{h:016x}"


def untouched(width, height):
    """Lent memory after 1 to 5, its lengths rounded down for a bad size; and the marks."""
    count = (width // 16) * (height // 16)
    chroma = (width // 2) * (height // 2)
    lengths = width * height, chroma, chroma, 4 * (width // 16), 20 * count, 6 * count
    return [fnv(b"\xa5" * n) for n in lengths], "-" * count


def memory(case, reading, known):
    """The six sums. `known` has those of macroblocks painted before, by all that was read of them."""
    width, height, h, _ = case
    key = str([vars(mb) for mb in reading.macroblocks])
    if key not in known:
        known[key] = [fnv(m) for m in painted(width, height, h, reading.macroblocks)]
    y, u, v, records, filters = known[key]
    return [y, u, v, fnv(b"".join(packed(*c) for c in reading.columns)), records, filters]


def case_of(f):
    """A case file taken apart, or None where the case program does not take it: malformed, over 64 KiB, a side above 64."""
    case = taken_apart(f)
    return case if case and len(f) <= 65536 and max(case[:2]) <= 64 else None


def line(f, rescue, known):
    """A case file's line; `known` is kept for cuts of one file only."""
    case = case_of(f)
    if not case:
        return "10 0"
    number, k = refusal(*case), 0
    if number:
        sums, marks = untouched(*case[:2])
    else:
        reading = Reading(*case, rescue)
        number, k = 0 if rescue else reading.number, len(reading.macroblocks)
        sums = memory(case, reading, known)
        marks = ("0" * reading.whole).ljust(k, "1").ljust(case[0] // 16 * (case[1] // 16), "2")
    return " ".join([str(number), str(k), *sums, *[marks] * rescue])


def cuts(f, partition, step):
    """The rescue call's lines for a token partition's lengths."""
    parts, known = taken_apart(f)[3], {}
    whole = parts[1 + partition]
    for length in range(0, len(whole) + 1, step):
        parts[1 + partition] = whole[:length]
        yield f"{length} {line(with_parts(f, parts), True, known)}"


def content(name):
    with open(name, "rb") as source:
        return source.read()


def main():
    arguments = sys.argv[1:]
    if arguments[:1] == ["--cuts"]:
        step = int(arguments[3]) if len(arguments) > 3 else 1
        for text in cuts(content(arguments[2]), int(arguments[1]), step):
            print(text)
        return
    rescue = arguments[:1] == ["--rescue"]
    for name in arguments[rescue:]:
        print(line(content(name), rescue, {}))


if __name__ == "__main__":
    main()
