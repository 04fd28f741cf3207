#!/usr/bin/env python3
"""What the recode call (M-112) writes, worked out without the crates:

    recode.py FILE..          a line a case file: number, the first partition's length, the token partition's length and its FNV-1a 64
    recode.py --spread OUT FILE..  the same, a line for each of eight copies of a case that is answered 0, written to OUT as NNNN.case: its
                              tokens coded afresh into 1 to 8 partitions, so that all eight are recoded to the same bytes

`10 0 0 0` stands for a file that the case program does not take. Symbols are read as in counts.py (RFC 6386, sections 7.3, 11 and 13) and
kept with their probabilities. They are written twice: by the encoder that section 7.3 lists, and as one big number, the low end of the
interval that they leave; both are the same bytes.
"""
import sys

from counts import Missing, Partition, modes, refusal, residual, taken_apart

LONGEST, WIDEST = 65536, 64  # of a file and of a side, as the case program takes them


class Encoder:
    """Section 7.3's bool_encoder, its output a list of bytes."""

    def __init__(self):
        self.output, self.range, self.bottom, self.bit_count = [], 255, 0, 24

    def add_one_to_output(self):
        at = len(self.output) - 1
        while self.output[at] == 255:
            self.output[at] = 0
            at -= 1
        self.output[at] += 1

    def write_bool(self, prob, value):
        split = 1 + ((self.range - 1) * prob >> 8)
        if value:
            self.bottom += split
            self.range -= split
        else:
            self.range = split
        while self.range < 128:
            self.range <<= 1
            if self.bottom & 1 << 31:
                self.add_one_to_output()
            self.bottom = self.bottom << 1 & 0xFFFFFFFF
            self.bit_count -= 1
            if not self.bit_count:
                self.output.append(self.bottom >> 24)
                self.bottom &= (1 << 24) - 1
                self.bit_count = 8

    def flush(self):
        c, v = self.bit_count, self.bottom
        if v & 1 << 32 - c:
            self.add_one_to_output()
        v = v << (c & 7) & 0xFFFFFFFF
        for _ in range(c >> 3):
            v = v << 8 & 0xFFFFFFFF
        self.output += v.to_bytes(4, "big")
        return bytes(self.output)


def listed(symbols):
    encoder = Encoder()
    for bit, prob in symbols:
        encoder.write_bool(prob, bit)
    return encoder.flush()


def as_number(symbols):
    """The low end of the interval with as many bytes as the flush leaves: two more than the whole bytes of the shifts, four at least."""
    low, width, shifts = 0, 255, 0
    for bit, prob in symbols:
        split = 1 + ((width - 1) * prob >> 8)
        low, width = (low + split, width - split) if bit else (low, split)
        more = 8 - width.bit_length()
        low, width, shifts = low << more, width << more, shifts + more
    size = max(4, shifts // 8 + 2)
    return (low << 8 * size - 8 - shifts).to_bytes(size, "big")


def encoded(symbols):
    written = listed(symbols)
    assert written == as_number(symbols)
    return written


class Kept(Partition):
    """Keeps what is read of it, beside what is read of the others."""

    def __init__(self, data, row):
        super().__init__(data)
        self.row = row

    def symbol(self, prob):
        bit = super().symbol(prob)
        self.row[0].append((bit, prob))
        return bit


def rows_of(width, height, h, parts):
    """The picture call's number, and the token symbols of each macroblock row."""
    here, rows = [None], []
    first, tokens = Partition(parts[0]), [Kept(p, here) for p in parts[1:]]
    columns = [([0] * 4, [0] * 9) for _ in range(width // 16)]
    number = 0
    try:
        for row in range(height // 16):
            here[0] = []
            rows.append(here[0])
            left = [0] * 4, [0] * 9
            for above in columns:
                number = 6
                mb = modes(first, h, above[0], left[0])
                number = 7
                residual(tokens[row % len(tokens)], h, mb, above[1], left[1])
    except Missing:
        return number, []
    return 0, rows


def fnv(data):
    h = 0xCBF29CE484222325
    for byte in data:
        h = (h ^ byte) * 0x100000001B3 % 2**64
    return h


def joined(rows):
    return [symbol for row in rows for symbol in row]


def spread(f, first, rows):
    """Eight copies of a case: row r in partition r modulo the count."""
    for count in range(1, 9):
        parts = [first] + [encoded(joined(rows[p::count])) for p in range(count)]
        rest = f[5:9] + bytes([count]) + f[10:2202] + b"".join(len(x).to_bytes(4, "big") for x in parts) + b"".join(parts)
        yield f[:1] + len(rest).to_bytes(4, "big") + rest


def told(f):
    """Its line, and of a case that is answered 0 the first partition and the rows of symbols."""
    case = taken_apart(f) if len(f) <= LONGEST else None
    number = 10 if not case or max(case[:2]) > WIDEST else refusal(*case)
    if number == 0:
        number, rows = rows_of(*case)
    if number:
        return f"{number} 0 0 0", None
    first, tokens = case[3][0], encoded(joined(rows))
    return f"0 {len(first)} {len(tokens)} {fnv(tokens):016x}", (first, rows)


def main():
    names, folder, made = sys.argv[1:], None, 0
    if names[:1] == ["--spread"]:
        folder, names = names[1], names[2:]
    for name in names:
        with open(name, "rb") as source:
            f = source.read()
        line, known = told(f)
        if not folder:
            print(line)
        for copy in spread(f, *known) if folder and known else ():
            with open(f"{folder}/{made:04}.case", "wb") as target:
                target.write(copy)
            print(line)
            made += 1


if __name__ == "__main__":
    main()
