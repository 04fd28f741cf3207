#!/usr/bin/env python3
"""Makes stdin and stdout of crates/try_symbols and crates/try_counted: byte strings for the reader, and what each must give.

Independent of the crates: a boolean encoder and a boolean decoder written from RFC 6386 section 7.3 in
Python's own integers, the decoder by one shift at a time. Run it in the repository's root; the seed is fixed, so the two
files come out the same each time.

A case is 64 bytes: kind (0 bits, 1 a number, 2 a leaf of the token tree, 3 bits from a given reader), the partition's
length, 30 bytes of partition, the count of probabilities, 17 probabilities, then for kind 3 place, range (2 bytes), shifts
and window (3 bytes), and at 57 the start node for kind 2.
"""
import random

TREE = [0, 1, -1, 2, -2, 3, 4, 6, -3, 5, -4, -5, 7, 8, -6, -7, 9, 10, -8, -9, -10, -11]


class Missing(Exception):
    pass


class Refused(Exception):
    pass


def encode(bits, probs):
    """RFC 6386 section 7.3's encoder, as exact arithmetic: the low end of the interval, then enough bytes."""
    low, rng, shift = 0, 255, 0
    for b, p in zip(bits, probs):
        split = 1 + ((rng - 1) * p >> 8)
        if b:
            low += split
            rng -= split
        else:
            rng = split
        while rng < 128:
            rng *= 2
            low *= 2
            shift += 1
    pad = -(shift + 8) % 8
    return (low << pad).to_bytes((shift + 8 + pad) // 8, "big")


class Reader:
    """`there` goes beside the window, bit by bit: 1 for each of its bits that the partition has, 0 for those past its end."""
    def __init__(self, s, at=None, rng=None, shifts=None, window=None):
        self.s = s
        if at is None:
            at, rng, shifts, window = 2, 255, 0, self.byte(0)[0] * 256 + self.byte(1)[0]
        self.at, self.rng, self.shifts, self.window = at, rng, shifts, window
        self.there = (self.byte(at - 2)[1] * 256 + self.byte(at - 1)[1]) * 2**shifts % 65536

    def byte(self, at):
        return (self.s[at], 255) if 0 <= at < len(self.s) else (0, 0)

    def good(self):
        return (2 <= self.at <= len(self.s) + 2 and 128 <= self.rng <= 255 and 0 <= self.shifts <= 7
                and self.window < 65536 and self.window % 2**self.shifts == 0)

    def symbol(self, p):
        if not self.good():
            raise Refused
        if self.there // 256 != 255:                             # one of the eight bits that decide is past the end
            raise Missing
        split = 1 + (self.rng - 1) * p // 256
        bit = self.window >= 256 * split
        if bit:
            self.rng -= split
            self.window -= 256 * split
        else:
            self.rng = split
        while self.rng < 128:
            self.rng *= 2
            self.window, self.there = self.window * 2 % 65536, self.there * 2 % 65536
            self.shifts += 1
            if self.shifts == 8:
                value, there = self.byte(self.at)
                self.window, self.there = self.window + value, self.there + there
                self.at += 1
                self.shifts = 0
        return int(bit)

    def after(self):
        return f" {self.at} {self.rng} {self.shifts} {self.window}"


def answer(kind, s, probs, start, given):
    r = Reader(s, *given) if kind == 3 else Reader(s)
    out = ""
    try:
        if kind in (0, 3):
            for p in probs:
                out += str(r.symbol(p))
            return out + r.after()
        if kind == 1:
            if len(probs) > 16:
                raise Refused
            v = 0
            for p in probs:
                v = 2 * v + r.symbol(p)
            return str(v) + r.after()
        if start > 10 or len(probs) < 11:
            raise Refused
        i = start
        while True:
            i = TREE[2 * i + r.symbol(probs[i])]
            if i <= 0:
                return str(-i) + r.after()
    except Missing:
        return out + "m"
    except Refused:
        return out + "9"


def case(kind, s, probs, start=0, given=(0, 0, 0, 0)):
    at, rng, shifts, window = given
    c = bytes([kind, len(s)]) + s.ljust(30, b"\0") + bytes([len(probs)]) + bytes(probs).ljust(17, b"\0")
    c += bytes([at]) + rng.to_bytes(2, "big") + bytes([shifts]) + window.to_bytes(3, "big") + bytes([start])
    return c.ljust(64, b"\0"), answer(kind, s, probs, start, given)


def main():
    rnd = random.Random(6386)
    some = lambda n: bytes(rnd.randrange(256) for _ in range(n))
    probs = lambda n: [rnd.randrange(256) for _ in range(n)]
    cases = []
    for n in (0, 1):                                            # none holds no symbol, one holds those that its eight bits decide
        cases.append(case(0, some(n), probs(3)))
    cases.append(case(0, b"\xff\xff", [0] * 4))                  # a first byte of 255, probability 0
    cases.append(case(0, b"\xff" * 30, [0, 255] * 8))
    cases.append(case(0, b"\0" * 30, [255, 0] * 8))
    cases.append(case(0, b"\0\0", [128] * 16))                   # ten symbols; the eleventh's eighth bit is past the end
    for n in (2, 3, 4, 8, 30):
        for _ in range(2):
            cases.append(case(0, some(n), probs(16)))
    for _ in range(6):                                          # what the encoder wrote comes back
        p, b = probs(16), [rnd.randrange(2) for _ in range(16)]
        s = encode(b, p)                                        # not a byte more
        c, a = case(0, s, p)
        assert a.startswith("".join(map(str, b)) + " "), (a, b)
        cases.append((c, a))
    for n in (0, 1, 5, 11, 16, 17):                              # numbers, seventeen bits refused
        cases.append(case(1, some(30), probs(n)))
    cases.append(case(1, some(2), [1] * 16))
    for start in (0, 0, 0, 1, 1, 3, 10, 11):                     # leaves of the token tree, from any node; node 11 is not one
        cases.append(case(2, some(30), probs(11), start))
    cases.append(case(2, some(30), probs(10)))                   # a node without a probability
    cases.append(case(2, some(2), [200] * 11))
    s = some(12)                                                # given readers: in range, up to two past the end; then one thing out of range each
    for g in ((2, 128, 0, 65535), (12, 255, 7, 128 * 300), (5, 200, 3, 8 * 5000), (13, 200, 0, 256 * 77), (13, 200, 1, 256 * 77),
              (14, 200, 0, 0), (1, 200, 3, 8), (15, 200, 0, 0), (5, 127, 3, 8), (5, 256, 3, 8), (5, 200, 8, 256), (5, 200, 3, 65536), (5, 200, 3, 12)):
        cases.append(case(3, s, probs(12), 0, g))
    cases.append(case(3, s[:5], [128] * 8, 0, (5, 128, 7, 128)))
    with open("crates/try_symbols/stdin", "wb") as f:
        f.write(b"".join(c for c, _ in cases))
    with open("crates/try_symbols/stdout", "w") as f:
        f.write("".join(a + "\n" for _, a in cases))
    print(len(cases), "cases")
    # crates/try_counted: leaves of the segment tree until the bytes run out
    s, n = some(500), 0
    r = Reader(s)
    try:
        while True:
            high = r.symbol(120)
            r.symbol((100, 180)[high])
            n += 1
    except Missing:
        pass
    with open("crates/try_counted/stdin", "wb") as f:
        f.write(b"\2" + s)
    with open("crates/try_counted/stdout", "w") as f:
        f.write(f"{n}\n")


main()
