#!/usr/bin/env python3
"""Makes stdin and stdout of crates/try_singles: single macroblocks of every mode, and what decoding each must give.

Independent of the crates: written from RFC 6386 and the scope in Python's own integers. A macroblock is made up, its modes and
tokens are written by a boolean encoder (section 7.3), and its samples are predicted (section 12), transformed and summed
(section 14) here. Run it in the repository's root; the seed is fixed, so the two files come out the same each time.

The file: the header, 1096 entries of two bytes, each 32768 too large; then the cases, each 34 bytes and two partitions: column,
row, seed (2 bytes), the partitions' lengths (2 bytes each), and for above and left four modes and nine flags. All numbers are
big-endian. The planes are 48 by 32 luma samples and 24 by 16 of chroma, filled from the seed before each case.

A line: the answer's number, the sums of Y, U and V, the four strengths, segment, skip, small, chroma, the sixteen luma modes,
what is left for below and for the right (four modes and nine flags each), the places of the two readers, and the symbols read from the two
partitions.
"""
import random

WIDTH, HEIGHT = 48, 32

# ---- section 7.3: the encoder, as exact arithmetic


class Encoder:
    def __init__(self):
        self.low, self.range, self.shifts, self.needed = 0, 255, 0, []

    def put(self, bit, prob):
        self.needed.append(self.shifts + 8)  # the eight bits that decide it begin behind the shifts so far
        split = 1 + ((self.range - 1) * prob >> 8)
        if bit:
            self.low += split
            self.range -= split
        else:
            self.range = split
        while self.range < 128:
            self.low, self.range, self.shifts = 2 * self.low, 2 * self.range, self.shifts + 1

    def code(self, bits, probs):
        for b, p in zip(bits, probs):
            self.put(b, p)

    def bytes(self):
        """As many bytes as decide the last symbol, and not one more: a reader loads zeros past them."""
        size = -(-(self.shifts + 8) // 8)
        return (self.low << 8 * size - 8 - self.shifts).to_bytes(size, "big")[:-(-max(self.needed, default=0) // 8)]

    def reads(self, size):
        """How many symbols so many bytes decide."""
        return sum(n <= 8 * size for n in self.needed)

    def place(self):
        """Where a reader is after the last symbol: it loaded two bytes, and one at each eighth shift."""
        return 2 + self.shifts // 8


# ---- sections 9.3, 9.6, 11, 19.3: modes. Large modes and the first four small ones share their numbers: DC, TM, V, H
SMALL = ["DC", "TM", "VE", "HE", "RD", "VR", "LD", "VL", "HD", "HU"]  # the numbers of the crates
RFC = ["DC", "TM", "VE", "HE", "LD", "RD", "VR", "VL", "HD", "HU"]  # the order of the RFC's table
CODES = {  # bit, node
    "DC": [(0, 0)],
    "TM": [(1, 0), (0, 1)],
    "VE": [(1, 0), (1, 1), (0, 2)],
    "HE": [(1, 0), (1, 1), (1, 2), (0, 3), (0, 4)],
    "RD": [(1, 0), (1, 1), (1, 2), (0, 3), (1, 4), (0, 5)],
    "VR": [(1, 0), (1, 1), (1, 2), (0, 3), (1, 4), (1, 5)],
    "LD": [(1, 0), (1, 1), (1, 2), (1, 3), (0, 6)],
    "VL": [(1, 0), (1, 1), (1, 2), (1, 3), (1, 6), (0, 7)],
    "HD": [(1, 0), (1, 1), (1, 2), (1, 3), (1, 6), (1, 7), (0, 8)],
    "HU": [(1, 0), (1, 1), (1, 2), (1, 3), (1, 6), (1, 7), (1, 8)],
}
# kf_bmode_prob: nine for each mode above and each mode left
TABLE = bytes.fromhex("""
    e7783059737178987098b3407eaa762e465faf458f505552489b67383a0aabdabd110d9890470a26abd590221a
    721a11a32cc3150aad791850c31a3e2c4055aa2e371388a021ce473f14087272d00c09e251280b60b6541d1024
    86b7598962656aa59448bb64829d6f204b504266a7634a3e28ea80293509b2f18d1a086b684f0c1bd9ff571107
    4a2b1a9249a631179d412669a033341f73805744472c72330fba172f290e6eb6b71511c2422d1966c5bd171216
    585893962a2e2dc4cd2b61b775552623b33d2735c8571a152be8ab3822336872661d5d4d6b36201a3301512b1f
    271c55ab3aa55a6240221674ce17222ba64944196a1640ab24e1722213156684bc104c7c3e124e5f5539323033
    c165239fd76f592e6f3c941facdbe415126f70714d55b3ff267872282a01c4f5d10a196d6450082b9a01331a47
    582b1d8ca6d5252b9a3d3f1e9b432d4401d18e4e4e10ff8022c5ab29280566d3b70401dd333211a8d1c0171952
    7d622a58685575af525f543559806471652d4b4f7b2f338051ab013911054766393529317315020a66ffa61706
    26210d7939491a0155290a438a4d6e5a2f72651d100a558065c41a39120a6666d522142b75140f24a38044011a
    8a1f24ab1ba6262ce543573aa952731a3bb33f3b5ab43ba65d499a282815748fd12227af392e16188001361125
    2f0f10b722df312db72e1121b706620f20b7412049731c801780cd2803097333c01206df572509733b4d40152f
    68372cda09363582e2405a46cd2829171a39363970b8052926a6d51e221a8598740a20864b200c33c0ffa02b33
    271335dd1a722049ff1f0941ea020f017649581f2343665537ba553815176f3bcd2d25c03726467c4966012262
    663d472522351ff3c0453c472649771cde25442d8022012f0bf5ab3e1113469255373e464b0f090940ffb87710
    252b259a64a355a0013f095c881c4020c95556061c0540ff19f8013808118489ff3774803a0f145287391a7928
    a4321f899a851923da33672c83837b1f069e5628408794e02db780161a1183f09a0e01d1530c0d36c0ff442f1c
    2d10155b40de0701c53815279b3c8a1766d5551a555580802092ab120b073f90ab0404f6231b0a92aeab0c1a80
    be502363b4507e362d557e2f57b033291420654b808b769274805538290fb0ec5525093e9224131eabff611b14
    471e117776ff11128a65263c8a37462b1a8e8a2d3d3edb0151bc4020291475978e1415a370130c3dc380300418
""")


def put_modes(e, h, mb, top, left):
    if h[3]:
        p = [x % 256 for x in h[14:17]]
        e.code([mb.segment >> 1, mb.segment & 1], [p[0], p[1 + (mb.segment >> 1)]])
    if h[1094]:
        e.put(mb.skip, h[1095] % 256)
    e.put(not mb.small, 145)
    if mb.small:
        above, beside = list(top[:4]), list(left[:4])
        for i, m in enumerate(mb.modes):
            at = 90 * RFC.index(SMALL[above[i % 4]]) + 9 * RFC.index(SMALL[beside[i // 4]])
            for bit, node in CODES[SMALL[m]]:
                e.put(bit, TABLE[at + node])
            above[i % 4] = beside[i // 4] = m
    else:
        e.code({0: (0, 0), 2: (0, 1), 3: (1, 0), 1: (1, 1)}[mb.modes[0]], (156, 163 if mb.modes[0] in (0, 2) else 128))
    e.code({0: [0], 2: [1, 0], 3: [1, 1, 0], 1: [1, 1, 1]}[mb.chroma], (142, 114, 183))


# ---- section 13: tokens
BANDS = [0, 1, 2, 3, 6, 4, 5, 6, 6, 6, 6, 6, 6, 6, 6, 7]
ZIGZAG = [0, 1, 4, 8, 5, 2, 3, 6, 9, 12, 13, 10, 7, 11, 14, 15]
TREE = [  # least magnitude, bit and node from node 2 on, probabilities of the extra bits
    (1, [(0, 2)], []),
    (2, [(1, 2), (0, 3), (0, 4)], []),
    (3, [(1, 2), (0, 3), (1, 4), (0, 5)], []),
    (4, [(1, 2), (0, 3), (1, 4), (1, 5)], []),
    (5, [(1, 2), (1, 3), (0, 6), (0, 7)], [159]),
    (7, [(1, 2), (1, 3), (0, 6), (1, 7)], [165, 145]),
    (11, [(1, 2), (1, 3), (1, 6), (0, 8), (0, 9)], [173, 148, 140]),
    (19, [(1, 2), (1, 3), (1, 6), (0, 8), (1, 9)], [176, 155, 140, 135]),
    (35, [(1, 2), (1, 3), (1, 6), (1, 8), (0, 10)], [180, 157, 141, 134, 130]),
    (67, [(1, 2), (1, 3), (1, 6), (1, 8), (1, 10)], [254, 254, 243, 230, 196, 177, 153, 140, 133, 130, 129]),
]


def put_block(e, h, kind, first, ctx, values):
    """The values from place `first` on in zigzag order, then the end of the block unless it is full."""
    zero = False
    for n in range(first, 16):
        p = [x % 256 for x in h[38 + ((kind * 8 + BANDS[n]) * 3 + ctx) * 11:][:11]]
        if n - first == len(values):
            e.put(0, p[0])
            return
        v = values[n - first]
        if not zero:
            e.put(1, p[0])
        e.put(v != 0, p[1])
        if v:
            least, path, extra = [t for t in TREE if t[0] <= abs(v)][-1]
            e.code([b for b, _ in path], [p[i] for _, i in path])
            more = abs(v) - least
            e.code([more >> len(extra) - 1 - i & 1 for i in range(len(extra))], extra)
            e.put(v < 0, 128)
        zero = v == 0
        ctx = min(abs(v), 2)


# ---- sections 9.6, 14.1: factors
DC = [4, 5, 6, 7, 8, 9, 10, 10, *range(11, 18), 17, 18, 19, 20, 20, 21, 21, 22, 22, 23, 23, 24, 25, 25, *range(26, 38), *range(37, 47),
      *range(46, 77), *range(76, 90), 91, 93, 95, 96, 98, 100, 101, 102, *range(104, 119, 2), *range(122, 141, 2), 143, 145, 148, 151, 154,
      157]
AC = [*range(4, 59), *range(60, 117, 2), *range(119, 174, 3), *range(177, 226, 4), 229, 234, 239, 245, *range(249, 285, 5)]
assert len(DC) == len(AC) == 128


def between(v, low, high):
    return min(max(v, low), high)


def own(h, base, entry):
    return (h[entry] if h[5] else h[base] + h[entry]) if h[2] else h[base]


def factors(h, segment):
    i = between(own(h, 31, 6 + segment), 0, 127)
    ydc, y2dc, y2ac, uvdc, uvac = [between(i + h[k], 0, 127) for k in range(32, 37)]
    return {0: (DC[ydc], AC[i]), 3: (DC[ydc], AC[i]), 1: (2 * DC[y2dc], max(AC[y2ac] * 155 // 100, 8)),
            2: (min(DC[uvdc], 132), AC[uvac])}


def wrapped(v):
    return (v + 32768) % 65536 - 32768


# ---- section 14: the transforms
def walsh(c):
    def line(a, b, c, d):
        return a + d + b + c, a - d + b - c, a + d - b - c, a - d - b + c
    columns = [line(*c[x::4]) for x in range(4)]
    rows = [line(*[columns[x][y] for x in range(4)]) for y in range(4)]
    return [wrapped(v + 3 >> 3) for row in rows for v in row]


def dct(c):
    def line(a, b, c, d):
        e, f = (b * 35468 >> 16) - d - (d * 20091 >> 16), b + (b * 20091 >> 16) + (d * 35468 >> 16)
        return a + c + f, a - c + e, a - c - e, a + c - f
    columns = [line(*c[x::4]) for x in range(4)]
    rows = [line(*[columns[x][y] for x in range(4)]) for y in range(4)]
    return [[v + 4 >> 3 for v in row] for row in rows]


# ---- section 12: prediction
class Plane:
    def __init__(self, width, height, seed):
        self.width, self.samples = width, []
        for _ in range(width * height):
            seed = (seed * 75 + 74) % 65537
            self.samples.append(seed % 256)

    def at(self, x, y):
        return 127 if y < 0 else 129 if x < 0 else self.samples[y * self.width + x]

    def put(self, x, y, predicted, residual):
        for r in range(4):
            for c in range(4):
                self.samples[(y + r) * self.width + x + c] = between(predicted[r][c] + residual[r][c], 0, 255)

    def sum(self):
        total = 0
        for v in self.samples:
            total = (total * 257 + v) % 4294967291
        return total


def large(plane, x, y, n, mode):
    above = [plane.at(x + i, y - 1) for i in range(n)]
    left = [plane.at(x - 1, y + i) for i in range(n)]
    inside = above * (y > 0) + left * (x > 0)
    mean = (2 * sum(inside) + len(inside)) // (2 * len(inside)) if inside else 128
    corner = plane.at(x - 1, y - 1)
    return [[(mean, between(left[r] + above[c] - corner, 0, 255), above[c], left[r])[mode] for c in range(n)] for r in range(n)]


def small(mode, above, left, p):
    """`above` is eight samples, `left` four, p the corner; the sample at row r, column c of each mode."""
    a, l = {-1: p, **dict(enumerate(above)), 8: above[7]}, {-1: p, **dict(enumerate(left)), 4: left[3], 5: left[3], 6: left[3]}
    e = left[::-1] + [p] + above  # the edge, from the bottom left to the right; place 4 is the corner

    def two(x, y):
        return x + y + 1 >> 1

    def three(x, y, z):
        return x + 2 * y + z + 2 >> 2

    def on(i):  # three around place i of the edge
        return three(e[i - 1], e[i], e[i + 1])

    def one(r, c):
        if mode == "DC":
            return sum(above[:4]) + sum(left) + 4 >> 3
        if mode == "TM":
            return between(left[r] + above[c] - p, 0, 255)
        if mode == "VE":
            return three(a[c - 1], a[c], a[c + 1])
        if mode == "HE":
            return three(l[r - 1], l[r], l[r + 1])
        if mode == "LD":
            return three(a[r + c], a[r + c + 1], a[r + c + 2])
        if mode == "RD":
            return on(4 + c - r)
        if mode == "VR":  # down two rows for one column
            k = 2 * c - r
            return on(5 + k) if k < 0 else on(5 + k // 2) if r % 2 else two(e[4 + k // 2], e[5 + k // 2])
        if mode == "HD":  # right two columns for one row
            k = 2 * r - c
            return on(3 - k) if k < 0 else on(3 - k // 2) if c % 2 else two(e[3 - k // 2], e[4 - k // 2])
        if mode == "VL":
            k = c + r // 2
            if (r, c) in ((2, 3), (3, 3)):  # the two that leave the pattern
                return three(a[r + 2], a[r + 3], a[r + 4])
            return three(a[k], a[k + 1], a[k + 2]) if r % 2 else two(a[k], a[k + 1])
        k = r + c // 2  # HU
        return left[3] if k > 3 else three(l[k], l[k + 1], l[k + 2]) if c % 2 else two(l[k], l[k + 1])

    return [[one(r, c) for c in range(4)] for r in range(4)]


def paint_small(plane, x, y, modes, residuals):
    if y == 0:
        right = [127] * 4
    elif x + 16 < plane.width:
        right = [plane.at(x + 16 + i, y - 1) for i in range(4)]
    else:
        right = [plane.at(x + 15, y - 1)] * 4
    for i, m in enumerate(modes):
        bx, by = x + i % 4 * 4, y + i // 4 * 4
        above = [plane.at(bx + k, by - 1) for k in range(4)]
        above += right if i % 4 == 3 else [plane.at(bx + 4 + k, by - 1) for k in range(4)]
        left = [plane.at(bx - 1, by + k) for k in range(4)]
        plane.put(bx, by, small(SMALL[m], above, left, plane.at(bx - 1, by - 1)), residuals[i])


def paint_large(plane, x, y, n, mode, residuals):
    square = large(plane, x, y, n, mode)
    for i, residual in enumerate(residuals):
        c, r = i % (n // 4) * 4, i // (n // 4) * 4
        plane.put(x + c, y + r, [row[c:c + 4] for row in square[r:r + 4]], residual)


# ---- sections 9.6, 15: strengths
def strengths(h, mb, inside):
    level = between(own(h, 18, 10 + mb.segment), 0, 63)
    if h[20]:
        level = between(level + h[22] + (h[26] if mb.small else 0), 0, 63)
    if level == 0:
        return [0, 0, 0, 0]
    sharp = h[19]
    inner = max(min(level >> (1 + (sharp > 4)), 9 - sharp) if sharp > 0 else level, 1)
    return [2 * level + inner, inner, (level >= 15) + (level >= 40), int(inside)]


# ---- a macroblock
class Macroblock:
    def __init__(self, segment, skip, modes, chroma, blocks):
        """`modes`: sixteen small ones, or one large one. `blocks`: 25 lists of numbers, the second-order block first."""
        self.segment, self.skip, self.small, self.chroma, self.blocks = segment, skip, len(modes) == 16, chroma, blocks
        self.modes = modes if self.small else modes * 16


def kind_and_first(mb, b):
    """Block b's kind of probabilities and the place that its numbers begin at; block 0 is the second-order one."""
    return (1, 0) if b == 0 else (2, 0) if b > 16 else (3, 0) if mb.small else (0, 1)


def put_tokens(e, h, mb, top, left):
    """Writes the tokens; gives the flags above and left afterwards."""
    top, left = list(top), list(left)
    if mb.skip:
        keep = 8 if mb.small else 9
        return [0] * keep + top[keep:], [0] * keep + left[keep:]
    for b in range(mb.small, 25):
        i = b - 1
        kind, first = kind_and_first(mb, b)
        x, y = (8, 8) if b == 0 else (i % 4, i // 4) if i < 16 else (4 + (i - 16) // 4 * 2 + i % 2, 4 + (i - 16) // 4 * 2 + i // 2 % 2)
        values = mb.blocks[b][:16 - first]
        put_block(e, h, kind, first, top[x] + left[y], values)
        top[x] = left[y] = int(len(values) > 0)
    return top, left


def residuals(h, mb):
    """The 24 residuals that a macroblock's numbers give, and whether they are empty."""
    coefficients, steps, empty = [[0] * 16 for _ in range(24)], factors(h, mb.segment), True
    for b in () if mb.skip else range(mb.small, 25):
        kind, first = kind_and_first(mb, b)
        values = mb.blocks[b][:16 - first]
        c = [0] * 16 if b == 0 else coefficients[b - 1]
        for n, v in enumerate(values, first):
            if v:
                c[ZIGZAG[n]] = wrapped(v * steps[kind][n > 0])
        if b == 0:
            for k, v in enumerate(walsh(c)):
                coefficients[k][0] = v
        else:
            empty = empty and len(values) + first <= 1 and c[0] == 0
    return [dct(c) for c in coefficients], empty


def paint(planes, column, row, mb, residuals):
    """Predicts and sums all of a macroblock's samples."""
    y, u, v = planes
    if mb.small:
        paint_small(y, 16 * column, 16 * row, mb.modes, residuals[:16])
    else:
        paint_large(y, 16 * column, 16 * row, 16, mb.modes[0], residuals[:16])
    paint_large(u, 8 * column, 8 * row, 8, mb.chroma, residuals[16:20])
    paint_large(v, 8 * column, 8 * row, 8, mb.chroma, residuals[20:])


def case(h, mb, column, row, seed, top, left, cut=None):
    """The bytes of a case and its line. `cut` is the partition that lacks its last byte."""
    first, tokens = Encoder(), Encoder()
    put_modes(first, h, mb, top, left)
    above, beside = put_tokens(tokens, h, mb, top[4:], left[4:])
    s, t = first.bytes(), tokens.bytes()
    y, u, v = Plane(WIDTH, HEIGHT, seed), Plane(WIDTH // 2, HEIGHT // 2, seed + 1), Plane(WIDTH // 2, HEIGHT // 2, seed + 2)
    answer, modes, rest = 0, mb.modes, [0] * 8
    if cut == "modes":
        answer, s = 6, s[:-1]
    elif cut == "tokens":
        answer, t = 7, t[:-1]
    if answer == 0:
        added, empty = residuals(h, mb)
        paint((y, u, v), column, row, mb, added)
        rest = strengths(h, mb, mb.small or not empty) + [mb.segment, int(mb.skip), int(mb.small), mb.chroma]
        below, right, places = modes[12:] + above, modes[3::4] + beside, [first.place(), tokens.place()]
    else:
        modes, below, right, places = [0] * 16, [0] * 13, [0] * 13, [0, 0]
    reads = [first.reads(len(s)), 0 if answer == 6 else tokens.reads(len(t))]
    words = [answer, y.sum(), u.sum(), v.sum(), *rest, *["".join(map(str, d)) for d in (modes, below, right)], *places, *reads]
    data = bytes([column, row]) + b"".join(n.to_bytes(2, "big") for n in (seed, len(s), len(t))) + bytes(top + left)
    return data + s + t, " ".join(map(str, words))


# ---- what is tried
def header(rnd):
    h = [0] * 1096
    h[2] = h[3] = h[5] = 1
    h[6:10] = 4, 40, 90, 127
    h[10:14] = 15, 39, 14, 0
    h[14:17] = 120, -90, 200
    h[18:21] = 33, 1, 1
    h[22], h[26] = 0, 1
    h[31:37] = 50, 3, -5, 7, 10, -20
    h[38:1094] = [rnd.choice((-1, 1)) * rnd.randint(1, 255) for _ in range(1056)]
    h[1094:] = 1, 60
    return h


def numbers(rnd):
    """One block: most have no number or few, some are full, some large, some of zeros alone."""
    n = rnd.choice((0, 0, 0, 0, 0, 0, 0, 1, 1, 1, 2, 3))
    if rnd.random() < .02:
        return [rnd.randint(-1, 1) * rnd.randint(0, 1) for _ in range(16)]
    most = rnd.choice((1, 2, 4, 12, 70, 2114))
    l = [rnd.randint(-most, most) for _ in range(n)]
    while l and l[-1] == 0:
        l.pop()
    return l


def main():
    rnd = random.Random(12)
    h = header(rnd)
    places = [(0, 0), (1, 0), (0, 1), (1, 1), (2, 1), (2, 0)]  # column, row
    cases = []

    def add(modes, chroma, place, skip=False, cut=None, plain=False):
        blocks = [[] if plain else numbers(rnd) for _ in range(25)]
        mb = Macroblock(rnd.randrange(4), skip, modes, chroma, blocks)
        around = lambda: [rnd.randrange(10) for _ in range(4)] + [rnd.randrange(2) for _ in range(9)]
        cases.append(case(h, mb, *place, rnd.randrange(60000), around(), around(), cut))

    for m in range(4):  # each large mode with each chroma mode, both at the four kinds of place
        for c in range(4):
            add([m], c, places[(m + c) % 4])
    for m in range(10):  # each small mode in all sixteen sub-blocks
        add([m] * 16, m % 4, places[3 + m % 3])
    for place in places:  # small modes mixed
        add([rnd.randrange(10) for _ in range(16)], rnd.randrange(4), place)
    add([0], 0, (1, 1), skip=True)
    add([5, 6] * 8, 1, (1, 1), skip=True)
    add([2], 3, (2, 1), plain=True)
    add([8, 9, 7, 4] * 4, 2, (0, 1), cut="modes")
    add([1], 1, (1, 1), cut="tokens")
    with open("crates/try_singles/stdin", "wb") as f:
        f.write(b"".join((x + 32768).to_bytes(2, "big") for x in h) + b"".join(c for c, _ in cases))
    with open("crates/try_singles/stdout", "w") as f:
        f.write("".join(line + "\n" for _, line in cases))
    print(len(cases), "cases")


if __name__ == "__main__":
    main()
