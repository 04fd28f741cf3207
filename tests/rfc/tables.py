#!/usr/bin/env python3
"""Every table of RFC 6386 that a key frame needs, as its sections 8 to 15 print it and as section 20 prints it, beside the project's: the
definitions (crates/*/specs) and the code (crates/*/src).

    tables.py RFC6386.TXT REPOSITORY

One line for each comparison; status 1 where one differs.
"""
import os
import re
import sys

sys.dont_write_bytecode = True
from decoder import unpaged  # noqa: E402

NAMES = {}
for group in (["DC_PRED", "V_PRED", "H_PRED", "TM_PRED", "B_PRED"],
              ["B_DC_PRED", "B_TM_PRED", "B_VE_PRED", "B_HE_PRED", "B_LD_PRED", "B_RD_PRED", "B_VR_PRED", "B_VL_PRED", "B_HD_PRED", "B_HU_PRED"],
              ["DCT_0", "DCT_1", "DCT_2", "DCT_3", "DCT_4", "dct_cat1", "dct_cat2", "dct_cat3", "dct_cat4", "dct_cat5", "dct_cat6", "dct_eob"]):
    NAMES.update({n: i for i, n in enumerate(group)})

# the project's numbers (docs/SCOPE.md, "Modes"; tokens: crates/reader/specs/Token.antt), by the RFC's
LARGE = [0, 2, 3, 1]
SMALL = [0, 1, 2, 3, 6, 4, 5, 7, 8, 9]
TOKEN = [1, 2, 3, 4, 5, 6, 7, 8, 9, 10, 11, 0]


def arrays(text):
    """{name: [(line, numbers), ..]} of the initialised C arrays in lines (number, line)"""
    joined = "".join(f"\x00{n}\x01{l}\n" for n, l in text)
    found = {}
    for m in re.finditer(r"\b(\w+)\s*((?:\[[^\]=;]*\]\s*(?:\x00\d+\x01\s*)?)+)=\s*(?:\x00\d+\x01\s*)*\{", joined):
        at, depth = m.end(), 1
        while depth and at < len(joined):
            depth += {"{": 1, "}": -1}.get(joined[at], 0)
            at += 1
        body = re.sub(r"\x00\d+\x01", "", joined[m.end():at - 1])
        body = re.sub(r"//[^\n]*", "", re.sub(r"/\*.*?\*/", "", body, flags=re.S))
        numbers = []
        for word in re.findall(r"-?\s*\w+(?:\(\d+\))?", body):
            word = re.sub(r"\s", "", word)
            w = word.lstrip("-")
            if re.fullmatch(r"X\(\d+\)", w):
                v = int(w[2:-1])
            elif re.fullmatch(r"\d+", w):
                v = int(w)
            elif w in NAMES:
                v = NAMES[w]
            else:
                break
            # a leaf is written -NAME or -0: kept apart from a node by its minus sign
            numbers.append(("leaf", v) if word.startswith("-") else v)
        else:
            line = int(re.findall(r"\x00(\d+)\x01", joined[:m.start()])[-1])
            found.setdefault(m.group(1), []).append((line, numbers))
    return found


def tree(numbers, leaves):
    """The RFC's tree in the project's form: node i for entry 2i, leaves renumbered; lists of (is a leaf, number)"""
    return [(True, leaves[v[1]]) if isinstance(v, tuple) else (False, v / 2) for v in numbers]


def below_root(t):
    """What stands below the root's right branch, as a tree of its own: every node's number one less"""
    return [x if x[0] else (False, x[1] - 1) for x in t[2:]]


class Repository:
    def __init__(self, root):
        self.root = root

    def read(self, path):
        with open(os.path.join(self.root, path), encoding="utf-8") as source:
            return source.read()

    def list(self, path, name):
        """A definition NAME = a ∷ b ∷ .. ∷ [] of numbers, or of leaves and nodes"""
        body = re.search(r"(?m)^" + re.escape(name) + r" =\s*(.*?)(?=\n\S|\n\n|\Z)", self.read(path), re.S).group(1)
        body = re.sub(r"--[^\n]*", "", body)
        out = []
        for item in body.split("∷"):
            item = item.strip()
            if item.startswith(("leaf", "node")):
                out.append((item.startswith("leaf"), int(item.split()[1])))
            elif item != "[]":
                out.append(int(item))
        return out

    def lists(self, path, name):
        body = re.search(r"(?m)^" + re.escape(name) + r" =\s*(.*?)\n\n", self.read(path), re.S).group(1)
        return [[int(x) for x in re.findall(r"\d+", g)] for g in re.findall(r"\(([^()]*)\)", body)]

    def const(self, path, name):
        body = re.search(r"const " + name + r": [^=]* = \[(.*?)\];", self.read(path), re.S).group(1)
        return [int(x) for x in re.findall(r"-?\d+", body)]

    def const_tree(self, path, name):
        """Zero or less is a leaf, positive a node"""
        return [(v <= 0, abs(v)) for v in self.const(path, name)]


HEADER, FRAME, MODES = "crates/header/specs/Quantizers.antt", "crates/frame/specs/Tables.antt", "crates/modes/specs/Modes.antt"
BLOCK, TABLE = "crates/coefficients/specs/Block.antt", "crates/modes/specs/Table.antt"
STEPS, PROBS, CODED = "crates/header/src/quantizers.rt", "crates/frame/src/tables.rt", "crates/coefficients/src/block.rt"

# the name in the prose, the name in section 20, how many numbers, where the definition is, where the code is
NUMBERS = [
    ("dc_qlookup", "dc_q_lookup", 128, (HEADER, "dc_steps"), (STEPS, "DC")),
    ("ac_qlookup", "ac_q_lookup", 128, (HEADER, "ac_steps"), (STEPS, "AC")),
    ("coeff_update_probs", "k_coeff_entropy_update_probs", 1056, (FRAME, "update_probs"), (PROBS, "UPDATES")),
    ("default_coeff_probs", "k_default_coeff_probs", 1056, (FRAME, "default_probs"), (PROBS, "DEFAULTS")),
    ("coeff_bands", "bands_x", 16, (BLOCK, "bands"), (CODED, "BANDS")),
]


class Comparison:
    def __init__(self, text, root):
        self.repo, self.count, self.bad = Repository(root), 0, 0
        lines = unpaged(text)
        end = [i for i, (_, l) in enumerate(lines) if l.startswith("20.  Attachment One")][-1]
        self.prose, self.code = arrays(lines[:end]), arrays(lines[end:])

    def same(self, what, a, b, a_name, b_name):
        self.count += 1
        if a == b:
            print(f"equal  {what}, {len(a)} numbers: {a_name} = {b_name}")
            return
        self.bad += 1
        at = [i for i in range(max(len(a), len(b))) if a[i:i + 1] != b[i:i + 1]]
        print(f"DIFFERENT  {what}: {a_name} ({len(a)}) and {b_name} ({len(b)}), first at {at[0]}: {a[at[0]:at[0] + 1]} {b[at[0]:at[0] + 1]}; {len(at)} in all")

    def rfc(self, name, size, where):
        """The table by this name, and its line; all places that print it must agree"""
        places = where[name]
        for line, numbers in places:
            assert len(numbers) == size, (name, line, len(numbers))
            if line != places[0][0]:
                self.same(name, places[0][1], numbers, f"RFC line {places[0][0]}", f"RFC line {line}")
        return places[0][1], f"RFC line {places[0][0]}"

    def pair(self, prose_name, code_name, size):
        a, an = self.rfc(prose_name, size, self.prose)
        b, bn = self.rfc(code_name, size, self.code)
        self.same(prose_name, a, b, an, bn)
        return a, an

    def numbers(self):
        for prose_name, code_name, size, spec, source in NUMBERS:
            a, an = self.pair(prose_name, code_name, size)
            self.same(prose_name, a, self.repo.list(*spec), an, spec[0])
            self.same(prose_name, a, self.repo.const(*source), an, source[0])
            if prose_name == "coeff_bands":
                after, fast = [33 * b for b in a[1:]] + [0], "crates/residual/src/fast.rt"
                self.same("the band after each position, times 33", after, self.repo.const(fast, "BANDS_AFTER"), an, fast)
        z, zn = self.rfc("zigzag", 16, self.code)
        self.same("zigzag (printed in section 20 alone)", z, self.repo.list(BLOCK, "zigzag"), zn, BLOCK)
        self.same("zigzag", z, self.repo.const(CODED, "ZIGZAG"), zn, CODED)

    def small_modes(self):
        """The 900 probabilities: in the RFC's order, and with both modes renumbered as the code has them"""
        a, an = self.pair("kf_bmode_prob", "kf_b_mode_probs", 900)
        self.same("kf_bmode_prob", a, self.repo.list(TABLE, "rfc_table"), an, TABLE)
        to_rfc = [SMALL.index(m) for m in range(10)]
        permuted = [a[(to_rfc[x] * 10 + to_rfc[y]) * 9 + j] for x in range(10) for y in range(10) for j in range(9)]
        written = re.search(r"rfc_numbers = (.*)", self.repo.read(TABLE)).group(1)
        numbers = [int(x) for x in written.replace("[]", "").replace("∷", " ").split()]
        self.same("the RFC's numbers of the small modes", to_rfc, numbers, "RFC's enumeration, section 11.2", TABLE)
        self.same("kf_bmode_prob by the project's numbers", permuted, self.repo.const("crates/modes/src/table.rt", "BMODE"), an, "crates/modes/src/table.rt")

    def categories(self):
        """Extra bits: section 20 has them from the low bit up, each with its least number and its width less one"""
        (line, extra), = self.code["extrabits"]
        rows = [extra[14 * i:14 * i + 14] for i in range(12)]  # least, width less one, 12 probabilities, for 12 tokens
        specs, bases = self.repo.lists(BLOCK, "categories"), self.repo.list(BLOCK, "bases")
        for c in range(1, 7):
            p, pn = self.rfc(f"Pcat{c}", len(specs[c - 1]) + 1, self.prose)
            assert p[-1] == 0
            p, row = p[:-1], rows[4 + c]
            self.same(f"Pcat{c}", p, row[2:2 + row[1] + 1][::-1], pn, f"RFC line {line}")
            self.same(f"Pcat{c}", p, specs[c - 1], pn, BLOCK)
            self.same(f"Pcat{c}", p, self.repo.const(CODED, f"CAT{c}"), pn, CODED)
        self.same("the categories' least numbers", [rows[4 + c][0] for c in range(1, 7)], bases, f"RFC line {line}", BLOCK)
        used = [int(x) for x in re.findall(r"extended\(s, r, &CAT\d, (\d+)\)", self.repo.read(CODED))]
        self.same("the categories' least numbers", bases, used, BLOCK, CODED)

    def large_modes(self):
        """The fixed probabilities of luma and chroma modes"""
        y, yn = self.pair("kf_ymode_prob", "kf_y_mode_probs", 4)
        uv, un = self.pair("kf_uv_mode_prob", "kf_uv_mode_probs", 3)
        modes = self.repo.read(MODES)
        root = [int(re.search(r"large ← symbol (\d+)", modes).group(1))]
        large = {}
        for chroma in ("false", "true"):
            written = re.search(r"large_mode_of " + chroma + r" = tree \(([\d ∷]*)\[\]\)", modes).group(1)
            large[chroma] = [int(x) for x in written.replace("∷", " ").split()]
        self.same("kf_ymode_prob", y, root + large["false"], yn, MODES)
        self.same("kf_uv_mode_prob", uv, large["true"], un, MODES)
        path = "crates/modes/src/large.rt"
        sets = [[int(x) for x in t.replace("u8", "").split(",")] for t in re.findall(r"&\[(\d+u8[\d, ]*)\]", self.repo.read(path))]
        self.same("kf_uv_mode_prob", uv, sets[0], un, path)
        self.same("kf_ymode_prob below the root", y[1:], sets[1], yn, path)

    def trees(self):
        seg, sn = self.rfc("mb_segment_tree", 6, self.prose)
        yt, ytn = self.pair("kf_ymode_tree", "kf_y_mode_tree", 8)
        ut, utn = self.pair("uv_mode_tree", "uv_mode_tree", 6)
        bt, btn = self.pair("bmode_tree", "b_mode_tree", 18)
        ct, ctn = self.rfc("coeff_tree", 22, self.prose)
        assert yt[0] == ("leaf", NAMES["B_PRED"]) and yt[1] == 2
        large, small, token = "crates/modes/src/large.rt", "crates/modes/src/small.rt", "crates/reader/src/token.rt"
        for what, t, name, spec, source in (
                ("mb_segment_tree", tree(seg, [0, 1, 2, 3]), sn, (MODES, "seg_tree"), (large, "SEG_TREE")),
                ("kf_ymode_tree below the root", below_root(tree(yt, LARGE + [None])), ytn, (MODES, "y_tree"), (large, "Y_TREE")),
                ("uv_mode_tree", tree(ut, LARGE), utn, (MODES, "uv_tree"), (large, "UV_TREE")),
                ("bmode_tree", tree(bt, SMALL), btn, (MODES, "b_tree"), (small, "B_TREE")),
                ("coeff_tree", tree(ct, TOKEN), ctn, ("crates/reader/specs/Token.antt", "token_tree"), (token, "TOKEN_TREE"))):
            self.same(what, t, self.repo.list(*spec), name, spec[0])
            self.same(what, t, self.repo.const_tree(*source), name, source[0])


def main():
    if len(sys.argv) != 3:
        sys.exit(__doc__)
    with open(sys.argv[1], encoding="ascii") as source:
        text = source.read()
    c = Comparison(text, sys.argv[2])
    for part in (c.numbers, c.small_modes, c.categories, c.large_modes, c.trees):
        part()
    print(f"{c.count} comparisons, {c.bad} different")
    sys.exit(1 if c.bad or c.count < 63 else 0)


if __name__ == "__main__":
    main()
