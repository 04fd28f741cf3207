#!/usr/bin/env python3
"""The program beside RFC 6386's own decoder (decoder.py builds it), sample by sample, before and after the loop filter.

    compare.py PROGRAM RFC WORK files FILE..            key frames of WebP and IVF files, and bare ones
    compare.py PROGRAM RFC WORK rows                    the frames of kept/rows.txt: each must differ by the rule that it is named after
    compare.py PROGRAM RFC WORK made SEED FROM TO       made frames (tests/model/made_frames.py)
    compare.py PROGRAM RFC WORK cuts FILE.. [SEED:N]..  each frame with each partition cut to every length; N is a made frame
    compare.py PROGRAM RFC WORK kept                    makes kept/expected.txt anew

RFC is the folder of rfc-decode and rfc-decode-forms. Where the two differ the project's rules are tried in the place of the RFC's (driver.c),
the fewest first, and the frame counts under the rules that make them equal: `form` is rfc-decode-forms, which takes what rfc-decode refuses. Of
a cut frame the macroblocks that the program says it finished must be the RFC's, which reads zeros past the end. Status 1 where something
differs that no rule explains, or a tame frame needs a rule.
"""
import collections
import itertools
import os
import shutil
import sys

import frames as f

RULES = [()] + [c for n in (1, 2, 3) for c in itertools.combinations(("clamp", "wide", "empty"), n)]
RULES = [(program, rules) for rules in RULES for program in ("rfc-decode", "rfc-decode-forms")]


class Both:
    """The two decoders over a folder of frames."""

    def __init__(self, program, rfc, work, frames):
        shutil.rmtree(work, ignore_errors=True)
        self.program, self.rfc, self.frames = program.split(), rfc, frames
        self.folder = f.Folder(work, frames)

    def ours(self, *options):
        return self.folder.decoded([*self.program, "decode", "--to", "yuv", *options])

    def theirs(self, names, program, rules, *options):
        words = [w for r in rules for w in ("--rule", r)]
        return self.folder.decoded([os.path.join(self.rfc, program), *words, *options], names)[0]

    def explained(self, pictures, options):
        """For each frame the first rules under which the RFC's decoder gives the program's pictures: {name: (words, the RFC's pictures)}"""
        found, left = {}, [n for n in self.frames if all(n in p for p in pictures)]
        for program, rules in RULES:
            if not left:
                break
            rest = left
            given = []
            for picture, option in zip(pictures, options):
                given.append(self.theirs(rest, program, rules, *option))
                rest = [n for n in rest if self.alike(n, picture, given[-1])]
            for name in rest:
                word = "+".join(("form",) * (program != "rfc-decode") + rules) or "-"
                found[name] = word, [g[name] for g in given]
            left = [n for n in left if n not in found]
        return found

    def alike(self, name, ours, theirs):
        return ours[name] == theirs.get(name)


class Cut(Both):
    """Of cut frames the macroblocks that were finished."""

    def __init__(self, *words):
        super().__init__(*words)
        self.before, self.said = self.ours("--unfiltered")

    def alike(self, name, ours, theirs):
        frame = self.frames[name]
        return name in theirs and f.same(frame, ours[name], theirs[name], f.finished(self.said.get(name, ""), frame))


def whole(both, tally):
    """Frames compared before and after the filter."""
    before, said = both.ours("--unfiltered")
    after, _ = both.ours()
    found = both.explained([before, after], [["--unfiltered"], []])
    bad = 0
    for name in both.frames:
        word = found[name][0] if name in found else "NOTHING EXPLAINS IT" if name in before else "refused by the program"
        if name not in found or name in said or (name.endswith("-tame") and word != "-") or (name.endswith("-formal") and word not in ("-", "form")):
            bad += 1
            print(f"{name}: {word}; {said.get(name, 'whole')}", flush=True)
        kind = name.rsplit("-", 1)[-1] if name[:5].isdigit() else "file"
        tally[f"{kind}: " + ("equal" if word == "-" else word)] += 1
    tally["macroblocks"] += sum(f.finished(said.get(n, ""), g) for n, g in both.frames.items() if n in found)
    return bad, found


def cut(cuts, tally):
    bad = 0
    found = cuts.explained([cuts.before], [["--unfiltered"]])
    for name, frame in cuts.frames.items():
        said = cuts.said.get(name, "whole")
        if name not in cuts.before:
            tally["refused by the program: " + said.split(",")[0]] += 1
        elif name not in found:
            bad += 1
            print(f"{name}: NOTHING EXPLAINS IT; {said}", flush=True)
        else:
            kind = "whole" if said == "whole" else said.split(",")[0]
            tally[f"{kind}: " + {"-": "equal"}.get(found[name][0], found[name][0])] += 1
            tally["macroblocks finished"] += f.finished(cuts.said.get(name, ""), frame)
    return bad


def sources(words):
    """Frames of files, and made ones named SEED:N"""
    out = {}
    for word in words:
        if ":" in word:
            seed, n = map(int, word.split(":"))
            out.update(f.made(seed, n, n + 1))
        else:
            out.update(f.named(word))
    return out


def main():
    if len(sys.argv) < 5:
        sys.exit(__doc__)
    program, rfc, work, what, *words = sys.argv[1:]
    tally, bad = collections.Counter(), 0
    if what == "files":
        bad, _ = whole(Both(program, rfc, work, sources(words)), tally)
    elif what == "rows":
        bad, found = whole(Both(program, rfc, work, f.rows()), tally)
        for name, (rules, _) in found.items():
            wanted = "form" if name in ("row-window", "row-byte") else name[4:]
            if rules != wanted:
                bad += 1
                print(f"{name}: explained by {rules}")
    elif what == "made":
        seed, begin, end = map(int, words)
        for at in range(begin, end, 500):
            bad += whole(Both(program, rfc, work, f.made(seed, at, min(at + 500, end))), tally)[0]
    elif what == "cuts":
        for name, frame in sources(words).items():
            bad += cut(Cut(program, rfc, work, f.cuts(name, frame)), tally)
    else:
        all_frames = f.kept()
        bad, found = whole(Both(program, rfc, work, all_frames), tally)
        with open(os.path.join(f.HERE, "kept", "expected.txt"), "w") as out:
            out.write("# what RFC 6386's own decoder gives: frame, rules put into it, md5 of the frame, of its samples before and after the filter\n")
            for name, frame in all_frames.items():
                rules, pictures = found[name]
                out.write(" ".join([name, rules, f.md5(frame), *map(f.md5, pictures)]) + "\n")
    for label, n in sorted(tally.items()):
        print(f"{n:8}  {label}")
    print(f"{bad} unexplained")
    sys.exit(1 if bad else 0)


if __name__ == "__main__":
    main()
