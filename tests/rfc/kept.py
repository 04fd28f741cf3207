#!/usr/bin/env python3
"""The program beside what RFC 6386's own decoder gave: kept.py PROGRAM WORK. kept.sh calls it.

Every frame of kept/expected.txt, those of the kept files, the five rows and the made ones, made again from their seed: the md5 of the samples
before and after the loop filter. Then cuts: a few of these frames with each partition shortened to every length, of which every macroblock
that the program finishes must be as in the whole picture, which is the RFC's. It fails too where no frame has one of the forms of a header or
one of the modes.
"""
import collections
import os
import re
import shutil
import subprocess
import sys

import frames as f

CUT = ("one-sample-webp-0", "fine-webp-0", "unfiltered-webp-0", "00042-tame")


def missing_modes(program, folder):
    """The large and chroma modes that no macroblock has, by what the program counts."""
    files = [os.path.join(folder.path, name + ".vp8") for name in folder.frames]
    said = subprocess.run([*program, "info", *files], capture_output=True, text=True).stdout
    counts = collections.Counter()
    for plane, modes in re.findall(r"(?m)^  (luma|chroma)  +(.*)$", said):
        for mode, n in re.findall(r"(\w+) (\d+)", modes):
            counts[f"{plane} {mode}"] += int(n)
    wanted = [f"{plane} {mode}" for plane in ("luma", "chroma") for mode in ("DC", "TM", "V", "H")] + ["luma small"]
    return [mode for mode in wanted if not counts[mode]]


def main():
    program, work = sys.argv[1].split(), sys.argv[2]
    with open(os.path.join(f.HERE, "kept", "expected.txt")) as source:
        expected = {line.split()[0]: line.split()[1:] for line in source if not line.startswith("#")}
    bad = []
    shutil.rmtree(work, ignore_errors=True)
    frames = f.kept()
    folder = f.Folder(work, frames)
    before, said = folder.decoded([*program, "decode", "--to", "yuv", "--unfiltered"])
    after, _ = folder.decoded([*program, "decode", "--to", "yuv"])
    if list(expected) != list(frames):
        bad.append("kept/expected.txt has other frames than are made")
    for name in set(frames) & set(expected):
        _, frame, unfiltered, filtered = expected[name]
        if f.md5(frames[name]) != frame:
            bad.append(f"{name}: the frame is not made as it was")
        elif name in said or name not in before:
            bad.append(f"{name}: {said.get(name, 'no picture')}")
        else:
            bad += [f"{name}: other samples before the loop filter"] * (f.md5(before[name]) != unfiltered)
            bad += [f"{name}: other samples after the loop filter"] * (f.md5(after[name]) != filtered)
    cuts = blocks = 0
    for name in CUT:
        parts = f.Folder(os.path.join(work, name), f.cuts(name, frames[name]))
        pictures, said = parts.decoded([*program, "decode", "--to", "yuv", "--unfiltered"])
        for part, picture in pictures.items():
            k = f.finished(said.get(part, ""), frames[name])
            cuts, blocks = cuts + 1, blocks + k
            bad += [f"{part}: a finished macroblock differs"] * (not f.same(frames[name], picture, before[name], k))
    reached = set().union(*(f.forms(frame) for frame in frames.values()))
    if f.FORMS - reached:
        bad.append("no frame with " + ", ".join(sorted(f.FORMS - reached)))
    bad += [f"no macroblock with {mode}" for mode in missing_modes(program, folder)]
    ruled = sum(line[0] != "-" for line in expected.values())
    if len(expected) < 300 or ruled < 20 or cuts < 500 or blocks < 500:
        bad.append(f"only {len(expected)} frames, {ruled} under a rule, {cuts} cuts with {blocks} macroblocks")
    for line in bad[:20]:
        print("rfc: FAILED:", line)
    if not bad:
        print(f"rfc: {len(expected)} frames as RFC 6386's own decoder gives them, {ruled} of them under a rule of docs/DIFFERENCES.md; "
              f"{cuts} cuts, every one of {blocks} finished macroblocks as in the whole picture")
    sys.exit(1 if bad else 0)


if __name__ == "__main__":
    main()
