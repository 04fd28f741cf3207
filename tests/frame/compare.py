#!/usr/bin/env python3
"""The program crates/try_frame beside tests/model/frame_header.py: tests/frame/compare.py PROGRAM SEED MADE DAMAGED FILE..

Takes the key frames of the files (.webp, .ivf) and MADE made-up ones (made_frames.py), and DAMAGED damaged copies of each: cut, bits flipped in
the first ten bytes, random bytes in the first sixty. What the program prints of each has to be what the model prints."""
import collections
import os
import random
import subprocess
import sys

sys.path.insert(0, os.path.join(os.path.dirname(__file__), "..", "model"))
import frame_header
import made_frames


def frames_of(path):
    data = open(path, "rb").read()
    if data[:4] == b"RIFF":
        yield data[20 : 20 + int.from_bytes(data[16:20], "little")]
        return
    at = 32
    while at < len(data):
        size = int.from_bytes(data[at : at + 4], "little")
        yield data[at + 12 : at + 12 + size]
        at += 12 + size


def damaged(frame, draw):
    out = bytearray(frame)
    kind = draw.randrange(3)
    if kind == 0:
        return frame[: draw.randrange(len(frame))]
    for _ in range(draw.randrange(1, 4)):
        if kind == 1:
            out[draw.randrange(10)] ^= 1 << draw.randrange(8)
        else:
            out[draw.randrange(min(60, len(out)))] = draw.randrange(256)
    return bytes(out)


def main():
    program, seed, count, copies = sys.argv[1].split(), int(sys.argv[2]), int(sys.argv[3]), int(sys.argv[4])
    draw = random.Random(seed)
    whole = [(path, f) for path in sys.argv[5:] for f in frames_of(path)] + [("made", made_frames.frame(draw)) for _ in range(count)]
    whole = [(name, f) for name, f in whole if len(f) <= 65536]
    seen, kinds, bad = collections.Counter(), collections.Counter(), 0
    for name, f in whole:
        source = name.rsplit(".", 1)[-1]
        for copy in range(copies + 1):
            g = damaged(f, draw) if copy else f
            expected = frame_header.printed(g)
            found = subprocess.run(program, input=g, capture_output=True).stdout.decode()
            number, what = frame_header.taken(g)
            seen[number] += 1
            if copy == 0 and number == 0:
                entry = what[6]
                kinds[source + " frames"] += 1
                kinds[f"{source} partitions {len(what[4])}"] += 1
                kinds[f"{source} version {g[0] >> 1 & 7}"] += 1
                for what_is, on in (("segments", entry[2]), ("map", entry[3]), ("deltas", entry[22] or entry[26]), ("simple", what[2]), ("skip", entry[1094]), ("odd size", (what[0] | what[1]) % 16), ("negative", min(entry) < 0)):
                    kinds[f"{source} {what_is}"] += bool(on)
            if found != expected:
                bad += 1
                print(f"{name} copy {copy}: differs")
    for k in sorted(kinds):
        print(f"{k}: {kinds[k]}")
    print(f"{len(whole)} frames, {sum(seen.values())} with their damaged copies, by number: " + ", ".join(f"{n} {seen[n]} times" for n in sorted(seen)))
    print(f"{bad} differ, seed {seed}")
    sys.exit(bad != 0)


main()
