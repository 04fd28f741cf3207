#!/usr/bin/env python3
"""recode_rfc.py DECODER FOLDER: every key frame of NAME.webp and NAME.ivf in FOLDER and of its recoded file, NAME-one.*, through RFC 6386's own
decoder, before and after the loop filter. Status 1 where the two differ or one is refused."""
import os
import sys

sys.path.insert(0, os.path.join(os.path.dirname(os.path.abspath(__file__)), "..", "rfc"))
from frames import Folder, in_file  # noqa: E402

decoder, folder = sys.argv[1:]
before, after = {}, {}
bad = 0
for name in sorted(os.listdir(folder)):
    stem, form = os.path.splitext(name)
    new = os.path.join(folder, f"{stem}-one{form}")
    if form not in (".webp", ".ivf") or stem.endswith("-one") or not os.path.exists(new):
        continue
    old, one = in_file(os.path.join(folder, name)), in_file(new)
    if len(old) != len(one):
        print(f"{name}: {len(old)} frames, then {len(one)}")
        bad += 1
    for i, (a, b) in enumerate(zip(old, one)):
        before[f"{stem}{form.replace('.', '-')}-{i}"], after[f"{stem}{form.replace('.', '-')}-{i}"] = a, b
for options in ([], ["--unfiltered"]):
    a, _ = Folder(os.path.join(folder, "rfc-before"), before).decoded([decoder, *options])
    b, _ = Folder(os.path.join(folder, "rfc-after"), after).decoded([decoder, *options])
    for name in before:
        if name not in a or a[name] != b.get(name):
            print(f"{name}: the RFC's decoder differs, or refuses it")
            bad += 1
print(f"the RFC's decoder: {len(before)} frames, {bad} differ")
sys.exit(bad != 0 or not before)
