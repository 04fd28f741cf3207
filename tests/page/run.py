#!/usr/bin/env python3
"""The page of pixels in a real browser: run.py PROGRAM ROOM PIXELS SEED. For each tile PROGRAM makes its page, Chromium opens it and points at PIXELS
pixels, by pointer, click, numbers and arrow keys (page.js); what the panel says must be what `explain` says, line for line. What it says of
the macroblocks, added up, must be what `survey` counts; the picture, for each choice, what `decode` and `explain` write."""
import collections
import html
import json
import os
import random
import re
import subprocess
import sys
import zlib

program, room, pixels, seed = sys.argv[1], sys.argv[2], int(sys.argv[3]), int(sys.argv[4])
here = os.path.dirname(os.path.abspath(__file__))
draw = random.Random(seed)
BROWSER = ["chromium", "--headless=new", "--no-sandbox", "--disable-gpu", f"--user-data-dir={os.path.abspath(room)}/profile"]


def run(*arguments, status=(0, 1)):
    result = subprocess.run([program, *arguments], stdout=subprocess.PIPE, stderr=subprocess.PIPE)
    assert result.returncode in status, f"{arguments}: status {result.returncode}: {result.stderr.decode()}"
    return result.stdout.decode()


def some_pixels(width, height):
    """The corners, then any; every fourth beside a macroblock's edge."""
    found = [(0, 0), (width - 1, 0), (0, height - 1), (width - 1, height - 1)]
    while len(found) < pixels:
        x, y = draw.randrange(width), draw.randrange(height)
        found.append((min(width - 1, x // 16 * 16 + draw.choice([0, 15])), y) if len(found) % 4 == 0 else (x, y))
    return found


def opened(text, width, height, asked):
    """What page.js read in the page."""
    data = json.dumps({"width": width, "height": height, "pixels": asked})
    path = os.path.abspath(f"{room}/tested.html")
    with open(path, "w") as f, open(f"{here}/page.js") as script:
        f.write(text.replace("</body>", f'<script type="application/json" id="asked">{data}</script><script>{script.read()}</script></body>'))
    dom = subprocess.run([*BROWSER, "--dump-dom", "file://" + path], stdout=subprocess.PIPE, stderr=subprocess.DEVNULL, timeout=300).stdout.decode()
    found = re.search(r'<pre id="read">(.*?)</pre>', dom, re.S)
    assert found, "the browser read nothing"
    return json.loads(html.unescape(found[1]))


def crc(*arguments):
    """Of the first picture's samples that a command writes as .ppm."""
    out = f"{room}/out.ppm"
    run(*arguments, out)
    with open(out, "rb") as f:
        mark, size, most, samples = f.read().split(b"\n", 3)
    width, height = map(int, size.split())
    return zlib.crc32(samples[:3 * width * height])


def wanted_pictures(path, options, filtered):
    rescue = ["--rescue"] if "--rescue" in options else []
    kinds = {"segment": ["--tint", "segments"], "mode": ["--tint", "modes"], "mark": ["--rescue", "--tint", "marks"], "none": []}
    if not rescue and run("decode", path, f"{room}/out.ppm").count(", cut,"):
        del kinds["mark"]  # the page has no soft ones
    want = {f"{shown} {kind}": crc("decode", *options, *by, *words, path)
            for shown, by in (("after", []), ("before", ["--unfiltered"])) for kind, words in kinds.items()}
    return want if not filtered else {**want, "after rule": crc("explain", *options, path)}


def tally(blocks):
    """The macroblocks' panels counted as a survey's record is."""
    count = collections.Counter()
    for terms in blocks:
        said = dict(zip(terms[::2], terms[1::2]))
        if "Modes" not in said:
            continue
        luma, chroma = said["Modes"].split("\nchroma ")
        count["segments", int(said["Segment"])] += 1
        count["luma", re.match(r"luma (\w+)", luma)[1]] += 1
        count["chroma", chroma.split(";")[0]] += 1
        count["skip", "not skipped" not in chroma] += 1
        for name in re.findall(r"[A-Z]{2}\b", luma.split("\n", 1)[1]) if "\n" in luma else []:
            count["subblocks", name] += 1
    return count


def surveyed(path):
    record, modes = json.loads(run("survey", "--json", path)), ["DC", "TM", "V", "H"]
    names = {"segments": range(4), "luma": modes + ["small"], "chroma": modes, "skip": [False, True],
             "subblocks": ["DC", "TM", "VE", "HE", "RD", "VR", "LD", "VL", "HD", "HU"]}
    return collections.Counter({(key, name): n for key, words in names.items() for name, n in zip(words, record[key]) if n})


def differences(path, options, text, width, height):
    """How many pixels were compared, and what is not as it should be."""
    asked = some_pixels(width, height)
    read = opened(text, width, height, asked)
    wrong = list(read["faults"])
    said = [run("explain", *options, path, str(x), str(y)) for x, y in asked]
    wrong += [f"pixel {at}: the panel says\n{told}and explain\n{want}" for at, told, want in zip(asked, read["told"], said) if told != want]
    if len(read["told"]) != len(asked):
        wrong.append("not every pixel was read")
    filtered = not said[0].startswith("nothing is filtered")
    want = wanted_pictures(path, options, filtered)
    wrong += [f"picture {name}: not what the program writes" for name, n in want.items() if read["pictures"][name]["crc"] != n]
    wrong += [f"picture {name}: letters" for name, p in read["pictures"].items() if p["lettered"] != (name.split()[1] in ("segment", "mode", "mark"))]
    if not options and not path.endswith(".ivf") and tally(read["blocks"]) != surveyed(path):
        wrong.append("the macroblocks are not those that survey counts")
    return len(asked), wrong, sum(not told.startswith("nothing") for told in read["told"])


def page_of(path, options):
    out = f"{room}/page.html"
    said = run("page", *options, path, out)
    width, height = map(int, re.search(r": (\d+) x (\d+), ", said).groups())
    with open(out) as f:
        return f.read(), width, height


def main():
    root = f"{here}/../.."
    kept, profile = f"{root}/tests/second/kept", f"{root}/tests/outside/profile"
    with open(f"{root}/bench/tile-q50.webp", "rb") as f, open(f"{room}/cut.vp8", "wb") as cut:
        cut.write(f.read()[20:6020])
    tiles = [(f"{folder}/{name}", []) for folder in (kept, profile) for name in sorted(os.listdir(folder)) if not name.endswith(".txt")]
    tiles += [(f"{root}/bench/tile-{q}.webp", []) for q in ("q50", "q75", "q90")]
    tiles += [(f"{room}/cut.vp8", []), (f"{room}/cut.vp8", ["--rescue"]), (f"{root}/bench/tile-q50.webp", ["--simple"])]
    compared, told = 0, 0
    for path, options in tiles:
        text, width, height = page_of(path, options)
        count, wrong, explained = differences(path, options, text, width, height)
        compared, told = compared + count, told + explained
        if wrong:
            sys.exit(f"page: FAILED: {path} {options}, seed {seed}: {wrong[0]}\n({len(wrong)} differences)")
    text, width, height = page_of(tiles[-4][0], [])
    for old, new in (("becomes", "turns"), (">> 24", ">>> 24"), ("128 + luma", "129 + luma"), ("a.edge - b.edge", "b.edge - a.edge")):
        assert old in text and differences(tiles[-4][0], [], text.replace(old, new), width, height)[1], f"'{new}' for '{old}' is not found"
    print(f"page: passed, {len(tiles)} pages, {compared} pixels of which {told} of filtered pictures, 4 faults found, seed {seed}")


main()
