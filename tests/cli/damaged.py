#!/usr/bin/env python3
"""The program on cut and damaged files: damaged.py ROOM N SEED CHECKED PLAIN FILE.. where CHECKED is the program built with sanitizers and
PLAIN the one that valgrind runs. Every cut of each FILE and N damaged copies go, one by one, through `decode`, `decode --rescue`, `info`,
`fits`, `page --rescue`, `recode` and `survey` of CHECKED: the exit status is 0 or 1, standard error says what happened where it is 1 and
nothing where it is 0, and there is a picture exactly where it is whole, cut or rescued. `info` and `survey` say what `decode` says, `page
--rescue` what `decode --rescue` says of the first picture, and there is a page exactly where that has one. `recode` writes a file exactly
where all is whole, which shows the same. `fits` refuses what `decode` refuses and says a line of every other picture. `decode --rescue`
stops where `decode` does, except in a WebP file that `decode` refuses for its sizes. The surveys of each, added, are the survey of all; N
damaged records are joined or refused. Then all files, a hundred at a time, go through `decode` under valgrind, with and without --rescue,
and through `survey`, in one process and in two; it must find no error and no leak."""
import json
import os
import random
import re
import subprocess
import sys
from collections import Counter

room, n, seed, checked, plain = sys.argv[1], int(sys.argv[2]), int(sys.argv[3]), sys.argv[4], sys.argv[5]
originals = [open(f, "rb").read() for f in sys.argv[6:]]
draw = random.Random(seed)
SAID = re.compile(rb"^\S+: (frame \d+: )?(refused|cut|rescued): (\d+, |the IVF file )[^\n]*\n$")
JUDGED = re.compile(rb"^\S+: (?:frame \d+: )?(?:(fits)|rule (\d) fails: [^\n]*)\n$")
said_of, rescued_of, judged_of = Counter(), Counter(), Counter()


def damaged(bytes_):
    """A copy with up to eight bytes changed, bits flipped, a part left out, or bytes put in."""
    b = bytearray(bytes_)
    for _ in range(draw.choice([1, 1, 2, 3, 8])):
        at, kind = draw.randrange(len(b)), draw.randrange(5)
        if kind == 0:
            b[at] = draw.randrange(256)
        elif kind == 1:
            b[at] ^= 1 << draw.randrange(8)
        elif kind == 2:
            b[draw.randrange(min(len(b), 60))] ^= 1 << draw.randrange(8)
        elif kind == 3 and len(b) > 2:
            del b[at:at + draw.randrange(1, 9)]
        else:
            b[at:at] = bytes(draw.randrange(256) for _ in range(draw.randrange(1, 5)))
        if not b:
            b = bytearray(b"\0")
    return bytes(b)


def run(*command):
    env = {**os.environ, "ASAN_OPTIONS": "exitcode=99:allocator_may_return_null=1", "UBSAN_OPTIONS": "halt_on_error=1:exitcode=99"}
    return subprocess.run(command, stdout=subprocess.PIPE, stderr=subprocess.PIPE, env=env)


def fail(path, why, result):
    sys.exit(f"FAILED: {path}: {why}, status {result.returncode}\n{result.stderr.decode(errors='replace')[-3000:]}")


def decoded(path, *options):
    """What `decode` said, its status and words looked at, and whether there is a picture."""
    out = f"{room}/out.yuv"
    if os.path.exists(out):
        os.remove(out)
    result = run(checked, "decode", *options, path, out)
    if result.returncode not in (0, 1):
        fail(path, "neither 0 nor 1", result)
    lines = result.stderr.splitlines(keepends=True)
    if (result.returncode == 0) != (not lines) or not all(map(SAID.match, lines)):
        fail(path, "standard error does not say what happened", result)
    pictures = result.stdout.count(b"\n")
    if os.path.exists(out) != (pictures > 0) or (result.returncode == 0 and not pictures):
        fail(path, "a picture that should not be there, or none", result)
    return result


def stops(result):
    """Where each picture stopped, without what became of the rest."""
    return [line.split(b"; ")[0].replace(b": rescued: ", b": cut: ") for line in result.stderr.splitlines()]


def answer(result):
    """The last number that was said."""
    lines = result.stderr.splitlines(keepends=True)
    return "0" if not lines else SAID.match(lines[-1])[3].decode().rstrip(", ").replace("the IVF file", "IVF")


def judge(path, plainly):
    """What `fits` says beside what `decode` said; counts the rules."""
    result = run(checked, "fits", path)
    refused = b"".join(line for line in plainly.stderr.splitlines(keepends=True) if b": refused: " in line)
    lines = [JUDGED.match(line) for line in result.stdout.splitlines(keepends=True)]
    if not all(lines) or result.stderr != refused or len(lines) != plainly.stdout.count(b"\n"):
        fail(path, "fits and decode differ", result)
    rules = [(line[1] or line[2]).decode() for line in lines]
    if result.returncode != (bool(refused) or set(rules) != {"fits"}):
        fail(path, "fits ends with another status", result)
    judged_of.update(rules)


def paged(path, rescue):
    """What `page --rescue` says beside what `decode --rescue` said of the first picture."""
    out = f"{room}/page.html"
    if os.path.exists(out):
        os.remove(out)
    result = run(checked, "page", "--rescue", path, out)
    if result.returncode == 2 and b"macroblocks, and page takes at most" in result.stderr:
        return
    later = rb"\S+: (frame [1-9]|refused: the IVF)" if rescue.stdout or b": frame 0: " in rescue.stderr else rb"\S+: frame [1-9]"
    first = [line for line in rescue.stderr.splitlines(keepends=True) if not re.match(later, line)]
    if result.returncode != bool(first) or result.stderr != b"".join(first):
        fail(path, "page and decode differ", result)
    if os.path.exists(out) != bool(result.stdout):
        fail(path, "a page that should not be there, or none", result)


def recoded(path, plainly):
    """What `recode` writes beside what `decode` said: a file exactly where every picture is whole, and it decodes to the same samples."""
    out, before, after = f"{room}/recoded", f"{room}/before.yuv", f"{room}/after.yuv"
    for old in (out, before, after):
        if os.path.exists(old):
            os.remove(old)
    result = run(checked, "recode", path, out)
    if result.returncode != plainly.returncode or bool(result.stderr) != bool(plainly.stderr):
        fail(path, "recode and decode differ", result)
    if os.path.exists(out) != (result.returncode == 0):
        fail(path, "a recoded file that should not be there, or none", result)
    if result.returncode == 0:
        run(checked, "decode", path, before)
        again = run(checked, "decode", out, after)
        with open(before, "rb") as a, open(after, "rb") as b:
            if a.read() != b.read():
                fail(path, "the recoded file shows another picture", again)


def one(path):
    """Runs the commands and counts what was said."""
    plainly, rescue, info = decoded(path), decoded(path, "--rescue"), run(checked, "info", path)
    judge(path, plainly)
    paged(path, rescue)
    recoded(path, plainly)
    if plainly.returncode != info.returncode or plainly.stderr != info.stderr:
        fail(path, "decode and info differ", info)
    survey = run(checked, "survey", "--json", path)
    if plainly.returncode != survey.returncode or plainly.stderr != survey.stderr:
        fail(path, "decode and survey differ", survey)
    told = json.loads(survey.stdout)
    pictures, not_whole = sum(told["answers"]), sum(told["answers"][1:]) + sum(told["apart"].values())
    if pictures != plainly.stdout.count(b"\n") or not_whole != plainly.stderr.count(b"\n"):
        fail(path, "survey counts other pictures", survey)
    surveys.append(survey.stdout)
    said_of[answer(plainly)] += 1
    if answer(plainly) == "18":
        rescued_of[answer(rescue)] += 1
    elif stops(plainly) != stops(rescue):
        fail(path, "--rescue stopped elsewhere", rescue)


paths, surveys = [], []


def keep(name, content):
    path = f"{room}/{name}"
    with open(path, "wb") as f:
        f.write(content)
    paths.append(path)
    one(path)


cuts = 0
for i, original in enumerate(originals):
    for length in range(len(original)):
        keep(f"cut-{i}-{length}", original[:length])
        cuts += 1
for i in range(n):
    keep(f"damaged-{i}", damaged(draw.choice(originals)))


def listed(counts):
    return ", ".join(f"{k}: {counts[k]}" for k in sorted(counts, key=lambda k: (len(k), k)))


print(f"{cuts} cuts of {len(originals)} files and {n} damaged ones, one by one: answers {listed(said_of)}; "
      f"of those refused with 18, with --rescue {listed(rescued_of)}; rules of the profile {listed(judged_of)}")
with open(f"{room}/surveys.json", "wb") as f:
    f.write(b"".join(surveys))
together, added = run(checked, "survey", "-j", "2", "--json", *paths), run(checked, "survey", "--add", "--json", f"{room}/surveys.json")
if together.returncode != 1 or together.stdout != added.stdout:
    fail(room, "the survey of all is not the sum of all", together)

# Damaged records: `survey --add` joins them or says why not, and prints nothing then.
joined = 0
for i in range(n):
    with open(f"{room}/record.json", "wb") as f:
        f.write(damaged(draw.choice(surveys)))
    result = run(checked, "survey", "--add", "--json", f"{room}/record.json")
    if result.returncode not in (0, 1, 2) or bool(result.stdout) == bool(result.stderr):
        fail(f"record {i}", "neither joined nor refused", result)
    joined += bool(result.stdout)
print(f"{n} damaged records: {joined} joined, {n - joined} refused")
batches = [paths[i:i + 100] for i in range(0, len(paths), 100)]
valgrind = ["valgrind", "-q", "--error-exitcode=99", "--leak-check=full", "--errors-for-leak-kinds=all"]
for i, batch in enumerate(batches):
    result = run(*valgrind, plain, "survey", "-j", str(1 + i % 2), "--html", f"{room}/page.html", *batch)
    if result.returncode not in (0, 1) or b"==" in result.stderr:
        fail(batch[0], "valgrind found something", result)
for batch, options in [(batch, options) for batch in batches for options in ([], ["--rescue"])]:
    result = run(*valgrind, plain, "decode", *options, *batch, f"{room}/pictures")
    if result.returncode not in (0, 1):
        fail(batch[0], "valgrind found something", result)
    if not re.match(rb"%d files, " % len(batch), result.stdout):
        fail(batch[0], "no summary", result)
    for name in os.listdir(f"{room}/pictures"):
        os.remove(f"{room}/pictures/{name}")
print(f"{len(paths)} files under valgrind in {3 * len(batches)} runs: no error, no leak")
if cuts < 3 or not paths or len(originals) < 3 or not rescued_of["7"]:
    sys.exit("FAILED: too few files")
