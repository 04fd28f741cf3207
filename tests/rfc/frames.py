"""Key frames for tests/rfc: taken out of files, made again from a seed, cut; and the samples that a program gives for many of them."""
import hashlib
import os
import random
import re
import subprocess
import sys

HERE = os.path.dirname(os.path.abspath(__file__))
sys.path.insert(0, os.path.join(HERE, "..", "model"))
sys.dont_write_bytecode = True
import made_frames  # noqa: E402
from frame_header import taken  # noqa: E402

FILES = os.path.join(HERE, "..", "second", "kept")
SEED, MADE = 6386, 300  # the made frames whose answers are kept


def in_file(path):
    """The key frames of a WebP file, an IVF file or a bare frame."""
    with open(path, "rb") as source:
        data = source.read()
    if data[:4] == b"RIFF":
        return [data[20:20 + int.from_bytes(data[16:20], "little")]]
    if data[:4] != b"DKIF":
        return [data]
    out, at = [], 32
    while at < len(data):
        size = int.from_bytes(data[at:at + 4], "little")
        out.append(data[at + 12:at + 12 + size])
        at += 12 + size
    return out


def named(path):
    return {f"{os.path.basename(path).replace('.', '-')}-{i}": f for i, f in enumerate(in_file(path))}


def made(seed, begin, end):
    out = {}
    for i in range(begin, end):
        kind = made_frames.KINDS[i % len(made_frames.KINDS)]
        out[f"{i:05}-{kind}"] = made_frames.whole(random.Random(f"{seed} {i}"), kind)
    return out


def rows():
    """The smallest frames that show a difference: kept/rows.txt, a name and the frame in hex."""
    with open(os.path.join(HERE, "kept", "rows.txt")) as source:
        lines = [line.split() for line in source if not line.startswith("#")]
    return {"row-" + line[0]: bytes.fromhex(line[1]) for line in lines}


def kept():
    """All frames whose answers are kept: those of the kept files, the rows, the made ones."""
    out = {}
    for name in sorted(os.listdir(FILES)):
        if name.endswith((".webp", ".ivf")):
            out.update(named(os.path.join(FILES, name)))
    return out | rows() | made(SEED, 0, MADE)


def partitions(frame):
    """The first partition and those of tokens."""
    first = int.from_bytes(frame[:3], "little") >> 5
    number, what = taken(frame)
    assert number == 0, number
    count = len(what[4])
    at = 10 + first + 3 * (count - 1)
    parts = [frame[10:10 + first]]
    for i in range(count - 1):
        size = int.from_bytes(frame[10 + first + 3 * i:][:3], "little")
        parts.append(frame[at:at + size])
        at += size
    return parts + [frame[at:]]


# What the kept frames must reach: every form of the header, and, by what the program's `info` counts, every large and chroma mode
FORMS = {"partitions 1", "partitions 2", "partitions 4", "partitions 8", "simple", "normal", "unfiltered", "segments", "map", "absolute", "added",
         "own levels", "deltas", "small delta", "skipping", "probability 0", "odd width", "odd height", "scaled", "not shown",
         *(f"sharpness {i}" for i in range(8)), *(f"version {i}" for i in range(4)), *(f"delta of index {i}" for i in range(5))}


def forms(frame):
    """Those that a frame has, by the model's reading of its header."""
    width, height, simple, _, tokens, _, h = taken(frame)[1]
    tests = {"simple": simple and h[18], "normal": not simple and h[18], "unfiltered": not h[18], "segments": h[2], "map": h[3], "absolute": h[5],
             "added": any(h[6:14]) and not h[5], "own levels": any(h[10:14]), "deltas": h[20] and h[22], "small delta": h[20] and h[26],
             "skipping": h[1094], "probability 0": 0 in h[38:1094], "odd width": width % 2, "odd height": height % 2,
             "scaled": (frame[7] | frame[9]) >> 6, "not shown": not frame[0] >> 4 & 1}
    out = {name for name, holds in tests.items() if holds} | {f"delta of index {i}" for i in range(5) if h[32 + i]}
    return out | {f"partitions {len(tokens)}", f"sharpness {h[19]}", f"version {frame[0] >> 1 & 7}"}


def cuts(name, frame):
    """The frame with one partition shortened to every length below its own, the sizes rewritten so that it can still be taken apart."""
    parts = partitions(frame)
    out = {}
    for p, part in enumerate(parts):
        for length in range(len(part)):
            less = [part[:length] if i == p else x for i, x in enumerate(parts)]
            out[f"{name}-cut-{p}-{length}"] = made_frames.joined(int.from_bytes(frame[:3], "little") & 31, frame[6:10], less[0], less[1:])
    return out


def sizes(frame):
    return int.from_bytes(frame[6:8], "little") & 16383, int.from_bytes(frame[8:10], "little") & 16383


def same(frame, a, b, k):
    """Whether the first k macroblocks of two pictures are the same."""
    width, height = sizes(frame)
    columns, at = -(-width // 16), 0
    for w, h, side in ((width, height, 16), (-(-width // 2), -(-height // 2), 8), (-(-width // 2), -(-height // 2), 8)):
        for y in range(h):
            n = min(w, max(0, k - y // side * columns) * side)
            if a[at:at + n] != b[at:at + n]:
                return False
            at += w
    return True


def md5(data):
    return hashlib.md5(data).hexdigest()


class Folder:
    """Frames as files of a folder, which programs decode all at once."""

    def __init__(self, path, frames):
        self.path, self.frames = path, frames
        os.makedirs(path, exist_ok=True)
        for name, frame in frames.items():
            with open(os.path.join(path, name + ".vp8"), "wb") as out:
                out.write(frame)

    def decoded(self, words, names=None):
        """What a program given as words writes for the frames, and what it says of each; nothing is there for a frame that it refuses."""
        names = list(self.frames if names is None else names)
        out = os.path.join(self.path, "out")
        os.makedirs(out, exist_ok=True)
        for name in os.listdir(out):
            os.remove(os.path.join(out, name))
        samples, said = {}, {}
        if not names:
            return samples, said
        # the program takes several files and a folder; one frame goes twice, under another name, where it is alone
        files = [os.path.join(self.path, n + ".vp8") for n in names]
        if len(files) == 1:
            other = os.path.join(self.path, "alone.vp8")
            with open(other, "wb") as copy:
                copy.write(self.frames[names[0]])
            files.append(other)
        done = subprocess.run([*words, *files, out], capture_output=True, text=True)
        if done.returncode not in (0, 1):
            raise SystemExit(f"{' '.join(words)}: status {done.returncode}: {done.stderr[-500:]}")
        for line in done.stderr.splitlines():
            m = re.match(r"(?:.*/)?([^/]+)\.vp8: (.*)", line)
            if m:
                said[m.group(1)] = m.group(2)
        for name in names:
            path = os.path.join(out, name + ".yuv")
            if os.path.exists(path):
                with open(path, "rb") as source:
                    samples[name] = source.read()
        return samples, said


def finished(said, frame):
    """How many macroblocks the program finished, by what it says of a frame (nothing where it is whole)."""
    k = re.search(r"cut: \d+, .* (\d+) of \d+ finished", said)
    width, height = sizes(frame)
    return int(k[1]) if k else -(-width // 16) * -(-height // 16)
