"""What stands in which edition, and in which chapter."""
import re

from . import Fault, shown

# The chapters in the order of RFC 6386: title, what it is of, its files. A file that is not named here joins the last chapter of its crate.
CHAPTERS = [
    ("Numbers and lists", "", ["numbers/Flags", "numbers/Clamp", "numbers"]),
    ("The boolean decoder, grammars, trees", "sections 7 and 8", ["reader/Reading", "reader/Trees", "reader/Extra", "reader"]),
    ("The frame header", "sections 9.1 to 9.11, 13.4, 13.5, 19.1 and 19.2", ["frame/Tag", "frame/Header", "frame"]),
    ("The header's entries, segments, levels, factors", "sections 9.3, 9.4, 9.6, 9.11 and 14.1", ["header"]),
    ("Partitions of a tile", "section 9.5", ["tile"]),
    ("A macroblock's modes", "sections 10, 11 and 19.3", ["modes/Table", "modes/Modes", "modes"]),
    ("Prediction", "section 12", ["predict", "planes"]),
    ("Tokens and coefficients", "section 13", ["reader/Token", "coefficients", "residual"]),
    ("The inverse transforms", "section 14", ["transform"]),
    ("The loop filter", "section 15", ["filter/Strengths", "filter/Kernel", "filter", "straight", "deblock"]),
    ("Lent memory", "", ["column", "lent"]),
    ("One macroblock, all of them, the picture call", "sections 2 and 19.3", ["macroblock", "choices", "picture"]),
    ("From a frame's bytes to the screen", "sections 9 to 15", ["key_frame"]),
    ("What a cut tile still tells", "request M-108", ["macroblock/Rebuilt", "picture/Halt", "rescue"]),
    ("Whether a tile fits the cockpit profile", "request M-111", ["profile"]),
    ("A survey over a delivery", "request M-110", ["survey"]),
    ("One partition", "section 7.3, the encoder; request M-112", ["writer", "recode", "recode_frame"]),
    ("The WebP file", "RFC 9649; request M-113", ["webp"]),
    ("The fast way", "section 7.3", ["wide"]),
    ("Case files", "", ["casefile"]),
    ("The calls as C sees them", "", ["boundary", "samples", "files", "told", "hookbarley"]),
]

# The crate whose public functions C and Rust link: its contracts are roots of docs/DEFINITIONS.md.
LINKED = "hookbarley"

# The crates of statements, which have no code: what they define stands beside the statements.
STATED = ("promises", "witnesses")

# Promises that stand in docs/DEFINITIONS-INNER.md, by heading of docs/PROMISES.md, by file or by theorem; all others are roots of docs/DEFINITIONS.md.
INNER_HEADINGS = ["Lent records", "The parts of the bytes"]
INNER_FILES = ["promises/Worked", "webp/Worked"] + ["witnesses/Witness" + x for x in ("", "Cost", "Calls", "Frame")]  # examples, computed
INNER_THEOREMS = {
    "numbers_bind": "the answers of the inner calls by number",
    "refused_changes_nothing": "said once, of the call from C: `called_ends`",
    "first_check_decides": "said once, of the call from C: `called_ends`",
    "every_reason": "an example of each reason, computed",
    "header_within": "a bound on what the header's own grammar asks",
    "filter_rfc": "the kernel in a second wording",
    "sample_source": "the source's wording",
    "transformed_source": "the source's wording",
    "residual_source": "the source's wording",
    "step_source": "the source's wording",
}


def place_of(key):
    """Where a specs file, as crate/File, stands: the chapter that names it, else the one that names its crate, and the place there."""
    for wanted in (key, key.split("/")[0]):
        for number, (_, _, files) in enumerate(CHAPTERS):
            if wanted in files:
                return number, files.index(wanted)
    return None


def chapter_of(key):
    if place_of(key) is None:
        raise Fault(f"crates/{key.split('/')[0]} has no chapter: name it in tools/edition/plan.py")
    return place_of(key)[0]


class Promise:
    """A row of docs/PROMISES.md that names theorems: its heading, what it says in words, the theorems."""

    def __init__(self, heading, words, items):
        self.heading, self.words, self.items = heading, words, items


def theorems_by_name(specs):
    out = {}
    for file in specs.files.values():
        for item in file.items:
            if re.match(r"pub \S", item.lines[0].strip()) and not item.kind:
                out.setdefault(item.name, []).append(item)
    return out


def named_theorem(name, cells, column, found):
    """The theorem that a row of docs/PROMISES.md means: of the files that the row names, else of crate promises."""
    files = [(crate or "promises", stem) for crate, stem in re.findall(r"(?:crates/(\w+)/specs/)?(\w+)\.antt", cells[-1])]
    found = [i for i in found if (i.file.crate, i.file.path.stem) in files] or found
    found = [i for i in found if i.file.crate == "promises"] or found
    if len(found) > 1 or (not found and "field" not in cells[column]):
        raise Fault(f"docs/PROMISES.md names {name}, which is {len(found)} theorems")
    return [i for i in found if i.file.key != "promises/Determined"]


def promised(specs, text):
    everywhere, out, heading, column = theorems_by_name(specs), [], "", None
    for line in text.split("\n"):
        cells = [c.strip() for c in line.strip("|").split("|")] if line.startswith("|") else None
        if line.startswith("## "):
            heading = line[3:]
        elif not cells:
            column = None
        elif "theorem" in cells:
            column = cells.index("theorem")
        elif column is not None and not cells[0].startswith("---"):
            items = [i for name in re.findall(r"`([^`]+)`", cells[column]) for i in named_theorem(name, cells, column, everywhere.get(name, []))]
            out += [Promise(heading, cells[0], items)] if items else []
    return out


def is_inner(promise, item):
    return promise.heading in INNER_HEADINGS or item.file.key in INNER_FILES or item.name in INNER_THEOREMS


def divided(promises):
    """The promises of the reader's edition, and those of the inner one."""
    names = {i.name for p in promises for i in p.items} | {p.heading for p in promises} | {i.file.key for p in promises for i in p.items}
    gone = [n for n in [*INNER_THEOREMS, *INNER_HEADINGS, *INNER_FILES] if n not in names]
    if gone:
        raise Fault(f"tools/edition/plan.py names what docs/PROMISES.md does not promise: {', '.join(gone)}")
    outer, inner = [], []
    for p in promises:
        apart = [i for i in p.items if is_inner(p, i)]
        kept = [i for i in p.items if i not in apart]
        outer += [Promise(p.heading, p.words, kept)] if kept else []
        inner += [Promise(p.heading, p.words, apart)] if apart else []
    return outer, inner


class Contract:
    """A line of Determined: the public function, and the definition that it equals."""

    def __init__(self, item):
        self.item = item
        path = next((c.strip()[3:] for c in reversed(item.comments) if re.fullmatch(r"\s*-- \w+(::\w+)+", c)), None)
        m = re.search(r"One \(λ o\. o ≡ (.*)\)$", re.sub(r"\s+", " ", " ".join(item.statement())))
        if not path or not m:
            raise Fault(f"{shown(item.file.path)}: {item.name} is no line of a function's path and its equation")
        self.path, self.answer = path, m.group(1)


def contracts(specs):
    files = [f for f in specs.files.values() if f.crate == "promises" and f.path.stem.startswith("Determined")]
    lines = [i for f in files for i in f.items if "One (" in i.text() and i.lines[0].startswith("pub ") and not i.kind]
    out = [Contract(i) for i in lines]
    if not any(c.path.startswith(LINKED + "::") for c in out):
        raise Fault(f"crates/promises/specs/Determined has no line of crate {LINKED}")
    return out
