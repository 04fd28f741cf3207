"""Closed: every name that an edition uses is printed or in the page of notation, and docs/READING.md names nothing that is absent."""
import re

from . import ROOT, Fault, shown
from .faithful import unfaithful
from .notation import BUILT_IN
from .scope import Words
from .source import Declared, Item


def unknown(specs, entries):
    """Words that are no name, no variable and no sign of the language."""
    out = []
    for e in entries:
        if isinstance(e.x, Item):
            words = Words(specs, e.x, statement=e.kind == "theorem").unknown
            out += [f"{shown(e.x.file.path)}: {e.x.name} uses {w}" for w in dict.fromkeys(words) if w not in BUILT_IN and f"◌{w}◌" not in BUILT_IN]
    return out


def absent(specs, entries, printed):
    """Names that are used and not printed."""
    out = []
    for e in entries:
        used = specs.named_types(e.x) if isinstance(e.x, Declared) else specs.states(e.x) if e.kind == "theorem" else specs.rests_on(e.x)
        out += [f"{e.x.name} uses {u.name}" for u in used if isinstance(u, (Item, Declared)) and u.id not in printed]
    return out


def bare(entries):
    return [f"{shown(e.x.file.path)}: {e.x.name}" for e in entries if isinstance(e.x, Item) and not e.sentence]


def check(specs, entries, printed):
    for what, found in (
        ("neither a name nor a variable", unknown(specs, entries)),
        ("used and printed nowhere", absent(specs, entries, printed)),
        ("no sentence over", bare(entries)),
        ("printed otherwise than in the source", unfaithful(entries)),
    ):
        if found:
            raise Fault(f"{what}:\n  " + "\n  ".join(dict.fromkeys(found)))


def proved(specs):
    """The names of laws and theorems: what a file of laws has, and what is neither a definition nor a type."""
    every = [i for f in specs.files.values() for i in f.items]
    return {i.name for i in every if i.file.path.stem.endswith("Laws") or not i.kind and not i.lines[0].strip().startswith(("abbrev", "unfoldable"))}


def reading(specs, printed, text):
    """What docs/READING.md names in its columns of definitions and files must be there: printed, or proved."""
    laws = proved(specs)
    names = {n for x in printed for n in [x.name, *(x.cases() if isinstance(x, Item) else [])]}
    out = []
    for line in text.split("\n"):
        cells = [c.strip() for c in line.strip("|").split("|")]
        if not line.startswith("|") or len(cells) < 4 or "definition" in cells:
            continue
        out += [w for w in re.findall(r"`([^` ]+)[^`]*`", cells[2]) if w not in names and w not in laws]
        folder = ""
        for path in re.findall(r"[\w/]+\.antt", cells[3]):
            folder = path.rsplit("/", 1)[0] if "/" in path else folder
            path = path if "/" in path else f"{folder}/{path}"
            out += [] if (ROOT / path).exists() else [path]
    if out:
        raise Fault("docs/READING.md names what is in neither edition: " + ", ".join(dict.fromkeys(out)))
