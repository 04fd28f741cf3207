"""How the gate's scripts read the crates' sources: which file is which module, and where a function's contract begins and ends."""
import re
from pathlib import Path

ROOT = Path(__file__).resolve().parent.parent
# The words that specs are written in, handed on by one file.
WORDS = ROOT / "crates/numbers/specs/Words.antt"
OURS = sorted(path.parent.name for path in (ROOT / "crates").glob("*/src"))
# What the kit has: std's modules and those of its logic, and no crate of this repository.
KIT = rf"(?:Rattle\.(?!(?:{'|'.join(OURS)})\.)|(?:mathlib|lib|native|Prim|package|mir|borrow|denote)\.|base\.(?=[A-Z]))"
# What the kit's Prelude hands on, and what hands on the Prelude: one name, whichever of these a line has it from.
PRELUDE = "Rattle.std.specs.Prelude"
HANDED_ON = ("mathlib.Core.Path", "mathlib.Core.Bool", "mathlib.Core.List", "Prim.Native.Nat", "lib.ListN", "lib.Dec", "lib.IntN")
SAME = dict.fromkeys((*HANDED_ON, "Rattle.core.specs.Prelude", "Rattle.std.proofs.Common", "Rattle.std.proofs.Math.ListN"), PRELUDE)


class Fault(Exception):
    pass


def blanked(text):
    """The text with a space for every character of a comment, so that each place stays where it is."""
    return re.sub(r"//[^\n]*", lambda m: " " * len(m.group()), text)


def modules(crate):
    """(file, module path, whether another crate sees it) of every file that the crate's lib.rt or main.rt reaches."""
    root = next(f for f in (crate / "src/lib.rt", crate / "src/main.rt") if f.exists())
    todo, out = [(root, [crate.name], crate / "src", True)], []
    while todo:
        file, path, folder, seen = todo.pop(0)
        text = blanked(file.read_text())
        if re.search(r"\bpub\s+use\b|\bmod\s+\w+\s*\{|\btrait\b", text):
            raise Fault(f"{file.relative_to(ROOT)}: `pub use`, a module in a file or a trait: the scripts do not follow them")
        out.append((file, path, seen))
        for public, name in re.findall(r"(\bpub\s+)?\bmod\s+(\w+)\s*;", text):
            inner = folder / f"{name}.rt"
            todo.append((inner if inner.exists() else folder / name / "mod.rt", path + [name], folder / name, seen and bool(public)))
    return out


def closing(text, at):
    """Where the bracket at `at` is closed."""
    pairs, depth = {"(": ")", "{": "}", "[": "]"}, []
    for i in range(at, len(text)):
        if text[i] in pairs:
            depth.append(pairs[text[i]])
        elif depth and text[i] == depth[-1]:
            depth.pop()
            if not depth:
                return i
    raise Fault("a bracket is not closed")


def body(text, at):
    """Where the body begins of the function whose arguments end at `at`: at the first brace that opens no clause."""
    brace = text.index("{", at)
    while re.search(r"\b(?:requires|ensures|ghost)\*?\s+(?:\w+:?\s*)?$", text[at:brace]):
        at = closing(text, brace) + 1
        brace = text.index("{", at)
    return brace


def words():
    """From each name that Words.antt hands on to the module that it is of: the kit's, or one of crate numbers. The file holds nothing else."""
    out = {}
    for line in WORDS.read_text().splitlines():
        m = re.fullmatch(rf"(?:unfoldable )?pub use ({KIT}\S+?|Rattle\.numbers\.specs\.[A-Z]\w*)\.\{{([^{{}}]*)\}}", line)
        if not m and not line.startswith("-- "):
            raise Fault(f"{WORDS.relative_to(ROOT)}: more than names that are handed on: {line[:60]}")
        for name in m.group(2).split(", ") if m else []:
            if name in out or " " in name:
                raise Fault(f"{WORDS.relative_to(ROOT)}: {name} is handed on twice, or renamed")
            out[name] = m.group(1)
    return out


def rust_uses(text):
    """From each name that a source's own `use` lines bring to its path."""
    out = {}
    for line in re.findall(r"^(?:pub )?use ([^;]*);", blanked(text), re.M):
        m = re.fullmatch(r"([\w:]+)::(?:\{ ?(\w+(?:, \w+)*),? ?\}|(\w+))", " ".join(line.split()))
        if not m:
            raise Fault(f"a `use` line that brings more than names: {' '.join(line.split())}")
        for name in (m.group(2) or m.group(3)).split(","):
            if name.strip():
                out[name.strip()] = f"{m.group(1)}::{name.strip()}"
    return out


FUNCTION = re.compile(r"\bpub\s+(?:(?:extern\s+\"C\"|const)\s+)*fn\s+(?P<name>\w+)")


def functions(source, path):
    """(path, arguments, result, head) of every public function of a file; the head is what stands between its arguments and its body."""
    text = blanked(source)
    implementations = [(m.start(), closing(text, m.end() - 1), m.group(1)) for m in re.finditer(r"^impl (\w+) \{", text, re.M)]
    for m in FUNCTION.finditer(text):
        owner = [name for start, end, name in implementations if start < m.start() < end]
        first = text.index("(", m.end())
        last = closing(text, first)
        head = source[last + 1:body(text, last)]
        result = re.match(r"\s*->\s*(.*?)\s*(?=\b(?:requires|ensures)\b|$)", head, re.S)
        arguments = []
        for part in re.split(r",(?![^\[(<]*[\])>])", text[first + 1:last]):
            part = part.strip()
            if part in ("self", "&self", "&mut self", "mut self"):
                arguments.append(("self", part))
            elif part:
                name, kind = part.split(":", 1)
                arguments.append((name.replace("mut ", "").strip(), kind.strip()))
        yield "::".join(path + owner + [m.group("name")]), arguments, result.group(1) if result else "", head
