#!/usr/bin/env python3
"""Sees that sources and specs have the plain form in which the gate's scripts read them; the gate runs it first.

In the sources (crates/*/src):
- no block comment, and in a library no text in quotes but that of `extern "C"`;
- no lifetime, so that what is lent stands in a function's arguments as `&mut`;
- `ghost` stands in `ghost use` lines alone: no ghost value, and no ghost field, which would be a `requires` that nobody sees;
- a contract names definitions: no `ghost use` line brings anything from a file of laws;
- a crate is a library or a program; each file is in a module; and what another crate can call is in a public one: no `pub fn` anywhere else;
- what C can call is `#[unsafe(no_mangle)] pub extern "C" fn hookbarley_..` in crate hookbarley_c, and nothing else is marked, but for what a type derives
  and the lines that have the prover try its tactics, with the lemmas and definitions that they name;
- a `use` line of the code brings names as they are: none renamed, and never all of a module.
In the sources and in the specs (crates/*/specs):
- no block comment of antt's, no `--` inside a name and no text in quotes; no axiom, no `open`, and no operator for a variable;
- a `use` line brings names as they are, from one module, or a module: it renames no name and brings no unnamed one;
- a name of another module is brought by a `use` line, never written by its whole path;
- `◌≡◌` is that of Rattle.std.specs.Prelude, and no operator of ours has `≡` for a part; a symbol of the kit's comes from one module of the kit's, and none
  of ours is spelled like it, nor like a name that every file has. In sources every symbol is the kit's;
- specs have the kit's operators straight from its Prelude, as `rt ci` wants, and its other names through crates/numbers/specs/Words.antt, which hands
  them on and holds nothing else;
- a file of specs stands in specs/ itself, a module of Lib.antt.
Exit status 1 where something is not so.
"""
import re
import sys

from sources import FUNCTION, KIT, ROOT, SAME, Fault, blanked, modules, rust_uses, words

SOURCES = sorted((ROOT / "crates").glob("*/src/**/*.rt"))
# The theorems of crate promises that stand in proofs/ are read as those in specs/.
SPECS = sorted([*(ROOT / "crates").glob("*/specs/**/*.antt"), *(ROOT / "crates/promises/proofs").glob("*.antt")])
USE = re.compile(r"(?P<module>[^\s{}*]+?)(?:\.\{(?P<names>[^{}]*)\}| as (?P<alias>\w+))?")
# a `use` line of specs, and one of a source's clauses
LINES = {".antt": re.compile(r"^( *)(?:unfoldable )?(?:pub )?use (.*?)$", re.M), ".rt": re.compile(r"^( *)ghost use (.*?);?$", re.M)}
PATH = re.compile(rf"(?<![\w.])(?:Rattle\.\w|{KIT})")
# Names that every file has without a `use` line.
PRELUDE = ("⊥", "Unit", "tt", "absurd", "¬", "¬◌", "×", "◌×◌", "→", "Dec", "Path", "Id", "IsProp", "∥◌∥₁")


def crate_of(file):
    return file.relative_to(ROOT / "crates").parts[0]


def line_of(text, at):
    return f"line {text.count(chr(10), 0, at) + 1}"


# ---- the sources
def quoted(file, text):
    if (ROOT / "crates" / crate_of(file) / "src/lib.rt").exists() and '"' in text.replace('extern "C" fn', ""):
        yield "a text in quotes"


def block_comments(_, text):
    if re.search(r"/\*|\*/", text):
        yield "a block comment"


def lifetimes(_, text):
    if re.search(r"<\s*'|&\s*'", text):
        yield "a lifetime: lent memory behind it, or in a struct, would not be asked after"


def ghosts(_, text):
    for m in re.finditer(r"\bghost\b(?! use )|(?<!^)\bghost\b", text, re.M):
        yield f"{line_of(text, m.start())}: ghost, and not a `ghost use` line"


def laws(_, text):
    for m in re.finditer(r"ghost use (Rattle\.[^;{]*Laws)\.", text):
        yield f"{line_of(text, m.start())}: a contract names what stands in a file of laws, {m.group(1)}"


def exported(file, text):
    calls = re.findall(r'^#\[unsafe\(no_mangle\)\]\npub extern "C" fn hookbarley_\w+\(', text, re.M) if crate_of(file) == "hookbarley_c" else []
    others = re.sub(r"^ *#\[derive\([\w:, ]+\)\]$|^ *#!?\[tactic\(auto(?:, (?:using|unfolding)\([\w:,\s]+\))*\)\]$", "", text, flags=re.M)
    if len(calls) != len(re.findall(r"#!?\s*\[", others)) or len(calls) != len(re.findall(r"\bextern\b", text)):
        yield 'an attribute or an `extern` that is not `#[unsafe(no_mangle)] pub extern "C" fn hookbarley_..` of crate hookbarley_c'


def code_uses(_, text):
    try:
        rust_uses(text)
    except Fault as fault:
        yield str(fault)


def in_modules():
    """Every file is in a module, and no `pub fn` in one that another crate does not see."""
    for folder in sorted(path.parent for path in (ROOT / "crates").glob("*/src")):
        if (folder / "src/lib.rt").exists() and (folder / "src/main.rt").exists():
            yield f"crates/{folder.name}: lib.rt and main.rt: rt would prove the program alone"
        found = {file: public for file, _, public in modules(folder)}
        for file in sorted(folder.glob("src/**/*.rt")):
            if file not in found:
                yield f"{file.relative_to(ROOT)}: in no module"
        for file, public in found.items():
            if not public and FUNCTION.search(blanked(file.read_text())):
                yield f"{file.relative_to(ROOT)}: `pub fn` in a module that no other crate sees: `pub(crate)`"


def kit_by_words(file, text):
    for line, m in uses(file, text) if crate_of(file) != "numbers" else []:
        straight = m and m.group("module") == "Rattle.std.specs.Prelude" and all(symbol(name) for name in names_of(m))
        if m and re.match(KIT, m.group("module")) and not straight:
            yield f"{line}: a name of the kit's, and not through crates/numbers/specs/Words.antt"


def below(file, text):
    if file.parent.name not in ("specs", "proofs") or (file.stem != "Lib" and re.search(r"^\s*(?:pub )?mod ", text, re.M)):
        yield "a module below another: the scripts do not follow it"


# ---- what a file brings in
def antt_comments(_, text):
    if re.search(r"\{-|-\}", text):
        yield "a block comment of antt's"


def hidden(_, text):
    """What brings a name, or a fact, without a `use` line or a declaration."""
    if '"' in re.sub(r"--.*", "", text) or re.search(r"^(?!\s*--).*[^\s(){}-]--", text, re.M):
        yield "a text in quotes, or `--` inside a name, which is no comment there"
    text = re.sub(r"--.*", "", text)
    if re.search(r"^\s*axiom\b", text, re.M):
        yield "an axiom"
    if re.search(r"^\s*open\b", text, re.M):
        yield "`open`: the fields of a record as names"
    if re.search(r"[({](?:[^(){}:]* )?\S*◌\S*(?: [^(){}:]*)? :|λ (?:[^.]* )?[^\s.]*◌", text):
        yield "an operator that is bound and not declared"


def uses(file, text):
    """(line, match of USE or None) of each `use` line of specs, or `ghost use` line of a source."""
    for m in LINES[file.suffix].finditer(text):
        yield line_of(text, m.start()), USE.fullmatch(m.group(2)) if not m.group(1) else None


def names_of(m):
    return [w.strip() for w in m.group("names").split(",")] if m.group("names") is not None else []


def brought(file, text):
    for line, m in uses(file, text):
        if m is None or any(" " in name for name in names_of(m)):
            yield f"{line}: a `use` line that renames, brings all of a module or is not one line"


def whole_paths(file, text):
    for m in PATH.finditer(LINES[file.suffix].sub("", re.sub(r"--.*|//.*", "", text))):
        yield f"a name by its whole path: {m.string[m.start():m.start() + 60].split()[0]}"


def symbol(name):
    return not re.fullmatch(r"[\w'-]+", name.strip("«»"))


def symbols():
    """Each symbol has one meaning."""
    kit, out, handed = {"◌≡◌": "Rattle.std.specs.Prelude", **dict.fromkeys(PRELUDE, "Prim")}, [], words()
    for file in SPECS + SOURCES:
        for line, m in uses(file, file.read_text()):
            for name in names_of(m) if m else []:
                module = m.group("module")
                module = handed.get(name, module) if module == "Rattle.numbers.specs.Words" else module
                module = SAME.get(module, module)
                ours = not re.match(KIT, module)
                if not (symbol(name) or name in PRELUDE) or (ours and file.suffix == ".antt" and name not in kit):
                    continue
                if ours or kit.setdefault(name, module) != module:
                    out.append(f"{file.relative_to(ROOT)}: {line}: {name} of {module}" + (f", and not of {kit[name]}" if name in kit else ""))
    for file in SPECS:
        for name in re.findall(r"^\s*(?:abbrev |unfoldable |pub |record |data )*(\S+)(?: \{.*?\})? :", file.read_text(), re.M):
            if name in kit or "≡" in name.split("◌"):
                out.append(f"{file.relative_to(ROOT)}: {name} is declared, a symbol of the kit's")
    return out


def main():
    try:
        faults = list(in_modules()) + symbols()
    except Fault as fault:
        faults = [str(fault)]
    everywhere = [antt_comments, brought, whole_paths]
    for files, looks in ((SOURCES, [block_comments, quoted, lifetimes, ghosts, laws, exported, code_uses, *everywhere]), (SPECS, [hidden, below, kit_by_words, *everywhere])):
        for file in files:
            raw = file.read_text()
            text = blanked(raw) if file.suffix == ".rt" else raw
            for look in looks:
                faults += [f"{file.relative_to(ROOT)}: {fault}" for fault in look(file, raw if look in (block_comments, antt_comments) else text)]
    for fault in faults:
        print(fault)
    if faults:
        sys.exit(1)
    print(f"plain: {len(SOURCES)} sources and {len(SPECS)} specs files in the form that the scripts read")


main()
