#!/usr/bin/env python3
"""Holds the must-fail edits to what is said of them: tools/faults.py [LOG].

- The table of docs/PROMISES.md, "Faults that the prover must refuse", has one line for each edit, and an edit for each line; and there are not fewer
  than LEAST, so that none goes without a change of that number.
- A folder must-fail holds edits alone, each of lines that rt reads. It changes code (in `promises`, which has none, a statement): never a proof, a
  definition or a contract; and each old text stands once in its file.
- With LOG, what `rt ci` printed, the line on each edit is read: refused, and the beginning of the first error that it shows is a fact that does not
  hold with the edit, in the proof of the function that the table names. A missing name, a shape that does not fit, something that was not admitted
  or a limit of the prover shows nothing of the fault.
Exit status 1 where something is not so. The gate runs it with the log.
"""
import re
import sys
from pathlib import Path

from sources import ROOT, blanked

LEAST = 126
TABLE = "## Faults that the prover must refuse"

# A goal for which there is no proof, as rt writes it at the code; two sides that are not equal, an equation or a bound that is not proved, as it
# writes it at a proof file or a statement. rt cuts the line, so a fact is told by its beginning.
FACTS = [
    r"^note: src/\S+:\d+:\d+: it is not proved that ",
    r": error: (?:`[^`]*`: )?(?:as printed, |computed as far as they go, )?the two (?:types|sides) (?:are|(?:first )?differ) ",
    # an invariant at the values that a turn leaves is a statement; its name alone, like any other of goals, is a place
    r": error: `[^`]*`: expected type `(?!goal\.(?!the-invariant-[\w-]+ \()|tie\.|Rattle\.\w+\.proofs\.)",
    r": error: `[^`]*`: `(?!(?:search|omega|grind|cc|simp|rw|record)\b)",
    r": error: (?:`[^`]*`: )?`(?:search|omega|grind|cc|simp)\b[^`]*`:? (?:(?:found )?no proof|did not prove|the goal does not follow|the equations do not join)",
    r": error: (?:`[^`]*`: )?give a proof of that as the last argument",
    r"\bdoes not hold\b",
    r"All of that holds, and the goal fails",
]
# Types of two kinds, and what rests on something else.
SHAPES = [r"\(expected\), at the start", r"\bdepends? on `", r"\bnot admitted\b", r"\bis not in scope\b", r"\bhas no \S+ that can be named\b", r"\bhas no (?:field|`)"]


def edits():
    """(crate, name, path) of each edit."""
    return sorted((p.parts[-3], p.stem, p) for p in ROOT.glob("crates/*/must-fail/*.edit"))


def told():
    """The lines of the table: (crate, edit) and what refuses it."""
    section = (ROOT / "docs/PROMISES.md").read_text().split(TABLE, 1)[1].split("\n## ", 1)[0]
    found = re.findall(r"^\| `(\w+)` \| `(\w+)` \| [^|]*[^| ][^|]* \| ([^|]*[^| ][^|]*) \|$", section, re.M)
    return [((crate, edit), refusal) for crate, edit, refusal in found]


def listed(there, lines):
    """The table against the folder."""
    for name in sorted(set(there) - set(lines)):
        yield f"{'/'.join(name)} has no line in docs/PROMISES.md"
    for name in sorted(set(lines) - set(there)):
        yield f"docs/PROMISES.md has {'/'.join(name)}, and there is no such edit"
    if len(lines) != len(set(lines)):
        yield "docs/PROMISES.md has an edit twice"
    if len(there) < LEAST:
        yield f"{len(there)} edits, at least {LEAST} are to be tried"


def strays():
    for path in sorted(ROOT.glob("crates/*/must-fail/*")):
        if path.suffix != ".edit" or not path.is_file():
            yield f"{path.relative_to(ROOT)} is no edit, so rt passes it over"


def pairs(path):
    """(file, old, new) of an edit, as rt reads it; a line that rt would pass over is a fault."""
    file = old = None
    for line in path.read_text().splitlines():
        if line.startswith("file: "):
            file = line[6:]
        elif line.startswith("old: "):
            old = line[5:]
        elif line.startswith("new:"):
            yield file, old, line[4:].removeprefix(" ")
        elif line and not line.startswith("#"):
            raise ValueError(f"a line that rt passes over: {line}")


def changes_code(crate, path):
    """What is wrong with the text of an edit."""
    try:
        found = list(pairs(path))
    except ValueError as fault:
        return str(fault)
    folder, texts = "specs/" if crate == "promises" else "src/", {}
    for file, old, new in found:
        if file is None or old is None or not file.startswith(folder) or ".." in file or not (path.parents[1] / file).is_file():
            return f"it changes {file}, and not a file of {folder}"
        text = texts.setdefault(file, (path.parents[1] / file).read_text())
        if text.count(old) != 1:
            return f"its old text does not stand once in {file}: {old}"
        texts[file] = text.replace(old, new)
        if crate != "promises" and re.search(r"\b(?:requires|ensures|ghost)\b", old + new):
            return f"it changes a contract: {old}"
        if re.sub(r"(?://|--).*", "", old).split() == re.sub(r"(?://|--).*", "", new).split():
            return f"it changes nothing: {old}"
    return None if found else "it changes nothing"


def function_at(path, edit, line):
    """The function that the line of a source is in, as the edit leaves it."""
    text = (edit.parents[1] / path).read_text()
    for file, old, new in pairs(edit):
        text = text.replace(old, new) if file == path else text
    text = blanked(text)
    # A function begins with its attributes: rt names their line where it names the whole function.
    starts = [(text.count("\n", 0, m.start()) + 1, m.group(1)) for m in re.finditer(r"(?:^ *#\[[^\n]*\]\n)*^[^\n]*?\bfn (\w+)", text, re.M)]
    return next((name for at, name in reversed(starts) if at <= line), None)


def where(refusal, edit):
    """The function whose proof fails, where the error stands in code or in a proof of one."""
    proof = re.match(r"(?:note: )?\S*?proofs/(?:\S+/)?([^/\s]+)/(?:Answers|Invariants|Proof)\.antt:", refusal)
    code = re.match(r"(?:note: )?(?:\./)?(src/\S+?):(\d+):\d+: ", refusal)
    return proof.group(1) if proof else function_at(code.group(1), edit, int(code.group(2))) if code else None


def refused(log, crate, name, path, refusal):
    """What is wrong with how an edit was refused; the table's line begins with the function whose proof fails."""
    told = re.findall(rf"^rt: must-fail {crate}/{name}\.edit: (.*)$", log, re.M)
    if len(told) != 1:
        return "it was not tried" if not told else "it is told of twice"
    said = re.match(r"refused, as it must be: (.*)", told[0])
    if not said:
        return f"not refused for a fact: {told[0][:300]}"
    error = said.group(1)
    if not any(re.search(fact, error) for fact in FACTS) or any(re.search(shape, error) for shape in SHAPES):
        return f"refused for no fact: {error}"
    function = where(error, path)
    if function and not refusal.startswith(f"`{function}`"):
        return f"`{function}` refuses it, and docs/PROMISES.md says {refusal}"
    return None


def main():
    there = edits()
    lines = told()
    logs = [Path(log).read_text(errors="replace") for log in sys.argv[1:]]
    refusals = dict(lines)
    faults = list(listed([(crate, name) for crate, name, _ in there], [name for name, _ in lines])) + list(strays())
    for crate, name, path in there:
        looks = [changes_code(crate, path)] + [refused(log, crate, name, path, refusals.get((crate, name), "")) for log in logs]
        faults += [f"{crate}/{name}: {fault}" for fault in looks if fault]
    for fault in faults:
        print(f"faults: {fault}")
    if faults:
        sys.exit(1)
    print(f"faults: {len(there)} edits, each with its line" + (", each refused for a fact" if sys.argv[1:] else ""))


main()
