#!/usr/bin/env python3
"""No promise goes unseen: docs/PROMISES.md names not fewer than LEAST theorems in its columns of theorems, and every file of statements
(crates/promises/specs and crates/witnesses/specs, but for laws) by its name or by a theorem or definition of its; and each call that it names by its path is a public function.
tools/definitions.py sees that each theorem is there. Exit status 1 where that is not so; the gate runs it."""
import re
import sys

from sources import ROOT, functions, modules

LEAST = 151
# What other files rest on: places in the planes, and two runs side by side.
NO_STATEMENT = {"Lib", "Places", "TwoModes", "TwoRuns"}


def theorems(text):
    """The names in the columns that are headed `theorem`."""
    out, column = set(), None
    for line in text.split("\n"):
        cells = [c.strip() for c in line.strip("|").split("|")] if line.startswith("|") else None
        if not cells:
            column = None
        elif "theorem" in cells:
            column = cells.index("theorem")
        elif column is not None:
            out |= set(re.findall(r"`([^`]+)`", cells[column]))
    return out


def untold(text):
    names = set(re.findall(r"`([^`\s]+)`", text))
    for file in sorted(f for crate in ("promises", "witnesses") for f in (ROOT / f"crates/{crate}/specs").glob("*.antt")):
        own = set(re.findall(r"^(?:abbrev |unfoldable )*pub (?:record |data )?(\S+)", file.read_text(), re.M))
        if file.stem not in NO_STATEMENT and not file.stem.endswith("Laws") and f"{file.stem}.antt" not in text and not own & names:
            yield f"docs/PROMISES.md does not speak of {file.relative_to(ROOT)}"


def no_calls(text):
    crates = [c for c in (ROOT / "crates").iterdir() if (c / "src/lib.rt").exists()]
    calls = {f[0] for crate in crates for file, path, public in modules(crate) if public for f in functions(file.read_text(), path)}
    for path in sorted(set(re.findall(r"`(\w+(?:::\w+)+)`", text)) - calls):
        yield f"docs/PROMISES.md names {path}, which is no public function"


def main():
    text = (ROOT / "docs/PROMISES.md").read_text()
    named = theorems(text)
    faults = list(untold(text)) + list(no_calls(text)) + ([f"docs/PROMISES.md names {len(named)} theorems, at least {LEAST} are promised"] if len(named) < LEAST else [])
    for fault in faults:
        print(f"promised: {fault}")
    if faults:
        sys.exit(1)
    print(f"promised: {len(named)} theorems")


main()
