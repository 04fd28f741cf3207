#!/usr/bin/env python3
"""The gate's own scripts, tried: tests/scripts/run.py [EDIT..].

Each tests/scripts/edits/NAME.edit is a change that would slip something by the gate. It is put on a copy of the tree, and the script that it names must
refuse it: end with another status than 0, and say so in the words given. On the copy as it is each script must pass. Nothing is proved.

    # why it must not pass
    file: PATH        the file that the lines below change
    old: TEXT         stands once in it
    new: TEXT         takes its place; `\\n` is a new line. After `old:` a line `add:` puts its text in front instead
    put: TEXT         the whole file is this
    gone:             the file is removed
    run: COMMAND      what must refuse it
    says: WORDS       what it must say
    not: WORDS        what it must not say: then an edit that it must take stands among others
"""
import os
import shutil
import subprocess
import sys
import tempfile
from pathlib import Path

HERE = Path(__file__).resolve().parent
ROOT = HERE.parent.parent
GATE = [
    "tools/plain.py", "tools/determined.py", "tools/definitions.py --check", "tools/promised.py", "tools/faults.py", "tests/scripts/run.py", "tests/definitions/faults.py",
    'tools/faults.py "$log"', "tests/model/refused_header.py crates/try_singles/out/try_singles", "tools/archive.sh", "tests/outside/run.sh", "tests/second/kept.sh", "tests/rfc/kept.sh", "tests/cli/run.sh",
]
# `rt ci` as the gate runs it, plain; and what stands for a part of it where nothing is proved.
PROOFS, STANDS_FOR_IT = 'rt ci 2>&1 | tee "$log"', ("tests/scripts/layout.sh",)
# So that no edit goes without a change of this number.
LEAST = 83
# What looks at a file that only an edit brings.
BROUGHT = ("tools/axioms.py", "tools/faults.py ci.log")
PARTS = [".ci", "bindings", "crates", "crates.txt", "docs", "include", "tests/outside", "tests/scripts", "tools"]


def read(path):
    """The changes of an edit, as (file, kind, text, text), and its other lines by name."""
    changes, said, file, old = [], {"run": "", "says": [], "not": []}, None, None
    for line in path.read_text().splitlines():
        word, _, text = line.partition(":")
        text = text.removeprefix(" ").replace("\\n", "\n")
        if word == "file":
            file, old = text, None
        elif word == "old":
            old = text
        elif word in ("new", "add"):
            changes.append((file, "new", old, text + (old if word == "add" else "")))
        elif word in ("put", "gone"):
            changes.append((file, word, text, None))
        elif word == "run":
            said["run"] = text
        elif word in ("says", "not"):
            said[word].append(text)
        elif line and not line.startswith("#"):
            raise SystemExit(f"{path.name}: not understood: {line}")
    if not said["run"] or not said["says"] + said["not"]:
        raise SystemExit(f"{path.name}: no `run:`, or no `says:`")
    return changes, said


def change(copy, changes):
    """Puts an edit on the copy; gives back what each file was. None where it does not fit."""
    before = {}
    for file, kind, text, new in changes:
        path = copy / file
        before.setdefault(file, path.read_bytes() if path.exists() else None)
        if kind == "gone":
            path.unlink()
        elif kind == "put":
            path.parent.mkdir(parents=True, exist_ok=True)
            path.write_text(text + "\n")
        elif path.exists() and path.read_text().count(text) == 1:
            path.write_text(path.read_text().replace(text, new))
        else:
            restore(copy, before)
            return None
    return before


def restore(copy, before):
    for file, text in before.items():
        if text is None:
            (copy / file).unlink(missing_ok=True)
        else:
            (copy / file).write_bytes(text)


def run(copy, command):
    done = subprocess.run(command.split(), cwd=copy, capture_output=True, text=True, env={**os.environ, "PYTHONDONTWRITEBYTECODE": "1"})
    return done.returncode, done.stdout + done.stderr


def tried(copy, name, changes, said):
    """What is wrong with how the script took the edit."""
    before = change(copy, changes)
    if before is None:
        return "an old text does not stand once in its file: the edit came loose"
    status, output = run(copy, said["run"])
    restore(copy, before)
    missing = [words for words in said["says"] if words not in output]
    found = [words for words in said["not"] if words in output]
    if status == 0:
        return f"{said['run']} did not refuse it"
    if missing:
        return f"{said['run']} did not say `{missing[0]}`, but:\n{output[:600]}"
    return f"{said['run']} says `{found[0]}`" if found else None


def not_in_gate(commands):
    """What the gate does not run: each of GATE is a line of .ci/run, and each script that an edit names stands there or in what that runs."""
    lines = (ROOT / ".ci/run").read_text().splitlines()
    joined = [i for i, line in enumerate(lines) if line == "joined || exit 1"]
    for command in GATE:
        beside = f"beside {command}" in lines and joined and lines.index(f"beside {command}") < joined[-1]
        if f"{command} || exit 1" not in lines and not beside:
            yield f"the gate does not run {command}"
    if PROOFS not in lines or '[ "$status" -eq 0 ] || exit "$status"' not in lines:
        yield "the gate does not run rt ci, or goes on where it fails"
    if not any(line.startswith("bad=") for line in lines) or 'if [ -n "$bad" ]; then' not in lines:
        yield "the gate takes must-fail edits that are bad"
    if not any(line.startswith("unset ARCHIVE") for line in lines):
        yield "the gate would take an archive that is not its own"
    inside = [line.split("#")[0] for file in ("tests/outside/run.sh", "tools/archive.sh") for line in (ROOT / file).read_text().splitlines()]
    for script in sorted({c.split()[0] for c in commands}):
        stands = script in STANDS_FOR_IT or any(command.startswith(script) for command in GATE)
        if not stands and not any(script in line for line in inside):
            yield f"the gate does not run {script}"


def main():
    edits = {p.stem: read(p) for p in sorted((HERE / "edits").glob("*.edit")) if not sys.argv[1:] or p.stem in sys.argv[1:]}
    commands = {said["run"] for _, said in edits.values()}
    faults = list(not_in_gate(commands))
    if not sys.argv[1:] and len(edits) < LEAST:
        faults.append(f"{len(edits)} edits, at least {LEAST} are to be tried")
    with tempfile.TemporaryDirectory() as folder:
        copy = Path(folder)
        for part in PARTS:
            if (ROOT / part).is_dir():
                shutil.copytree(ROOT / part, copy / part, ignore=shutil.ignore_patterns("out"))
            else:
                shutil.copy(ROOT / part, copy / part)
        for command in sorted(c for c in commands if not c.startswith(BROUGHT)):
            status, output = run(copy, command)
            if status:
                faults.append(f"{command} does not pass on the tree as it is:\n{output[:600]}")
        for name, (changes, said) in edits.items():
            fault = tried(copy, name, changes, said)
            faults += [f"{name}: {fault}"] if fault else []
    for fault in faults:
        print(f"scripts: {fault}")
    if faults or not edits:
        sys.exit(1)
    print(f"scripts: {len(edits)} edits, each refused by the script that must")


main()
