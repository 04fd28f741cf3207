#!/usr/bin/env python3
"""Small faults in a copy of the tree, one at a time: tools/definitions.py --check must name each. tests/definitions/faults.py"""
import shutil
import subprocess
import sys
import tempfile
from pathlib import Path

ROOT = Path(__file__).resolve().parent.parent.parent
FAULTS = [  # what, file, old text, new text, what must be said
    ("a promise that is gone", "docs/PROMISES.md", "| `stops_at` |", "| `stops_there` |", "stops_there, which is 0 theorems"),
    ("a root that the plan names and nobody promises", "tools/edition/plan.py", '"numbers_bind":', '"numbers_bound":', "does not promise: numbers_bound"),
    ("a crate without a chapter", "tools/edition/plan.py", '["tile"]', '[]', "crates/tile has no chapter"),
    ("a definition without a sentence", "crates/tile/specs/Tile.antt", "-- the contents of a span; what lies past the end of the bytes is not there\n", "", "no sentence over"),
    ("a name that no line brings in", "crates/residual/specs/Residual.antt", "use Rattle.transform.specs.Lanes.{macroblock_lanes}\n", "", "uses macroblock_lanes"),
    ("a name of the kit that the notation lacks", "tools/edition/notation.py", '"◌||◌": "one or both",', "", "page of notation, tools/edition/notation.py: Rattle.std.specs.Prelude.◌||◌"),
    ("an empty list that the notation lacks", "tools/edition/notation.py", '"[]": "the empty list",', "", "Rattle.std.specs.Prelude.[]"),
    ("what docs/READING.md names and nobody prints", "docs/READING.md", "| `first_reader` |", "| `first_reader`, `second_reader` |", "neither edition: second_reader"),
    ("a file that docs/READING.md names and is not", "docs/READING.md", "crates/webp/specs/Webp.antt |", "crates/webp/specs/Web.antt |", "crates/webp/specs/Web.antt"),
    ("another number in a table", "docs/tables/dc_steps.txt", "157", "156", "not current: docs/tables/dc_steps.txt"),
    ("another number in a definition", "crates/tile/specs/Tile.antt", "leb n 16384", "leb n 16400", "not current: docs/DEFINITIONS.md"),
    ("a layout that drops a word", "tools/edition/layout.py", 'text = re.sub(r"\\[ \\| ", "[ ", text)', 'text = text.replace("elim (", "elim ((")', "printed otherwise than in the source"),
    ("an edition that is too long", "tools/edition/editions.py", "MOST = 2500", "MOST = 2000", "more than 2000"),
    ("a link that leads nowhere", "tools/edition/page.py", 'id="notation"', 'id="notations"', "lead nowhere: #notation"),
]


def tried(folder, name, old, new):
    path = folder / name
    text = path.read_text()
    if old not in text:
        return f"the fault does not fit: {old!r} is not in {name}"
    path.write_text(text.replace(old, new, 1))
    run = subprocess.run([sys.executable, "tools/definitions.py", "--check"], cwd=folder, capture_output=True, text=True)
    path.write_text(text)
    return run.stdout + run.stderr if run.returncode else "passed"


def main():
    failed = 0
    with tempfile.TemporaryDirectory() as place:
        folder = Path(place)
        for part in ("crates", "docs", "tools"):
            shutil.copytree(ROOT / part, folder / part, ignore=shutil.ignore_patterns("proofs", "data", "must-fail", "out", "*.png", "*.svg"))
        shutil.copytree(ROOT / "crates/promises/proofs", folder / "crates/promises/proofs")
        for what, name, old, new, said in FAULTS:
            got = tried(folder, name, old, new)
            if said not in got:
                failed += 1
                print(f"definitions: FAILED: {what}: {got.strip()[:300]}")
    print(f"definitions: {len(FAULTS) - failed} of {len(FAULTS)} faults named")
    sys.exit(1 if failed else 0)


main()
