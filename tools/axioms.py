#!/usr/bin/env python3
"""Nothing is assumed in the archive: tools/axioms.py LOG. LOG is what `rt lib` printed. Its last `logic=` line says `proved` and has no field but
those below: `axioms=` counts what the proofs assume in the whole graph, `foreign=` names C functions. What is trusted there is the kit's own work and
what an earlier check kept; `rt ci` proves from nothing whatever it has not passed on the machine before. tools/archive.sh runs it."""
import re
import sys

TRUSTED = dict.fromkeys(("logic-built", "libraries-built", "statements", "incremental"), "trusted")
FIELDS = {"logic": "proved", "functions": r"\d+", "target": r"\S+", "cpu": r"[\w-]+", "sum": r"[0-9a-f]+", "native": "nat,char,string", **TRUSTED}


def main():
    lines = [line for line in open(sys.argv[1], encoding="utf-8").read().splitlines() if line.startswith("logic=")]
    fields = dict(word.partition("=")[::2] for word in lines[-1].split()) if lines else {}
    wrong = [f"{k}={v}" for k, v in fields.items() if not re.fullmatch(FIELDS.get(k, "(?!)"), v)]
    if wrong or "logic" not in fields or "functions" not in fields:
        sys.exit(f"axioms: the archive's proof is not one that assumes nothing: {' '.join(wrong) or 'no line `logic=proved functions=..`'}")


main()
