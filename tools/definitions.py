#!/usr/bin/env python3
"""Makes the reader's editions: docs/DEFINITIONS.md, docs/DEFINITIONS-INNER.md and docs/tables.

    tools/definitions.py              writes them
    tools/definitions.py --check      tells whether they are current (the gate runs that); looks at the page's links too
    tools/definitions.py --html OUT   writes the first of them as one HTML page

docs/DEFINITIONS.md has every definition that the contracts of the calls from C and the promises to a user rest on, followed name by name through
crates/*/specs and the types that the code declares; docs/DEFINITIONS-INNER.md what all other contracts and promises rest on besides. tools/edition/plan.py
says which promise stands where, and the order of the chapters. It is an error where an edition is not closed (a name that is neither printed nor in the
page of notation), where a definition has no sentence over it, where a statement rests on something in a file of laws, where a root is gone, where a
use stands before its definition in a chapter, where docs/READING.md names what is absent, and where the first edition is longer than 2,500 lines.
"""
import sys

sys.dont_write_bytecode = True
from edition import ROOT, Fault
from edition.editions import Editions
from edition import page


def differing(files):
    return [str(p.relative_to(ROOT)) for p, text in files.items() if not p.exists() or p.read_text() != text]


def superfluous(files):
    return [str(p.relative_to(ROOT)) for p in (ROOT / "docs/tables").glob("*") if p not in files]


def check(editions):
    files = editions.files()
    old = differing(files) + superfluous(files)
    if old:
        raise Fault(f"not current: {', '.join(old)}; tools/definitions.py makes them")
    links = page.checked(page.made(editions))
    print(f"definitions: docs/DEFINITIONS.md is current, {editions.said()}; {links} links of the page lead somewhere")


def write(editions):
    for path, text in editions.files().items():
        path.parent.mkdir(exist_ok=True)
        path.write_text(text)
    for path in superfluous(editions.files()):
        (ROOT / path).unlink()
    print(f"definitions: {editions.said()}")


def main(arguments):
    try:
        editions = Editions()
        if arguments == ["--check"]:
            check(editions)
        elif len(arguments) == 2 and arguments[0] == "--html":
            text = page.made(editions)
            page.checked(text)
            with open(arguments[1], "w") as out:
                out.write(text)
        elif not arguments:
            write(editions)
        else:
            sys.exit(__doc__)
    except Fault as fault:
        sys.exit(f"definitions: {fault}")


main(sys.argv[1:])
