"""The two editions: what stands in each, their text."""
import re

from . import ROOT, Fault, closed, markdown, notation, shown, tables
from .document import Maker, entry_of, misplaced, sections_read
from .layout import WIDTH
from .plan import LINKED, contracts, divided, promised
from .source import Item, Kit, Specs

OUTER, INNER = ROOT / "docs/DEFINITIONS.md", ROOT / "docs/DEFINITIONS-INNER.md"
MOST = 2500

OUTER_HEAD = """# The definitions, for reading beside the RFC

@count definitions and @proved statements in @lines lines: everything that the contracts of the C calls and the promises to a user rest on, in the order of
RFC 6386. Two engineers with the RFC beside them can read it in a day. If these definitions say what the RFC says, and the kit checks proofs correctly,
no proof need be read. What only inner calls rest on is in DEFINITIONS-INNER.md; READING.md leads from a section of the RFC to its definition.

- Tick the box when a definition says what the RFC says. The number after the box is the RFC's section, a request (M-nnn) or a demand (D1 to D3). Numbers such
  as 1255-1268 in a sentence are lines of the RFC's text; READING.md says which text.
- A short definition stands on one line, followed by its sentence; otherwise the sentence comes first. Within a chapter, what is used comes before what uses it.
- `━━ crate/File` is crates/CRATE/specs/FILE.antt; a `struct` or `enum` is a type of the code. The numbers of big tables are in tables/, in the RFC's order.
- After the definitions come the statements proved about them, then the contract of each C call.

tools/definitions.py makes these pages from crates/*/specs and crates/*/src. The gate checks that they are current, that they have the words of the sources,
and that they are closed: every name used is printed here or explained below. `tools/definitions.py --html OUT` makes one HTML page of this edition, where a
name leads to its definition and back to its uses.
"""
INNER_HEAD = """# The definitions of the inner calls

@count definitions and @proved statements in @lines lines: what the contracts of inner calls and the promises for other readers rest on, beyond DEFINITIONS.md:
answers and numbers of inner calls, the source's wording, the fast way, case files, the kernel's second wording, lent records, the parts of the bytes, examples.
It is laid out, made and checked as DEFINITIONS.md, which explains the notation.
"""


class Edition:
    """Chapters of definitions, chapters of statements, contracts."""

    def __init__(self, specs, members, promises, lines, read, name):
        maker = Maker(specs, members, read)
        self.chapters, self.statements, self.contracts = maker.chapters(), maker.statements(promises), lines
        self.count = len(maker.items) + len(maker.types)
        self.proved = sum(e.kind == "theorem" for e in self.entries())
        self.name = name
        wrong = misplaced(specs, self.chapters + self.statements)
        if wrong:
            raise Fault(f"{name}: " + "; ".join(wrong))

    def entries(self):
        return [e for c in self.chapters + self.statements for e in c.entries()]

    def body(self):
        out = []
        for number, c in enumerate(self.chapters, 1):
            out += markdown.chapter(c, number)
        for number, c in enumerate(self.statements, len(self.chapters) + 1):
            out += markdown.chapter(c, number, statements=True)
        return out


class Editions:
    def __init__(self):
        self.specs = specs = Specs()
        self.outer_promises, self.inner_promises = divided(promised(specs, (ROOT / "docs/PROMISES.md").read_text()))
        every = contracts(specs)
        linked = [c for c in every if c.path.startswith(LINKED + "::")]
        read = (ROOT / "docs/READING.md").read_text()
        roots = self.roots(self.outer_promises, linked)
        outer = specs.reach(roots)
        everything = specs.reach(roots + self.roots(self.inner_promises, every))
        have = {id(x) for x in outer}
        rest = [x for x in everything if id(x) not in have]
        self.one = next((x for x in outer if isinstance(x, Item) and x.name == "One"), None)
        if self.one is None:
            raise Fault("crates/promises/specs/Determined has no record One")
        self.outer = Edition(specs, outer, self.outer_promises, linked, sections_read(read), "docs/DEFINITIONS.md")
        self.inner = Edition(specs, rest, self.inner_promises, [c for c in every if c not in linked], sections_read(read), "docs/DEFINITIONS-INNER.md")
        self.kit = {(x.module, x.name) for x in everything if isinstance(x, Kit)}
        self.check(everything, read)

    def roots(self, promises, lines):
        return [x for p in promises for i in p.items for x in self.specs.states(i)] + [x for c in lines for x in self.specs.states(c.item)]

    def check(self, everything, read):
        notation.check(self.kit)
        outer = {e.id for e in self.outer.entries()} | {self.one.id}
        inner = {e.id for e in self.inner.entries()}
        closed.check(self.specs, self.outer.entries(), outer)
        closed.check(self.specs, self.inner.entries(), outer | inner)
        missing = [x.name for x in everything if not isinstance(x, Kit) and x.id not in outer | inner]
        if missing:
            raise Fault("in neither edition: " + ", ".join(missing))
        self.check_answers(outer | inner)
        closed.reading(self.specs, [x for x in everything if not isinstance(x, Kit)], read)

    def check_answers(self, printed):
        """An answer's number and values are promised."""
        items = [i for f in self.specs.files.values() for i in f.items if i.public and re.search(r"(^|_)(number|values)_of$", i.name)]
        unused = [f"{shown(i.file.path)}: {i.name}" for i in items if i.id not in printed]
        if unused:
            raise Fault("no promise uses\n  " + "\n  ".join(unused))

    # ---- the texts
    def notation(self):
        rows = [("| written | read |"), "|---|---|"] + [f"| {markdown.cell(a)} | {markdown.cell(b)} |" for a, b in notation.FORMS]
        return rows + ["", "Names of the kit:", ""] + ["- " + row for row in notation.rows(self.kit, WIDTH - 2)] + [""]

    def contract_lines(self, edition, title, number):
        one = markdown.entry_lines(entry_of(self.one, ""))
        said = "For each, crates/promises/specs/Determined.antt proves `One (λ o. o ≡ ..)`: one answer, and no other."
        return [f"## {number}. {title}", said, "", "```", *one, "```", "", *markdown.contracts(edition.contracts)]

    def outer_text(self):
        e = self.outer
        number = len(e.chapters) + len(e.statements) + 1
        out = OUTER_HEAD.split("\n") + ["## Contents", "", *markdown.contents(e.chapters, e.statements), "## Notation", "", *self.notation(), *e.body()]
        return counted(e, out + self.contract_lines(e, "The contracts of the C calls", number))

    def inner_text(self):
        e = self.inner
        number = len(e.chapters) + len(e.statements) + 1
        out = INNER_HEAD.split("\n") + [*markdown.contents(e.chapters, e.statements), *e.body()]
        return counted(e, out + self.contract_lines(e, "The contracts of the other public functions", number))

    def files(self):
        """Every file that is made, with its text."""
        out = {OUTER: self.outer_text(), INNER: self.inner_text()}
        if out[OUTER].count("\n") > MOST:
            raise Fault(f"docs/DEFINITIONS.md has {out[OUTER].count(chr(10))} lines, more than {MOST}: move roots in tools/edition/plan.py")
        big = [e.x for e in self.outer.entries() + self.inner.entries() if e.kind == "table"]
        return out | {tables.FOLDER / name: text for name, text in tables.made(big).items()}

    def said(self):
        both = ((self.outer, self.outer_text()), (self.inner, self.inner_text()))
        return ", ".join(f"{e.count} definitions and {e.proved} statements in {text.count(chr(10))} lines of {e.name}" for e, text in both)


def counted(edition, lines):
    text = "\n".join(lines).rstrip("\n") + "\n"
    for mark, number in (("@count", edition.count), ("@proved", edition.proved), ("@lines", text.count("\n"))):
        text = text.replace(mark, f"{number:,}", 1)
    return text
