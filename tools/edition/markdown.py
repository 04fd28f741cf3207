"""An edition as Markdown."""
import re

from .layout import INDENT, WIDTH, modules, wrapped
from .source import Item


def cell(text):
    return text.replace("|", "\\|")


def anchor(title):
    return re.sub(r"\s", "-", re.sub(r"[^\w\s-]", "", title.lower()))


def box(entry):
    return f"☐ {entry.section:<6}"


def entry_lines(entry):
    """On one line where it fits, with fewer types if need be; else the sentence, and the definition below it."""
    behind = f"  -- {entry.sentence}" if entry.sentence else ""
    for way in entry.ways:
        if len(way) == 1 and len(box(entry) + way[0] + behind) <= WIDTH:
            return [box(entry) + way[0] + behind]
    return wrapped(entry.sentence or entry.x.name, box(entry), "  ") + [" " * INDENT + line for line in entry.lines]


def constants(part):
    """Numbers by name, as a table."""
    out = ["| | name | number | what |", "|---|---|---|---|"]
    for e in part.entries:
        number = e.lines[0].rsplit(" ", 1)[1]
        out.append(f"| ☐ {e.section} | `{e.x.name}` | {number} | {cell(re.sub(rf'(^|: ){number}: ', lambda m: m.group(1), e.sentence))} |")
    return out


def part_lines(part):
    out, given = [], ""
    for e in part.entries:
        around = modules(e.x) if isinstance(e.x, Item) and e.kind != "theorem" else ""
        if around != given and e.kind not in ("theorem", "type"):
            given = around
            out += wrapped(f"with {around}:", "", "    ") if around else ["with nothing:"]
        out += entry_lines(e)
    return out


def place(part):
    """A specs file as crate/File."""
    return f"{part.path.parts[-3]}/{part.path.stem}"


def of(c, statements):
    """What a chapter is of: sections and requests; of statements the files."""
    return ", ".join(dict.fromkeys(place(p) for p in c.parts)) if statements else c.of


def title(c, statements=False):
    return c.title + (f": {of(c, statements)}" if statements else f" ({c.of})" if c.of else "")


def chapter(c, number, statements=False):
    """A heading, then a block of entries, file after file."""
    out, fence = [f"## {number}. {title(c, statements)}"], False
    for part in c.parts:
        if part.constants:
            out += ["```"] if fence else []
            out += wrapped(f"{place(part)}: {part.heading}") + [""] + constants(part) + [""]
            fence = False
            continue
        out += [] if fence else ["```"]
        fence = True
        out += [] if statements else wrapped(f"━━ {place(part)}: {part.heading}", "", "   ")
        out += part_lines(part)
    return out + ["```"] * fence


def link(c, number):
    return f"[{number}. {c.title}](#{anchor(f'{number}. {title(c)}')})"


def contents(chapters, statements):
    """The table of contents: a row for each chapter of definitions, one for all statements."""
    out = ["| definitions | of | how many |", "|---|---|---|"]
    out += [f"| {link(c, n)} | {c.of} | {len(c.entries())} |" for n, c in enumerate(chapters, 1)]
    rows = "; ".join(f"{n}. {c.title}" for n, c in enumerate(statements, len(chapters) + 1))
    return out + ["", *wrapped(f"Statements: {rows}."), ""]


def contracts(lines):
    return ["| public function | what it answers, with the lent memory after it |", "|---|---|"] + [f"| `{c.path}` | `{cell(c.answer)}` |" for c in lines] + [""]
