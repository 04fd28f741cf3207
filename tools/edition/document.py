"""An edition as chapters of entries, before it is Markdown or HTML."""
import re

from . import Fault
from .layout import arguments, sentence, signature, ways_of
from .plan import STATED, CHAPTERS, chapter_of, place_of
from .source import Declared, Item
from . import tables


class Entry:
    """A definition, type or theorem with its box: the RFC's section or the request, a sentence, the lines."""

    def __init__(self, x, section, words, ways, kind=""):
        self.x, self.id, self.section, self.sentence, self.ways, self.kind = x, x.id, section, words, ways, kind
        self.lines = ways[0]


class Part:
    """Entries of one part of a file: its path and what the part says at its head. `constants` where all of them are numbers by name."""

    def __init__(self, path, heading):
        self.path, self.heading, self.entries, self.constants = path, heading, [], False


class Chapter:
    def __init__(self, title, of):
        self.title, self.of, self.parts = title, of, []

    def entries(self):
        return [e for p in self.parts for e in p.entries]


# ---- the order: what is used stands before what uses it
def file_order(specs):
    """A place for each specs file, behind those that it uses; else in the order of the chapters."""
    place, busy = {}, set()

    def visit(key):
        if key in place or key in busy or key not in specs.files:
            return
        busy.add(key)
        file = specs.files[key]
        modules_used = [m for m, _ in file.names.values()] + list(file.aliases.values())
        for other in sorted({m.group(1) + "/" + m.group(2) for m in (re.match(r"Rattle\.(\w+)\.specs\.(\w+)$", x) for x in modules_used) if m}):
            visit(other)
        place[key] = len(place)

    for key in sorted(specs.files, key=lambda k: (place_of(k) or (len(CHAPTERS), 0), k)):
        visit(key)
    return place


def in_order(items, place):
    return sorted(items, key=lambda i: (place[i.file.key], i.file.items.index(i)))


# ---- sections
def sections_read(text):
    """The section that docs/READING.md has for a definition, by its crate and name."""
    out = {}
    for line in text.split("\n"):
        cells = [c.strip() for c in line.strip("|").split("|")]
        if line.startswith("|") and len(cells) > 3 and re.match(r"\d|basics", cells[0]):
            for name in re.findall(r"`([^`]+)`", cells[2]):
                for crate in re.findall(r"crates/(\w+)/specs", cells[3]):
                    out.setdefault((crate, name.split(" ")[0]), cells[0].split(",")[0].split(" ")[0])
    return out


def section_of(item, read):
    """The section that an item's sentence names, else the heading of its group, docs/READING.md, or its part of the file."""
    def named(text):
        m = re.search(r"(?:sections?|source) (\d+(?:\.\d+)?)", text)
        return m.group(1) if m else ""

    above = [i for i in item.file.items[:item.file.items.index(item) + 1] if i.heading is item.heading]
    group = next((c for i in reversed(above) for c in reversed(i.comments) if c.strip().startswith("-- ----")), "")
    return named(sentence(item.comments)) or named(group) or read.get((item.file.crate, item.name)) or named(sentence(item.heading))


def request_of(text):
    m = re.search(r"M-\d+|Demand \d", text)
    return m.group(0).replace("Demand ", "D") if m else ""


# ---- entries
def entry_of(x, section, as_theorem=False):
    words = sentence(x.comments)
    if isinstance(x, Item) and tables.is_table(x):
        return Entry(x, section, words, [[tables.line(x)]], "table")
    return Entry(x, section, words, ways_of(x, as_theorem), "theorem" if as_theorem else "type" if isinstance(x, Declared) else "")


def constant(item):
    return not item.kind and re.fullmatch(rf"{re.escape(item.name)} = \d+", ways_of(item)[0][0])


class Maker:
    """Makes chapters out of the items and types that an edition has."""

    def __init__(self, specs, members, read):
        self.specs, self.read, self.place = specs, read, file_order(specs)
        self.items = [x for x in members if isinstance(x, Item)]
        self.types = [x for x in members if isinstance(x, Declared)]

    def part_for(self, chapter, item):
        heading = sentence(item.heading)
        if not chapter.parts or (chapter.parts[-1].path, chapter.parts[-1].heading) != (item.file.path, heading):
            chapter.parts.append(Part(item.file.path, heading))
        return chapter.parts[-1]

    def with_types(self, part, used, waiting):
        """The types that are used and not yet told, each behind those that it names."""
        for x in used:
            if x in waiting:
                waiting.remove(x)
                self.with_types(part, self.specs.named_types(x), waiting)
                part.entries.append(entry_of(x, ""))

    def chapters(self):
        out = []
        for number, (title, of, _) in enumerate(CHAPTERS):
            chapter = Chapter(title, of)
            items = in_order([i for i in self.items if i.file.crate not in STATED and chapter_of(i.file.key) == number], self.place)
            waiting = [t for t in self.types if chapter_of(t.crate + "/") == number]
            named = {id(x) for i in items for x in self.specs.rests_on(i)}
            first = [t for t in waiting if id(t) not in named and not any(t in self.specs.named_types(u) for u in waiting)]
            if first and items:
                self.with_types(self.part_for(chapter, items[0]), first, waiting)
            for item in items:
                part = self.part_for(chapter, item)
                self.with_types(part, [x for x in self.specs.rests_on(item) if isinstance(x, Declared)], waiting)
                part.entries.append(entry_of(item, section_of(item, self.read) or request_of(of)))
            if waiting and not items:
                part = Part(waiting[0].path, "Types of the code.")
                chapter.parts.append(part)
                self.with_types(part, list(waiting), waiting)
            for part in chapter.parts:
                part.constants = len(part.entries) > 4 and all(isinstance(e.x, Item) and constant(e.x) for e in part.entries)
            out += [chapter] if chapter.parts else []
        return out

    def statements(self, promises):
        """The promises, a chapter for each heading of docs/PROMISES.md: what a statement needs of the crates of statements, then the statement."""
        out, done = [], set()
        mine = [i for i in self.items if i.file.crate in STATED and not i.file.path.stem.startswith("Determined")]
        for promise in promises:
            if not out or out[-1].title != promise.heading:
                out.append(Chapter(promise.heading, ""))
            needed, todo = set(), [x for i in promise.items for x in self.specs.states(i)]
            while todo:
                x = todo.pop()
                if x in mine and x not in needed | done:
                    needed.add(x)
                    todo += self.specs.rests_on(x)
            for item in in_order(needed | {i for i in promise.items if i not in done}, self.place):
                entry = entry_of(item, request_of(promise.heading), item in promise.items)
                entry.sentence = entry.sentence or proved(self.specs, item, promise)
                self.part_for(out[-1], item).entries.append(entry)
            done |= needed | set(promise.items)
        left = [i for i in mine if i not in done]
        if left:
            raise Fault("in no chapter: " + ", ".join(i.name for i in left))
        return out


def proved(specs, theorem, promise):
    """What is said of a theorem that has no sentence: the record that it is of, or the words of docs/PROMISES.md."""
    records = [x.name for x in specs.states(theorem) if isinstance(x, Item) and x.kind == "record" and x.file.crate == "promises"]
    ends = arguments(signature(theorem).split(" : ", 1)[1])[1].split(" ")[0]
    return f"the promise `{ends}`, proved" if ends in records else promise.words


def misplaced(specs, chapters):
    """Uses that stand before their definition in the same chapter."""
    out = []
    for chapter in chapters:
        seen, here = set(), {e.id for e in chapter.entries()}
        for e in chapter.entries():
            used = specs.named_types(e.x) if isinstance(e.x, Declared) else specs.states(e.x) if e.kind == "theorem" else specs.rests_on(e.x)
            out += [f"{e.x.name} uses {u.name}" for u in used if getattr(u, "id", None) in here and u.id not in seen and u is not e.x]
            seen.add(e.id)
    return out
