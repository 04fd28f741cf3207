"""The edition as one HTML page, without a network: a name leads to its definition, a definition to where it is used; a sentence shows on hovering."""
import html
import re
from html.parser import HTMLParser
from pathlib import Path

from . import Fault, markdown, notation, shown, tables
from .document import entry_of
from .layout import modules, signature
from .scope import TOKEN, Words
from .source import Declared, Item, Kit, uncommented

STYLE = (Path(__file__).parent / "page.css").read_text()
SCRIPT = (Path(__file__).parent / "page.js").read_text()


def esc(text):
    return html.escape(text, quote=True)


def used_words(specs, entry):
    """From each word of an entry to what it names."""
    if isinstance(entry.x, Declared):
        return {t.name: t for t in specs.named_types(entry.x)}
    return Words(specs, entry.x, statement=entry.kind == "theorem").used


def bare(word):
    """A word without the sign that stands behind it."""
    return word.rstrip(".:") or word


def target(words, word):
    return words.get(bare(word))


class Page:
    """The entries by their ids, what each uses and is used by."""

    def __init__(self, editions):
        self.editions, self.specs, self.edition = editions, editions.specs, editions.outer
        self.one = entry_of(editions.one, "")
        self.entries = {e.id: e for e in self.edition.entries() + [self.one]}
        self.words = {e.id: used_words(self.specs, e) for e in self.entries.values()}
        self.users = {}
        for e in self.entries.values():
            for word in [w for l in e.lines for w in TOKEN.findall(uncommented(l))]:
                x = target(self.words[e.id], word)
                if x is not None and not isinstance(x, Kit) and x.id in self.entries and x.id != e.id:
                    self.users.setdefault(x.id, {})[e.id] = e
        self.kit = {n: t for names in notation.KIT.values() for n, t in names.items()}

    # ---- links
    def hover(self, entry):
        """What is shown over a link: the sentence, and the type of a definition."""
        typed = f" [{signature(entry.x)}]" if isinstance(entry.x, Item) and not entry.x.kind and entry.kind != "theorem" else ""
        return esc(re.sub(r"\s+", " ", entry.sentence or " ".join(entry.lines)) + typed)

    def linked(self, word, text, target):
        if isinstance(target, Kit):
            if not re.search(r"\w", word) or target.name not in self.kit:
                return text
            return f'<a class="k" href="#notation" title="{esc(notation.told(target.name, self.kit[target.name]))}">{text}</a>'
        if target is None or target.id not in self.entries:
            return text
        return f'<a href="#{esc(target.id)}" title="{self.hover(self.entries[target.id])}">{text}</a>'

    def code(self, entry):
        """The lines of an entry with a link from each name."""
        words = self.words[entry.id]
        return "".join(f'<span style="--d:{len(l) - len(l.lstrip())}">{self.line(l.strip(), words, entry.x.name)}</span>' for l in entry.lines)

    def line(self, text, words, own=""):
        """A line with a link from each name; its own name is bold, a comment apart."""
        text, mark, comment = text.partition("--")
        out, at = [], 0
        for m in TOKEN.finditer(text):
            word, found = m.group(0), target(words, m.group(0))
            out.append(esc(text[at:m.start()]))
            out.append(f"<b>{esc(word)}</b>" if bare(word) == own else self.linked(word, esc(word), found))
            at = m.end()
        return "".join(out) + esc(text[at:]) + (f"<i>{esc(mark + comment)}</i>" if mark else "")

    def said(self, entry):
        """A sentence, with a link from each name in it that the entry's file knows."""
        def one(m):
            found = self.specs.resolve(entry.x.file, m.group(1)) if isinstance(entry.x, Item) else None
            return f"<code>{self.linked(m.group(1), esc(m.group(1)), found)}</code>"

        parts = re.split(r"(`[^`]+`)", entry.sentence)
        return "".join(re.sub(r"`([^`]+)`", one, p) if p.startswith("`") else esc(p) for p in parts)

    # ---- parts of the page
    def entry(self, e):
        users = sorted(self.users.get(e.id, {}).values(), key=lambda u: u.x.name)
        back = ", ".join(f'<a href="#{esc(u.id)}" title="{self.hover(u)}">{esc(u.x.name)}</a>' for u in users)
        numbers = f"<details><summary>its numbers</summary><pre>{esc(chr(10).join(tables.rows(e.x)))}</pre></details>" if e.kind == "table" else ""
        return (f'<div class="e" id="{esc(e.id)}"><label><input type="checkbox"> {esc(e.section)}</label><p>{self.said(e)}</p>'
                f'<div class="c">{self.code(e)}</div>{numbers}' + (f'<p class="u">used by {back}</p>' if back else "") + "</div>")

    def part(self, part, statements):
        head = "" if statements else f'<h3>{esc(markdown.place(part))} <small>{esc(shown(part.path))}</small></h3><p class="f">{esc(part.heading)}</p>'
        out, given = [head], ""
        for e in part.entries:
            around = modules(e.x) if isinstance(e.x, Item) and e.kind != "theorem" else ""
            if around != given and e.kind not in ("theorem", "type"):
                given = around
                out.append(f'<p class="w">with {esc(around) or "nothing"}:</p>')
            out.append(self.entry(e))
        return "\n".join(out)

    def chapter(self, c, number, statements):
        parts = "\n".join(self.part(p, statements) for p in c.parts)
        return f'<section id="chapter-{number}"><h2>{number}. {esc(c.title)} <small>{esc(markdown.of(c, statements))}</small></h2>\n{parts}</section>'

    def notation(self):
        rows = "".join(f"<tr><td>{coded(a)}</td><td>{coded(b)}</td></tr>" for a, b in notation.FORMS)
        names = "".join(f"<li>{coded(r)}</li>" for r in notation.rows(self.editions.kit, 0))
        return f'<section id="notation"><h2>Notation</h2><table>{rows}</table><ul>{names}</ul></section>'

    def contracts(self, number):
        rows = ""
        for c in self.edition.contracts:
            words = Words(self.specs, c.item, statement=True).used
            rows += f"<tr><td><code>{esc(c.path)}</code></td><td><code>{self.line(c.answer, words)}</code></td></tr>"
        return f'<section id="chapter-{number}"><h2>{number}. The contracts of the C calls</h2>{self.entry(self.one)}<table>{rows}</table></section>'

    def text(self):
        chapters = [(c, False) for c in self.edition.chapters] + [(c, True) for c in self.edition.statements]
        last = len(chapters) + 1
        contents = "".join(f'<li><a href="#chapter-{n}">{esc(c.title)}</a> <small>{esc(c.of)}</small></li>' for n, (c, _) in enumerate(chapters, 1))
        body = "\n".join(self.chapter(c, n, s) for n, (c, s) in enumerate(chapters, 1))
        return f"""<!DOCTYPE html>
<html lang="en"><head><meta charset="utf-8"><meta name="viewport" content="width=device-width, initial-scale=1">
<title>Hookbarley: the definitions</title><style>{STYLE}</style></head><body>
<header><h1>The definitions, for reading beside the RFC</h1>
<p>{self.edition.count} definitions and {self.edition.proved} statements: everything that the contracts of the C calls and the promises to a user rest on, in the
order of RFC 6386. A name leads to its definition, “used by” leads back to its uses; hover over a name to read its sentence. The number beside a box is the RFC's
section, a request or a demand. Ticked boxes are remembered in this browser: <output id="ticked"></output>. The same as text: docs/DEFINITIONS.md.</p></header>
<nav><h2>Contents</h2><ol>{contents}<li><a href="#chapter-{last}">The contracts of the C calls</a></li></ol><p><a href="#notation">Notation</a></p></nav>
{self.notation()}
{body}
{self.contracts(last)}
<script>{SCRIPT}</script></body></html>
"""


def coded(text):
    """Text with its code between backticks."""
    return re.sub(r"`([^`]+)`", lambda m: f"<code>{m.group(1)}</code>", html.escape(text, quote=False))


def made(editions):
    return Page(editions).text()


class Links(HTMLParser):
    """The ids of a page and the places that its links lead to."""

    def __init__(self):
        super().__init__()
        self.ids, self.links = [], []

    def handle_starttag(self, tag, attributes):
        attributes = dict(attributes)
        self.ids += [attributes["id"]] if "id" in attributes else []
        self.links += [attributes["href"]] if "href" in attributes else []
        if "src" in attributes or tag == "link":
            raise Fault("the page asks for another file")


def checked(text):
    """How many links a page has; a Fault where one leads nowhere or an id stands twice."""
    links = Links()
    links.feed(text)
    ids = set(links.ids)
    lost = sorted({l for l in links.links if not l.startswith("#") or l[1:] not in ids})
    twice = sorted({i for i in ids if links.ids.count(i) > 1}) if len(ids) < len(links.ids) else []
    if lost or twice:
        raise Fault(f"the page: links that lead nowhere: {', '.join(lost) or 'none'}; ids that stand twice: {', '.join(twice) or 'none'}")
    return len(links.links)
