"""Faithful: what is printed has the words of the source, one by one, but for what the page of notation says is left out."""
import re

from .layout import by_equation, equations, modules, one_line, plain_numbers, signature, undented
from .scope import TOKEN
from .source import PREFIX, Item, uncommented


def words(text):
    """The words of a text without comments, semicolons, and the bar behind an opening bracket."""
    text = plain_numbers(re.sub(r"\s+", " ", " ".join(uncommented(l) for l in text)))
    out = []
    for word in TOKEN.findall(text):
        if word != ";" and not (word == "|" and out and out[-1] == "["):
            out.append(word)
    return out


def parted(parts):
    """The words of equations, with a semicolon between two of them and between the parts of a `do`."""
    texts = [one_line([uncommented(l).rstrip() for l in part if uncommented(l).strip()]) for part in parts]
    return TOKEN.findall(re.sub(r";\s*}", " }", plain_numbers(re.sub(r"\s+", " ", " ; ".join(texts)))))


def printed(entry):
    plain = not entry.x.kind and entry.kind != "theorem" and equations(entry.x)
    return parted(by_equation(entry.ways[-1])) if plain else words(entry.ways[-1])


def source(entry):
    item = entry.x
    if entry.kind == "theorem":
        name, text = signature(item).split(" : ", 1)
        return words([f"{name} : " + (f"{modules(item)} → " if item.module else "") + text])
    if item.kind:
        lines = [re.sub(r"^\s*pub ", "", line) for line in undented(item.lines)]
        head = " ".join(lines).split(" where ", 1)
        return words([re.sub(r" : Type \d+$", "", re.sub("^" + PREFIX, "", head[0])) + ":"] + lines_behind(lines))
    return parted(equations(item)) or words([signature(item)])


def lines_behind(lines):
    end = next(i for i, l in enumerate(lines) if l.rstrip().endswith("where")) + 1
    return lines[end:]


def unfaithful(entries):
    """Entries whose print has other words than the source."""
    return [e.id for e in entries if isinstance(e.x, Item) and e.kind != "table" and printed(e) != source(e)]
