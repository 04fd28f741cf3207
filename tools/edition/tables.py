"""Big tables: in an edition one line each, their numbers in plain text under docs/tables, to be held against the RFC."""
import re

from . import ROOT, Fault
from .layout import sentence

FOLDER = ROOT / "docs/tables"
FEWEST = 40


def rows(item):
    """The rows of a definition that is a list of numbers, as its lines have them, with the comments between; None where it is none."""
    lines = [l.strip() for l in item.lines[len(item.statement()):]]
    if item.kind or not lines or lines[0] != f"{item.name} =":
        return None
    out = []
    for line in lines[1:]:
        if line.startswith("--"):
            out.append("# " + line[2:].strip())
        elif re.fullmatch(r"(∷ )?\d+( ∷ \d+)*( ∷)?( \[\])?", line):
            out.append(" ".join(re.findall(r"\d+", line)))
        else:
            return None
    return out


def count(item):
    return sum(len(r.split()) for r in rows(item) or [] if not r.startswith("#"))


def is_table(item):
    return count(item) >= FEWEST


def made(items):
    """The text of each file under docs/tables, by its name."""
    out = {}
    for item in items:
        if f"{item.name}.txt" in out:
            raise Fault(f"two tables have the name {item.name}")
        out[f"{item.name}.txt"] = "\n".join([f"# {item.name}, {count(item)} numbers: {sentence(item.comments)}", *rows(item), ""])
    return out


def line(item):
    return f"{item.name} = {count(item)} numbers: docs/tables/{item.name}.txt"
