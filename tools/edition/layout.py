"""An item as a reader meets it: a box, the RFC's section and a sentence; below it the definition, without what only the checker needs."""
import re
import textwrap

from .source import PREFIX, Declared, depth_of, uncommented

WIDTH = 160
INDENT = 4
FULL = 140  # a comment's line that could not have taken the next word goes on in the next line
PLAIN = {"ℕ", "ℤ", "Bool"}
NEGATIVE = re.compile(r"\(negsuc (\d+)\)|\bnegsuc (\d+)")


# ---- words
def sentence(comments):
    """The comment as a sentence, behind the heading of its group. A heading goes on where its line is long and does not end."""
    out, heading = "", False
    for comment in comments:
        text = re.sub(r"^\s*(--|//)\s?", "", comment).strip().replace("RFC 6386, section", "section")
        starts, text = text.startswith("----"), text.removeprefix("----").strip()
        ended = heading and (out[-1] in ").:;" or len(before) + len(text.split(" ")[0]) < FULL)
        out += ("" if not out else ": " if ended and out[-1] not in ".:;," else " ") + text
        heading, before = starts or (heading and not ended), comment
    return out.strip()


def wrapped(text, first="", rest=""):
    return textwrap.wrap(text, WIDTH, initial_indent=first, subsequent_indent=rest, break_long_words=False, break_on_hyphens=False) if text else []


# ---- numbers: -128 and not negsuc 127
def plain_numbers(text):
    text = NEGATIVE.sub(lambda m: f"(-{int(m.group(1) or m.group(2)) + 1})", text)
    text = re.sub(r"\(pos (\d+)\)", r"\1", text)
    return re.sub(r"(?<![\w.-])pos (\d+)\b", r"\1", text)


# ---- lines of code
def one_line(lines):
    """Lines of one expression as a single one, or None where a comment stands between them. The parts of a `do` are parted by `;`."""
    if any("--" in line for line in lines):
        return None
    out, parts = "", []
    for line in lines:
        depth, text = depth_of(line), line.strip()
        if parts and parts[-1] is None:
            parts[-1] = depth
        while parts and depth < parts[-1]:
            parts.pop()
        new = bool(parts) and depth == parts[-1] and not re.search(r"\bdo$", out)
        out += ("; " if new else " ") + text if out else text
        if re.search(r"\bdo$", text):
            parts.append(None)
    return tidy(out)


def tidy(text):
    text = re.sub(r"\[ \| ", "[ ", text)
    text = re.sub(r"; ?\}", " }", text)
    text = re.sub(r" \}\)", " })", text)
    return re.sub(r"\( ", "(", text)


def break_at(text, limit):
    """Where a long line is best broken: late, in as few parentheses as can be, and best before a sign or behind a semicolon."""
    best, depth = None, 0
    for i, c in enumerate(text[:limit]):
        depth += (c in "({[") - (c in ")}]")
        if c == " " and i > limit // 2:
            sign = text[i - 1] == ";" or text[i + 1] in "→×⊎|∷≡" or text.startswith("&& ", i + 1)
            cost = (2 * depth + (0 if sign else 3), -i)
            best = min(best or (cost, i), (cost, i))
    return best[1] if best else text.find(" ", limit)


def folded(text, indent="", room=WIDTH - INDENT):
    """A long line as several."""
    out = []
    while len(indent * bool(out) + text) > room:
        at = break_at(text, room - len(indent) * bool(out))
        if at <= 0:
            break
        out.append(indent * bool(out) + text[:at].rstrip())
        text = text[at:].strip()
    return out + [indent * bool(out) + text]


def filled(lines):
    """Lines joined as far as the width goes, each new one at the depth of its first."""
    joined = one_line(lines)
    if joined is not None and len(joined) <= WIDTH - INDENT:
        return [joined]
    if joined is None or re.search(r"\bdo\b", joined):
        return by_part(lines)
    out = [lines[0].rstrip()]
    for line in lines[1:]:
        both = tidy(out[-1] + " " + line.strip())
        if len(both) <= WIDTH - INDENT:
            out[-1] = both
        else:
            out.append(tidy(line.rstrip()))
    out = [piece for line in out for piece in indented(line)]
    tight = folded(joined, "        ")
    return tight if len(tight) < len(out) else out


def by_part(lines):
    """The parts of a `do`, each on a line of its own where it fits; what stands deeper than a part belongs to it."""
    depth, parts = depth_of(lines[1]) if len(lines) > 1 else 0, []
    for line in lines[1:]:
        if parts and (depth_of(line) > depth or line.strip()[0] in "})]"):
            parts[-1].append(line)
        else:
            parts.append([line])
    out = [lines[0].rstrip()]
    for part in parts:
        joined = one_line(part)
        pieces = None if joined is None else [" " * depth + joined] if depth + len(joined) <= WIDTH - INDENT else None
        if pieces is None and len(part) > 1 and not any("--" in l or re.search(r"\bdo$", l) for l in part):
            pieces = [" " * depth + piece for piece in folded(joined, "    ")]
        out += pieces or [l.rstrip() for l in part]
    return out


def indented(line):
    depth = " " * depth_of(line)
    first, *rest = folded(line.strip(), depth + "    ")
    return [depth + first] + rest


# ---- definitions
def undented(lines):
    depth = depth_of(lines[0])
    return [line[depth:] if not line[:depth].strip() else line.strip() for line in lines if line.strip()]


def by_equation(lines):
    """Lines cut where an equation begins."""
    out = []
    for line in lines:
        if out and (depth_of(line) or line[0] in "}])"):
            out[-1].append(line)
        else:
            out.append([line])
    return out


def equations(item):
    """The lines of each equation."""
    return by_equation([l for l in undented(item.lines[len(item.statement()):]) if not l.startswith("unfolding")]) if len(item.lines) > len(item.statement()) else []


def signature(item):
    """The type of a definition on one line, behind its name."""
    text = re.sub("^" + PREFIX, "", " ".join(uncommented(l).strip() for l in item.statement()))
    return tidy(re.sub(r"\s+", " ", text))


def arguments(text):
    """A type's arguments and its result, cut at the arrows that stand outside of parentheses."""
    out, depth, part = [], 0, ""
    for c in text:
        depth += (c in "({[") - (c in ")}]")
        if c == "→" and not depth:
            out, part = out + [part.strip()], ""
        else:
            part += c
    return out, part.strip()


def telescope(text):
    """(x y : A) (z : B) as [(x, A), (y, A), (z, B)], or None where it is no such."""
    groups = re.findall(r"\(([^():]+) : ((?:[^()]|\([^()]*\))+)\)", text)
    return [(x, type_) for names, type_ in groups for x in names.split()] if groups and re.fullmatch(r"(\([^():]+ : (?:[^()]|\([^()]*\))+\)\s*)+", text) else None


def types(item, left):
    """The types of a left side's variables, as groups of one type, and of the whole; None where they tell nothing or its arguments are no plain variables."""
    variables = left.split(" ")[1:]
    parts, result = arguments(signature(item).split(" : ", 1)[1])
    found = [t for part in parts if not part.startswith("{") for t in ([y for _, y in telescope(part)] if telescope(part) else [part])]
    if not variables or not all(re.fullmatch(r"[\w₀-₉-]+", v) for v in variables) or len(found) < len(variables):
        return None
    result = " → ".join(found[len(variables):] + [result])
    if {*found[:len(variables)], result} <= PLAIN:
        return None
    groups = []
    for v, t in zip(variables, found):
        if groups and groups[-1][1] == t:
            groups[-1][0].append(v)
        else:
            groups.append(([v], t))
    return groups, "" if result in PLAIN | {"Type 0"} else f" : {result}"


def typed(item, left):
    """Ways to write a left side, the fullest first: `f (x : A) : B`, `f x : B`, `f x`."""
    known = types(item, left)
    if known is None:
        return [left]
    groups, result = known
    full = left.split(" ")[0] + "".join(f" ({' '.join(vs)} : {t})" for vs, t in groups) + result
    return list(dict.fromkeys([full, left + result, left]))


def side_by_side(parts):
    """Equations of one line each share a line as far as it goes."""
    out = []
    for lines in parts:
        if out and len(lines) == 1 and len(last) == 1 and len(out[-1] + ";  " + lines[0]) <= WIDTH - INDENT and "--" not in out[-1]:
            out[-1] += ";  " + lines[0]
        else:
            out += lines
        last = lines
    return out


def definition(item):
    """Ways to write a definition, that with most types first: of one equation `name x = body`, else equation after equation."""
    parts = equations(item)
    if not parts:
        return [folded(signature(item), "    ")]
    out = side_by_side([filled(lines) for lines in parts])
    if len(parts) > 1 or " = " not in out[0]:
        return [out]
    left, right = out[0].split(" = ", 1)
    ways = [[f"{way} = {right}"] + out[1:] for way in typed(item, left)]
    return [way for way in ways if len(way[0]) <= WIDTH - INDENT] or [out]


def field_entries(lines):
    """Each field or case with its comment, as [text, comment]."""
    out, comment = [], ""
    for line in lines:
        text = line.strip().removeprefix("pub ")
        if text.startswith("--"):
            comment += (" " if comment else "-- ") + text[2:].strip()
        elif out and not comment and depth_of(line) > depth_of(lines[0]):
            out[-1][0] = tidy(out[-1][0] + " " + text)
        else:
            out.append([tidy(text), comment])
            comment = ""
    return out


def fields(lines):
    """Fields of a record or cases of a data type, several to a line as far as they go. A comment stands behind its field where it is of that one alone,
    else on a line before those that it is of."""
    out, row, entries, room = [], "", field_entries(lines), WIDTH - INDENT - 2
    for i, (text, comment) in enumerate(entries):
        if row and not comment and len(row + "; " + text) <= room:
            row += "; " + text
            continue
        out += folded(row, "    ", room) if row else []
        row = text
        alone = i + 1 == len(entries) or entries[i + 1][1]
        if comment and alone and len(text + "  " + comment) <= room:
            out, row = out + [f"{text}  {comment}"], ""
        elif comment:
            out += wrapped(comment, "", "-- ")
    return out + (folded(row, "    ", room) if row else [])


def block(item):
    """A record or data type: its head, then its fields."""
    lines = undented(item.lines)
    end = next(i for i, l in enumerate(lines) if l.rstrip().endswith("where")) + 1
    head = re.sub(r" : Type \d+ where$| where$", "", re.sub("^" + PREFIX, "", " ".join(l.strip() for l in lines[:end])))
    inner = fields(lines[end:])
    if len(inner) == 1 and len(head) + 2 + len(inner[0]) <= WIDTH - INDENT and not inner[0].startswith("--"):
        return [f"{head}: {inner[0]}"]
    return folded(head + ":", "    ") + ["  " + line for line in inner]


def modules(item):
    """The arguments that the modules around an item give it."""
    text = " ".join(uncommented(l).strip() for l in item.module)
    return re.sub(r"\s+", " ", re.sub(r"module _ | where", " ", text)).strip()


def theorem(item):
    """A theorem's statement, with its modules' arguments."""
    name, text = signature(item).split(" : ", 1)
    return folded(f"{name} : " + (f"{modules(item)} → " if item.module else "") + text, "    ")


def declaration(declared):
    """A type of the code on one line."""
    text = re.sub(r"\s+", " ", " ".join(re.sub(r"//.*", "", l).strip() for l in declared.lines))
    text = re.sub(r"\bpub(\(crate\))? ", "", text).replace(", }", " }")
    return folded(text, "    ")


def ways_of(x, as_theorem=False):
    """Ways to write an item or a type, the fullest first; each is a list of lines."""
    if isinstance(x, Declared):
        return [declaration(x)]
    ways = [theorem(x)] if as_theorem else [block(x)] if x.kind else definition(x)
    return [[plain_numbers(line) for line in way] for way in ways]
