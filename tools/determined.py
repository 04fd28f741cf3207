#!/usr/bin/env python3
"""Holds crates/promises/specs/Determined.antt and the contracts of the public functions together; the gate runs it.

For every public function of every library crate (`pub fn`, methods too, in lib.rt or a chain of `pub mod`):
- it has no `requires`, and each `ensures` is an equation, or several joined by ×;
- the left sides are the answer (or each of its fields) and the final state of every `&mut` argument, each once, in a record or by a definition
  that is a record of its arguments: so whatever meets the contract agrees in all of them;
- Determined has a line for each equation, in their order, under a comment with the function's path (`-- modes::large::main_mode`);
- the right side, where `x.now` of a `&` and `x.old` of a `&mut` is the argument x, is the line's right side: the same definitions, each by its
  full name, of the same arguments.
And every line of Determined is some function's. What C links, crate hookbarley_c, has each public function of crate hookbarley once more, exported:
at the same path, with the same arguments and the contract that Determined has for that one, and nothing besides. What differs is printed, and
the status is 1.
tools/plain.py sees that the sources have the form in which this script reads them.
"""
import re
import sys

from sources import ROOT, Fault, closing, functions, modules, rust_uses, words as handed_on

DETERMINED = ROOT / "crates/promises/specs/Determined.antt"
EQUALITY = "Rattle.std.specs.Prelude.◌≡◌"
# The library and the crate that exports it.
LIBRARY, EXPORTS = "hookbarley", "hookbarley_c"
# What a line of Determined says, word by word.
ONE = """pub record One {A : Type 0} (Promise : A → Type 0) : Type 0 where
  pub answer : A
  pub meets : Promise answer
  pub only : (x y : A) → Promise x → Promise y → x ≡ y
"""


# ---- terms: ("name", path), ("number", n), ("apply", f, x), ("field", x, f), ("record", ((field, term), ..))
TOKEN = re.compile(r"\s*(?:(?P<open>[({])|(?P<close>[)}])|(?P<sep>;)|(?P<is>[=≡](?=\s|$))|(?P<word>[^\s(){};]+))")


def tokens(text):
    out, at = [], 0
    text = text.strip()
    while at < len(text):
        m = TOKEN.match(text, at)
        if not m:
            raise Fault(f"cannot read: {text[at:at + 40]}")
        out.append(m.group().strip())
        at = m.end()
    return out


class Parser:
    def __init__(self, text, name):
        self.left = tokens(text)
        self.name = name  # what a word stands for

    def peek(self):
        return self.left[0] if self.left else None

    def take(self, what=None):
        if not self.left or (what and self.left[0] != what):
            raise Fault(f"{what or 'a term'} expected at: {' '.join(self.left[:8])}")
        return self.left.pop(0)

    def term(self):
        f = self.atom()
        while self.peek() not in (None, ")", "}", ";", "≡"):
            f = ("apply", f, self.atom())
        return f

    def atom(self):
        word = self.take()
        if word == "(":
            x = self.term()
            self.take(")")
        elif word == "record":
            x = self.fields()
        elif word in ")}{;=≡" or word.startswith(("λ", "let")):
            raise Fault(f"not understood: {word}")
        elif word.isdigit():
            x = ("number", int(word))
        else:
            x = self.name(word)
        while self.peek() is not None and re.fullmatch(r"(?:\.[^\s.]+)+", self.peek()):
            x = fields(x, self.take()[1:].split("."))
        return x

    def fields(self):
        self.take("{")
        out = []
        while self.peek() != "}":
            field = self.take().strip("«»")
            self.take("=")
            out.append((field, self.term()))
            if self.peek() == ";":
                self.take(";")
        self.take("}")
        return ("record", tuple(sorted(out)))

    def equations(self):
        """The sides of each equation: those joined by × stand in brackets."""
        parts, depth = [[]], 0
        for word in self.left:
            depth += (word in "({") - (word in ")}")
            if word == "×" and depth == 0:
                parts.append([])
            else:
                parts[-1].append(word)
        out = []
        for part in parts:
            bracketed = len(parts) > 1 and part and part[0] == "(" and part[-1] == ")"
            self.left = part[1:-1] if bracketed else part
            out.append(self.equation())
        return out

    def equation(self):
        if self.peek() == "◌≡◌":
            self.take()
            if self.peek() == "{":
                while self.take() != "}":
                    pass
            left, right = self.atom(), self.atom()
        else:
            left = self.term()
            self.take("≡")
            right = self.term()
        if self.left:
            raise Fault(f"not an equation: {' '.join(self.left[:8])}")
        return left, right


def fields(x, names):
    for name in names:
        x = ("field", x, name)
    return x


# ---- what the words of a file stand for, by its `use` lines
def scope(text, opening="use"):
    names, modules, handed = {}, {}, handed_on()
    for line in re.findall(rf"^{opening} (\S.*?);?$", text, re.M):
        m = re.match(r"(\S+?)\.\{(.*)\}$", line)
        if m:
            for word in map(str.strip, m.group(2).split(",")):
                module = handed.get(word, m.group(1)) if m.group(1) == "Rattle.numbers.specs.Words" else m.group(1)
                names[word] = f"{module}.{word}"
        else:
            m = re.match(r"(\S+) as (\S+)$", line)
            if m:
                modules[m.group(2)] = m.group(1)
    return names, modules


def equality(scoped):
    """`≡` is std's. (`×` is the language's own and can be no other.)"""
    if scoped[0].get("◌≡◌") != EQUALITY:
        raise Fault(f"≡ is not that of Rattle.std.specs.Prelude: {scoped[0].get('◌≡◌')}")


def resolver(scoped, variables):
    """What a word is, with the fields that stand tight behind it: a variable, a name that a `use` line brings, or one of a module's."""
    names, modules = scoped

    def name(word):
        first, *rest = [part.strip("«»") for part in word.split(".")]
        if first in variables:
            return fields(("name", "$" + first), rest)
        if first in names:
            return fields(("name", names[first]), rest)
        if rest and first in modules:
            return fields(("name", f"{modules[first]}.{rest[0]}"), rest[1:])
        raise Fault(f"no `use` line names {word}")

    return name


# ---- the contract of a public function
def contract(head):
    """The texts of the `ensures`."""
    if "//" in head:
        raise Fault("has a comment in its contract")
    if re.search(r"\brequires\b", head):
        raise Fault("has a `requires`")
    clauses = []
    for m in re.finditer(r"\bensures\b", head):
        opened = re.compile(r"\s+(?:\w+\s*)?\{").match(head, m.end())
        if not opened:
            raise Fault("has an `ensures` that is no plain clause")
        clauses.append(head[opened.end():closing(head, opened.end() - 1)])
    if not clauses:
        raise Fault("has no `ensures`")
    return clauses


# ---- the left side
def definition(full):
    """The parameters and the body of the definition with this full name, where it is one line of a specs file."""
    m = re.match(r"Rattle\.(\w+)\.specs\.([\w.]+)\.([^.]+)$", full)
    file = ROOT / f"crates/{m.group(1)}/specs/{m.group(2).replace('.', '/')}.antt" if m else None
    if not file or not file.exists():
        return None
    text = file.read_text()
    found = re.findall(rf"^{re.escape(m.group(3))}((?: \w+)*) =\s+(.*(?:\n[ \t].*|\n\}}.*)*)", text, re.M)
    clauses = re.findall(rf"^{re.escape(m.group(3))}(?= )(?! :)", text, re.M)
    if len(found) != 1 or len(clauses) != 1:
        return None
    variables = found[0][0].split()
    names, modules = scope(text)
    own = {name: full[:-len(m.group(3))] + name for name in re.findall(r"^(?:abbrev |unfoldable )?(?:pub )?(\w+) :", text, re.M)}
    return variables, Parser(found[0][1], resolver(({**names, **own}, modules), variables)).term()


def leaves(t):
    """What a left side holds: its leaves, each a variable of the contract."""
    if t[0] == "record":
        return [x for _, f in t[1] for x in leaves(f)]
    if t[0] in ("name", "field") and variable(t):
        return [t]
    head, given = t, []
    while head[0] == "apply":
        given.insert(0, head[2])
        head = head[1]
    d = definition(head[1]) if head[0] == "name" and given else None
    if d is None or len(d[0]) != len(given):
        raise Fault(f"the left side is not a record of what the call leaves: {show(t)}")
    inside = leaves(d[1])
    if sorted(map(str, inside)) != sorted(str(("name", "$" + v)) for v in d[0]):
        raise Fault(f"{head[1]} is not a record of its arguments")
    return [x for g in given for x in leaves(g)]


def fields_of(file, kind):
    """The fields of a struct that the file declares or names in a `use` line."""
    text = file.read_text()
    kind = kind.split("<")[0]
    head = rf"^pub struct {kind}(?:<\w+>)? \{{"
    if not re.search(head, text, re.M):
        path = rust_uses(text).get(kind)
        if not path:
            raise Fault(f"no struct {kind}")
        crate, *modules = path.split("::")[:-1]
        source = file.parents[len(file.parts) - 1 - file.parts.index("src") - 1] if crate in ("crate", "super") else ROOT / "crates" / crate / "src"
        text = (source / ("/".join(modules or ["lib"]) + ".rt")).read_text()
    body = re.search(head + r"(.*?)^\}", text, re.M | re.S).group(1)
    return re.findall(r"^\s*(?:pub )?(\w+):", body, re.M)


def outputs(file, arguments, result, found):
    """What a contract must speak of: the answer, whole or by its fields, and each lent memory at the return."""
    out = []
    if result and any(x[0] == "field" and x[1] == ANSWER for x in found) and not result.startswith("&"):
        out += [("field", ANSWER, field) for field in fields_of(file, result)]
    elif result:
        out.append(("field", ANSWER, "now") if result.startswith("&") else ANSWER)
    for name, kind in arguments:
        if kind.startswith("&mut"):
            out.append(("name", "$" + name + LATER))
    return out


ANSWER = ("name", "$result")
# Behind a variable's name: what it points to at the return.
LATER = " at the return"


def variable(t):
    """The variable of the contract that a term is, or of which it is a field."""
    while t[0] == "field":
        t = t[1]
    return t if t[0] == "name" and t[1].startswith("$") else None


def plain(t, kinds):
    """`x.now` of a `&`, and `x.old` of a `&mut`, as x; `x.new` as x at the return."""
    if t[0] == "apply":
        return ("apply", plain(t[1], kinds), plain(t[2], kinds))
    if t[0] == "record":
        return ("record", tuple((f, plain(x, kinds)) for f, x in t[1]))
    if t[0] != "field":
        return t
    x, field = t[1:]
    whose = x[1] if x[0] == "field" and x[2] in ("entry", "exit") and field == "now" else x
    kind = kinds.get(whose[1][1:]) if whose[0] == "name" and whose[1].startswith("$") else None
    if kind == "&":
        if (field, whose) == ("now", x) or (whose != x and x[2] == "entry"):
            return whose
    if kind == "&mut":
        if field == "old" or (whose != x and x[2] == "entry"):
            return whose
        if field == "new" or (whose != x and x[2] == "exit"):
            return ("name", whose[1] + LATER)
    return ("field", plain(x, kinds), field)


# ---- the right side


def words(t):
    if t[0] == "name":
        return {t[1]}
    if t[0] == "record":
        return set().union(*(words(x) for _, x in t[1]))
    return set().union(*(words(x) for x in t[1:] if isinstance(x, tuple)))


def head_of(t):
    while t[0] == "apply":
        t = t[1]
    return t


def show(t, inside=False):
    if t[0] == "apply":
        text = f"{show(t[1])} {show(t[2], True)}"
        return f"({text})" if inside else text
    if t[0] == "field":
        return f"{show(t[1], True)}.{t[2]}"
    if t[0] == "record":
        return "record { " + "; ".join(f"{f} = {show(x)}" for f, x in t[1]) + " }"
    return str(t[1]).lstrip("$") if t[0] == "name" else str(t[1])


# ---- Determined
LINE = re.compile(r"^-- (?P<path>\w+(?:::\w+)+)\npub (?P<name>\S+) : (?P<type>.*(?:\n .*)*)", re.M)


def lines():
    text = DETERMINED.read_text()
    scoped, out = scope(text), {}
    equality(scoped)
    if text.count(ONE) != 1:
        raise Fault("Determined: `One` is not the record that this script knows")
    for m in LINE.finditer(text):
        kind = re.sub(r"\s+", " ", m.group("type"))
        whole = re.fullmatch(r"(?P<variables>(?:\([^()]*\) ?)*)(?:→ )?One \(λ o\. o ≡ (?P<right>.*)\)", kind)
        if not whole:
            raise Fault(f"Determined: {m.group('name')} is not a line `(..) → One (λ o. o ≡ ..)`")
        variables = [v for g in re.findall(r"\(([^:()]*):", whole.group("variables")) for v in g.split()]
        if "o" in variables:
            raise Fault(f"Determined: {m.group('name')} has an argument o")
        right = Parser(whole.group("right"), resolver(scoped, variables)).term()
        if {"$" + v for v in variables} - words(right):
            raise Fault(f"Determined: {m.group('name')} takes what it does not speak of")
        if not re.match(r"Rattle\.", str(head_of(right)[1])):
            raise Fault(f"Determined: {m.group('name')} does not name a definition")
        out.setdefault(m.group("path"), []).append((m.group("name"), right))
    known = {name for found in out.values() for name, _ in found}
    for name in re.findall(r"^pub (\S+) : .*(?:\n .*)*One \(", text, re.M):
        if name not in known:
            raise Fault(f"Determined: {name} has no path in a comment over it")
    return out


def kind_of(name, kind):
    """How an argument is handed over."""
    m = re.match(r"&mut\b|&|", kind)
    return m.group() if name != "self" or kind.startswith("&") else ""


def check(path, arguments, result, head, file, scoped, determined):
    clauses = contract(head)
    kinds = {name: kind_of(name, kind) for name, kind in arguments}
    if "result" in kinds:
        raise Fault("an argument has the name of the answer")
    name = resolver(scoped, [*kinds, "result"])
    sides = [side for text in clauses for side in Parser(text, name).equations()]
    sides = [(plain(left, kinds), plain(right, kinds)) for left, right in sides]
    found = sorted((x for left, _ in sides for x in leaves(left)), key=show)
    wanted = sorted(outputs(file, arguments, result, found), key=show)
    if found != wanted:
        raise Fault(f"the left side holds {', '.join(map(show, found))}; what the call leaves is {', '.join(map(show, wanted))}")
    given = [right for _, right in sides]
    for right in given:
        if "$result" in words(right) or any(word.endswith(LATER) for word in words(right) if isinstance(word, str)):
            raise Fault(f"the right side speaks of what the call leaves: {show(right)}")
    lines = determined.get(path, [])
    if len(lines) != len(given):
        raise Fault(f"{len(given)} equations, and Determined has {len(lines)} lines for it")
    for right, (name, line) in zip(given, lines):
        if right != line:
            raise Fault(f"ensures {show(right)}\n    {name} has {show(line)}")


def main():
    faults, seen, exported, called = [], set(), {}, {}
    try:
        determined = lines()
        crates = [c for c in sorted((ROOT / "crates").iterdir()) if (c / "src/lib.rt").exists()]
        for file, path in [(f, p) for crate in crates for f, p, public in modules(crate) if public]:
            text = file.read_text()
            scoped = scope(text, "ghost use")
            for function in functions(text, path):
                full, *rest = function
                if path[0] in (LIBRARY, EXPORTS):
                    full = full.replace(f"{EXPORTS}::", f"{LIBRARY}::", 1)
                    (exported if path[0] == EXPORTS else called)[full] = rest[:2]
                seen.add(full)
                try:
                    equality(scoped)
                    check(full, *rest, file, scoped, determined)
                except Fault as fault:
                    faults.append(f"{function[0]}: {fault}")
        for full in sorted({*exported, *called}):
            if exported.get(full) != called.get(full):
                faults.append(f"{full}: not the same call in crates {LIBRARY} and {EXPORTS}")
    except Fault as fault:
        faults.append(str(fault))
        determined = {}
    faults += [f"Determined: {path} is no public function" for path in determined if path not in seen]
    for fault in faults:
        print(fault)
    if faults:
        sys.exit(1)
    print(f"determined: {len(seen)} public functions, each with the contract that Determined has")


main()
