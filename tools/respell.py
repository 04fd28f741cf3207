#!/usr/bin/env python3
"""Spells the repository's own definitions and lemmas as the kit does: in snake case, but for types and modules.

usage: tools/respell.py [--table]

It was run once, right after the kit's port.py, which turns only the names that a library has too. It turns whole words: in .antt files; in the
`ghost use` lines, clauses and comments of .rt files; in the must-fail edits; in code spans of the pages. Names of src/ keep their spelling.
--table prints each old name with its new one, and writes nothing.
"""
import collections
import glob
import os
import re
import sys

NAME = r'[^\s(){}.;,@"«»]+'
WORD = re.compile(NAME)
DECLARED = re.compile(r"(?m)^ *(?:(?:pub|abbrev|unfoldable|data|record|ruleset) )*(" + NAME + r")(?: \{[^{}\n]*\}| \([^()\n]*\))* :(?= |$)(?! tie\.Need-)")
LET = re.compile(r"\blet (" + NAME + r") (?=[:=])")
USE = re.compile(r"(?m)^(?:unfoldable )?(?:pub )?(?:ghost )?use ([^\s{;]+?)\.?(\{[^}]*\})?(?: as (\S+?))?;?$")
OWN = re.compile(r"Rattle\.(\w+)\.")
MADE = ("Tie", "Statement", "Reads", "Lts")


def read(path):
    with open(path, encoding="utf-8") as f:
        return f.read()


def files(ending, root="crates"):
    return sorted(p for p in glob.glob(f"{root}/**/*{ending}", recursive=True) if "/out/" not in p)


def bare(text):
    return re.sub(r"(?m)(?:^|(?<=\s))--(?=\s|$)[^\n]*|--+ [^\n]*", "", text)


def in_snake_case(name):
    name = name.replace("getD", "get_or").replace("CC", "Cc")
    words = re.sub(r"(?<=[a-z0-9])[A-Z]", lambda m: "_" + m[0].lower(), name)
    return words.replace("-", "_").replace("·", "_")


# Names of the kit's under an older name of the kit's: today's stands for both.
KITS = {"List·getD-append": "get_or-append", "List·getD-eq-default": "get_or-eq_default"}


def turns(name, foreign):
    plain = re.fullmatch(r"[A-Z][A-Za-z0-9]*'*", name) or "◌" in name or name[0] in "∷+≤"
    return not plain and name not in foreign and re.search(r"[a-z0-9][A-Z]|[-·]", name)


def named():
    """Returns what the files declare, what they import from libraries or what Rattle makes, and every word of theirs."""
    own, declared, foreign, words = set(os.listdir("crates")), set(), set(), set()
    for path in files(".antt"):
        text = bare(read(path))
        for m in USE.finditer(text):
            crate = OWN.match(m[1] + ".")
            if not (crate and crate[1] in own) or m[1].split(".")[-1] in MADE:
                foreign.update(n for n in re.sub(r" as " + NAME, "", m[2] or "").strip("{}").split(", "))
        declared.update(re.findall(r" as (" + NAME + r")(?=[,}])", text))
        body = "\n".join(l for l in text.split("\n") if not USE.match(l))
        words.update(WORD.findall(body))
        declared.update(DECLARED.findall(body), LET.findall(body))
    return declared, foreign, words


def of_rust():
    names = set()
    for path in files(".rt"):
        text = re.sub(r"//[^\n]*|ghost use [^;]*;", "", read(path))
        names.update(re.findall(r"\b([a-z_][a-z0-9_]*)\b(?=:[^:])", text), re.findall(r"\b(?:const|fn) (\w+)", text))
    return names


def table():
    declared, foreign, words = named()
    rust = of_rust()
    turned = {n: in_snake_case(n) for n in declared if turns(n, foreign) and n not in KITS}
    taken = (words - set(turned)) | foreign
    by = collections.defaultdict(list)
    for old in sorted(turned):
        by[turned[old]].append(old)
    for new, olds in by.items():
        lemmas = [o for o in olds if "-" in o]
        others = [o for o in olds if "-" not in o]
        assert len(others) < 2, olds
        for n, old in enumerate(lemmas):
            if others or new in taken or new in rust or n:
                turned[old] = new + "_lem"
        for old in others:
            if new in rust or new in taken and (new not in declared or new in foreign):
                turned[old] = new + "_of"
            elif new in taken:
                turned[new] = new + "_lem"
    met = collections.Counter(turned.values())
    bad = [n for n, k in met.items() if k > 1 or n in words - set(turned) or n in foreign]
    assert not bad, bad
    return turned | KITS


def turn_antt(text, names):
    def one(m):
        core = m[0].strip("`:,'") if m[0] not in names else m[0]
        return m[0].replace(core, names[core]) if core in names else m[0]

    return WORD.sub(one, text)


def turn_rust(text, names):
    """A clause names no lemma, so what is in snake case already stays; each word is turned once."""
    camel = {o: n for o, n in names.items() if re.search("[A-Z]", o) and "-" not in o}
    dashed = {o: n for o, n in names.items() if "-" in o}
    text = re.sub(r"\b\w+\b", lambda m: camel.get(m[0], m[0]), text)
    whole = lambda m: WORD.sub(lambda w: dashed.get(w[0], w[0]), m[0])
    text = re.sub(r"ghost use [^;]*;", whole, text)
    text = re.sub(r"(?s)\b(?:requires|ensures|ghost)\*? *(?:\w+ )?\{.*?\}(?=\n)", whole, text)
    return re.sub(r"`[^`\n]*`", lambda m: turn_page_span(m[0], names), text)


def turn_page_span(text, names):
    return re.sub(r"(?<![\w'·-])[^\s(){}.;,@\"«»`]+", lambda m: names.get(m[0], m[0]), text)


def turn_page(text, names):
    fenced = r"(?ms)^ *```.*?^ *```$|`[^`\n]+`|^    [^\n]*$"
    return re.sub(fenced, lambda m: turn_page_span(m[0], names), text)


def main():
    names = table()
    if "--table" in sys.argv:
        for old in sorted(names):
            print(old, names[old])
        return
    jobs = [(turn_antt, files(".antt")), (turn_rust, files(".rt") + files(".edit")), (turn_page, files(".md", "docs") + ["README.md", "CONTRIBUTING.md", "CHANGELOG.md"])]
    for turn, paths in jobs:
        for path in paths:
            old = read(path)
            new = turn(old, names)
            if new != old:
                with open(path, "w", encoding="utf-8") as f:
                    f.write(new)


if __name__ == "__main__":
    main()
