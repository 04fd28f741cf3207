"""The specs files: their items (definitions, theorems), what each name of a file stands for, and what an item rests on."""
import re

from sources import SAME, rust_uses

from . import ROOT, Fault, shown
from .scope import Words

PREFIX = r"(?:abbrev |unfoldable )?(?:pub )?"


def uncommented(text):
    return re.sub(r"--.*", "", text)


def depth_of(line):
    return len(line) - len(line.lstrip())


class Item:
    """A definition, record, data type or theorem of a specs file: the comments above it, its lines, the modules that it stands in, and the heading of
    its part of the file."""

    def __init__(self, file, comments, lines, module, heading):
        self.file, self.comments, self.lines, self.module, self.heading = file, comments, lines, module, heading
        m = re.match(PREFIX + r"(?:(record|data) )?(\S+)", lines[0].strip())
        self.kind, self.name = m.group(1) or "", m.group(2)
        self.public = bool(re.match(r"(?:abbrev |unfoldable )?pub ", lines[0].strip()))
        self.id = f"{file.key.replace('/', '.')}.{self.name}"

    def text(self):
        return "\n".join(uncommented(line) for line in self.module + self.lines)

    def statement(self):
        """The type, without equations or proof."""
        out = [self.lines[0]]
        for line in self.lines[1:]:
            words = line.strip().split(" ")
            operator = "◌" in self.name and self.name.strip("◌") in words and "=" in words and depth_of(line) == depth_of(self.lines[0])
            if words[0] in (self.name, "unfolding", "where") or operator:
                break
            out.append(line)
        return out

    def cases(self):
        return re.findall(r"^\s+(\S+) :", "\n".join(self.lines[1:]), re.M) if self.kind == "data" else []


class File:
    """A specs file: its heading and those of its parts (`-- ==== ..`), its items in order, and what its `use` lines name."""

    def __init__(self, path):
        self.path = path
        self.crate = path.parts[path.parts.index("crates") + 1]
        self.key = f"{self.crate}/{path.stem}"
        self.heading, self.items, self.names, self.aliases = [], [], {}, {}
        self.read(path.read_text().split("\n"))
        self.own = {}
        for item in self.items:
            for name in [item.name, *item.cases()]:
                self.own.setdefault(name, item)

    def read(self, lines):
        i, comments, modules, used = 0, [], [], False
        while i < len(lines):
            line, start = lines[i], i
            i += 1
            if not line.strip():
                comments = [c for c in comments if c.strip().startswith("-- ----")]
            elif re.match(PREFIX + "use ", line):
                if not used:
                    self.heading, comments, used = comments, [], True
                self.use(re.sub("^" + PREFIX + "use ", "", line))
            elif line.startswith("-- ===="):
                while lines[i].startswith("--"):
                    i += 1
                self.heading = ["-- " + line.removeprefix("-- ====").strip(), *lines[start + 1:i]]
            elif line.strip().startswith("--"):
                comments.append(line)
            elif re.match(r"\s*(pub mod |infix)", line):
                pass
            elif line.strip().startswith("module "):
                while not lines[i - 1].rstrip().endswith("where"):
                    i += 1
                modules = [m for m in modules if m[0] < depth_of(line)] + [(depth_of(line), lines[start:i])]
            else:
                modules = [m for m in modules if m[0] < depth_of(line)]
                i = self.item(lines, start, comments, [l for _, m in modules for l in m])
                comments = []

    def item(self, lines, start, comments, module):
        depth = depth_of(lines[start])
        name = re.match(PREFIX + r"(?:record |data )?(\S+)", lines[start].strip()).group(1)
        end = start + 1
        while end < len(lines) and self.goes_on(lines, end, depth, name):
            end += 1
        block = lines[start:end]
        while not block[-1].strip():
            block.pop()
        self.items.append(Item(self, comments, block, module, self.heading))
        return end

    @staticmethod
    def goes_on(lines, i, depth, name):
        line = lines[i]
        if not line.strip():
            later = next((l for l in lines[i:] if l.strip()), "")
            return depth_of(later) > depth
        words = line.strip().split(" ")
        operator = "◌" in name and name.strip("◌") in words and "=" in words
        return depth_of(line) > depth or (depth_of(line) == depth and (line.strip()[0] in "}])" or words[0] in (name, "unfolding") or operator))

    def use(self, line):
        m = re.match(r"(\S+?)\.\{(.*)\}$", line)
        if m:
            for word in m.group(2).split(","):
                self.names[word.strip()] = (m.group(1), word.strip())
        else:
            m = re.match(r"(\S+) as (\S+)$", line)
            module, name = m.groups() if m else (line.strip(), line.strip().rsplit(".", 1)[-1])
            self.aliases[name] = module


class Declared:
    """A type that the code declares: its comment and its declaration."""

    def __init__(self, crate, path):
        *modules, self.name = path.split(".")
        self.path = ROOT / "crates" / crate / "src" / ("/".join(modules or ["lib"]) + ".rt")
        declared = rf"((?:^//[^\n]*\n)*)(?:^#\[[^\n]*\]\n)*^((?:pub(?:\(crate\))? )?(?:(?:struct|enum) {self.name}(?:<\w+>)? \{{.*?^\}}|type {self.name}(?:<\w+>)? = [^;]*;))"
        m = re.search(declared, self.path.read_text(), re.M | re.S)
        if not m:
            raise Fault(f"{shown(self.path)}: no type {self.name}")
        self.crate, self.id = crate, f"{crate}.{path}"
        self.comments, self.lines = m.group(1).split("\n")[:-1], m.group(2).split("\n")


class Kit:
    """A name of the kit, or of the language."""

    def __init__(self, module, name):
        self.module, self.name = module, name


class Specs:
    """All specs files, and what their names stand for."""

    def __init__(self):
        self.files = {f.key: f for f in (File(p) for p in sorted([*(ROOT / "crates").glob("*/specs/*.antt"), *(ROOT / "crates/promises/proofs").glob("*.antt")]))}
        self.crates, self.declared = {f.crate for f in self.files.values()}, {}

    def find(self, module, word):
        """What `word` of a module is: an item, a declared type, or a name of the kit."""
        m = re.match(r"Rattle\.(\w+)\.(?:specs|proofs)\.(?:(declared)\.)?(\S+)$", module)
        if not m or m.group(1) not in self.crates:
            return Kit(SAME.get(module, module), word)
        crate, declared, rest = m.groups()
        if declared:
            return self.declare(crate, rest.removesuffix(".TheVariants"))
        file = self.files.get(f"{crate}/{rest}")
        if file is None:
            raise Fault(f"no file {rest}.antt in crates/{crate}/specs, which a `use` line names")
        if word in file.own:
            return file.own[word]
        return self.find(*file.names[word]) if word in file.names else None

    def declare(self, crate, path):
        if (crate, path) not in self.declared:
            self.declared[crate, path] = Declared(crate, path)
        return self.declared[crate, path]

    def named_types(self, declared):
        """The types that a declared type names: of the same file, or of a `use` line. A constant, an array's length, is no type."""
        text, out = declared.path.read_text(), []
        brought = rust_uses(text)
        for word in re.findall(r"\b[A-Z]\w*[a-z]\w*", re.sub(r"//.*", "", "\n".join(declared.lines))):
            if word == declared.name:
                continue
            if re.search(rf"^(?:pub(?:\(crate\))? )?(?:(?:struct|enum) {word}(?:<\w+>)? \{{|type {word}(?:<\w+>)? =)", text, re.M):
                out.append(self.declare(declared.crate, word if declared.path.stem == "lib" else f"{declared.path.stem}.{word}"))
            if word in brought:
                other, *path = brought[word].split("::")
                out.append(self.declare(declared.crate if other in ("crate", "super") else other, ".".join(path)))
        return out

    def resolve(self, file, word):
        """What a word of a file stands for, or None: a variable, a field, a sign of the language."""
        if word in file.own:
            return file.own[word]
        alias, _, rest = word.partition(".")
        if rest and alias in file.aliases:
            return self.find(file.aliases[alias], rest)
        for name in (word, f"◌{word}◌", alias):
            if name and name in file.own:
                return file.own[name]
            if name in file.names:
                return self.find(*file.names[name])
        return None

    def rests_on(self, item):
        """What a definition names."""
        return list(Words(self, item).used.values())

    def states(self, item):
        """What a theorem's statement names; its proof does not count."""
        return list(Words(self, item, statement=True).used.values())

    def reach(self, roots):
        """All items, declared types and names of the kit that the roots rest on, themselves included."""
        out, todo = {}, list(roots)
        while todo:
            x = todo.pop()
            key = (x.module, x.name) if isinstance(x, Kit) else x
            if key in out:
                continue
            out[key] = x
            if isinstance(x, Declared):
                todo += self.named_types(x)
            elif isinstance(x, Item):
                if x.file.path.stem.endswith("Laws"):
                    raise Fault(f"a promise rests on {x.name} of a file of laws, {shown(x.file.path)}")
                todo += self.rests_on(x)
        return list(out.values())
