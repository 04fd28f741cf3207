"""Which words of a definition are names of others, and which are its own variables and fields."""
import re

TOKEN = re.compile(r"\[\]|\|\||[()\[\]{};,|]|[^\s()\[\]{};,|]+")
SIGNS = set("()[]{};,|:=→↦←λ") | {"..", ".", "_", "?", "ℓ"}
LANGUAGE = {"let", "in", "elim", "do", "record", "data", "where", "module", "pub", "abbrev", "unfoldable", "Type", "unfolding"}


class Words:
    """The words of an item's text: `used` leads from a word to what it names, `unknown` has those that are neither a name nor a variable."""

    def __init__(self, specs, item, statement=False):
        self.specs, self.file, self.used, self.unknown = specs, item.file, {}, []
        self.bound = {item.name} if item.kind == "" else set()
        self.item, self.statement = item, statement
        self.read()

    def read(self):
        item = self.item
        for line in item.module:
            self.expression([line])
        if item.kind:
            self.fields(item.lines)
            return
        end = len(item.statement())
        self.apart([item.lines[0].split(":", 1)[1], *item.lines[1:end]])
        if self.statement:
            return
        part = []
        for line in item.lines[end:]:
            if len(line) - len(line.lstrip()) == len(item.lines[0]) - len(item.lines[0].lstrip()) and line.strip()[:1] not in "}])" and part:
                self.equation(part)
                part = []
            part.append(line)
        self.equation(part) if part else None

    def apart(self, lines):
        """An expression whose variables end with it."""
        outside = set(self.bound)
        self.expression(lines)
        self.bound = outside

    def equation(self, lines):
        outside, text = set(self.bound), "\n".join(re.sub(r"--.*", "", l) for l in lines)
        if " =" in text and not text.strip().startswith("unfolding"):
            left, right = re.split(r" =(?=\s)", text, maxsplit=1)
            self.pattern(TOKEN.findall(left))
            self.expression(right.split("\n"))
        self.bound = outside

    def fields(self, lines):
        """The head, then each field or case: its name, and an expression, in which the fields before it can stand."""
        text, own = "\n".join(re.sub(r"--.*", "", l) for l in lines), {}
        head, _, rest = text.partition("where")
        self.expression([re.sub(r"^\s*(?:pub )?(?:record|data) \S+", "", head)])
        depth = min((len(l) - len(l.lstrip()) for l in rest.split("\n") if l.strip()), default=0)
        for line in re.split(rf"\n(?=\s{{{depth}}}\S)", rest):
            m = re.match(r"\s*(?:pub )?(\S+) :(?=\s)", line)
            if m:
                self.bound.add(m.group(1)) if self.item.kind == "record" else None
                self.apart([line[m.end():]])

    def pattern(self, words):
        """Cases are used, all other words are variables."""
        for word in words:
            found = None if word in SIGNS or word.startswith(".") else self.find(word)
            if found is not None and self.is_case(word, found):
                self.used[word] = found
            elif word not in SIGNS and not word.startswith("."):
                self.bound.add(word)

    @staticmethod
    def is_case(word, found):
        kind = getattr(found, "kind", None)
        return kind == "data" or kind is None or word == found.name and "◌" in word

    def find(self, word):
        return self.specs.resolve(self.file, word)

    def expression(self, lines):
        words, later = [], []
        for n, line in enumerate(lines):
            words += [(w, n) for w in TOKEN.findall(re.sub(r"--.*", "", line))]
        i, line = 0, 0
        while i < len(words):
            word, n = words[i]
            if n != line:
                self.bound |= set(later)
                later, line = [], n
            after = words[i + 1][0] if i + 1 < len(words) else ""
            if word == "λ":
                i = self.binder(words, i + 1, lambda w: w.endswith("."))
            elif word in "({" and self.telescope(words, i):
                i = self.binder(words, i + 1, lambda w: w == ":")
            elif word in ("[", "|") and self.case_end(words, i):
                end = self.case_end(words, i)
                self.pattern([w for w, _ in words[i + 1:end]])
                i = end
            elif word == "let":
                later.append(after)
                self.bound.add(after)
                i += 1
            elif after == "←":
                later.append(word)
            elif after == "=":
                pass
            else:
                self.word(word)
            i += 1
        self.bound |= set(later)

    def binder(self, words, i, ends):
        typed = False
        while i < len(words):
            word = words[i][0]
            if ends(word) and not (typed and word == ":"):
                if word not in (":", "."):
                    self.bound.add(word.rstrip("."))
                return i
            typed = typed or word == ":"
            if word == ")":
                typed = False
            elif typed:
                self.word(word)
            elif word not in SIGNS:
                self.bound.add(word)
            i += 1
        return i

    @staticmethod
    def telescope(words, i):
        """Whether a parenthesis opens names with their type."""
        j = i + 1
        while j < len(words) and words[j][0] not in SIGNS:
            j += 1
        return j > i + 1 and j < len(words) and words[j][0] == ":"

    @staticmethod
    def case_end(words, i):
        """Where the pattern of a case ends, at its ↦; None where none starts here."""
        for j in range(i + 1, len(words)):
            if words[j][0] == "↦":
                return j
            if words[j][0] in ("[", "|", "]", ";", "="):
                return None
        return None

    def word(self, word):
        word = word if word in (".", "..") else word.rstrip(".")
        whose = word.partition(".")[0]
        if word in SIGNS or word in LANGUAGE or word.startswith(".") or re.fullmatch(r"\d+", word) or word in self.bound or whose in self.bound:
            if word == "do" and self.find("◌>>=◌") is not None:
                self.used["do"] = self.find("◌>>=◌")
            return
        found = self.find(word)
        if found is None:
            self.unknown.append(word)
        else:
            self.used[word] = found
