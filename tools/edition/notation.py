"""The page of notation: the forms of the language and the kit's names. Whatever an edition uses and does not print must stand here."""
from . import Fault

FORMS = [
    ("`f x y`", "f of x and y; a name with no argument is a constant"),
    ("`name x = body`", "a definition; of several equations, the first whose left side matches applies"),
    ("`name (x : A) : B = body`", "the same with the types of x and of the body, where they tell the reader something"),
    ("`(x : A) → B`, `A → B`", "a function from A to B; as a statement: for every x of A, B holds"),
    ("`{x : A} → ..`", "the same, where x is left out because the rest determines it"),
    ("`elim e [ a ↦ x | b ↦ y ]`", "by cases of e: x where it is a, y where it is b"),
    ("`let x = e in ..`", "x stands for e in what follows"),
    ("`λ x. e`", "the function that gives e for x"),
    ("`do x ← m; ..`", "in sequence: m is read, x is what it gave, then the next; one to a line, or separated by `;`"),
    ("`record { a = x; b = y }`, `r.a`", "a record given by its fields; the field a of a record r; `p.0` and `p.1` are the parts of a pair"),
    ("`record R: a : A; b : B`", "a record type with its fields; as a statement: all of them hold"),
    ("`data D: a : A → D; b : D`", "a type given by its cases; as a statement: one of them holds"),
    ("`theorem : statement`", "a statement that is proved; its proof is not printed"),
    ("`with (x : A):`", "the definitions below, up to the next file or `with nothing`, take x as a first argument, which they leave out among themselves"),
    ("`struct`, `enum`", "a type of the code, with its fields or cases; `u8` to `u64` and `usize` are bounded ℕ, `i32` is bounded ℤ, `[T; n]` is n of T"),
    ("`X.name`", "`name` of the file or type that `X` stands for: `Stop.NoModes` is the case `NoModes` of the type `Stop`"),
    ("`«a_b»`", "the name `a_b` of the code"),
    ("`-128`, `255`", "also numbers of ℤ, for which the sources write `negsuc 127` and `pos 255`"),
    ("`Type 0`", "a type, or a statement"),
    ("`-- text`", "a sentence for the reader"),
]
BUILT_IN = {"⊥": "what never holds; `A → ⊥`: A does not hold", "◌×◌": "both hold; of types, pairs `(a, b)`", "Unit": "what always holds", "tt": "the one value of `Unit`"}
KIT = {
    "Rattle.std.specs.Prelude": {
        "ℕ": "0, 1, 2, ..", "zero": "0", "suc": "`suc n` is n + 1", "◌+◌": "sum", "◌-◌": "difference, 0 where it would be below 0", "◌*◌": "product",
        "◌/◌": "quotient, rounded down; by 0 it is 0", "◌%◌": "remainder; by 0 it is the number itself", "◌^◌": "power", "◌≤◌": "at most, as a statement",
        "◌<◌": "below, as a statement", "min": "the smaller", "max": "the larger",
        "Bool": "true or false", "true": "", "false": "", "not": "the other of the two", "◌&&◌": "both", "◌||◌": "one or both",
        "cond": "`cond b x y`: x where b is true, else y",
        "Option": "`Option A`: an A, or none", "Some": "`Some x`: x", "None": "none",
        "Result": "`Result A E`: an A, or an E that says why there is none", "Ok": "`Ok x`: x", "Err": "`Err e`: none, and e says why",
        "List": "a list", "[]": "the empty list", "◌∷◌": "`x ∷ l`: x, then the list l", "◌++◌": "one list, then another",
        "◌≡◌": "equal, as a statement", "◌⊎◌": "one or the other holds",
        "length": "how many", "get_or": "`get_or l i d`: element i of l, counted from 0; d where there is none",
        "set": "`set l i x`: l with x for its element i; l where there is none",
        "take": "`take n l`: the first n", "drop": "`drop n l`: all but the first n", "replicate": "`replicate n x`: n times x",
        "eqb": "equal, as a test", "ltb": "`ltb a b`: a below b, as a test", "leb": "`leb a b`: a at most b, as a test",
        "ℤ": ".., -1, 0, 1, ..", "pos": "`pos n` is n", "negsuc": "`negsuc n` is -(n + 1)", "neg_ℤ": "the negative of", "nat_abs": "the magnitude of, as a ℕ",
        "◌+ℤ◌": "sum", "◌-ℤ◌": "difference", "◌*ℤ◌": "product", "◌≤ℤ◌": "at most, as a statement",
    },
    "Rattle.std.specs.Int.Signed": {
        "lt_z": "below, as a test", "le_z": "at most, as a test", "shr_z": "`shr_z z n`: z over n, rounded down",
        "quot_z": "quotient, rounded towards 0", "rem_z": "its remainder",
    },
    "Rattle.std.specs.Int.Count": {"count_leading_zeros": "`count_leading_zeros w n`: how many of the w bits of n stand above its highest 1"},
    "Rattle.std.specs.Int.Bits": {"bit_xor": "the bits of one number or of the other, not of both"},
}


def told(name, text):
    """A name of the kit with what it means."""
    return text if f"`{name} " in text else f"`{name}` {text}".strip()


def rows(used, width):
    """The names that are used, several to a row."""
    entries = [told(n, t) for n, t in BUILT_IN.items()]
    entries += [told(n, t) for module, names in KIT.items() for n, t in names.items() if (module, n) in used]
    out = []
    for entry in entries:
        if out and len(out[-1]) + len(entry) + 3 <= width:
            out[-1] += " · " + entry
        else:
            out.append(entry)
    return out


def missing(used):
    """The names of the kit that the page does not have."""
    return sorted(f"{m}.{n}" for m, n in used if n not in KIT.get(m, {}))


def check(used):
    if missing(used):
        raise Fault(f"not in the page of notation, tools/edition/notation.py: {', '.join(missing(used))}")
