#!/usr/bin/env python3
"""One set of calls, with the same arguments, wherever they are named: tools/calls.py ARCHIVE [NM].

  archive   all that NM (nm) finds defined for others in ARCHIVE; what it lacks itself may be memcpy and memset alone
  header    the prototypes of include/hookbarley.h that are not inline
  crates    `#[unsafe(no_mangle)] pub extern "C" fn` in crates/hookbarley_c/src
  promises  the lines `-- hookbarley::..` of crates/promises/specs/Determined.antt: what is proved of a call (tools/determined.py sees that the
            exported one has the same contract)
  rust      the extern block of bindings/rust/src/lib.rs

Of header, crates and rust the types of arguments and answer are compared too. Says what differs; exit status 1 where something does. The
gate runs it, in tests/outside, on the archive that C and Rust link.
"""
import glob
import re
import subprocess
import sys

# What the compiler may ask of the C library, as docs/PROMISES.md says under "What you trust".
IMPORTS = {"memcpy", "memset"}
SCALARS = {"u8": "uint8_t", "u32": "uint32_t", "u64": "uint64_t", "usize": "size_t", "i32": "int32_t"}


def read(path):
    with open(path) as f:
        return f.read()


def without_comments(text):
    return re.sub(r"//[^\n]*|/\*.*?\*/", "", text, flags=re.S)


def split(arguments):
    return [a.strip() for a in arguments.split(",") if a.strip()]


def symbols(nm, which, archive):
    listed = subprocess.run([nm, "-g", which, archive], capture_output=True, text=True, check=True).stdout
    return set(re.findall(r"^[0-9a-f ]+ [A-Za-z] (\S+)$", listed, re.M))


def in_archive(archive, nm):
    """What the archive has for others."""
    return dict.fromkeys(symbols(nm, "--defined-only", archive))


def lacking(archive, nm):
    """What the archive asks of others."""
    return symbols(nm, "--undefined-only", archive) - symbols(nm, "--defined-only", archive)


def in_header():
    """Name to (types of the arguments, type of the answer)."""
    text = re.sub(r"static inline.*?\n}", "", without_comments(read("include/hookbarley.h")), flags=re.S)
    text = re.sub(r"static inline[^\n]*", "", text)
    return {
        name: ([re.sub(r"\s*(\*?)\w+$", r"\1", a) for a in split(arguments)], answer)
        for answer, name, arguments in re.findall(r"^(\w+) (\w+)\(([^)]*)\);", text, re.M)
    }


def from_rattle(kind):
    """The C types that an argument passes as: a slice is a pointer and a length."""
    m = re.fullmatch(r"&(mut )?(\[)?(\w+)\]?", kind)
    if not m:
        return [SCALARS[kind]]
    pointer = ("" if m[1] else "const ") + SCALARS[m[3]] + "*"
    return [pointer, "size_t"] if m[2] else [pointer]


def rattle_calls():
    """Name to (pairs of an argument's name and type, type of the answer), as the crate has them."""
    calls = {}
    for path in sorted(glob.glob("crates/hookbarley_c/src/*.rt")):
        found = re.findall(r'#\[unsafe\(no_mangle\)\]\s*pub extern "C" fn (\w+)\(([^)]*)\)\s*->\s*(\w+)', without_comments(read(path)))
        for name, arguments, answer in found:
            calls[name] = ([tuple(part.strip() for part in a.split(":", 1)) for a in split(arguments)], answer)
    return calls


def in_crates():
    return {
        name: ([t for _, kind in arguments for t in from_rattle(kind)], SCALARS[answer])
        for name, (arguments, answer) in rattle_calls().items()
    }


def in_promises():
    text = read("crates/promises/specs/Determined.antt")
    return {name: None for name in re.findall(r"^\s*-- hookbarley::(?:\w+::)*(hookbarley_\w+)$", text, re.M)}


def from_rust(kind):
    m = re.fullmatch(r"\*(const|mut) (\w+)", kind)
    return ("const " if m[1] == "const" else "") + SCALARS[m[2]] + "*" if m else SCALARS[kind]


def in_rust():
    block = re.search(r'extern "C" \{(.*?)\n}', without_comments(read("bindings/rust/src/lib.rs")), re.S)[1]
    return {
        name: ([from_rust(a.split(":", 1)[1].strip()) for a in split(arguments)], SCALARS[answer])
        for name, arguments, answer in re.findall(r"fn (\w+)\(([^)]*)\) -> (\w+);", block)
    }


def main():
    archive, nm = sys.argv[1], (sys.argv + ["nm"])[2]
    places = {"archive": in_archive(archive, nm), "header": in_header(), "crates": in_crates()}
    places.update(promises=in_promises(), rust=in_rust())
    every, bad = set().union(*places.values()), 0
    for name in sorted(every):
        missing = [place for place, calls in places.items() if name not in calls]
        if missing:
            bad += 1
            print(f"{name}: not in {', '.join(missing)}")
        typed = {place: calls[name] for place, calls in places.items() if calls.get(name)}
        if any(kind != typed["crates"] for kind in typed.values() if "crates" in typed):
            bad += 1
            print(f"{name}: other arguments:")
            for place, (arguments, answer) in typed.items():
                print(f"  {place}: {answer} ({', '.join(arguments)})")
    for name in sorted(lacking(archive, nm) - IMPORTS):
        bad += 1
        print(f"{name}: the archive asks for it; only {', '.join(sorted(IMPORTS))} are told")
    if not every:
        sys.exit("no call found")
    if bad:
        sys.exit(1)
    print(f"{len(every)} calls, the same in {', '.join(places)}")


if __name__ == "__main__":
    main()
