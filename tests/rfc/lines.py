#!/usr/bin/env python3
"""Whether the lines that are cited lie in the sections that they are cited with: lines.py RFC6386.TXT REPOSITORY

Looks at "SECTION, LINE" and "SECTION, LINE-LINE" in the comments of crates/*/specs, and in docs: of a row of docs/READING.md the lines must lie in
one of the sections that the row names, or in the one before the line. Prints what does not; status 1 where something does not.
"""
import glob
import os
import re
import sys

CITED = re.compile(r"(?<![\d.-])(\d{1,2}(?:\.\d{1,2})?), (\d{3,5})(?:-(\d{3,5}))?(?![\d.])")
RANGE = re.compile(r"(?<![\d.-])(\d{3,5})(?:-(\d{3,5}))?(?![\d.])")


def sections(path):
    """{section: (first line, last line)}, a section with those below it"""
    starts = []
    with open(path, encoding="ascii") as text:
        for n, line in enumerate(text, 1):
            m = re.match(r"(\d{1,2}(?:\.\d{1,2})?)\.  \S", line)
            if m and n > 170:
                starts.append((m.group(1), n))
    out = {}
    for i, (name, n) in enumerate(starts):
        after = [k for other, k in starts[i + 1:] if not other.startswith(name + ".")]
        out[name] = n, (after[0] - 1 if after else 17027)
    return out


def main():
    known = sections(sys.argv[1])
    inside = lambda section, first, last: section in known and known[section][0] <= first <= last <= known[section][1]
    bad = count = 0

    def cited(where, text):
        nonlocal bad, count
        for section, first, last in CITED.findall(text):
            if int(first) < 200:
                continue
            count += 1
            if not inside(section, int(first), int(last or first)):
                bad += 1
                print(f"{where}: {section}, {first}-{last or first} is not in section {section}, {known.get(section)}")

    root = sys.argv[2]
    for path in sorted(glob.glob(os.path.join(root, "crates/*/specs/*.antt"))):
        with open(path, encoding="utf-8") as spec:
            for n, line in enumerate(spec, 1):
                if "--" in line:
                    cited(f"{path}:{n}", line[line.index("--"):])
    with open(os.path.join(root, "docs/READING.md"), encoding="utf-8") as page:
        for n, line in enumerate(page, 1):
            cells = [c.strip() for c in line.split(" | ")]
            if not line.startswith("| ") or len(cells) != 6 or not re.match(r"\| \d", line):
                continue
            named = re.findall(r"\d{1,2}(?:\.\d{1,2})?", cells[0])
            for part in re.split(r"; |: ", cells[4]):
                before = re.findall(r"(?<![\d.])(20\.\d{1,2}|7\.2), ", part)
                for first, last in RANGE.findall(part):
                    count += 1
                    if not any(inside(s, int(first), int(last or first)) for s in (before or named)):
                        bad += 1
                        print(f"docs/READING.md:{n}: {first}-{last or first} is not in {before or named}")
    print(f"lines: {count} citations, {bad} outside of their sections")
    sys.exit(1 if bad or count < 200 else 0)


if __name__ == "__main__":
    main()
