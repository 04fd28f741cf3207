#!/usr/bin/env python3
"""What the survey call (M-110) counts, tallied without the crates:

    survey.py FILE..                        a line of 37 counts for each case file, folded alone into zeros
    survey.py --all FILE..                  one line, all of them folded one after the other
    survey.py --cuts PARTITION FILE [STEP]  the length and such a line for every STEPth length of a token partition (the first is 0)

A file that the case program does not take is no call: it counts nothing. Macroblocks are read as in picture.py, symbols counted as in
counts.py, the inside byte worked out as in singles.py.
"""
import sys
from collections import Counter

import counts
from picture import Reading, case_of, content
from singles import residuals, strengths


def table(rows, values):
    """How often each of 0 to rows - 1 is among the values, which has no others."""
    found = Counter(int(v) for v in values)
    assert all(0 <= v < rows for v in found), found
    return [found[row] for row in range(rows)]


def inside(h, mb):
    return strengths(h, mb, mb.small or not residuals(h, mb)[1])[3]


def record(f):
    case = case_of(f)
    if not case:
        return [0] * 37
    number, k, first, tokens = map(int, counts.line(f).split())
    h, finished = case[2], [] if counts.refusal(*case) else Reading(*case, False).macroblocks
    assert len(finished) == k
    small = [mb for mb in finished if mb.small]
    return [
        *table(8, [number]),
        *table(4, [mb.segment for mb in finished]),
        *table(5, [4 if mb.small else mb.modes[0] for mb in finished]),
        *table(4, [mb.chroma for mb in finished]),
        *table(2, [mb.skip for mb in finished]),
        *table(2, [inside(h, mb) for mb in finished]),
        *table(10, [mode for mb in small for mode in mb.modes]),
        first, tokens,
    ]


def told(counts_):
    return " ".join(map(str, counts_))


def main():
    arguments = sys.argv[1:]
    if arguments[:1] == ["--cuts"]:
        f, partition, step = content(arguments[2]), int(arguments[1]), int(arguments[3]) if len(arguments) > 3 else 1
        parts = counts.taken_apart(f)[3]
        whole = parts[1 + partition]
        for length in range(0, len(whole) + 1, step):
            parts[1 + partition] = whole[:length]
            print(length, told(record(counts.with_parts(f, parts))))
    elif arguments[:1] == ["--all"]:
        print(told(map(sum, zip(*[record(content(name)) for name in arguments[1:]]))))
    else:
        for name in arguments:
            print(told(record(content(name))))


if __name__ == "__main__":
    main()
