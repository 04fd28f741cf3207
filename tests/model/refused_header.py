#!/usr/bin/env python3
"""Single macroblocks under a header that is refused: tests/model/refused_header.py PROGRAM, which is crates/try_singles/out/try_singles.

An entry is 256. The program decodes each case all the same: with the header's probabilities of tokens, and zeros for all else that it takes of a
header. The lines are those of singles.py with no segments and no skip flag, every level and every quantizer 0.
"""
import random
import subprocess
import sys

import singles


def main():
    rnd = random.Random(13)
    singles.factors = lambda h, segment: {kind: (0, 0) for kind in range(4)}
    h = [0] * 1096
    h[38:1094] = [rnd.randint(1, 255) for _ in range(1056)]
    around = lambda: [rnd.randrange(10) for _ in range(4)] + [rnd.randrange(2) for _ in range(9)]
    cases = []
    for modes in [[m] for m in range(4)] + [[m] * 16 for m in range(10)]:
        mb = singles.Macroblock(0, False, modes, rnd.randrange(4), [singles.numbers(rnd) for _ in range(25)])
        cases.append(singles.case(h, mb, rnd.randrange(3), rnd.randrange(2), rnd.randrange(60000), around(), around()))
    h[0] = 256
    given = b"".join((x + 32768).to_bytes(2, "big") for x in h) + b"".join(data for data, _ in cases)
    wanted = "".join(line + "\n" for _, line in cases)
    run = subprocess.run([sys.argv[1]], input=given, capture_output=True, timeout=60)
    if (run.returncode, run.stderr, run.stdout.decode()) != (0, b"", wanted):
        sys.exit(f"try_singles on a refused header: status {run.returncode}, {run.stderr.decode()}\n{run.stdout.decode()}wanted:\n{wanted}")
    print(f"{len(cases)} macroblocks under a refused header: as the model has them")


if __name__ == "__main__":
    main()
