#!/usr/bin/env bash
# The program on every cut of four files (WebP, IVF, a bare frame, a tile that fits) and on N damaged copies of them (1000):
# tests/cli/damaged.sh [N [SEED]]. By hand, on x86-64: it needs valgrind and gcc's sanitizers; the gate does not run it. damaged.py says
# what is looked at.
set -u
cd "$(dirname "$0")/../.." || exit 1
n=${1:-1000}
seed=${2:-$(date +%s)}
. tools/outside-env.sh
[ -z "$X86RUN" ] || { echo "on x86-64 only" >&2; exit 1; }
need valgrind valgrind libc6-dbg || exit 1
need python3 python3 || exit 1
out=target/cli-damaged
rm -rf $out
mkdir -p $out
program $out/checked -g -fsanitize=address,undefined -fno-sanitize-recover=all || exit 1
program $out/plain -g || exit 1
kept=tests/second/kept
tail -c +21 $kept/simple-strong.webp >$out/simple-strong.vp8
echo "archive $ARCHIVE, $n damaged, seed $seed"
python3 tests/cli/damaged.py $out "$n" "$seed" $out/checked $out/plain $kept/normal-sharp.webp $kept/two-partitions.ivf \
    $out/simple-strong.vp8 tests/outside/profile/fits.webp || { echo "cli: FAILED, seed $seed"; exit 1; }
rm -rf $out/cut-* $out/damaged-*
echo "cli: passed, seed $seed"
