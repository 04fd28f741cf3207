#!/usr/bin/env bash
# The page of pixels (hookbarley page) in a real browser: tests/page/run.sh [PIXELS [SEED]]. By hand, when the page or `explain` changed: it needs
# Debian's chromium; the gate does not run it. PIXELS a tile, 20 where not given. run.py says what is looked at.
set -u
cd "$(dirname "$0")/../.." || exit 1
pixels=${1:-20}
seed=${2:-$(date +%s)}
. tools/outside-env.sh
[ -z "$X86RUN" ] || { echo "on x86-64 only" >&2; exit 1; }
need python3 python3 || exit 1
need chromium chromium || exit 1
out=target/page-pixels
rm -rf $out
mkdir -p $out
program target/cli/hookbarley || exit 1
python3 -B tests/page/run.py target/cli/hookbarley $out "$pixels" "$seed" || exit 1
rm -rf $out/profile
