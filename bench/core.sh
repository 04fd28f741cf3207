#!/usr/bin/env bash
# Cycles a luma sample by a model of an x86-64 core (core.c), and branches that its predictor missed, before and after the loop filter: bench/core.sh [ARCHIVE].
# Ours beside the others (bench/decoders.sh). For where no x86-64 machine is at hand (on one, bench/time.sh); a minute or two.
set -eu
cd "$(dirname "$0")/.."
ARCHIVE=${1:-${ARCHIVE:-}}
mkdir -p target/bench
. tools/outside-env.sh
need qemu-x86_64 qemu-user
need gcc gcc libc6-dev
need python3 python3
[ -f /usr/include/capstone/capstone.h ] || packages libcapstone-dev >target/bench/capstone.log 2>&1 || { cat target/bench/capstone.log >&2; exit 1; }
out=target/bench
. bench/decoders.sh
gcc -shared -fPIC -O2 -Wall -Wextra -o $out/core.so bench/core.c -lcapstone
qemu="qemu-x86_64"
[ "$(uname -m)" = x86_64 ] || qemu="$qemu -L /usr/x86_64-linux-gnu"
told() { $qemu -plugin $out/core.so "$@" 2>&1 >/dev/null | grep '^cycles'; }
for kind in '' deblock; do
    echo "Cycles a luma sample by the model, and branches missed, ${kind:+with the loop filter}${kind:-before the loop filter}:" | sed 's/filterdeblock/filter/'
    echo
    echo "| | q50 | q75 | q90 |"
    echo "|---|---|---|---|"
    for program in hookbarley $OTHERS; do
        row="| $program |"
        for q in 50 75 90; do
            file=$(given $program $q $kind)
            # shellcheck disable=SC2086
            row="$row $(python3 -c "
a, b = '$(told $out/$program $file 2 $kind)'.split(), '$(told $out/$program $file 5 $kind)'.split()
print('%.1f (%.2f)' % tuple((int(b[i]) - int(a[i])) / 3 / 65536 for i in (1, 7)))") |"
        done
        echo "$row"
    done
    echo
done
