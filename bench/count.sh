#!/usr/bin/env bash
# Instructions a luma sample on the three tiles of bench/: bench/count.sh [PROGRAM [deblock]]. PROGRAM is examples/c/bench.c, linked;
# without one target/module/bench. Some three seconds.
set -eu
cd "$(dirname "$0")/.."
program=$(realpath "${1:-target/module/bench}")
mkdir -p target/bench
plugin=target/bench/insncount.so
[ $plugin -nt bench/insncount.c ] || gcc -shared -fPIC -O2 -o $plugin bench/insncount.c
qemu=qemu-x86_64
[ "$(uname -m)" = x86_64 ] || qemu="$qemu -L /usr/x86_64-linux-gnu"
executed() { $qemu -plugin $plugin "$program" "$@" 2>&1 >/dev/null | sed -n 's/^instructions //p'; }
for tile in bench/tile-q50.case bench/tile-q75.case bench/tile-q90.case; do
    few=$(executed $tile 1 ${2:+"$2"})
    many=$(executed $tile 11 ${2:+"$2"})
    tenths=$(((many - few + 32768) / 65536))
    printf '%d.%d ' $((tenths / 10)) $((tenths % 10))
done
echo
