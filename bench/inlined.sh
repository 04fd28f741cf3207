#!/usr/bin/env bash
# What the compiler drew in and what not, at what cost against its limit of 250: bench/inlined.sh PATTERN [OUT]. A line for each call that
# has PATTERN (of grep -E) in it, in the module that bench/module.sh left in OUT, after how many such calls there are.
set -eu
cd "$(dirname "$0")/.."
"$(dirname "$(rt doc)")/toolchain/bin/clang" --target=x86_64-unknown-linux-gnu -march=x86-64-v2 -c -x ir "${2:-target/module}/mod.ll" -o /dev/null -fPIE -O3 \
    -Rpass=inline -Rpass-missed=inline 2>&1 | sed -n 's/^remark: \(<unknown>:0:0: \)\?//p' | grep -E -e "$1" | sort | uniq -c | sort -rn
