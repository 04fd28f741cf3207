#!/usr/bin/env bash
# The module that the archive is compiled from: bench/module.sh [OUT]. OUT/mod.ll is that module, OUT/libhookbarley.a the library and OUT/bench
# examples/c/bench.c over it. The crates are to be proved, since the kit builds nothing else; what `rt lib` kept is used.
set -eu
root=$(cd "$(dirname "$0")/.." && pwd)
out=${1:-$root/target/module}
mkdir -p "$out"
out=$(cd "$out" && pwd)
cd "$root"
tools/archive.sh
chain=$(dirname "$(rt doc)")/toolchain

# The kit compiles a module that it does not keep. A clang of our own, before the kit's, keeps it. It stands outside of the tree, in which rt takes no link.
own=$(mktemp -d)
trap 'rm -rf "$own"' EXIT
mkdir "$own/bin"
for part in "$chain"/*; do [ "${part##*/}" = bin ] || ln -sfn "$part" "$own/${part##*/}"; done
for part in "$chain"/bin/*; do [ "${part##*/}" = clang ] || ln -sfn "$part" "$own/bin/${part##*/}"; done
rm -f "$out/mod.bc" "$out/libhookbarley.a"
cat >"$own/bin/clang" <<WRAP
#!/bin/sh
for word in "\$@"; do case \$word in *.bc) cp "\$word" '$out/mod.bc' ;; esac; done
exec '$chain/bin/clang' "\$@"
WRAP
chmod +x "$own/bin/clang"

cd crates/hookbarley_c
mapfile -t words < <("$root/bench/module.py")
"${words[@]}" --toolchain "$own" -o "$out/libhookbarley.a" >"$out/log" 2>&1 || { tail -n 20 "$out/log" >&2; exit 1; }
cd "$root"
[ -f "$out/mod.bc" ] || { tail -n 20 "$out/log" >&2; exit 1; }
"$chain/bin/clang" --target=x86_64-unknown-linux-gnu -x ir "$out/mod.bc" -S -emit-llvm -O3 -Xclang -disable-llvm-passes -o "$out/mod.ll"
gcc -O2 -Iinclude -o "$out/bench" examples/c/bench.c "$out/libhookbarley.a"
