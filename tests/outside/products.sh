#!/usr/bin/env bash
# No product of the transforms leaves 32 bits: tests/outside/products.sh [ARCHIVE | --sources]. Reads the machine code of the functions of
# crate `transform` in the archive and fails where one multiplies 64 bits, calls a routine that does, or where none is found.
# A multiplication of 64 bits names a 64-bit register (%rax, %r8, not %eax, %r8d) outside an address, or ends in q; an `lea` is an
# address or a sum and no multiplication. The vector forms that give products of 64 bits count too; they are looked for in crate `planes`
# as well, into whose `paint` the compiler draws the transform of a whole square (there, 64 bits beside no vector are places in a plane);
# and the sources of `transform` have no integer of 64 bits but places, `usize`, into which nothing is cast.
set -u
cd "$(dirname "$0")/../.." || exit 1

# The sources, comments left out: no type of 64 bits, no number made a place, and not the one call of `numbers` that takes 64 bits.
if grep -nE '([iu]64|isize|f64|as usize|wrap16)' <(cat crates/transform/src/*.rt | sed 's,//.*,,' | grep -v '^ghost use') >&2; then
    echo "a type of 64 bits in the transform's sources" >&2
    exit 1
fi
[ "${1:-}" != --sources ] || exit 0

ARCHIVE=${1:-${ARCHIVE:-}}
. tools/outside-env.sh
dump=${X86CC%gcc}objdump
need "$dump" binutils || exit 1
out=target/outside
mkdir -p $out
wide='(mul[a-z]*q\s|mul.*%r([a-ds][a-z]|[0-9]+)\b|v?pmul(u?dq|lq)\s|__mul[a-z0-9]*i3)'
multiplies() { sed 's/([^)]*)//g' | grep -E '\s(i?mul|v?pmul|call)[a-z0-9]*\s' | grep mul; }

# The test finds what it looks for: a product of 64 bits, and none in one of 32.
cat >$out/products.c <<'END'
long product64(long x) { return x * 20091; }
int product32(int x) { return (x * 10045 + (x >> 1)) >> 15; }
END
$X86CC -O2 -fcf-protection=none -c -o $out/products.o $out/products.c || exit 1
for n in 64 32; do
    "$dump" -d --no-show-raw-insn --disassemble=product$n $out/products.o | multiplies >$out/product$n.txt
    [ -s $out/product$n.txt ] || { echo "no multiplication found in product$n" >&2; exit 1; }
done
grep -qE "$wide" $out/product64.txt || { echo "a product of 64 bits was not found" >&2; exit 1; }
! grep -qE "$wide" $out/product32.txt || { echo "a product of 32 bits was taken for one of 64" >&2; exit 1; }

# The transform in the archive.
"$dump" -d -C --no-show-raw-insn "$ARCHIVE" 2>/dev/null |
    awk '/^[0-9a-f]+ <.*>:$/ { on = /<transform::/; if (on) count++ } on { print } END { print count + 0 " functions" }' >$out/transform.txt
functions=$(tail -n 1 $out/transform.txt | cut -d' ' -f1)
multiplies <$out/transform.txt >$out/products.txt
products=$(wc -l <$out/products.txt)
if [ "$functions" -eq 0 ] || [ "$products" -eq 0 ]; then
    echo "the transform's products are not in the archive: $functions functions, $products multiplications" >&2
    exit 1
fi
if grep -E "$wide" $out/products.txt >&2; then
    echo "a product of the transform has 64 bits" >&2
    exit 1
fi
# That of a square, eight blocks at once.
"$dump" -d -C --no-show-raw-insn "$ARCHIVE" 2>/dev/null | awk '/^[0-9a-f]+ <.*>:$/ { on = /<planes::/ } on { print }' | grep -E '\sv?pmul' >$out/square.txt
together=$(grep -cE 'pmulhw\s' $out/square.txt)
if [ "$together" -eq 0 ] || grep -E 'pmul(u?dq|lq)\s' $out/square.txt >&2; then
    echo "the products of a square: $together of sixteen bits together, or one of 64 bits" >&2
    exit 1
fi
echo "$products products in $functions functions, none of 64 bits; $together of eight together, of sixteen bits"
