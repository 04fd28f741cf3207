#!/usr/bin/env bash
# Counts instructions a luma sample: bench/run.sh [ARCHIVE]. Prints markdown tables: the three bench tiles beside libwebp, ffmpeg and libvpx
# (bench/decoders.sh; without their loop filters and with them, all in this run), the rescue, survey and recode calls beside the picture call,
# and the growth with macroblocks and with bytes.
# Counted by qemu's plugin insncount.c, which counts the same everywhere. A count is of some decodes more less that of one,
# so starting the program and reading the file is not in it.
set -eu
cd "$(dirname "$0")/.."
ARCHIVE=${1:-${ARCHIVE:-}}
mkdir -p target/bench
. tools/outside-env.sh
need qemu-x86_64 qemu-user
need gcc gcc libc6-dev
need python3 python3
out=target/bench
qemu="qemu-x86_64"
[ "$(uname -m)" = x86_64 ] || qemu="$qemu -L /usr/x86_64-linux-gnu"

gcc -shared -fPIC -O2 -o $out/insncount.so bench/insncount.c
. bench/decoders.sh

# count PROGRAM FILE TIMES [deblock]: instructions of so many decodes
count() {
    local few many
    few=$($qemu -plugin $out/insncount.so "$1" "$2" 1 ${4:+"$4"} 2>&1 >/dev/null | sed -n 's/^instructions //p')
    many=$($qemu -plugin $out/insncount.so "$1" "$2" $((1 + $3)) ${4:+"$4"} 2>&1 >/dev/null | sed -n 's/^instructions //p')
    echo $((many - few))
}

# a FIXED-POINT quotient: div A B DIGITS
div() { python3 -c "print(f'{$1 / $2:.$3f}')"; }

# beside HEADING [deblock]: the three tiles, ours and the others'
beside() {
    local heading=$1 program ours line a b
    shift
    echo "$heading"
    echo
    echo "| tile | bytes | hookbarley |$(for program in $OTHERS; do printf ' %s | ratio |' "$program"; done)"
    echo "|---|---|---|$(for program in $OTHERS; do printf -- '---|---|'; done)"
    for q in 50 75 90; do
        ours=$($qemu $out/hookbarley "$(given hookbarley $q)" 1 "$@")
        a=$(count $out/hookbarley "$(given hookbarley $q)" 10 "$@")
        printf '| tile-q%s | %s | %s |' $q $(($(stat -c %s bench/tile-q$q.case) - 2210)) "$(div "$a" 655360 1)"
        for program in $OTHERS; do
            line=$($qemu $out/$program "$(given $program $q "$@")" 1 "$@")
            [ "$ours" = "$line" ] || { echo "tile-q$q: $ours, $program $line" >&2; exit 1; }
            b=$(count $out/$program "$(given $program $q "$@")" 10 "$@")
            printf ' %s | %s |' "$(div "$b" 655360 1)" "$(div "$a" "$b" 2)"
        done
        echo
    done
    echo
}

beside "Instructions a luma sample, 256 by 256 samples, before the loop filter:"
beside "The same with the loop filter (the picture call, then deblocking, the normal kind):" deblock

echo "From the frame's bytes to filtered planes by one call: $(for q in 50 75 90; do div "$(count $out/show bench/tile-q$q.webp 10)" 655360 1; done | paste -sd ' ')"
echo

# call NAME WHAT LINES DIGITS: another call on whole tiles beside the picture call. LINES are what bench/NAME.c prints of the three.
call() {
    local q f a b line
    $X86CC -O2 -Wall -Iinclude -o $out/"$1" bench/"$1".c "$ARCHIVE"
    echo "$2, instructions a luma sample:"
    echo
    echo "| tile | picture call | $1 call | ratio |"
    echo "|---|---|---|---|"
    while read -r q line; do
        f=bench/tile-q$q.case
        [ "$line" = "$($qemu $out/"$1" $f 1)" ] || { echo "tile-q$q, $1: not $line" >&2; exit 1; }
        a=$(count $out/hookbarley $f 10)
        b=$(count $out/"$1" $f 10)
        echo "| tile-q$q | $(div "$a" 655360 1) | $(div "$b" 655360 1) | $(div "$b" "$a" "$4") |"
    done <<<"$3"
    echo
}

# What the marks and the place where a picture stops cost; what counting costs; what the tokens written again cost (at most three times the picture call).
call rescue "The rescue call on whole tiles" $'50 0 256\n75 0 256\n90 0 256' 4
call survey "The survey call on whole tiles" $'50 0 256\n75 0 256\n90 0 256' 4
call recode "The recode call, into a room that is long enough" $'50 0 959 10313\n75 0 1208 14481\n90 0 1535 27392' 2

# The dearest tile: as many symbols a macroblock as the format allows (request M-103). Each tile's symbols are those that the call counts.
python3 bench/dearest.py $out/dearest.case
$X86CC -O2 -Wall -Iinclude -o $out/symbols examples/c/decode_case.c "$ARCHIVE"
echo "The dearest tile beside real ones, a macroblock of 256:"
echo
echo "| tile | symbols, first partition | symbols, token partitions | instructions | with deblocking | a symbol |"
echo "|---|---|---|---|---|---|"
for f in $out/dearest.case bench/tile-q50.case bench/tile-q75.case bench/tile-q90.case; do
    read -r _ _ first tokens < <($qemu $out/symbols -c "$f")
    a=$(count $out/hookbarley "$f" 10)
    b=$(count $out/hookbarley "$f" 10 deblock)
    echo "| $(basename "$f" .case) | $(div "$first" 256 1) | $(div "$tokens" 256 1) | $(div "$a" 2560 0) | $(div "$b" 2560 0) | $(div "$a" "(10*($first+$tokens))" 1) |"
done
echo
echo "Stack, bytes:"
echo
$X86CC -O2 -Wall -Iinclude -o $out/stack bench/stack.c "$ARCHIVE" -lpthread
$qemu $out/stack bench/tile-q90.case bench/tile-q90.webp | sed 's/^/- /'
echo

$X86CC -O2 -Iinclude -o $out/needed bench/needed.c "$ARCHIVE"
rm -rf $out/grow
python3 bench/grow.py make $out/grow
for f in $out/grow/*.case; do
    echo "$(basename "$f" .case) $($qemu $out/needed "$f") $(($(count $out/hookbarley "$f" 2) / 2))"
done >$out/grow.txt
echo "Growth with macroblocks and with bytes, instructions of one decode:"
echo
python3 bench/grow.py table $out/grow.txt

gcc -shared -fPIC -O2 -o $out/profile.so bench/profile.c
$X86CC -O2 -static -no-pie -Iinclude -o $out/bench-static examples/c/bench.c "$ARCHIVE"
for q in 50 75 90; do
    $qemu -plugin $out/profile.so $out/bench-static bench/tile-q$q.case 10 deblock 2>$out/tile-q$q.counts >/dev/null
done
echo
echo "Where the instructions go (functions of the archive; what the compiler drew into a function counts as its own):"
echo
python3 bench/profile.py $out/bench-static 655360 $out/tile-q50.counts $out/tile-q75.counts $out/tile-q90.counts
