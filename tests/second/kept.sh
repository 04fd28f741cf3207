#!/usr/bin/env bash
# The program beside what a second decoder gave: tests/second/kept.sh [ARCHIVE]. Decodes each file of tests/second/kept (make-kept.sh says
# how they were made), before and after the loop filter, and compares the md5 of the samples with the one that ffmpeg gave; it needs no
# ffmpeg. The gate runs it. It fails too where a file or a kind of file is missing.
set -u
cd "$(dirname "$0")/../.." || exit 1
ARCHIVE=${1:-${ARCHIVE:-}}
. tools/outside-env.sh
kept=tests/second/kept
out=target/second-kept
rm -rf $out
mkdir -p $out
program target/cli/hookbarley || exit 1
failed=0
files=0
frames=0
bad() { echo "second: FAILED: $1"; failed=1; }
md5() { # md5 FILE OPTIONS..: of the samples
    local file=$kept/$1
    shift
    $X86RUN target/cli/hookbarley decode "$@" "$file" $out/samples.yuv >$out/log || echo "$file is not decoded whole" >&2
    md5sum <$out/samples.yuv | cut -d' ' -f1
}
while read -r name count before after; do
    [ "$(md5 "$name" --unfiltered)" = "$before" ] || bad "$name: other samples before the loop filter"
    [ "$(md5 "$name")" = "$after" ] || bad "$name: other samples after the loop filter"
    [ "$(grep -c whole $out/log)" = "$count" ] || bad "$name: not $count key frames"
    $X86RUN target/cli/hookbarley info $kept/"$name" >>$out/all.log
    files=$((files + 1))
    frames=$((frames + count))
done <$kept/expected.txt
[ $files -ge 17 ] && [ $frames -ge 25 ] || bad "only $files files and $frames key frames"
for kind in ' 1 of tokens' ' 2 of tokens' ' 4 of tokens' ' 8 of tokens' 'segments    q' 'filter .*level 0' 'normal, level [1-9]' \
    'simple, level [1-9]' 'size  *[0-9]*[13579] x [0-9]*[13579],'; do
    grep -q "$kind" $out/all.log || bad "no file of the kind '$kind'"
done
[ $failed -eq 0 ] && echo "second: $files kept files, $frames key frames, every sample as ffmpeg's before and after the loop filter"
exit $failed
