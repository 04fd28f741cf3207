#!/usr/bin/env bash
# The archive beside a second decoder: tests/second/run.sh [COUNT [SEED]]. Makes COUNT pictures (100), encodes each with cwebp and, four
# key frames long, with vpxenc, with options drawn by SEED (else from the clock, printed), makes a copy of each file with a filter level of 0
# (level_zero.py), decodes the files with the program (cli/) and with ffmpeg, before and after the loop filter, and compares every sample.
# Installs what is missing (Debian's ffmpeg, webp, vpx-tools).
set -u
cd "$(dirname "$0")/../.." || exit 1
count=${1:-100}
seed=${2:-$(date +%s)}
out=target/second
rm -rf $out
mkdir -p $out
. tools/outside-env.sh
need ffmpeg ffmpeg || exit 1
need cwebp webp || exit 1
need vpxenc vpx-tools || exit 1
need python3 python3 || exit 1
program target/cli/hookbarley || exit 1
hb() { $X86RUN target/cli/hookbarley "$@"; }
echo "archive $ARCHIVE, $count pictures, seed $seed"
python3 tests/second/images.py "$seed" "$count" $out >$out/list || exit 1
RANDOM=$((seed % 32768))
# pick NAME LOW HIGH: draws a number into the variable NAME. Not in a subshell: there bash seeds RANDOM anew, and the seed would not hold.
pick() { printf -v "$1" %d $(($2 + RANDOM % ($3 - $2 + 1))); }
files=0
frames=0
failed=0
same() { # same FILE OURS FFMPEG-OPTIONS..: both decoders, every sample; OURS is --unfiltered or nothing
    local file=$1 kind=$2
    shift 2
    hb decode $kind "$file" $out/ours.yuv >$out/ours.log 2>&1 || { cat $out/ours.log; return 1; }
    ffmpeg -nostdin -v error -y "$@" -i "$file" -fps_mode passthrough -f rawvideo -pix_fmt yuv420p $out/theirs.yuv || { echo "$file: ffmpeg fails"; return 1; }
    cmp -s $out/ours.yuv $out/theirs.yuv || { echo "$file: samples differ $kind"; return 1; }
}
compare() {
    same "$1" --unfiltered -skip_loop_filter all && same "$1" "" || { failed=1; return; }
    files=$((files + 1))
    frames=$((frames + $(grep -c whole $out/ours.log)))
    hb info "$1" >>$out/all.log
}
both() { # both FILE: as it was coded, and with a level of 0
    local copy=${1%.*}-level-0.${1##*.}
    compare "$1"
    python3 tests/second/level_zero.py "$1" "$copy" || { failed=1; return; }
    compare "$copy"
}
while read -r name w h; do
    pick quality 0 100; pick method 0 6; pick segments 1 4; pick limit 0 100; pick sns 0 100; pick strength 0 100; pick sharp 0 7; pick passes 1 3; pick weak 0 1
    pick profile 0 3; pick parts 0 3; pick lo 0 50; pick span 8 13; pick vsharp 0 7; pick cpu 0 5; pick static 0 1000
    kind=-strong
    [ $weak -eq 0 ] || kind=-nostrong
    cwebp -quiet -q $quality -m $method -segments $segments -partition_limit $limit -sns $sns -f $strength -sharpness $sharp -pass $passes $kind \
        $out/$name.ppm -o $out/$name.webp || { failed=1; continue; }
    both $out/$name.webp
    vpxenc --codec=vp8 --i420 -w "$w" -h "$h" --ivf --quiet --kf-min-dist=0 --kf-max-dist=0 --profile=$profile --token-parts=$parts --min-q=$lo --max-q=$((lo + span)) \
        --sharpness=$vsharp --cpu-used=$cpu --static-thresh=$static -o $out/$name.ivf $out/$name.i420 </dev/null 2>$out/vpxenc.log || { cat $out/vpxenc.log; failed=1; continue; }
    both $out/$name.ivf
done <$out/list
kinds() { grep -c "$1" $out/all.log; }
echo "key frames of 1, 2, 4, 8 partitions: $(kinds ' 1 of tokens'), $(kinds ' 2 of tokens'), $(kinds ' 4 of tokens'), $(kinds ' 8 of tokens'); with segments: $(kinds 'segments    q'); filtered: $(kinds 'filter .*level [1-9]'), simple $(kinds 'filter      simple, level [1-9]')"
# level 0 with segments that have levels, and with deltas: what is not filtered though its strengths say so
read -r segments deltas < <(awk '/^  segments .*levels/ { levels = 0; for (i = 1; i <= NF; i++) if ($i == "levels") levels = $(i + 1) $(i + 2) $(i + 3) $(i + 4) ~ /[1-9]/ }
    /^  segments .*none/ { levels = 0 }
    /^  filter .*level 0 / { s += levels; d += /deltas: intra [1-9]/ || /small [1-9]/ }
    END { print s + 0, d + 0 }' $out/all.log)
echo "of level 0: $(kinds 'filter .*level 0 '), with levels of segments $segments, with deltas $deltas"
[ "$segments" -ge $((count / 10)) ] && [ "$deltas" -ge $((count / 10)) ] || { echo "too few key frames of level 0 that have levels of segments or deltas"; failed=1; }
# cwebp gives a file of one frame for each picture, vpxenc one of four; each file has its copy
[ "$count" -ge 1 ] && [ $files -ge $((4 * count)) ] && [ $frames -ge $((10 * count)) ] || { echo "only $files files and $frames key frames of $count pictures compared"; failed=1; }
if [ $failed -eq 0 ]; then echo "second: $files files, $frames key frames, every sample the same before and after the loop filter, seed $seed"; else echo "second: FAILED, seed $seed"; fi
exit $failed
