#!/usr/bin/env bash
# Files of two encoders recoded by the program, IN and OUT decoded by three decoders: tests/second/recode_files.sh [COUNT [SEED]]. Makes COUNT
# pictures (500), encodes each with libwebp and, four key frames long, with vpxenc, with 1, 2, 4 or 8 token partitions and options drawn by SEED
# (else from the clock, printed). ffmpeg, dwebp (of WebP files) and RFC 6386's own decoder must give the same samples for both, the new file has
# one partition a frame, and recoding it changes nothing. Installs what is missing (Debian's ffmpeg, webp, vpx-tools, libwebp-dev).
set -u
cd "$(dirname "$0")/../.." || exit 1
count=${1:-500}
seed=${2:-$(date +%s)}
out=target/second-recode-files
rm -rf $out
mkdir -p $out
. tools/outside-env.sh
need ffmpeg ffmpeg || exit 1
need dwebp webp || exit 1
need vpxenc vpx-tools || exit 1
[ -f /usr/include/webp/encode.h ] || packages libwebp-dev >$out/apt.log 2>&1 || { cat $out/apt.log; exit 1; }
rfc=target/rfc
tests/rfc/fetch.sh $rfc || exit 1
[ -x $rfc/rfc-decode-forms ] || python3 -B tests/rfc/decoder.py $rfc/rfc6386.txt $rfc || exit 1
program target/cli/hookbarley || exit 1
hb() { $X86RUN target/cli/hookbarley "$@"; }
gcc -O2 -Wall -o $out/partitions tests/second/partitions.c -lwebp || exit 1
echo "archive $ARCHIVE, $count pictures, seed $seed"
python3 tests/second/images.py "$seed" "$count" $out >$out/list || exit 1
RANDOM=$((seed % 32768))
pick() { printf -v "$1" %d $(($2 + RANDOM % ($3 - $2 + 1))); }
files=0
failed=0
bad() { echo "$1"; failed=1; }
sum() { ffmpeg -nostdin -v error "$@" -fps_mode passthrough -f rawvideo -pix_fmt yuv420p - | sha256sum; }
same() { # same IN OUT: recoded, and what the decoders give
    local in=$1 new=$2
    hb recode "$in" "$new" >>$out/said.log || { bad "$in: not recoded"; return; }
    hb recode "$new" "$new.again" >/dev/null && cmp -s "$new" "$new.again" || bad "$in: recoded again, and it differs"
    [ "$(sum -i "$in")" = "$(sum -i "$new")" ] || bad "$in: ffmpeg's samples differ"
    [ "$(sum -skip_loop_filter all -i "$in")" = "$(sum -skip_loop_filter all -i "$new")" ] || bad "$in: ffmpeg's samples differ before the filter"
    case $in in *.webp) [ "$(dwebp -quiet -yuv "$in" -o - | sha256sum)" = "$(dwebp -quiet -yuv "$new" -o - | sha256sum)" ] || bad "$in: dwebp's samples differ" ;; esac
    hb info "$in" >>$out/info.log
    hb info "$new" >>$out/info-new.log
    rm -f "$new.again"
    files=$((files + 1))
}
while read -r name w h; do
    pick quality 0 100; pick method 0 6; pick segments 1 4; pick sharp 0 7; pick parts 0 3
    pick profile 0 3; pick vparts 0 3; pick lo 0 50; pick span 8 13; pick vsharp 0 7; pick cpu 0 5
    $out/partitions $out/$name.ppm $out/$name.webp $quality $method $segments $sharp $parts || { echo "$name: libwebp fails"; exit 1; }
    same $out/$name.webp $out/$name-one.webp
    vpxenc --codec=vp8 --i420 -w "$w" -h "$h" --ivf --quiet --kf-min-dist=0 --kf-max-dist=0 --profile=$profile --token-parts=$vparts --min-q=$lo --max-q=$((lo + span)) \
        --sharpness=$vsharp --cpu-used=$cpu -o $out/$name.ivf $out/$name.i420 </dev/null 2>$out/vpxenc.log || { cat $out/vpxenc.log; exit 1; }
    same $out/$name.ivf $out/$name-one.ivf
    rm -f $out/$name.i420 $out/$name.ppm
done <$out/list
python3 -B tests/second/recode_rfc.py $rfc/rfc-decode $out || failed=1
kinds() { grep -c "$1" $out/info.log; }
echo "key frames of 1, 2, 4, 8 partitions: $(kinds ' 1 of tokens:'), $(kinds ' 2 of tokens:'), $(kinds ' 4 of tokens:'), $(kinds ' 8 of tokens:')"
[ "$(grep -c 'of tokens:' $out/info.log)" = "$(grep -c ' 1 of tokens:' $out/info-new.log)" ] || bad "a new frame has not one partition"
[ $files -eq $((2 * count)) ] || bad "only $files files of $count pictures compared"
awk '{ if ($5 == "fewer") fewer += $4; else more += $4 } END { print fewer - more " bytes fewer in all" }' $out/said.log
if [ $failed -eq 0 ]; then echo "recode_files: $files files, the same samples before and after, seed $seed"; else echo "recode_files: FAILED, seed $seed"; fi
exit $failed
