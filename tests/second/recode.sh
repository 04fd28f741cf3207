#!/usr/bin/env bash
# Frames of two encoders recoded into one partition (M-112): tests/second/recode.sh [COUNT [SEED]]. Makes COUNT pictures (200), encodes each with
# libwebp and, four key frames long, with vpxenc, with 2, 4 or 8 token partitions and options drawn by SEED (else from the clock, printed);
# recode.c decodes every frame before and after and compares all lent memory. Installs what is missing (Debian's libwebp-dev, vpx-tools).
set -u
cd "$(dirname "$0")/../.." || exit 1
count=${1:-200}
seed=${2:-$(date +%s)}
out=target/second-recode
rm -rf $out
mkdir -p $out
. tools/outside-env.sh
need vpxenc vpx-tools || exit 1
[ -f /usr/include/webp/encode.h ] || packages libwebp-dev >$out/apt.log 2>&1 || { cat $out/apt.log; exit 1; }
need python3 python3 || exit 1
gcc -O2 -Wall -o $out/partitions tests/second/partitions.c -lwebp || exit 1
$X86CC -std=gnu11 -O2 -Wall -Wextra -Iinclude -Icli -o $out/recode tests/second/recode.c cli/file.c cli/answers.c cli/picture.c "$ARCHIVE" || exit 1
echo "archive $ARCHIVE, $count pictures, seed $seed"
python3 tests/second/images.py "$seed" "$count" $out >$out/list || exit 1
RANDOM=$((seed % 32768))
pick() { printf -v "$1" %d $(($2 + RANDOM % ($3 - $2 + 1))); }
while read -r name w h; do
    pick quality 0 100; pick method 0 6; pick segments 1 4; pick sharp 0 7; pick parts 1 3
    pick profile 0 3; pick vparts 1 3; pick lo 0 50; pick span 8 13; pick vsharp 0 7; pick cpu 0 5
    $out/partitions $out/$name.ppm $out/$name.webp $quality $method $segments $sharp $parts || { echo "$name: libwebp fails"; exit 1; }
    vpxenc --codec=vp8 --i420 -w "$w" -h "$h" --ivf --quiet --kf-min-dist=0 --kf-max-dist=0 --profile=$profile --token-parts=$vparts --min-q=$lo --max-q=$((lo + span)) \
        --sharpness=$vsharp --cpu-used=$cpu -o $out/$name.ivf $out/$name.i420 </dev/null 2>$out/vpxenc.log || { cat $out/vpxenc.log; exit 1; }
done <$out/list
failed=0
frames=0
for kind in webp ivf; do
    line=$($X86RUN $out/recode $out/*.$kind) || failed=1
    echo "$kind, of 1, 2, 4 and 8 partitions: $line"
    read -r _ two four eight _ <<<"$line"
    [ $failed -eq 0 ] && frames=$((frames + two + four + eight))
done
# libwebp gives a file of one frame for each picture, vpxenc one of four
[ "$count" -ge 1 ] && [ $frames -ge $((5 * count)) ] || { echo "only $frames key frames of $count pictures compared"; failed=1; }
if [ $failed -eq 0 ]; then echo "recode: $frames key frames, all memory the same before and after, seed $seed"; else echo "recode: FAILED, seed $seed"; fi
exit $failed
