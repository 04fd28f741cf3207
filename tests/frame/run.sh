#!/usr/bin/env bash
# The key frame's header beside an independent reading: tests/frame/run.sh [COUNT [SEED]]. Makes COUNT pictures (30), encodes each with cwebp
# and, four key frames long, with vpxenc, with options drawn by SEED, adds as many made-up frames and ten damaged copies of each, and
# compares what crates/try_frame/out/try_frame (`rt run` in crates/try_frame builds it) prints with what tests/model/frame_header.py prints. Installs what is missing (Debian's webp,
# vpx-tools).
set -u
cd "$(dirname "$0")/../.." || exit 1
count=${1:-30}
seed=${2:-$(date +%s)}
out=target/frame
rm -rf $out
mkdir -p $out
program=crates/try_frame/out/try_frame
(cd crates/try_frame && rt run) >$out/rt.log 2>&1 </dev/null
[ -x $program ] || { tail -n 5 $out/rt.log; echo "no $program: rt run in crates/try_frame"; exit 1; }
ARCHIVE=$program # nothing here links the archive: none is built
. tools/outside-env.sh
need cwebp webp || exit 1
need vpxenc vpx-tools || exit 1
need python3 python3 || exit 1
python3 tests/second/images.py "$seed" "$count" $out >$out/list || exit 1
RANDOM=$((seed % 32768))
pick() { printf -v "$1" %d $(($2 + RANDOM % ($3 - $2 + 1))); }
while read -r name w h; do
    pick quality 0 100; pick method 0 6; pick segments 1 4; pick sns 0 100; pick strength 0 100; pick sharp 0 7; pick weak 0 1
    pick profile 0 3; pick parts 0 3; pick lo 20 50; pick span 8 13; pick vsharp 0 7; pick cpu 0 5
    kind=-strong
    [ $weak -eq 0 ] || kind=-nostrong
    cwebp -quiet -q $quality -m $method -segments $segments -sns $sns -f $strength -sharpness $sharp $kind $out/$name.ppm -o $out/$name.webp || exit 1
    vpxenc --codec=vp8 --i420 -w "$w" -h "$h" --ivf --quiet --kf-min-dist=0 --kf-max-dist=0 --profile=$profile --token-parts=$parts --min-q=$lo --max-q=$((lo + span)) \
        --sharpness=$vsharp --cpu-used=$cpu -o $out/$name.ivf $out/$name.i420 </dev/null 2>$out/vpxenc.log || { cat $out/vpxenc.log; exit 1; }
done <$out/list
PYTHONDONTWRITEBYTECODE=1 python3 tests/frame/compare.py "$X86RUN $program" "$seed" $((5 * count)) 10 $out/*.webp $out/*.ivf bench/*.webp
