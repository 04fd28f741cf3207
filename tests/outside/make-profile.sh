#!/usr/bin/env bash
# Makes tests/outside/profile anew: tiles of cwebp and vpxenc beside the cockpit profile, some that fit and some that break one rule or more
# (tests/second/images.py, seed 34), and one of tests/model/made_tiles.py that breaks the last rule, which these encoders keep. They are
# committed, so that the gate needs no encoder.
set -eu
cd "$(dirname "$0")/../.."
. tools/outside-env.sh
need cwebp webp
need vpxenc vpx-tools
need python3 python3
kept=tests/outside/profile
out=target/outside-profile
rm -rf $kept $out
mkdir -p $kept $out
image() { python3 tests/second/images.py 34 1 $out "$1" "$2" >/dev/null; } # image WIDTH HEIGHT
webp() { # webp NAME OPTIONS..: the last image
    cwebp -quiet -q 2 -m 6 "${@:2}" $out/0000.ppm -o $kept/"$1".webp
}
vpx() { # vpx NAME OPTIONS..: the same of vpxenc, without the IVF file's 44 bytes before the frame
    vpxenc --codec=vp8 --i420 -w 256 -h 256 --limit=1 --ivf --quiet --kf-min-dist=0 --kf-max-dist=0 --min-q=50 --max-q=63 "${@:2}" \
        -o $out/frame.ivf $out/0000.i420 </dev/null
    tail -c +45 $out/frame.ivf >$kept/"$1".vp8
}
image 256 256
webp fits -segments 1 -f 40
webp fits-large -segments 1 -f 0 -partition_limit 100
webp sharp -segments 1 -f 80 -sharpness 3
webp segments -segments 4 -sns 100
webp segments-sharp -segments 4 -sns 100 -f 80 -sharpness 7
vpx fits-two --token-parts=1
vpx fits-four --token-parts=2
vpx eight --token-parts=3
vpx eight-sharp --token-parts=3 --sharpness=5
image 250 241
webp fits-cropped -segments 1
image 257 256
webp wide -segments 1
webp wide-segments -segments 4 -sns 100 -f 80 -sharpness 7
python3 tests/model/made_tiles.py $out 1 >/dev/null
cp $out/breaks-6.vp8 $kept/skipped.vp8
wc -c $kept/*
