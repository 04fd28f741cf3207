#!/usr/bin/env bash
# Makes tests/second/kept anew: small pictures (images.py) encoded by cwebp and vpxenc under the options below, and kept/expected.txt, for each
# file its key frames and the md5 that ffmpeg gives of their samples before and after the loop filter. The files are committed, so that the
# gate compares without ffmpeg; other versions of the encoders make other files, of which the same must hold.
set -eu
cd "$(dirname "$0")/../.."
. tools/outside-env.sh
need ffmpeg ffmpeg
need cwebp webp
need vpxenc vpx-tools
need python3 python3
kept=tests/second/kept
out=target/second-kept
rm -rf $kept $out
mkdir -p $kept $out
webp() { # webp NAME SEED WIDTH HEIGHT OPTIONS..
    local name=$1
    python3 tests/second/images.py "$2" 1 $out "$3" "$4" >/dev/null
    shift 4
    cwebp -quiet "$@" $out/0000.ppm -o $kept/"$name".webp
}
ivf() { # ivf NAME SEED WIDTH HEIGHT OPTIONS..: two key frames
    local name=$1 w=$3 h=$4
    python3 tests/second/images.py "$2" 1 $out "$w" "$h" >/dev/null
    shift 4
    vpxenc --codec=vp8 --i420 -w "$w" -h "$h" --limit=2 --ivf --quiet --kf-min-dist=0 --kf-max-dist=0 "$@" -o $kept/"$name".ivf $out/0000.i420 </dev/null 2>$out/vpxenc.log ||
        { cat $out/vpxenc.log >&2; exit 1; }
}
webp one-sample 1 1 1 -q 50
webp unfiltered 10 17 33 -q 40 -m 0 -segments 1 -f 0
webp normal-segments 58 143 79 -q 8 -segments 4 -sns 100 -f 60 -strong
webp normal-sharp 53 64 49 -q 20 -segments 1 -f 80 -sharpness 6 -strong
webp simple-segments 48 129 80 -q 8 -segments 4 -sns 100 -f 40 -sharpness 7 -nostrong
webp simple-strong 48 33 65 -q 25 -segments 2 -f 100 -sharpness 3 -nostrong
webp fine 34 41 16 -q 100 -m 6 -segments 1
webp large-modes 35 80 81 -q 30 -segments 3 -sns 80 -f 50 -partition_limit 100
ivf one-sample-vpx 1 1 1 --profile=0 --token-parts=0 --min-q=20 --max-q=30
ivf two-partitions 22 17 47 --profile=0 --token-parts=1 --min-q=30 --max-q=40
ivf four-partitions-simple 37 47 79 --profile=1 --token-parts=2 --min-q=30 --max-q=50 --sharpness=4
ivf eight-partitions 51 24 145 --profile=0 --token-parts=3 --min-q=40 --max-q=50 --sharpness=7
ivf eight-partitions-version-2 54 31 130 --profile=2 --token-parts=3 --min-q=50 --max-q=60
ivf empty-partitions 56 33 17 --profile=3 --token-parts=3 --min-q=50 --max-q=63
ivf finest-vpx 20 32 16 --profile=0 --token-parts=0 --min-q=0 --max-q=0
python3 tests/second/level_zero.py $kept/normal-segments.webp $kept/level-0-segments.webp
python3 tests/second/level_zero.py $kept/two-partitions.ivf $kept/level-0-deltas.ivf
samples() { ffmpeg -nostdin -v error "$@" -fps_mode passthrough -f rawvideo -pix_fmt yuv420p - | md5sum | cut -d' ' -f1; }
for f in $kept/*.webp $kept/*.ivf; do
    frames=$(ffmpeg -nostdin -v error -i "$f" -fps_mode passthrough -f framecrc - | grep -vc '^#')
    echo "$(basename "$f") $frames $(samples -skip_loop_filter all -i "$f") $(samples -i "$f")"
done >$kept/expected.txt
echo "$(wc -l <$kept/expected.txt) files, $(du -cb $kept/* | tail -n 1 | cut -f 1) bytes, $(ffmpeg -version | head -n 1 | cut -d' ' -f 1-3)"
