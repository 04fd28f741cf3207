#!/usr/bin/env bash
# A delivery surveyed: bench/delivery.sh [TILES [ARCHIVE]]. Makes TILES tiles (10000) of 256 by 256 out of a hundred pictures, at a hundred
# qualities, with Debian's cwebp; kept in target/delivery for the next run. Then delivery.py measures `hookbarley survey`, in one process and
# in two, beside a decode that writes nothing. On x86-64.
set -eu
cd "$(dirname "$0")/.."
tiles=${1:-10000}
ARCHIVE=${2:-${ARCHIVE:-}}
. tools/outside-env.sh
[ -z "$X86RUN" ] || { echo "on x86-64 only" >&2; exit 1; }
need cwebp webp
need /usr/bin/time time
need python3 python3
out=target/delivery
mkdir -p $out/pictures
program $out/hookbarley
$X86CC -std=c99 -D_POSIX_C_SOURCE=200809L -O2 -Wall -Iinclude -Icli -o $out/undrawn bench/undrawn.c cli/file.c cli/picture.c cli/answers.c "$ARCHIVE"
[ -f $out/pictures/0099.ppm ] || python3 tests/second/images.py 1 100 $out/pictures 256 256 >/dev/null
made=0
for quality in $(seq 1 100); do
    mkdir -p $out/tiles/"$quality"
    for picture in $out/pictures/*.ppm; do
        [ $made -lt "$tiles" ] || break 2
        made=$((made + 1))
        tile=$out/tiles/$quality/$(basename "$picture" .ppm).webp
        [ -f "$tile" ] || { cwebp -quiet -m 2 -q "$quality" "$picture" -o "$tile.part" && mv "$tile.part" "$tile"; }
    done
done
python3 bench/delivery.py $out "$tiles"
