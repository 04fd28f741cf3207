#!/usr/bin/env bash
# Time a luma sample on this x86-64 machine, ours beside libwebp, ffmpeg and libvpx (bench/decoders.sh), without and with the loop filter; then what a
# display asks: a whole tile from its frame's bytes, the dearest tile, a cut one, growth. bench/time.sh [RUNS [ARCHIVE]]. Least of RUNS (25) runs in
# turn, so that all meet the same machine; processor time, so that other work disturbs less. Keep ratios of one run, not times.
set -eu
cd "$(dirname "$0")/.."
[ "$(uname -m)" = x86_64 ] || { echo "time on x86-64 is measured there; bench/core.sh gives a model's cycles" >&2; exit 1; }
ARCHIVE=${2:-${ARCHIVE:-}}
mkdir -p target/bench
. tools/outside-env.sh
need gcc gcc libc6-dev
need python3 python3
. bench/decoders.sh
rm -rf target/bench/timed
python3 bench/grow.py timed target/bench/timed
python3 bench/dearest.py target/bench/timed/dearest.case
exec python3 bench/time.py "${1:-25}" $OTHERS
