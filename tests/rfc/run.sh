#!/usr/bin/env bash
# RFC 6386 as judge: tests/rfc/run.sh [N [SEED]]. Fetches its text, compares its tables with the definitions and the code, looks at the lines
# that are cited, rebuilds its decoder and runs it beside the program: the kept files, the rows of kept/rows.txt, N made frames (500) from SEED
# (else from the clock, printed), before and after the loop filter; then a few frames with every partition cut at every byte. By hand: the
# gate runs kept.sh. With `keep` in the place of N it makes kept/expected.txt anew.
set -u
cd "$(dirname "$0")/../.." || exit 1
count=${1:-500}
seed=${2:-$(date +%s)}
. tools/outside-env.sh
need python3 python3 || exit 1
need gcc gcc libc6-dev || exit 1
out=target/rfc
tests/rfc/fetch.sh $out || exit 1
[ -x $out/rfc-decode-forms ] || python3 -B tests/rfc/decoder.py $out/rfc6386.txt $out || exit 1
program target/cli/hookbarley || exit 1
compare() { python3 -B tests/rfc/compare.py "$X86RUN $PWD/target/cli/hookbarley" $out $out/work "$@"; }
if [ "$count" = keep ]; then
    compare kept
    exit
fi
failed=0
python3 -B tests/rfc/tables.py $out/rfc6386.txt . >$out/tables.log || failed=1
grep -v ^equal $out/tables.log
python3 -B tests/rfc/lines.py $out/rfc6386.txt . || failed=1
compare files tests/second/kept/*.webp tests/second/kept/*.ivf bench/*.webp || failed=1
compare rows || failed=1
echo "$count made frames, seed $seed"
compare made "$seed" 0 "$count" || failed=1
echo "every cut of a few frames"
compare cuts tests/second/kept/fine.webp tests/second/kept/unfiltered.webp tests/second/kept/simple-strong.webp \
    tests/second/kept/two-partitions.ivf "$seed:0" "$seed:1" "$seed:2" "$seed:3" || failed=1
[ $failed -eq 0 ] && echo "rfc: passed, seed $seed" || echo "rfc: FAILED, seed $seed"
exit $failed
