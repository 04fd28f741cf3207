#!/usr/bin/env bash
# The archive that C and Rust link, target/staticlib/libhookbarley.a: has rt prove and build the static library hookbarley_c, over what earlier
# checks kept, where the archive is not there or older than the sources, and copies it. Says on standard error which crate it is at, how many were
# proved and how long it has taken.
set -u
cd "$(dirname "$0")/.." || exit 1
archive=target/staticlib/libhookbarley.a
log=target/staticlib.log
built=crates/hookbarley_c/out/libhookbarley_c.a

# The crates that `hookbarley_c` rests on, lowest first.
below=$(awk -F: '
    !/^#/ && NF > 1 { split($1, words, " "); deps[words[1]] = $2 }
    function visit(crate, parts, n, i) {
        if (crate in seen || !(crate in deps)) return
        seen[crate] = 1
        n = split(deps[crate], parts, " ")
        for (i = 1; i <= n; i++) visit(parts[i])
        if (crate != "hookbarley_c") print crate
    }
    END { visit("hookbarley_c") }' crates.txt)
count=$(($(printf '%s\n' "$below" | grep -c .) + 1))
[ $count -gt 1 ] || { echo "crates.txt has no crate hookbarley_c" >&2; exit 1; }

if [ -f $archive ]; then
    folders=crates/hookbarley_c
    for crate in $below; do folders="$folders crates/$crate"; done
    # shellcheck disable=SC2086
    [ -n "$(find crates.txt $folders -name out -prune -o -type f -newer $archive -print -quit)" ] || exit 0
fi
command -v rt >/dev/null || { echo "missing: rt, the Rattle kit, which proves the library" >&2; exit 1; }

mkdir -p target/staticlib
began=$(date +%s)
echo "proving the library, $count crates; from nothing it takes minutes" >&2
(cd crates/hookbarley_c && exec rt lib) >$log 2>&1 &
running=$!
said=''
# What rt has printed: a line `logic=proved` ends each crate that it proved anew, and it says for which it chose how many processors.
look() {
    done=$(grep -c '^logic=proved' $log)
    at=$(sed -n 's/^rt: chose --jobs [0-9]* for //p' $log | tail -n 1)
    now="$done proved${at:+, at $at}"
}
while kill -0 $running 2>/dev/null; do
    sleep 1
    look
    if [ -t 2 ]; then
        printf '\r\033[K%s, %s s' "$now" $(($(date +%s) - began)) >&2
    elif [ "$now" != "$said" ]; then
        echo "$now, $(($(date +%s) - began)) s" >&2
        said=$now
    fi
done
[ ! -t 2 ] || printf '\r\033[K' >&2
wait $running || { grep -E ': error|not proved|^rt: ' $log | cut -c 1-300 | head -n 10 >&2; echo "not proved: see $log" >&2; exit 1; }
tools/axioms.py $log && cp $built $archive || { rm -f $archive; exit 1; }
echo "$archive: proved and built in $(($(date +%s) - began)) s" >&2
