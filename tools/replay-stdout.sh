#!/usr/bin/env bash
# Makes crates/replay/stdout from the expected lines of crates/replay/data (those since request M-102): for each case its name, the case
# line and, unless the file is malformed, the six hashes. Run it at the repository's root.
set -euo pipefail
cd crates/replay/data
for folder in named real fuzz; do
    paste -d ' ' "$folder/expected-m102.txt" "$folder/expected-memory-m102.txt" | awk -v folder="$folder" '{
        line = sprintf("%s/%04d.case %s %s %s %s %s", folder, NR - 1, $1, $2, $3, $4, $5)
        if ($1 != $6 || $2 != $7) { print "the two expected files differ at " line > "/dev/stderr"; exit 1 }
        for (i = 8; i <= NF; i++) line = line " " $i
        print line
    }'
done > ../stdout
[ "$(wc -l <../stdout)" -ge 151 ] || { echo "fewer than 151 cases" >&2; exit 1; }
