#!/usr/bin/env bash
# The program beside what RFC 6386's own decoder gave: tests/rfc/kept.sh [ARCHIVE]. It fetches nothing and needs no text of the RFC: the answers
# are kept as md5 sums (kept/expected.txt; README.md says how they were made), and the frames are made again from a seed. The gate runs it.
set -u
cd "$(dirname "$0")/../.." || exit 1
ARCHIVE=${1:-${ARCHIVE:-}}
. tools/outside-env.sh
need python3 python3 || exit 1
program target/cli/hookbarley || exit 1
python3 -B tests/rfc/kept.py "$X86RUN $PWD/target/cli/hookbarley" target/rfc-kept
