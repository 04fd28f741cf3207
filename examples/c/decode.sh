#!/usr/bin/env bash
# Builds the C example against the archive (building that where it is not there) and decodes a case file:
#   examples/c/decode.sh [CASE [PREFIX]]
# CASE is bench/tile-q90.case if not given, PREFIX (of the PGM pictures) target/outside/tile. Prints number, macroblocks finished and
# the sums of Y, U, V. Runs on x86-64, and by emulation on Arm.
set -eu
cd "$(dirname "$0")/../.."
mkdir -p target/outside
. tools/outside-env.sh
$X86CC -O2 -Wall -Wextra -Iinclude -o target/outside/decode_case examples/c/decode_case.c "$ARCHIVE"
exec $X86RUN target/outside/decode_case "${1:-bench/tile-q90.case}" "${2:-target/outside/tile}"
