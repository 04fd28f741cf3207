#!/bin/sh
# Stands for nm in the test of tools/calls.py: `nm -g --defined-only ARCHIVE` or `--undefined-only`. The calls are those of the crate, and what the file
# ARCHIVE has besides, if it is there.
case $2 in
--defined-only) grep -hoE 'pub extern "C" fn \w+' crates/hookbarley_c/src/*.rt | sed 's/.* /0000000000000000 T /' ;;
*) printf '                 U %s\n' memcpy memset ;;
esac
[ ! -f "$3" ] || grep -E "$([ "$2" = --defined-only ] && echo ' [TtDdRrWw] ' || echo ' U ')" "$3"
exit 0
