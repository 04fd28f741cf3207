#!/usr/bin/env bash
# The parts that are not proved under AFL++, from Debian, with AddressSanitizer and UndefinedBehaviorSanitizer: tests/fuzz/run.sh [SECONDS
# [TARGET..]]. By hand, on x86-64; the gate does not run it. Fuzzes each TARGET (header, rust and program where none is named) for SECONDS,
# 1200 where not given, from the kept seeds; 0 only runs these once, with leaks looked for. Fails where the fuzzer
# saved a crash; what it found lies in target/fuzz/TARGET. README.md says what the targets are.
set -u
cd "$(dirname "$0")/../.." || exit 1
seconds=${1:-1200}
[ $# -eq 0 ] || shift
[ $# -gt 0 ] || set -- header rust program
. tools/outside-env.sh
[ -z "$X86RUN" ] || { echo "on x86-64 only" >&2; exit 1; }
need afl-fuzz afl++ || exit 1
out=$PWD/target/fuzz
mkdir -p "$out"
export AFL_USE_ASAN=1 AFL_USE_UBSAN=1 AFL_QUIET=1
export AFL_SKIP_CPUFREQ=1 AFL_I_DONT_CARE_ABOUT_MISSING_CRASHES=1 AFL_NO_AFFINITY=1 AFL_NO_UI=1 AFL_IGNORE_SEED_PROBLEMS=1
compile() { afl-clang-fast -g -O1 -Wall -Wextra -fno-sanitize-recover=all -Iinclude -Icli "$@"; }

build_header() { compile -std=gnu11 -o "$out/header.run" tests/fuzz/header.c "$ARCHIVE"; }

# The wrapper is instrumented by rustc: coverage as AFL++ takes it, and AddressSanitizer, which a released rustc allows only when asked so.
build_rust() {
    need cargo cargo rustc || return 1
    HOOKBARLEY_LIB=$(dirname "$ARCHIVE") RUSTC_BOOTSTRAP=1 CARGO_TARGET_DIR=$out/cargo \
        RUSTFLAGS='-Zsanitizer=address -Cpasses=sancov-module -Cllvm-args=-sanitizer-coverage-level=3 -Cllvm-args=-sanitizer-coverage-trace-pc-guard' \
        cargo build -q --offline --release --target x86_64-unknown-linux-gnu --manifest-path tests/fuzz/rust/Cargo.toml || return 1
    compile -std=gnu11 -o "$out/rust.run" tests/fuzz/rust.c "$out/cargo/x86_64-unknown-linux-gnu/release/libfuzz.a" -lpthread -ldl -lm
}

build_program() {
    local source objects=
    for source in cli/*.c; do
        objects="$objects $out/$(basename "$source" .c).o"
        compile -std=c99 -D_POSIX_C_SOURCE=200809L -Dmain=program_main -c -o "$out/$(basename "$source" .c).o" "$source" || return 1
    done
    # shellcheck disable=SC2086
    compile -std=gnu11 -o "$out/program.run" tests/fuzz/program.c $objects "$ARCHIVE"
}

seeds() { # seeds TARGET: all inputs to start from, in target/fuzz/TARGET.in
    rm -rf "$out/$1.in"
    mkdir -p "$out/$1.in"
    if [ "$1" = program ]; then
        cp tests/fuzz/seeds/program/* "$out/$1.in"
    else
        cp tests/fuzz/seeds/frames/* tests/second/kept/*.webp tests/outside/webp/*.webp "$out/$1.in"
    fi
}

failed=0
for target; do
    FUZZ_ROOM=$(mktemp -d) || exit 1
    export FUZZ_ROOM
    "build_$target" || { echo "$target: does not build"; exit 1; }
    seeds "$target"
    if ! "$out/$target.run" "$out/$target.in"/* >"$out/$target.log" 2>&1; then
        tail -n 20 "$out/$target.log"
        echo "$target: FAILED on its seeds"
        failed=1
    elif [ "$seconds" -gt 0 ]; then
        rm -rf "${out:?}/$target"
        nice -n 19 afl-fuzz -i "$out/$target.in" -o "$out/$target" -x tests/fuzz/words.dict -V "$seconds" -m none -t 10000 -- "$out/$target.run" >"$out/$target.log" 2>&1
        stats=$out/$target/default/fuzzer_stats
        crashes=$(awk '$1 == "saved_crashes" { print $3 }' "$stats")
        awk -v t="$target" '{ n[$1] = $3 } END { printf "%s: %d s, %d runs, %d inputs, %d edges, %d crashes, %d hangs\n",
            t, n["run_time"], n["execs_done"], n["corpus_count"], n["edges_found"], n["saved_crashes"], n["saved_hangs"] }' "$stats"
        [ "${crashes:-1}" -eq 0 ] || { echo "$target: FAILED: see $out/$target/default/crashes"; failed=1; }
    else
        echo "$target: $(find "$out/$target.in" -type f | wc -l) inputs, no error, no leak"
    fi
    rm -rf "$FUZZ_ROOM"
done
exit $failed
