# What the outside tests and the bench share; sourced with the repository's root as the working directory. Sets
#   X86CC     a C compiler for x86-64
#   X86RUN    what runs an x86-64 program here: nothing on x86-64, qemu elsewhere
#   ARCHIVE   libhookbarley.a: $ARCHIVE if given, else target/staticlib/libhookbarley.a, built where it is not there or not new
# and program OUT, which builds the program, and need COMMAND PACKAGE.., which installs Debian packages where the command is missing and
# shows what apt says where that fails.

packages() { DEBIAN_FRONTEND=noninteractive apt-get install -y -q -o DPkg::Lock::Timeout=300 --no-install-recommends "$@"; }

need() {
    local command=$1 log
    shift
    command -v "$command" >/dev/null && return
    [ "$(id -u)" -eq 0 ] || { echo "missing: $command; install: $*" >&2; return 1; }
    echo "installing $*" >&2
    log=$(mktemp) || return 1
    { packages "$@" || { apt-get update -q && packages "$@"; }; } >"$log" 2>&1
    if command -v "$command" >/dev/null; then
        rm -f "$log"
        return
    fi
    cat "$log" >&2
    rm -f "$log"
    echo "missing: $command; apt-get could not install $*: see above" >&2
    return 1
}

if [ "$(uname -m)" = x86_64 ]; then
    need gcc gcc libc6-dev || exit 1
    X86CC=gcc
    X86RUN=
else
    need x86_64-linux-gnu-gcc gcc-x86-64-linux-gnu libc6-dev-amd64-cross || exit 1
    need qemu-x86_64 qemu-user || exit 1
    X86CC=x86_64-linux-gnu-gcc
    X86RUN="qemu-x86_64 -L /usr/x86_64-linux-gnu"
fi

if [ -z "${ARCHIVE:-}" ]; then
    tools/archive.sh || exit 1
    ARCHIVE=target/staticlib/libhookbarley.a
fi
[ -f "$ARCHIVE" ] || { echo "no archive: $ARCHIVE" >&2; exit 1; }
ARCHIVE=$(realpath "$ARCHIVE")

# program OUT: the program of cli/ as OUT, where it is not there or older than what it is made of. Other arguments go to the compiler.
program() {
    local out=$1
    shift
    [ -f "$out" ] && [ -z "$(find cli include "$ARCHIVE" -newer "$out" -print -quit)" ] && return
    mkdir -p "$(dirname "$out")"
    $X86CC -std=c99 -D_POSIX_C_SOURCE=200809L -O2 -Wall -Wextra -pedantic "$@" -Iinclude -Icli -o "$out" cli/*.c "$ARCHIVE"
}
