#!/usr/bin/env bash
# Puts the library and the program where people and build systems find them: tools/install.sh PREFIX writes
#   PREFIX/lib/libhookbarley.a, PREFIX/include/hookbarley.h
#   PREFIX/lib/pkgconfig/hookbarley.pc                   for pkg-config, and for cargo (bindings/rust)
#   PREFIX/lib/cmake/hookbarley/                         for CMake: find_package(hookbarley), hookbarley::hookbarley
#   PREFIX/bin/hookbarley, PREFIX/share/man/man1/hookbarley.1, PREFIX/share/bash-completion/completions/hookbarley
# and builds what is missing, proving the library first. Then, with PREFIX/lib/pkgconfig in PKG_CONFIG_PATH,
#   cc $(pkg-config --cflags hookbarley) decode_webp.c $(pkg-config --libs hookbarley)
# builds examples/c/decode_webp.c. The archive is for x86-64; on Arm PREFIX/bin/hookbarley runs by emulation.
# Settings, for packages: DESTDIR goes before every path that is written; LIBDIR (lib) is the library's folder in PREFIX; CPPFLAGS, CFLAGS
# and LDFLAGS go to the compiler.
set -eu
[ $# -eq 1 ] && [ -n "$1" ] || { echo "usage: tools/install.sh PREFIX" >&2; exit 2; }
libdir=${LIBDIR:-lib}
if [ -n "${DESTDIR:-}" ]; then
    prefix=$1
    mkdir -p "$DESTDIR$prefix"
    to=$(cd "$DESTDIR$prefix" && pwd -P)
else
    mkdir -p "$1"
    prefix=$(cd "$1" && pwd -P)
    to=$prefix
fi
cd "$(dirname "$0")/.."
. tools/outside-env.sh
# shellcheck disable=SC2086
program target/cli/hookbarley ${CPPFLAGS:-} ${CFLAGS:-} ${LDFLAGS:-}
version=$(sed -n 's/^#define HOOKBARLEY_VERSION "\(.*\)"$/\1/p' include/hookbarley.h)
[ -n "$version" ] || { echo "include/hookbarley.h has no HOOKBARLEY_VERSION" >&2; exit 1; }

put() { # put PLACE FILE: the file there, with what is known only here
    mkdir -p "$(dirname "$to/$1")"
    sed "s|@PREFIX@|$prefix|; s|@LIBDIR@|$libdir|; s|@VERSION@|$version|; s|@MAJOR@|${version%%.*}|; s|@UP@|$up|" "packaging/$2" >"$to/$1"
    chmod 644 "$to/$1"
}
up=../.. # from the CMake file's folder to PREFIX: two for cmake/hookbarley, and LIBDIR's own
for _ in ${libdir//\// }; do up=$up/..; done
mkdir -p "$to/bin" "$to/include" "$to/$libdir"
install -m 644 "$ARCHIVE" "$to/$libdir/libhookbarley.a"
install -m 644 include/hookbarley.h "$to/include/hookbarley.h"
put "$libdir/pkgconfig/hookbarley.pc" hookbarley.pc.in
put "$libdir/cmake/hookbarley/hookbarley-config.cmake" hookbarley-config.cmake.in
put "$libdir/cmake/hookbarley/hookbarley-config-version.cmake" hookbarley-config-version.cmake.in
put share/man/man1/hookbarley.1 hookbarley.1
put share/bash-completion/completions/hookbarley hookbarley.bash
if [ -z "$X86RUN" ]; then
    install -m 755 target/cli/hookbarley "$to/bin/hookbarley"
else
    mkdir -p "$to/libexec"
    install -m 755 target/cli/hookbarley "$to/libexec/hookbarley"
    printf '#!/bin/sh\nexec %s "%s/libexec/hookbarley" "$@"\n' "$X86RUN" "$prefix" >"$to/bin/hookbarley"
    chmod 755 "$to/bin/hookbarley"
fi
echo "hookbarley $version in $to: program, manual page, completion, library, header, files for pkg-config and CMake"
