#!/usr/bin/env bash
# The Rust wrapper's tests against an archive: tests/outside/rust.sh [ARCHIVE]. On x86-64 plain `cargo test`. Elsewhere they are
# built for x86-64 by Debian's rustc and cargo with the standard library of Debian's amd64 package of the same version, and run by
# qemu.
set -eu
cd "$(dirname "$0")/../.."
ARCHIVE=${1:-${ARCHIVE:-}}
mkdir -p target/outside
. tools/outside-env.sh
export HOOKBARLEY_LIB
HOOKBARLEY_LIB=$(dirname "$ARCHIVE")
export CARGO_TARGET_DIR=$PWD/target/outside/cargo
if [ "$(uname -m)" = x86_64 ]; then
    need cargo cargo rustc
    cd bindings/rust
    exec cargo test --offline
fi
need /usr/bin/cargo cargo
need /usr/bin/rustc rustc
version=$(dpkg-query -W -f '${Version}' rustc)
std=$PWD/target/outside/std
if [ ! -f "$std/$version" ]; then
    deb=libstd-rust-dev_${version}_amd64.deb
    lists=$PWD/target/outside/apt
    mkdir -p "$lists/lists/partial" "$lists/cache/archives/partial"
    amd64() { apt-get -q -o APT::Architecture=amd64 -o APT::Architectures=amd64 -o Dir::State::Lists="$lists/lists" -o Dir::Cache="$lists/cache" "$@"; }
    amd64 update
    (cd target/outside && amd64 download "libstd-rust-dev=$version")
    rm -rf "$std"
    dpkg-deb -x "target/outside/$deb" "$std"
    : >"$std/$version"
fi
export RUSTC=/usr/bin/rustc RUSTFLAGS="--sysroot $std/usr"
export CARGO_TARGET_X86_64_UNKNOWN_LINUX_GNU_LINKER=$X86CC CARGO_TARGET_X86_64_UNKNOWN_LINUX_GNU_RUNNER="$X86RUN"
cd bindings/rust
exec /usr/bin/cargo test --offline --tests --target x86_64-unknown-linux-gnu
