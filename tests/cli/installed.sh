# What tools/install.sh writes, tried as a user would: sourced by run.sh, whose functions it uses.
need cmake cmake || exit 1
need groff groff-base || exit 1
prefix=$PWD/$out/prefix
if ! tools/install.sh $out/prefix >$out/install.log 2>&1; then
    tail -n 5 $out/install.log
    bad "tools/install.sh"
    return
fi
export PKG_CONFIG_PATH=$prefix/lib/pkgconfig
version=$(pkg-config --modversion hookbarley)
what="PREFIX/bin/hookbarley"
$prefix/bin/hookbarley decode bench/tile-q90.webp $out/installed.yuv >/dev/null && same $out/installed.yuv $out/a.yuv

# The C example through pkg-config, also for a program that is static as a whole, and through CMake, which refuses another major version.
example() { # example WHAT PROGRAM
    what="examples/c/decode_webp.c, $1"
    $X86RUN "$2" bench/tile-q90.webp >$out/example.pgm 2>$out/err && same $out/example.pgm $out/a.pgm || bad "$what: does not run"
}
# shellcheck disable=SC2046
$X86CC -std=c99 -Wall -Wextra -Werror $(pkg-config --cflags hookbarley) examples/c/decode_webp.c $(pkg-config --libs hookbarley) -o $out/decode_webp &&
    example pkg-config $out/decode_webp || bad "examples/c/decode_webp.c does not build through pkg-config"
# shellcheck disable=SC2046
$X86CC -static $(pkg-config --cflags hookbarley) examples/c/decode_webp.c $(pkg-config --static --libs hookbarley) -o $out/decode_static &&
    example 'pkg-config --static' $out/decode_static || bad "examples/c/decode_webp.c does not build through pkg-config --static"
mkdir -p $out/cmake
cmake_with() { # cmake_with VERSION
    cat >$out/cmake/CMakeLists.txt <<END
cmake_minimum_required(VERSION 3.13)
project(use C)
find_package(hookbarley $1 REQUIRED)
add_executable(use $PWD/examples/c/decode_webp.c)
target_link_libraries(use hookbarley::hookbarley)
END
    rm -rf $out/cmake/built
    cmake -S $out/cmake -B $out/cmake/built -DCMAKE_PREFIX_PATH="$prefix" -DCMAKE_C_COMPILER="$X86CC" >$out/cmake.log 2>&1
}
cmake_with "${version%.*}" && cmake --build $out/cmake/built >>$out/cmake.log 2>&1 && example CMake $out/cmake/built/use || bad "CMake: $(tail -n 1 $out/cmake.log)"
cmake_with $((${version%%.*} + 1)) && bad "CMake finds another major version"

# A crate that adds the bindings as they are packaged: they find the library by pkg-config, and say so where there is none.
if [ -z "$X86RUN" ]; then
    need cargo cargo rustc || exit 1
    what='the crate hookbarley'
    crate() { (unset HOOKBARLEY_LIB && cd $out/use && CARGO_TARGET_DIR=$OLDPWD/$out/use/target cargo "$@") >$out/cargo.log 2>&1; }
    mkdir -p $out/use
    cargo package --offline --allow-dirty --no-verify --manifest-path bindings/rust/Cargo.toml --target-dir $out/crate >$out/cargo.log 2>&1 &&
        tar -xzf "$out/crate/package/hookbarley-$version.crate" -C $out/use || bad "$what: $(tail -n 1 $out/cargo.log)"
    crate init --offline --vcs none --name viewer && crate add --offline --path "hookbarley-$version" || bad "cargo add: $(tail -n 1 $out/cargo.log)"
    cat >$out/use/src/main.rs <<'END'
use hookbarley::{show, webp_find, Frame, Memory};

fn main() {
    let file = std::fs::read(std::env::args().nth(1).unwrap()).unwrap();
    let mut frame = Frame::take(&file[webp_find(&file).unwrap()]).unwrap();
    let mut memory = Memory::new(frame.tile.width, frame.tile.height, 0);
    println!("{:?} {}", show(&mut frame, &mut memory), memory.y.iter().map(|&y| y as usize).sum::<usize>());
}
END
    crate build --offline || bad "$what does not build: $(tail -n 1 $out/cargo.log)"
    sum=$(tail -c +16 $out/a.pgm | od -An -v -tu1 | awk '{ for (i = 1; i <= NF; i++) sum += $i } END { print sum }')
    [ "$($out/use/target/debug/viewer bench/tile-q90.webp)" = "Whole(256) $sum" ] || bad "$what: another picture"
    PKG_CONFIG_PATH=$PWD/$out crate build --offline && bad "$what builds without the library"
    grep -q 'no libhookbarley.a: pkg-config: ' $out/cargo.log || bad "$what does not say what is missing"
fi

# The manual page and the completion know every command and option that --help lists, and no other.
manual=$prefix/share/man/man1/hookbarley.1
[ -z "$(groff -man -Tutf8 -ww -z $manual 2>&1)" ] || bad "the manual page: $(groff -man -Tutf8 -ww -z $manual 2>&1 | head -n 1)"
grep -qF "hookbarley $version" $manual || bad "the manual page has another version"
listed() { grep -oE -- '--?[a-z]+' | LC_ALL=C sort -u | tr '\n' ' '; } # the options in a text, in one order
hb 0 --help
options=$(sed -n '/^  --unfiltered/,/^  -j N/p' $out/said | grep -oE -- '^  --?[a-z]+(, --[a-z]+)?' | listed)
in_manual=$(sed -n '/^\.SH OPTIONS/,/^\.SH "LONG/p' $manual | grep -A1 '^\.TP' | grep -E '^\.(B|BR|BI) ' | sed 's/\\-/-/g' | listed)
[ -n "$options" ] && [ "$options" = "$in_manual" ] || bad "the manual page has the options $in_manual, --help $options"
for word in decode info fits wrap recode explain page survey; do
    said "hookbarley $word" && grep -q "^\.B $word\$" $manual || bad "the manual page does not tell of $word"
done
completed() { # completed WORDS..: what bash offers for the last of them
    bash -c '. "$0"; COMP_WORDS=("$@"); COMP_CWORD=$(($# - 1)); _hookbarley; printf "%s " "${COMPREPLY[@]}"' $prefix/share/bash-completion/completions/hookbarley "$@"
}
[ "$(completed hookbarley '')" = 'decode info fits wrap recode explain page survey --help --version ' ] || bad "completion: other commands"
[ "$(completed hookbarley decode --to p)" = 'pgm ppm ' ] || bad "completion: other forms"
[ "$(completed hookbarley survey bench/tile-q5)" = 'bench/tile-q50.case bench/tile-q50.webp ' ] || bad "completion: no files"
known=
for word in decode info fits wrap recode explain page survey; do
    for option in $(completed hookbarley $word -); do # each that is offered is taken
        known="$known $option"
        $X86RUN target/cli/hookbarley $word "$option" 2>&1 | grep -q "$word takes no $option\|what is" && bad "completion: $word takes no $option"
    done
done
[ "$options" = "$(printf '%s' "$known" | listed)" ] || bad "completion: other options than --help's $options"

# One version everywhere.
grep -q "^version = \"$version\"$" bindings/rust/Cargo.toml || bad "bindings/rust has another version than $version"
grep -q "^## $version" CHANGELOG.md || bad "CHANGELOG.md has no version $version"
