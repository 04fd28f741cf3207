# libwebp 1.2.4 from Debian's source, its decoder alone; sourced with the repository's root as the working directory. Sets
#   libwebp NAME COMPILER CONFIG [FLAG]: bench/webp.c over it as target/bench/NAME, where it is not there. CONFIG is the config.h that chooses
#   its SIMD code: an empty one chooses none.
webp_source() {
    local out=target/bench webp=libwebp-1.2.4 tar=libwebp_1.2.4.orig.tar.gz lists
    [ -d $out/$webp ] && return
    mkdir -p $out
    # the machine's own package sources, asked for the source
    lists=$PWD/$out/apt
    mkdir -p "$lists/lists/partial" "$lists/cache/archives/partial" "$lists/parts"
    cat /etc/apt/sources.list.d/*.sources 2>/dev/null | sed 's/^Types:.*/Types: deb-src/' >"$lists/parts/src.sources" || true
    cat /etc/apt/sources.list 2>/dev/null | sed -n 's/^deb /deb-src /p' >"$lists/parts/src.list" || true
    sources() { apt-get -q -o Dir::Etc::SourceList=/dev/null -o Dir::Etc::SourceParts="$lists/parts" -o Dir::State::Lists="$lists/lists" -o Dir::Cache="$lists/cache" "$@"; }
    [ -f $out/$tar ] || { sources update && (cd $out && sources source --download-only libwebp); } >$out/apt.log 2>&1 || { cat $out/apt.log >&2; exit 1; }
    echo "7bf5a8a28cc69bcfa8cb214f2c3095703c6b73ac5fba4d5480c205331d9494df  $out/$tar" | sha256sum -c --quiet
    tar -xzf $out/$tar -C $out
    rm -f $out/$webp/src/webp/config.h
}

libwebp() {
    local out=target/bench webp=libwebp-1.2.4 o=target/bench/o-$1 f
    [ -x $out/"$1" ] && return
    webp_source
    rm -rf "$o"
    mkdir -p "$o/src/webp"
    printf "$3" >"$o/src/webp/config.h"
    for f in $out/$webp/src/{dec,utils}/*.c $out/$webp/src/dsp/{alpha_processing,cpu,dec,dec_clip_tables,filters,lossless,rescaler,upsampling,yuv}*.c; do
        case $f in *_neon.c | *_mips*.c | *_msa.c) continue ;; esac
        $2 -O3 -DHAVE_CONFIG_H ${4:+"$4"} -I"$o" -I$out/$webp -c -o "$o/$(basename "$f" .c).o" "$f"
    done
    $2 -O2 -I$out/$webp -Ibench -o $out/"$1" bench/webp.c "$o"/*.o -lm -lpthread
}
