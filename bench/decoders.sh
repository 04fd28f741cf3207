# The decoders that bench/run.sh counts and bench/time.sh times; sourced behind tools/outside-env.sh. Builds them into target/bench and sets
#   OTHERS   those beside ours: webp and webp-sse (libwebp 1.2.4 without SIMD and with its SSE4.1 code); on x86-64 also ffmpeg and libvpx, Debian's
#            packages with their own assembly
#   given PROGRAM Q [deblock]: the file of the tile of quality Q that a program is given
. bench/libwebp.sh
libwebp webp "$X86CC" ''
libwebp webp-sse "$X86CC" '#define WEBP_HAVE_SSE2 1\n#define WEBP_HAVE_SSE41 1\n' -msse4.1
$X86CC -O2 -Wall -Iinclude -o target/bench/hookbarley examples/c/bench.c "$ARCHIVE"
$X86CC -O2 -Wall -Iinclude -o target/bench/show bench/show.c "$ARCHIVE"
OTHERS="webp webp-sse"
if [ "$(uname -m)" = x86_64 ]; then
    [ -f /usr/include/vpx/vp8dx.h ] && [ -n "$(ls /usr/include/*/libavcodec/avcodec.h 2>/dev/null)" ] ||
        packages libavcodec-dev libavutil-dev libvpx-dev >target/bench/decoders.log 2>&1 || { cat target/bench/decoders.log >&2; exit 1; }
    gcc -O2 -Wall -o target/bench/ffmpeg bench/ffmpeg.c -lavcodec -lavutil
    gcc -O2 -Wall -o target/bench/libvpx bench/libvpx.c -lvpx
    OTHERS="$OTHERS ffmpeg libvpx"
    # libvpx has no switch for its loop filter: the same frames with a filter level of 0
    for q in 50 75 90; do python3 tests/second/level_zero.py bench/tile-q$q.webp target/bench/level-0-q$q.webp; done
fi

given() {
    case $1${3:+ filtered} in
    hookbarley*) echo bench/tile-q"$2".case ;;
    libvpx) echo target/bench/level-0-q"$2".webp ;;
    *) echo bench/tile-q"$2".webp ;;
    esac
}
