#!/usr/bin/env bash
# The program and its installation, from outside: tests/cli/run.sh [ARCHIVE]. Runs each command with good, cut, refused and wrong
# arguments and looks at exit status, what is said and what is written; installs into a folder and uses what is there (installed.sh). The
# gate runs it.
set -u
cd "$(dirname "$0")/../.." || exit 1
ARCHIVE=${1:-${ARCHIVE:-}}
. tools/outside-env.sh
export ARCHIVE # tools/install.sh installs this one, and builds none
need pkg-config pkgconf || exit 1
need python3 python3 || exit 1
out=target/cli-test
rm -rf $out target/cli
mkdir -p $out
trap 'find $out -type l -delete' EXIT # rt takes no link below the repository's top
program target/cli/hookbarley -Werror || exit 1
kept=tests/second/kept
tried=0
failed=0
bad() { echo "cli: FAILED: $1"; failed=1; }
hb() { # hb STATUS ARGUMENTS..: runs the program; what it says goes to $out/said and $out/err
    local want=$1 got
    shift
    $X86RUN target/cli/hookbarley "$@" >$out/said 2>$out/err
    got=$?
    tried=$((tried + 1))
    what="hookbarley $*"
    [ $got -eq "$want" ] || bad "$what: status $got and not $want: $(head -n 1 $out/err)"
}
said() { grep -qF -- "$1" $out/said || bad "$what: does not say '$1'"; }
warned() { grep -qF -- "$1" $out/err || bad "$what: does not say '$1' on standard error"; }
quiet() { [ ! -s $out/err ] || bad "$what: says on standard error: $(head -n 1 $out/err)"; }
md5() { [ "$(md5sum <$out/"$1" | cut -d' ' -f1)" = "$2" ] || bad "$what: $1 is not the picture that it should be"; }
same() { cmp -s "$1" "$2" || bad "$what: $1 and $2 differ"; }
none() { [ ! -e $out/"$1" ] || bad "$what: $1 was written"; }
common() { # common A B RUNS: which macroblocks of 256 by 256 samples both have
    [ "$(tests/cli/blocks.py $out/"$1" $out/"$2" 256 256)" = "$3" ] || bad "$what: $1 and $2 have not macroblocks $3 in common"
}

# Usage: status 2.
hb 0 --help && said 'hookbarley decode' && said 'hookbarley info' && said 'hookbarley fits' && said 'hookbarley wrap' && said 'hookbarley recode' && said '--rescue' && said 'Exit status' && quiet
said 'hookbarley survey' && said '--html OUT' && said 'hookbarley page'
hb 0 --version && said "hookbarley $(sed -n 's/^#define HOOKBARLEY_VERSION "\(.*\)"$/\1/p' include/hookbarley.h)"
hb 0 decode --help && said 'hookbarley decode' && quiet
hb 2 && warned 'no command'
hb 2 paint && warned 'what is paint'
hb 2 decode bench/tile-q90.webp && warned 'an IN and an OUT'
hb 2 decode --fast bench/tile-q90.webp $out/a.ppm && warned 'what is --fast'
hb 2 decode bench/tile-q90.webp $out/a.png && warned '.yuv, .pgm or .ppm'
hb 2 decode $out/absent.webp $out/a.ppm && warned 'No such file'
hb 2 decode bench/tile-q90.webp $out/absent/a.ppm && warned 'No such file'
hb 2 decode bench/tile-q90.webp /dev/full --to yuv && warned 'No space'
hb 2 info && warned 'info takes an IN'
hb 2 fits && warned 'fits takes an IN'
hb 2 wrap bench/tile-q90.webp && warned 'wrap takes'
hb 2 recode bench/tile-q90.webp && warned 'recode takes'
none a.ppm

# The three forms. The md5 of the .yuv is of what ffmpeg 5.1.9 gave, that of the .ppm of `dwebp -nofancy -ppm` (1.2.4).
hb 0 decode bench/tile-q90.webp $out/a.yuv && md5 a.yuv 3b66ffdc9cc18e21bfe8f556a77df122 && said '256 x 256, whole, normal filter' && quiet
hb 0 decode --unfiltered bench/tile-q90.webp $out/u.yuv && md5 u.yuv 58ff2dd3bdddfede31b9249dae58c48b && said unfiltered
# A level of 0 beside levels of segments: nothing is filtered, by the call itself, by a kind that is asked for, or after a rescue.
for option in '' --unfiltered --normal --rescue; do
    # shellcheck disable=SC2086
    hb 0 decode $option $kept/level-0-segments.webp $out/z.yuv && md5 z.yuv 13c7a639dfc99418fd96dcf9f1c6d954 && said unfiltered
done
hb 0 decode bench/tile-q90.webp $out/a.ppm && md5 a.ppm 545488b137f7e681cbccbcff6c38a6c5
hb 0 decode bench/tile-q90.webp $out/a.pgm
{ printf 'P5\n256 256\n255\n' && head -c 65536 $out/a.yuv; } >$out/luma.pgm
same $out/a.pgm $out/luma.pgm
hb 0 decode --normal bench/tile-q90.webp $out/n.yuv && same $out/n.yuv $out/a.yuv
hb 0 decode --simple bench/tile-q90.webp $out/s.yuv && said 'simple filter'
cmp -s $out/s.yuv $out/a.yuv && bad "$what: the same as the normal filter"
[ "$(tail -c 32768 $out/s.yuv | md5sum)" = "$(tail -c 32768 $out/u.yuv | md5sum)" ] || bad "$what: the simple filter moved U or V"
hb 0 decode --simple $kept/fine.webp $out/l.yuv && said unfiltered && md5 l.yuv "$(awk '$1 == "fine.webp" {print $3}' $kept/expected.txt)"
hb 0 decode $kept/two-partitions.ivf $out/i.yuv && md5 i.yuv "$(awk '$1 == "two-partitions.ivf" {print $4}' $kept/expected.txt)"
[ "$(wc -l <$out/said)" -eq 2 ] || bad "$what: not two pictures"

# A bare frame, and the file written around it.
tail -c +21 bench/tile-q90.webp >$out/tile.vp8
hb 0 decode $out/tile.vp8 $out/b.yuv && same $out/b.yuv $out/a.yuv
hb 0 wrap $out/tile.vp8 $out/w.webp && same $out/w.webp bench/tile-q90.webp && said 'w.webp: 29196 bytes'
hb 2 wrap $kept/two-partitions.ivf $out/two.webp && warned 'one frame' && none two.webp
hb 1 wrap cli/main.c $out/no.webp && warned 'refused: 12' && none no.webp
hb 1 wrap tests/outside/webp/lossless.webp $out/no.webp && warned 'refused: 19' && none no.webp

# Recoded: a file of the same kind with one token partition a frame, the same pictures; again it is the same file. What is cut is not written.
one_partition() { # one_partition IN OUT FRAMES
    hb 0 recode "$1" "$2" && said "$2: $(wc -c <"$2") bytes, " && quiet
    hb 0 recode "$2" $out/again && same $out/again "$2"
    hb 0 decode "$1" $out/before.yuv
    hb 0 decode "$2" $out/after.yuv && same $out/before.yuv $out/after.yuv
    hb 0 info "$2" && [ "$(grep -c ' 1 of tokens:' $out/said)" -eq "$3" ] || bad "$what: not $3 frames of one partition"
}
one_partition bench/tile-q90.webp $out/one.webp 1
one_partition $kept/two-partitions.ivf $out/one.ivf 2
one_partition $out/tile.vp8 $out/one.vp8 1
head -c 15000 $out/tile.vp8 >$out/cut.vp8
hb 1 recode $out/cut.vp8 $out/no.vp8 && warned 'cut: 7, ' && none no.vp8
hb 1 recode cli/main.c $out/no.vp8 && warned 'refused: 12' && none no.vp8
hb 1 recode tests/outside/webp/lossless.webp $out/no.webp && warned 'refused: 19' && none no.webp
hb 2 recode $out/absent.webp $out/no.webp && warned 'No such file'

# Cut: still written, the finished rows as in the whole picture and grey below, and said so.
stop='7, a token partition ran out in macroblock 123 (column 11, row 7), 123 of 256 finished'
hb 1 decode --unfiltered $out/cut.vp8 $out/c.yuv && said cut && warned "cut: $stop; the rest is grey"
cmp -s -n $((7 * 16 * 256)) $out/c.yuv $out/u.yuv || bad "$what: the finished rows differ"
[ "$(head -c 65536 $out/c.yuv | tail -c $((8 * 16 * 256)) | tr -d '\200' | wc -c)" -eq 0 ] || bad "$what: the rest is not grey"
[ "$(wc -c <$out/c.yuv)" -eq 98304 ] || bad "$what: not a whole picture"
{ printf '\020\175\000' && tail -c +4 $out/tile.vp8; } >$out/modes.vp8 # a first partition of 1000 bytes
hb 1 decode $out/modes.vp8 $out/m.pgm && warned 'cut: 6, the first partition, which holds the modes, ran out in macroblock'
hb 1 info $out/cut.vp8 && said "$stop" && said 'small 123' && said 'of at most 14756 from the first partition' && said 'of at most 904704 of tokens'

# Refused: the number in words, and nothing is written.
refused() { # refused NUMBER FILE [OPTION]
    # shellcheck disable=SC2086
    hb 1 decode ${3:-} "$2" $out/r.yuv && warned "refused: $1, " && none r.yuv
}
: >$out/empty
{ printf '\021' && tail -c +2 $out/tile.vp8; } >$out/inter.vp8
{ printf '\160\000\000' && tail -c +4 $out/tile.vp8; } >$out/short.vp8 # a first partition of 3 bytes
head -c 1000 $out/tile.vp8 >$out/first.vp8
{ printf 'RIFF\004\000\000\000WEBX'; } >$out/marks.webp
head -c 20000 bench/tile-q90.webp >$out/size.webp
refused 12 $out/empty
refused 12 cli/main.c
refused 12 $out/inter.vp8
refused 13 $out/first.vp8
refused 14 $out/short.vp8
refused 17 $out/marks.webp
refused 18 $out/size.webp
refused 19 tests/outside/webp/lossless.webp
refused 19 tests/outside/webp/extended.webp
head -c 32 $kept/two-partitions.ivf >$out/none.ivf
hb 1 decode $out/none.ivf $out/r.yuv && warned 'refused: the IVF file' && none r.yuv
head -c $(($(wc -c <$kept/two-partitions.ivf) - 100)) $kept/two-partitions.ivf >$out/short.ivf
hb 1 decode $out/short.ivf $out/short.yuv && warned 'short.ivf: frame 1: cut: 7' && said whole && said cut

# Rescued: soft where it was grey. The md5s are of the samples that tests/model/picture.py paints for the same bytes.
hb 0 decode --rescue bench/tile-q90.webp $out/ra.yuv && same $out/ra.yuv $out/a.yuv && said '256 x 256, whole, normal filter' && quiet
said '  whole 256, soft 0, grey 0'
hb 1 decode --rescue --unfiltered $out/cut.vp8 $out/rc.yuv && md5 rc.yuv cff371a12909d230918f40d31c273ee5 && common rc.yuv c.yuv 0-122
said '256 x 256, rescued, unfiltered' && said '  whole 123, soft 133, grey 0' && warned "rescued: $stop; the rest is soft"
hb 1 decode --rescue $out/modes.vp8 $out/rm.pgm && same $out/rm.pgm $out/m.pgm && said '256 x 256, cut, normal filter'
said '  whole 120, soft 0, grey 136' && warned 'cut: 6, ' && warned '120 of 256 finished; the rest is grey'
{ head -c 1010 $out/modes.vp8 && tail -c +1783 $out/tile.vp8 | head -c 10000; } >$out/both.vp8 # both partitions are cut
hb 1 decode --rescue --unfiltered $out/both.vp8 $out/rb.yuv && md5 rb.yuv 8b4e1049f5834c2a43a87b940b6df5a0 && common rb.yuv u.yuv 0-93
said '  whole 94, soft 26, grey 136' && warned 'rescued: 7, ' && warned '94 of 256 finished; then 26 soft, 136 grey'
hb 1 decode --unfiltered $out/both.vp8 $out/grey.yuv && common rb.yuv grey.yuv '0-93 120-255'
hb 1 decode --rescue $out/short.ivf $out/rs.yuv && warned 'short.ivf: frame 1: rescued: 7' && said whole && said rescued

# Cut on disk: a WebP file whose sizes agree but lie past its end is refused, and rescued as far as its bytes go.
head -c 15020 bench/tile-q90.webp >$out/disk.webp
refused 18 $out/disk.webp
hb 1 decode --rescue --unfiltered $out/disk.webp $out/rd.yuv && same $out/rd.yuv $out/rc.yuv && warned "rescued: $stop; the rest is soft"
head -c -1 tests/outside/webp/odd.webp >$out/pad.webp # its pad byte is missing
refused 18 $out/pad.webp
hb 0 decode tests/outside/webp/odd.webp $out/odd.yuv
hb 0 decode --rescue $out/pad.webp $out/pad.yuv && same $out/pad.yuv $out/odd.yuv && said whole && quiet
for length in 12 19; do
    head -c $length bench/tile-q90.webp >$out/head.webp
    refused 18 $out/head.webp --rescue
done
head -c 20 bench/tile-q90.webp >$out/head.webp
refused 12 $out/head.webp --rescue
head -c 1000 bench/tile-q90.webp >$out/head.webp
refused 13 $out/head.webp --rescue
{ cat bench/tile-q90.webp && printf '\000'; } >$out/more.webp
refused 18 $out/more.webp --rescue
{ printf 'RIFF\377\377\000\000' && tail -c +9 bench/tile-q90.webp; } >$out/odds.webp # the two sizes are at odds
refused 18 $out/odds.webp --rescue
head -c 100 tests/outside/webp/extended.webp >$out/extended.webp
refused 18 $out/extended.webp
refused 19 $out/extended.webp --rescue

# Many: a folder, a summary by number.
hb 0 decode $kept/*.webp $out/all && said '9 files, 9 pictures' && said '9  whole: 0, every macroblock is finished' && quiet
[ "$(find $out/all -name '*.ppm' | wc -l)" -eq 9 ] || bad "$what: not nine pictures"
hb 1 decode --to yuv bench/tile-q90.webp $out/cut.vp8 $out/inter.vp8 $kept/two-partitions.ivf $out/some
said '4 files, 4 pictures' && said '3  whole: 0' && said '1  cut: 7' && said '1  refused: 12' && same $out/some/tile-q90.yuv $out/a.yuv
hb 1 decode --rescue --unfiltered --to yuv bench/tile-q90.webp $out/cut.vp8 $out/disk.webp $out/modes.vp8 $out/first.vp8 $out/rescued
said '5 files, 4 pictures' && said '1  whole: 0' && said '2  rescued: 7, ' && said '1  cut: 6' && said '1  refused: 13'
grep -q soft $out/said && bad "$what: counts among many files"
same $out/rescued/cut.yuv $out/rc.yuv && same $out/rescued/disk.yuv $out/rc.yuv && warned 'disk.webp: rescued: 7'
hb 2 decode $out/cut.vp8 bench/tile-q90.webp $out/absent $out/some && said '3 files, 2 pictures'
hb 2 decode bench/tile-q90.webp $out/../../bench/tile-q90.webp $out/twice && warned 'would both be written'
hb 2 decode bench/tile-q90.webp $out/absent/a.webp $out/some && said '2 files, 1 picture' && said '1  could not be read' && warned 'absent/a.webp: No such'
mkdir -p $out/shut/tile-q90.ppm
hb 2 decode bench/tile-q90.webp bench/tile-q75.webp $out/shut && said '1  could not be written' && warned 'tile-q90.ppm: '
hb 0 info bench/tile-q90.webp $kept/eight-partitions.ivf && said '256 x 256, coded as 256 x 256, macroblocks 16 x 16'
said '24 x 145, coded as 32 x 160' && said '8 of tokens:' && said '2 files, 3 pictures' && said '0, every macroblock is finished (256)'

# A folder as IN: every file in it, each in its place; the same files and words with any number of processes; no bar where no terminal is.
tree=$out/tree
mkdir -p $tree/a/b
cp bench/tile-q90.webp $tree && cp $out/cut.vp8 $tree/a && cp $kept/two-partitions.ivf $out/inter.vp8 $tree/a/b
hb 1 decode --to yuv $tree $out/tree-1 && mv $out/said $out/tree.txt && mv $out/err $out/tree.err
[ "$(cd $out/tree-1 && find . -type f | LC_ALL=C sort | tr '\n' ' ')" = './a/b/two-partitions.yuv ./a/cut.yuv ./tile-q90.yuv ' ] || bad "$what: other files"
same $out/tree-1/tile-q90.yuv $out/a.yuv && same $out/tree-1/a/b/two-partitions.yuv $out/i.yuv
cp $out/tree.txt $out/said && said '4 files, 4 pictures' && said '3  whole: 0' && said '1  cut: 7' && said '1  refused: 12'
for jobs in 2 3 7; do
    hb 1 decode --to yuv -j $jobs $tree/ $out/tree-$jobs && same $out/said $out/tree.txt
    sed "s|$tree//|$tree/|" $out/err >$out/err-1 && same $out/err-1 $out/tree.err
    diff -r $out/tree-1 $out/tree-$jobs >/dev/null || bad "$what: other files than with one process"
done
hb 0 decode -j 2 $kept/*.webp $out/all-2 && quiet && diff -r $out/all $out/all-2 >/dev/null || bad "$what: other files than with one process"
hb 1 info $tree && said '4 files, 4 pictures' && said 'a/cut.vp8: VP8 frame'
hb 1 fits $tree && said 'tree/tile-q90.webp: ' && warned 'inter.vp8: refused: 12'
hb 2 decode $tree - && warned 'one file alone is decoded to standard output'
hb 2 decode -j 0 $tree $out/tree-0 && warned '1 to 256' && none tree-0
hb 2 decode $out/absent/ $out/tree-0 --to yuv && warned 'No such file' && none tree-0
cp $tree/tile-q90.webp $tree/tile-q90.vp8
hb 2 decode $tree $out/clash && warned 'would both be written' && none clash
rm $tree/tile-q90.vp8
# shellcheck disable=SC2086
for jobs in 1 2; do tests/cli/survey.py --bar $X86RUN target/cli/hookbarley decode -j $jobs $kept/*.webp $out/bar >$out/bar.log 2>&1 || bad "decode -j $jobs: $(tail -n 1 $out/bar.log)"; done

# Stopped by a signal: what is done is whole, nothing else is there, and the program ends by that signal.
mkdir $out/much
for i in $(seq 120); do ln -s ../../../bench/tile-q75.webp $out/much/$i.webp; done
hb 0 decode $out/much $out/much-whole && said '120 files, 120 pictures'
stopped() { # stopped SIGNAL JOBS FILES
    rm -rf $out/stopped
    what="decode -j $2 and $1 after $3 files"
    tried=$((tried + 1))
    # shellcheck disable=SC2086
    tests/cli/stopped.py "$1" $out/stopped $out/much-whole "$3" $X86RUN target/cli/hookbarley decode -j "$2" $out/much $out/stopped >$out/said 2>$out/err ||
        bad "$what: $(tail -n 1 $out/err)"
    read -r files rest <$out/said
    [ "${files:-0}" -ge "$3" ] && [ "$files" -lt 120 ] && said "$files $files file" || bad "$what: says '$rest' of $files files"
}
stopped SIGINT 1 1
stopped SIGTERM 1 30
stopped SIGINT 2 1
stopped SIGHUP 3 20

# Standard input and output: the same bytes, and what is said goes elsewhere.
piped() { # piped STATUS IN ARGUMENTS..: standard input is IN, standard output $out/said
    local in=$2 want=$1
    shift 2
    hb "$want" "$@" <"$in"
}
piped 0 bench/tile-q90.webp decode - - --to yuv && same $out/said $out/a.yuv && warned '-: 256 x 256, whole, normal filter'
piped 0 bench/tile-q90.webp decode - - && same $out/said $out/a.ppm
piped 0 bench/tile-q90.webp decode - $out/in.yuv && same $out/in.yuv $out/a.yuv && quiet
mkdir $out/in
piped 0 bench/tile-q90.webp decode - $out/in && same $out/in/stdin.ppm $out/a.ppm
piped 1 $out/cut.vp8 decode --unfiltered --to yuv - - && same $out/said $out/c.yuv && warned "-: cut: $stop"
piped 1 $out/inter.vp8 decode - - && warned '-: refused: 12' && [ ! -s $out/said ] || bad "$what: writes something"
piped 0 $out/tile.vp8 wrap - - && same $out/said bench/tile-q90.webp && warned '-: 29196 bytes'
piped 0 bench/tile-q90.webp recode - - && same $out/said $out/one.webp && warned '-: '
piped 0 bench/tile-q90.webp info - && said '-: WebP file, 29196 bytes' && quiet
piped 1 bench/tile-q90.webp fits - && said '-: rule 3 fails'
piped 0 bench/tile-q50.webp explain - 15 20 && said 'luma at 15 20'
piped 0 bench/tile-q50.webp explain - - && head -n 1 $out/said | grep -q P6 && warned '-: 256 x 256, coloured' || bad "$what: no picture"
piped 0 bench/tile-q50.webp page - - && tail -n 1 $out/said | grep -q '</html>' && warned '-: 256 x 256, whole' || bad "$what: no page"
piped 0 bench/tile-q50.webp survey - && said '1 file: 1 picture, 1 of them whole'
piped 0 bench/tile-q50.webp survey -j 2 --json - && said '"files": 1,'
hb 2 survey --html - bench/tile-q50.webp && warned '--html takes a file'
$X86RUN target/cli/hookbarley info bench/tile-q50.webp >/dev/full 2>$out/err
[ $? -eq 2 ] || bad "info to a full device: another status than 2"
what='info to a full device' && warned 'standard output: No space'

# The cockpit profile: a line a frame, the rule in words; status 0 only where all fit.
tiles=tests/outside/profile
hb 0 fits $tiles/fits*.webp $tiles/fits*.vp8 && quiet
[ "$(grep -c ': fits$' $out/said)" -eq 5 ] && [ "$(wc -l <$out/said)" -eq 5 ] || bad "$what: not five lines that say so"
breaks() { # breaks FILE RULE WORDS
    hb 1 fits "$1" && said "$1: rule $2 fails: $3" && quiet
    [ "$(wc -l <$out/said)" -eq 1 ] || bad "$what: not one line"
}
breaks $tiles/wide-segments.webp 1 'coded as 272 x 256 and not 256 x 256'
breaks $tiles/eight-sharp.vp8 2 '8 token partitions and not 1, 2 or 4'
breaks $tiles/segments-sharp.webp 3 'segments are on'
breaks $tiles/sharp.webp 4 'sharpness is 3 and not 0'
head -c 2000 $tiles/fits-two.vp8 >$out/fits-cut.vp8
breaks $out/fits-cut.vp8 5 'a partition runs out before every macroblock is finished'
breaks $tiles/skipped.vp8 6 'macroblock 131 (column 3, row 8) is both skipped and small'
hb 1 fits $tiles/fits.webp $out/inter.vp8 $tiles/sharp.webp $kept/two-partitions.ivf && said 'fits.webp: fits' && said 'sharp.webp: rule 4 fails'
said 'two-partitions.ivf: frame 0: rule 1 fails' && said 'two-partitions.ivf: frame 1: rule 1 fails' && warned 'inter.vp8: refused: 12, '
[ "$(wc -l <$out/said)" -eq 4 ] || bad "$what: not four lines"
hb 1 fits tests/outside/webp/lossless.webp && warned 'refused: 19' && [ ! -s $out/said ] || bad "$what: says something of it"
hb 1 fits $out/none.ivf && warned 'refused: the IVF file'
hb 2 fits $tiles/fits.webp $out/absent.webp && said 'fits.webp: fits' && warned 'No such file'

# Explained: in words and in colours.
hb 0 explain bench/tile-q50.webp 15 20 && said 'luma at 15 20: 138 before the loop filter' && said 'U at 7 10' && said 'V at 7 10' && quiet
hb 0 explain bench/tile-q50.webp $out/e.svg && grep -q '</svg>' $out/e.svg || bad "$what: no picture"
hb 0 explain bench/tile-q50.webp $out/e.ppm && [ "$(wc -c <$out/e.ppm)" -eq 196623 ] || bad "$what: no picture"
hb 0 explain $kept/fine.webp 1 1 && said 'nothing is filtered'
hb 1 explain $out/cut.vp8 1 1 && said 'luma at 1 1' && warned 'cut: 7'
hb 1 explain tests/outside/webp/lossless.webp 1 1 && warned 'refused: 19'
hb 2 explain bench/tile-q50.webp 256 0 && warned 'no such pixel'
hb 2 explain bench/tile-q50.webp -- -1 0 && warned 'X and Y'
hb 2 explain bench/tile-q50.webp $out/e.png && warned '.ppm or .svg' && none e.png
hb 1 explain --rescue $out/cut.vp8 200 200 && said 'luma at 200 200' && warned 'rescued: 7'

# The page of pixels (tests/page opens it in a browser): one file that is whole, names nothing outside of itself and has the sentences.
page_of() { # page_of STATUS WORDS [OPTION] IN
    local status=$1 words=$2
    shift 2
    rm -f $out/p.html
    hb "$status" page "$@" $out/p.html && said "$words"
    { tail -n 1 $out/p.html | grep -q '</html>' && grep -q '^"edge":"  %d. %s edge of' $out/p.html; } || bad "$what: no whole page"
    grep -qE 'https?:|src=|href=' $out/p.html && bad "$what: the page names something outside of itself"
    [ "$(wc -c <$out/p.html)" -lt 3000000 ] || bad "$what: a page of $(wc -c <$out/p.html) bytes"
}
page_of 0 '256 x 256, whole' bench/tile-q50.webp && quiet
page_of 0 '256 x 256, whole' --simple bench/tile-q50.webp && quiet
page_of 0 whole $kept/fine.webp && quiet
page_of 0 whole $kept/one-sample.webp && quiet
page_of 0 whole $kept/two-partitions.ivf && quiet
page_of 1 '256 x 256, cut' $out/cut.vp8 && warned 'cut: 7'
page_of 1 '256 x 256, rescued' --rescue $out/cut.vp8 && warned 'rescued: 7'
page_of 1 '256 x 256, rescued' --rescue $out/disk.webp && warned 'rescued: 7'
cp $out/tile.vp8 "$out/<b>&\"é.vp8" # a name that HTML must escape
page_of 0 whole "$out/<b>&\"é.vp8" && grep -qF '<h1>&lt;b&gt;&amp;"é.vp8</h1>' $out/p.html || bad "$what: its name is not escaped"
rm -f $out/p.html
hb 1 page tests/outside/webp/lossless.webp $out/p.html && warned 'refused: 19' && none p.html
hb 1 page $out/disk.webp $out/p.html && warned 'refused: 18' && none p.html
hb 1 page $out/none.ivf $out/p.html && warned 'refused: the IVF file' && none p.html
{ head -c 6 $out/tile.vp8 && printf '\001\004\000\004' && tail -c +11 $out/tile.vp8; } >$out/wide.vp8 # 1025 by 1024 samples
hb 2 page $out/wide.vp8 $out/p.html && warned '4160 macroblocks, and page takes at most 4096' && none p.html
hb 2 page bench/tile-q50.webp && warned 'page takes an IN and an OUT.html'
hb 2 page bench/tile-q50.webp $out/p.svg && warned 'OUT ends in .html' && none p.svg
hb 2 page $out/absent.webp $out/p.html && warned 'No such file' && none p.html
hb 2 page bench/tile-q50.webp $out/absent/p.html && warned 'No such file'

# Tinted: each macroblock's colour over the luma that decode shows otherwise. How many have each is what info counts in mode memory.
rescue=
tinted() { # [rescue=--rescue] tinted STATUS KIND FILE [--runs] COLOUR=COUNT..
    local status=$1 kind=$2 file=$3 filter
    shift 3
    # shellcheck disable=SC2086
    for filter in --normal --unfiltered; do
        hb "$status" decode $filter $rescue "$file" $out/t.pgm
        hb "$status" decode $filter $rescue --tint "$kind" "$file" $out/t.ppm
        tests/cli/tint.py $out/t.ppm $out/t.pgm "$@" >$out/tint.log 2>&1 || bad "$what: $(tail -n 1 $out/tint.log)"
    done
}
hb 0 info bench/tile-q50.webp && said 'by segment  16, 99, 71, 70;' && said 'DC 26, TM 0, V 0, H 0, small 230'
tinted 0 segments bench/tile-q50.webp blue=16 orange=99 green=71 purple=70 && quiet
said '  segment 0 blue 16, segment 1 orange 99, segment 2 green 71, segment 3 purple 70'
tinted 0 modes bench/tile-q50.webp blue=26 orange=230 && said '  large blue 26, small orange 230'
hb 0 decode --to ppm --unfiltered --tint modes bench/tile-q50.webp $out/t.yuv && same $out/t.yuv $out/t.ppm
hb 0 info $kept/normal-segments.webp && said '143 x 79' && said 'by segment  2, 11, 27, 5;'
tinted 0 segments $kept/normal-segments.webp blue=2 orange=11 green=27 purple=5
tail -c +21 bench/tile-q50.webp | head -c 6000 >$out/tint-cut.vp8
hb 1 info $out/tint-cut.vp8 && said 'by segment  7, 48, 32, 33;' && said 'DC 16, TM 0, V 0, H 0, small 104'
tinted 1 segments $out/tint-cut.vp8 blue=7 orange=48 green=32 purple=33 grey=136
said '  segment 0 blue 7, segment 1 orange 48, segment 2 green 32, segment 3 purple 33, unfinished grey 136'
tinted 1 modes $out/tint-cut.vp8 blue=16 orange=104 grey=136 && warned 'cut: 7'
said '  large blue 16, small orange 104, unfinished grey 136'
hb 1 decode --unfiltered --tint modes bench/tile-q90.webp $out/tint-cut.vp8 $out/tints && said '2 files, 2 pictures'
same $out/tints/tint-cut.ppm $out/t.ppm
grep -q orange $out/said && bad "$what: a legend among many files"
rescue=--rescue tinted 0 marks bench/tile-q90.webp blue=256 && said '  whole blue 256, soft orange 0' && quiet
rescue=--rescue tinted 1 marks $out/both.vp8 --runs blue=94 orange=26 grey=136
said '  whole blue 94, soft orange 26, unfinished grey 136'
rescue=--rescue tinted 1 marks $out/modes.vp8 --runs blue=120 grey=136 && warned 'cut: 6'
rescue=--rescue tinted 1 segments $out/tint-cut.vp8 blue=16 orange=99 green=71 purple=70 # its modes are all there, as in the whole tile
said '  whole 120, soft 136, grey 0'
hb 2 info --tint modes bench/tile-q50.webp && warned 'info takes no --tint'
hb 2 decode --tint paint bench/tile-q50.webp $out/wrong.ppm && warned '--tint takes segments, modes or marks, not paint'
hb 2 decode bench/tile-q50.webp $out/wrong.ppm --tint && warned '--tint takes segments, modes or marks;'
hb 2 decode --tint marks $out/cut.vp8 $out/wrong.ppm && warned '--tint marks goes with --rescue'
hb 2 decode --tint marks --rescue $out/cut.vp8 $out/wrong.yuv && warned '--tint makes a .ppm and no other form'
for wrong in $out/wrong.yuv $out/wrong.pgm "--to yuv $out/wrong.ppm" "--to pgm bench/tile-q90.webp $out/wrong.ppm"; do
    # shellcheck disable=SC2086
    hb 2 decode --tint modes bench/tile-q50.webp $wrong && warned '--tint makes a .ppm and no other form'
done
none wrong.yuv && none wrong.pgm && none wrong.ppm

# info and fits as JSON: valid, and the same as in words, of whole, cut and refused files, names of any bytes and files that are not there.
cp $out/tile.vp8 "$(printf '%s/\\"\n\377\303\251.vp8' $tree)"
for command in info fits; do
    hb 1 $command $tree $out/none.ivf $out/short.ivf $out/modes.vp8 $kept $tiles tests/outside/webp && mv $out/said $out/words.txt && mv $out/err $out/words.err
    hb 1 $command --json $tree $out/none.ivf $out/short.ivf $out/modes.vp8 $kept $tiles tests/outside/webp && same $out/err $out/words.err
    python3 -m json.tool $out/said >/dev/null 2>&1 || bad "$what: not JSON"
    said '\u005c\u0022\u000a�é.vp8"'
    rm -f $tree/*é.vp8
    hb 1 $command $tree $out/none.ivf $out/short.ivf $out/modes.vp8 $kept $tiles tests/outside/webp && mv $out/said $out/words.txt
    hb 1 $command --json $tree $out/none.ivf $out/short.ivf $out/modes.vp8 $kept $tiles tests/outside/webp
    tests/cli/told.py $command $out/said $out/words.txt >$out/told.log 2>&1 || bad "$what: $(tail -n 1 $out/told.log)"
    hb 2 $command --json $out/absent bench/tile-q50.webp && said '"error": "No such file or directory"' && said '"unread": 1' && warned 'No such file'
    python3 -m json.tool $out/said >/dev/null 2>&1 || bad "$what: not JSON"
    cp $out/tile.vp8 "$(printf '%s/\\"\n\377\303\251.vp8' $tree)"
done

# Surveyed: three forms of one record, whatever the number of processes; parts joined; files that are no frames apart.
delivery=$out/delivery
mkdir -p $delivery/b/c
cp $kept/*.webp $kept/two-partitions.ivf $delivery/b
cp bench/tile-q50.webp $delivery/b/c
cp $out/cut.vp8 $out/modes.vp8 $out/short.ivf $delivery
cp $out/empty $out/inter.vp8 $out/short.vp8 $out/first.vp8 $out/marks.webp $out/size.webp $out/none.ivf $delivery
cp tests/outside/webp/lossless.webp $delivery
cp $out/tile.vp8 "$delivery/<b>&\"é.vp8" # a name that HTML must escape
ln -s b $delivery/again && ln -s cut.vp8 $delivery/link.vp8 && mkfifo $delivery/pipe
surveyed() { tests/cli/survey.py "$@" >$out/survey.log 2>&1 || bad "$what: $(tail -n 1 $out/survey.log)"; }
hb 1 survey $delivery && mv $out/said $out/survey.txt && mv $out/err $out/survey.err
hb 1 survey --json --html $out/survey.html $delivery && mv $out/said $out/survey.json && same $out/err $out/survey.err
surveyed $out/survey.json $out/survey.txt $out/survey.html
cp $out/survey.json $out/said
said '"files": 24,' && said '"unread": 0,' && said '"lost": 0,' && said '"answers": [14, 0, 0, 0, 0, 0, 1, 3],'
said '"apart": {"12": 2, "13": 1, "14": 1, "15": 0, "17": 1, "18": 1, "19": 1, "ivf": 1},'
grep -q '<li>.*/cut.vp8: cut: 7, a token' $out/survey.html || bad "$what: the page does not name what was cut"
cp $out/survey.err $out/err
warned '/cut.vp8: cut: 7, ' && warned '/short.ivf: frame 1: cut: 7, ' && warned '/inter.vp8: refused: 12, '
warned 'none.ivf: refused: the IVF file'
sed 's/: .*//' $out/err | LC_ALL=C sort -c 2>/dev/null || bad "$what: not in the order of the names"
for jobs in 1 2 3 7; do # the same with any number of processes
    hb 1 survey -j $jobs --json --html $out/j.html $delivery
    same $out/said $out/survey.json && same $out/err $out/survey.err && same $out/j.html $out/survey.html
done
hb 0 survey --json $delivery/b && mv $out/said $out/part-1.json
# shellcheck disable=SC2046
hb 1 survey -j2 --json $(find $delivery -maxdepth 1 -type f ! -name '<*') $delivery/link.vp8 && mv $out/said $out/part-2.json
hb 0 survey --json "$delivery/<b>&\"é.vp8" && mv $out/said $out/part-3.json
hb 1 survey --add --json $out/part-*.json && same $out/said $out/survey.json && quiet
cat $out/part-*.json >$out/parts.json # records one after the other
hb 1 survey --add --html $out/j.html $out/parts.json && same $out/said $out/survey.txt && surveyed $out/survey.json $out/j.html
hb 0 survey --add $out/part-1.json && said '11 files: 12 pictures, 12 of them whole'
hb 0 survey bench/tile-q50.webp && said '  segment 1             99   38.7 %  #########' && quiet
said '  small (B_PRED)       230   89.8 %  ####################'
# shellcheck disable=SC2086
surveyed --bar $X86RUN target/cli/hookbarley survey -j 2 $delivery/b

# A folder of more names than are kept at a time: each once, in order.
mkdir $out/flat
for i in $(seq 2100); do : >$out/flat/$((i * 7919 % 100000)); done
hb 1 survey -j 2 --html $out/flat.html $out/flat && said '2100 files: 0 pictures, 0 of them whole; 2100 apart'
sed 's/: .*//' $out/err | LC_ALL=C sort -c -u 2>/dev/null && [ "$(wc -l <$out/err)" -eq 2100 ] || bad "$what: not all names in order"
[ "$(grep -c '<li>' $out/flat.html)" -eq 200 ] && grep -q 'and 1900 more' $out/flat.html || bad "$what: the page names too many or too few"

# A survey that cannot be whole: status 2, and what can be counted is.
hb 2 survey --json $out/absent bench/tile-q50.webp && warned 'absent: No such file' && said '"unread": 1,' && said '"answers": [1, 0,'
mkdir $out/broken && ln -s nowhere $out/broken/link
hb 2 survey --json -j 2 $out/broken && warned 'broken/link: No such file' && said '"files": 1,' && said '"unread": 1,'
hb 2 survey && warned 'survey takes'
hb 2 survey --add && warned 'takes records'
hb 2 survey --rescue bench/tile-q50.webp && warned 'survey takes no --rescue'
hb 2 decode --json bench/tile-q50.webp $out/a.yuv && warned 'decode takes no --json'
for jobs in 0 257 -1 x ''; do hb 2 survey -j "$jobs" bench/tile-q50.webp && warned '1 to 256'; done
hb 2 survey --html $out/absent/a.html bench/tile-q50.webp && warned 'No such file'
[ ! -s $out/said ] || bad "$what: surveys before it finds that it cannot write"
hb 2 survey --html /dev/full bench/tile-q50.webp && warned 'No space' && said '1 file: 1 picture, 1 of them whole'
hb 2 survey --json --html $out $delivery/b && warned 'irectory'
ls $out/*.part >/dev/null 2>&1 && bad "$what: a part of a page is left"
# Records: those that are none, at odds, or would pass the limit, which the library judges.
odd() { # odd NAME SED: the record changed so
    sed "$2" $out/part-1.json >$out/odd.json
    hb 2 survey --add --json $out/part-2.json $out/odd.json && warned "odd.json: $1"
    [ ! -s $out/said ] || bad "$what ($2): is joined"
}
odd 'not a record' 's/"files"/"flies"/'
odd 'not a record' 's/"lost": 0/"lost": -1/'
odd 'not a record' 's/"hookbarley_survey": 1/"hookbarley_survey": 2/'
odd 'not a record' 's/"lost": 0,/"lost": 0, "lost": 0,/'
odd 'not a record' 's/"symbols": \[/"symbols": [1, /'
odd 'not a record' 's/"files": .*,/"files": 18446744073709551616,/'
odd 'not a record' '$d'
odd 'its tables are at odds' 's/"skip": \[/"skip": [1/'
: >$out/odd.json
hb 2 survey --add $out/odd.json && warned 'no record in it'
hb 2 survey --add $out/absent && warned 'No such file'
most=9223372036854775807
sed "s/\"symbols\": .*/\"symbols\": [$most, 0]/" $out/part-1.json >$out/full.json
hb 0 survey --add --json $out/full.json && said "[$most, 0]"
hb 1 survey --add --json $out/full.json $out/part-1.json && warned 'part-1.json: refused: 15, a count would pass'
[ ! -s $out/said ] || bad "$what: is joined"

# A process that ends is said, its file is lost and nothing else; Ctrl-C while a file is waited for.
need pgrep procps || exit 1
killed() { # killed ARGUMENTS..: two processes, of which the first waits for the pipe and is killed
    local running watch
    $X86RUN target/cli/hookbarley "$@" >$out/said 2>$out/err &
    running=$!
    what="hookbarley $* with a process that is killed"
    for _ in $(seq 100); do [ "$(pgrep -c -P $running)" -eq 2 ] && break; sleep 0.1; done
    sleep 0.5
    kill -9 "$(pgrep -P $running | head -n 1)"
    { sleep 20; kill -9 $running 2>/dev/null; } & # where it waits for ever
    watch=$!
    wait $running
    [ $? -eq 2 ] || bad "$what: another status than 2"
    kill $watch 2>/dev/null
    tried=$((tried + 1))
    warned 'pipe: lost: its process ended with signal 9'
}
killed survey -j 2 --json $delivery/pipe bench/tile-q??.webp && said '"files": 4,' && said '"lost": 1,' && said '"answers": [3, 0,'
killed decode -j 2 $delivery/pipe bench/tile-q??.webp $out/lost && said '4 files, 3 pictures' && said '1  lost: their process ended'
same $out/lost/tile-q90.ppm $out/a.ppm && none lost/pipe.ppm
what='hookbarley decode of one file and Ctrl-C'
timeout -s INT 2 $X86RUN target/cli/hookbarley decode $delivery/pipe $out/never.yuv >$out/said 2>$out/err
[ $? -eq 124 ] && [ ! -s $out/said ] || bad "$what: ended by itself"
warned 'stopped by signal 2; nothing is written' && none never.yuv
what='hookbarley survey and Ctrl-C'
for jobs in 1 2; do # the second file never comes: what is done is told of, as far as it goes
    timeout -s INT 2 $X86RUN target/cli/hookbarley survey -j $jobs --json --html $out/ended.html bench/tile-q50.webp $delivery/pipe bench/tile-q75.webp >$out/said 2>$out/err
    [ $? -eq 124 ] || bad "$what: ended by itself"
    warned 'stopped by signal 2 after 1 file, the last bench/tile-q50.webp' && said '"files": 1,' && said '"lost": 0,'
    python3 -m json.tool $out/said >/dev/null 2>&1 || bad "$what: not JSON"
    grep -q '<strong>Not of all files: stopped by signal 2 after 1 file' $out/ended.html || bad "$what: the page does not say that it is not of all"
    [ -z "$(find $out -maxdepth 1 -name '*.part')" ] || bad "$what: a part of a page is left"
done

. tests/cli/installed.sh
[ $tried -ge 235 ] || bad "only $tried runs of the program"
[ $failed -eq 0 ] && echo "cli: passed, $tried runs of the program"
exit $failed
