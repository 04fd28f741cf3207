#!/usr/bin/env bash
# The tests from outside, through the archive: tests/outside/run.sh [ARCHIVE]. Builds the archive where it is not there
# (tools/archive.sh), installs what is missing (Debian packages, as root), runs on x86-64 and, by emulation, on Arm:
# the parts below, which README.md describes.
# Settings: N (damaged inputs, 20000), SEED (of these; else drawn from the clock and printed).
set -u
cd "$(dirname "$0")/../.." || exit 1
ARCHIVE=${1:-${ARCHIVE:-}}
N=${N:-20000}
SEED=${SEED:-$(date +%s)}
out=target/outside
cases=crates/replay/data
mkdir -p $out
. tools/outside-env.sh
export PYTHONDONTWRITEBYTECODE=1
failed=0
say() { printf '%-10s %s\n' "$1" "$2"; }
bad() { say "$1" "FAILED: $2"; failed=1; }
least() { # least PART WHAT COUNT LEAST: a part that tried fewer than it should has not passed
    [ "${3:-0}" -ge "$4" ] || bad "$1" "only ${3:-0} $2, at least $4 are to be tried"
}
counted() { # counted LOG PATTERN: the first number in the first line of LOG that matches
    sed -n "s/$2.*/\\1/p" "$1" | head -n 1
}
compile() { $X86CC -std=gnu11 -O2 -Wall -Wextra -Werror -Iinclude "$@"; }
build() { # build NAME SOURCES..
    local name=$1
    shift
    compile -o "$out/$name" "$@" "$ARCHIVE"
}
run_test() { # run_test PART SOURCE ARGUMENTS..: builds the part's program and runs it; its output stands in PART.log
    local part=$1 source=$2
    shift 2
    : >"$out/$part.log"
    if build "$part" "$source" && $X86RUN "$out/$part" "$@" >"$out/$part.log" 2>&1; then
        sed 's/^/           /' "$out/$part.log"
        say "$part" "$(tail -n 1 "$out/$part.log")"
    else
        tail -n 5 "$out/$part.log"
        bad "$part" "N $N, seed $SEED"
    fi
}
plainly() { $X86RUN "$@"; }
# faults PART TEST MUTANTS NUMBERS RUN..: the program TEST with each fault of MUTANTS before the archive's calls, given to the command RUN; it
# must end with status 1 and say where it failed, and without a fault (0) with status 0.
faults() {
    local part=$1 test=$2 mutants=$3 numbers=$4 name=faults-$1 fault log status found=0 all=0 wraps
    shift 4
    wraps=$(sed -n 's/^uint32_t __wrap_\(hookbarley_[a-z_]*\)(.*;$/-Wl,--wrap=\1/p' "$mutants")
    compile -c -o "$out/$name.o" "$test" || { bad "$part" "$test does not build"; return; }
    for fault in 0 $numbers; do
        log=$out/$name-$fault.log
        # shellcheck disable=SC2086
        build "$name" -DFAULT="$fault" $wraps "$out/$name.o" "$mutants" || { bad "$part" "fault $fault does not build"; continue; }
        "$1" "$out/$name" "${@:2}" >"$log" 2>&1
        status=$?
        if [ "$fault" -eq 0 ]; then
            [ $status -eq 0 ] || bad "$part" "the calls without a fault fail"
            continue
        fi
        all=$((all + 1))
        if [ $status -eq 1 ] && grep -q '^FAILED at' "$log"; then
            found=$((found + 1))
        else
            bad "$part" "fault $fault was not found (status $status)"
        fi
    done
    least "$part" "faults" $all 1
    say "$part" "$found of $all faults found"
}
upto() { seq -s ' ' 1 "$1"; }
need python3 python3 || exit 1
echo "archive $ARCHIVE, seed $SEED, $(uname -m)"
mutants=tests/outside/mutants.c
small="tests/outside/webp/even.webp tests/outside/webp/odd.webp"
webps=$(echo tests/outside/webp/*.webp)

# The calls are one set: in the archive, the header, the crates, what is proved, and Rust.
part_calls() {
    local nm=${X86CC%gcc}nm line
    need "$nm" binutils || { bad calls "no $nm"; return; }
    if line=$(tools/calls.py "$ARCHIVE" "$nm"); then say calls "$line"; else bad calls "$line"; fi
}

# held PART SET OPTION EXPECTED LEFT-OUT..: every case of the set but those left out gives its line of EXPECTED; adds to `tried`.
held() {
    local part=$1 set=$2 option=$3 expected=$4 i=-1 want line file
    shift 4
    while read -r want; do
        i=$((i + 1))
        case " $* " in *" $set/$i "*) continue ;; esac
        [ "$set/$i" = named/13 ] && want="1 0 0 0 0" # the case program refuses its side before
        file=$(printf '%s/%s/%04d.case' $cases "$set" $i)
        # shellcheck disable=SC2086
        line=$($X86RUN $out/decode_case $option "$file")
        # of a malformed file what is expected deblocked has no sums
        [ "$line" = "$want" ] || [ "$line" = "$want 0 0 0" ] || bad "$part" "$file gives $line, should be $want"
        tried=$((tried + 1))
    done <"$cases/$set/$expected"
}

# The C example: the worked tile, every case that is not beyond the case program's limits (64 KiB, a side of 64), the bench tiles; then
# deblocked, both kinds, every set: sums and hashes.
part_example() {
    local line set kind name want tried=0 beyond="named/14 named/15 named/35"
    build decode_case examples/c/decode_case.c || { bad example "does not build"; return; }
    line=$($X86RUN $out/decode_case $cases/named/0000.case $out/worked)
    [ "$line" = "0 1 32960 8192 8192" ] || bad example "the worked tile gives: $line"
    [ "$(head -c 9 $out/worked-y.pgm | tr '\n' ' ')" = "P5 16 16 " ] || bad example "no PGM picture"
    for set in named real; do held example $set '' expected-m102.txt $beyond; done
    while read -r name want; do
        line=$($X86RUN $out/decode_case bench/"$name".case)
        [ "$line" = "$want" ] || bad example "$name gives $line, should be $want"
        tried=$((tried + 1))
    done <<END
tile-q50 0 256 7864495 1869616 2222832
tile-q75 0 256 7862718 1870044 2222860
tile-q90 0 256 7861994 1870584 2223410
END
    least example "case files" $tried 87
    [ $failed -eq 0 ] && say example "$tried case files as expected, the worked tile: 0 1 32960 8192 8192"
    tried=0
    for set in named real fuzz; do
        for kind in d: s:-simple; do held deblocked $set "-${kind%:*}" "expected-deblocked${kind#*:}-m102.txt" named/13 $beyond; done
    done
    least deblocked "case files" $tried 294
    [ $failed -eq 0 ] && say deblocked "$tried case files as expected, both kinds"
}

# The symbols read: every case file and six copies of each with a partition cut, against tests/model/counts.py, which reads them in its own
# way; that against what is expected; and faults that this must find.
recount() { # recount PROGRAM: its lines over the copies, the first that differs told
    local i=0 want line
    while read -r want; do
        line=$($X86RUN "$1" -c "$(printf '%s/%04d.case' $out/counts $i)")
        [ "$line" = "$want" ] || { echo "FAILED at copy $i: gives $line, should be $want"; return 1; }
        i=$((i + 1))
    done <$out/counts.txt
    echo $i
}
part_counts() {
    local model=tests/model/counts.py set beyond told
    rm -rf $out/counts
    mkdir $out/counts
    python3 $model $out/counts "$SEED" 6 $cases/*/*.case >$out/counts.txt || { bad counts "$model"; return; }
    for set in named real fuzz; do
        beyond= # the case program's limits
        [ $set = named ] && beyond='14,16d;36d'
        python3 $model $cases/$set/*.case | sed "$beyond" | diff - <(sed "$beyond" $cases/$set/expected-counts-m102.txt) >$out/counts.diff ||
            bad counts "$model and what is expected of $set: $(sed -n 2p $out/counts.diff)"
    done
    if build counts-case examples/c/decode_case.c && told=$(recount $out/counts-case); then
        least counts "case files" "$told" 900
        say counts "$told case files read as many symbols as $model counts"
        faults counts examples/c/decode_case.c $mutants '17 21 22' recount
    else
        bad counts "seed $SEED: $told"
    fi
}

# The call as the README shows it compiles.
part_readme() {
    {
        echo '#include "hookbarley.h"'
        echo 'uint8_t *room_of(size_t);'
        echo 'void draw(uint32_t, const struct hookbarley_tile *, const struct hookbarley_memory *);'
        echo 'void shown(const uint8_t *frame, size_t length);'
        echo 'void shown(const uint8_t *frame, size_t length) {'
        awk '/^```c$/ {on = 1; next} /^```$/ {if (on) exit} on' README.md
        echo '}'
    } >$out/readme.c
    grep -q hookbarley_show $out/readme.c || bad readme "it shows no call"
    compile -c -o $out/readme.o $out/readme.c || bad readme "its call does not compile"
}

# Damaged inputs between guard pages.
part_damaged() {
    run_test damaged tests/outside/damaged.c $cases/real "$N" "$SEED"
    least damaged "tiles" "$(counted $out/damaged.log '^whole: \([0-9]*\) tiles')" 40
    least damaged "cuts" "$(counted $out/damaged.log '^cut: \([0-9]*\) cuts')" 23706
    least damaged "pairs" "$(counted $out/damaged.log '^apart: \([0-9]*\) pairs')" 720
    least damaged "random inputs" "$(counted $out/damaged.log '^random: \([0-9]*\) inputs')" "$N"
}

# The faults that the test must find, on four small tiles of several partitions.
few() { # few FOLDER: these tiles, and what is expected of them
    local i=0 t what
    rm -rf "$1"
    mkdir "$1"
    for t in 3 10 15 26; do
        cp "$(printf '%s/real/%04d.case' $cases $t)" "$(printf '%s/%04d.case' "$1" $i)"
        for what in memory counts; do sed -n "$((t + 1))p" $cases/real/expected-$what-m102.txt >>"$1"/expected-$what-m102.txt; done
        i=$((i + 1))
    done
}
part_faults() {
    few $out/few
    faults faults tests/outside/damaged.c $mutants "$(upto 20) 23 24 25" plainly $out/few 300 1
}

# The rescue call between guard pages, beside the picture call; the faults that the test must find.
part_rescue() {
    run_test rescue tests/outside/rescue.c $cases/real "$N" "$SEED"
    least rescue "cuts" "$(counted $out/rescue.log '^cut: \([0-9]*\) cuts')" 2700
    least rescue "pairs" "$(counted $out/rescue.log '^apart: \([0-9]*\) pairs')" 300
    least rescue "random inputs" "$(counted $out/rescue.log '^random: \([0-9]*\) inputs')" "$N"
    least rescue "macroblocks from modes" "$(counted $out/rescue.log '^marked: [0-9]* whole, \([0-9]*\) from modes')" 15000
    few $out/few-rescue
    faults rescue tests/outside/rescue.c tests/outside/rescue_mutants.c "$(upto 17)" plainly $out/few-rescue 300 1
}

# What the rescue call leaves: of every case file as expected; of real ones, a token partition cut length after length, as
# tests/model/picture.py works it out; and faults that this must find. Tiles 31 and 37 are those where a rebuilt macroblock with small modes
# lies below one that left its ninth flag.
cut_tiles() { # lines of tile, partition, step
    local tile step partitions partition
    while read -r tile step partitions; do
        for partition in $partitions; do echo "$tile $partition $step"; done
    done <<END
3 1 0 1 2
7 61 0
10 1 0 1 7
15 1 0 1
24 1 0 1
25 1 0 1 2 3
26 1 0 1
31 1 0 1
33 29 0 1
34 1 0
36 1 0 1 2
37 1 0 1
39 5 0 1 2
END
}
cut_by() { # cut_by TILE PARTITION STEP COMMAND..: its lines of these cuts
    "${@:4}" --cuts "$2" "$(printf '%s/real/%04d.case' $cases "$1")" "$3"
}
recut() { # recut PROGRAM: its lines beside the model's, the first that differs told
    local tile partition step different
    while read -r tile partition step; do
        different=$(cut_by "$tile" "$partition" "$step" plainly "$1" | diff - $out/cuts/"$tile-$partition" | sed -n 2p)
        [ -z "$different" ] || { echo "FAILED at tile $tile, partition $partition: $different"; return 1; }
    done < <(cut_tiles)
    cat $out/cuts/* | wc -l
}
part_rescued() {
    local model=tests/model/picture.py tile partition step set different told tried=0
    rm -rf $out/cuts
    mkdir $out/cuts
    while read -r tile partition step; do
        cut_by "$tile" "$partition" "$step" python3 $model >$out/cuts/"$tile-$partition" || { bad rescued "$model"; return; }
    done < <(cut_tiles)
    build rescued tests/outside/rescue_lines.c || { bad rescued "does not build"; return; }
    for set in named real fuzz; do
        different=$(plainly $out/rescued $cases/$set/*.case | diff - $cases/$set/expected-rescue.txt | sed -n 2p)
        [ -z "$different" ] || bad rescued "$set: $different"
        tried=$((tried + $(wc -l <$cases/$set/expected-rescue.txt)))
    done
    least rescued "case files" $tried 151
    if told=$(recut $out/rescued); then
        least rescued "cuts" "$told" 1500
        say rescued "$tried case files as expected, $told cuts as $model has them"
        faults rescued tests/outside/rescue_lines.c tests/outside/rescue_mutants.c '4 7 18' recut
    else
        bad rescued "$told"
    fi
}

# The profile between guard pages, beside the picture call; the faults that the test must find.
# shellcheck disable=SC2086
part_profile() {
    local made=$out/made-tiles seed tiles different
    rm -rf $made
    for seed in 1 2 3 4; do
        mkdir -p $made/$seed
        python3 tests/model/made_tiles.py $made/$seed $seed >$made/$seed.txt || { bad profile "made_tiles.py"; return; }
    done
    tiles=$(echo $made/*/*.vp8 tests/outside/profile/*)
    run_test profile tests/outside/profile.c "$N" "$SEED" $tiles
    least profile "files" "$(counted $out/profile.log '^files: \([0-9]*\) files')" 269
    least profile "cuts" "$(counted $out/profile.log '^cut: \([0-9]*\) cuts')" 1000
    least profile "random inputs" "$(counted $out/profile.log '^random: \([0-9]*\) inputs')" "$N"
    faults profile tests/outside/profile.c tests/outside/profile_mutants.c "$(upto 20)" plainly 3000 1 $made/1/*.vp8
    build profile-lines tests/outside/profile_lines.c || { bad profile "profile_lines.c does not build"; return; }
    plainly $out/profile-lines $tiles >$out/profile-lines.txt
    different=$(python3 tests/model/profile.py $tiles | diff - $out/profile-lines.txt | sed -n 2p)
    [ -z "$different" ] || bad profile "the model says: $different"
    different=$(sort $made/*.txt | diff - <(grep ^$made $out/profile-lines.txt | sort) | sed -n 2p)
    [ -z "$different" ] || bad profile "not as made: $different"
    least profile "lines" "$(wc -l <$out/profile-lines.txt)" 269
    say profile "$(wc -l <$out/profile-lines.txt) tiles as tests/model/profile.py has them, $(cat $made/*.txt | wc -l) as they were made"
}

# The survey calls between guard pages, beside the picture call and a tally of the test's own; the faults that the test must find.
part_survey() {
    run_test survey tests/outside/survey.c $cases/real "$N" "$SEED"
    least survey "cuts" "$(counted $out/survey.log '^cut: \([0-9]*\) cuts')" 1700
    least survey "counts up to their limit" "$(counted $out/survey.log '^full: \([0-9]*\) counts')" 1480
    least survey "random inputs" "$(counted $out/survey.log '^random: \([0-9]*\) inputs')" "$N"
    least survey "pairs added" "$(counted $out/survey.log '^add: \([0-9]*\) pairs')" "$N"
    least survey "deliveries" "$(counted $out/survey.log '^fold: \([0-9]*\) deliveries')" 1
    few $out/few-survey
    faults survey tests/outside/survey.c tests/outside/survey_mutants.c "$(upto 25)" plainly $out/few-survey 300 1
}

# What the survey call counts: of every case file and of each folder folded as expected; of real tiles, a token partition cut length after
# length, as tests/model/survey.py tallies it; and faults that this must find.
recount_survey() { # recount_survey PROGRAM: its lines beside the expected ones and the model's, the first that differs told
    local set tile partition step different
    for set in named real fuzz; do
        different=$({ plainly "$1" $cases/$set/*.case && plainly "$1" --all $cases/$set/*.case; } |
            diff - <(cat $cases/$set/expected-survey.txt $cases/$set/expected-survey-all.txt) | sed -n 2p)
        [ -z "$different" ] || { echo "FAILED at $set: $different"; return 1; }
    done
    while read -r tile partition step; do
        different=$(cut_by "$tile" "$partition" "$step" plainly "$1" | diff - $out/surveys/"$tile-$partition" | sed -n 2p)
        [ -z "$different" ] || { echo "FAILED at tile $tile, partition $partition: $different"; return 1; }
    done < <(survey_tiles)
    cat $out/surveys/* | wc -l
}
survey_tiles() { cut_tiles | sed 's/ 1$/ 3/'; } # every third length
part_surveyed() {
    local model=tests/model/survey.py tile partition step set told tried
    rm -rf $out/surveys
    mkdir $out/surveys
    while read -r tile partition step; do
        cut_by "$tile" "$partition" "$step" python3 $model >$out/surveys/"$tile-$partition" || { bad surveyed "$model"; return; }
    done < <(survey_tiles)
    for set in named real fuzz; do
        { python3 $model $cases/$set/*.case && python3 $model --all $cases/$set/*.case; } |
            cmp -s - <(cat $cases/$set/expected-survey.txt $cases/$set/expected-survey-all.txt) || bad surveyed "$model and what is expected of $set"
    done
    tried=$(cat $cases/*/expected-survey.txt | wc -l)
    least surveyed "case files" "$tried" 151
    if build surveyed tests/outside/survey_lines.c && told=$(recount_survey $out/surveyed); then
        least surveyed "cuts" "$told" 500
        say surveyed "$tried case files and three folders as expected, $told cuts as $model has them"
        faults surveyed tests/outside/survey_lines.c tests/outside/survey_mutants.c '3 4 5 6 7 8 9 10' recount_survey
    else
        bad surveyed "$told"
    fi
}

# The recode call between guard pages, beside the picture call; the faults that the test must find.
part_recode() {
    run_test recode tests/outside/recode.c $cases/real "$N" "$SEED"
    least recode "rooms" "$(counted $out/recode.log '^rooms: \([0-9]*\) rooms')" 9000
    least recode "cuts" "$(counted $out/recode.log '^cut: \([0-9]*\) cuts')" 800
    least recode "random inputs" "$(counted $out/recode.log '^random: \([0-9]*\) inputs')" "$N"
    few $out/few-recode
    faults recode tests/outside/recode.c tests/outside/recode_mutants.c "$(upto 16)" plainly $out/few-recode 300 1
}

# What the recode call writes: of every case file as expected and as tests/model/recode.py works it out; of real ones coded afresh into 1 to
# 8 partitions the same bytes; and faults that this must find.
respread() { # respread PROGRAM: its lines beside the model's, the first that differs told
    local different
    different=$(plainly "$1" $out/spread/*.case 2>&1 | diff - $out/spread.txt | sed -n 2p)
    [ -z "$different" ] || { echo "FAILED at a copy: $different"; return 1; }
    wc -l <$out/spread.txt
}
part_recoded() {
    local model=tests/model/recode.py set different told tried=0
    rm -rf $out/spread
    mkdir $out/spread
    python3 $model --spread $out/spread $cases/real/*.case >$out/spread.txt || { bad recoded "$model"; return; }
    build recoded tests/outside/recode_lines.c || { bad recoded "does not build"; return; }
    for set in named real fuzz; do
        different=$(plainly $out/recoded $cases/$set/*.case | diff - $cases/$set/expected-recoded.txt | sed -n 2p)
        [ -z "$different" ] || bad recoded "$set: $different"
        different=$(python3 $model $cases/$set/*.case | diff - $cases/$set/expected-recoded.txt | sed -n 2p)
        [ -z "$different" ] || bad recoded "$model and what is expected of $set: $different"
        tried=$((tried + $(wc -l <$cases/$set/expected-recoded.txt)))
    done
    least recoded "case files" $tried 151
    if told=$(respread $out/recoded); then
        least recoded "copies" "$told" 320
        say recoded "$tried case files as expected, $told copies with 1 to 8 partitions as $model has them"
        faults recoded tests/outside/recode_lines.c tests/outside/recode_mutants.c '13 15' respread
    else
        bad recoded "$told"
    fi
}

# NULL with length 0 in every call, and faults that look behind it.
part_nothing() {
    local which
    run_test nothing tests/outside/nothing.c
    least nothing "calls" "$(counted $out/nothing.log '^ok: \([0-9]*\) calls')" 5932
    for which in '' explain_ frame_ profile_ recode_ recode_frame_ rescue_ show_ survey_ webp_; do faults nothing tests/outside/nothing.c tests/outside/${which}mutants.c 1 plainly; done
}

# The WebP calls between guard pages, on files of encoders and damaged ones; the faults that the test must find.
# shellcheck disable=SC2086
part_webp() {
    local name want
    run_test webp tests/outside/webp.c "$N" "$SEED" $webps bench/*.webp
    least webp "files" "$(grep -c '^file ' $out/webp.log)" 7
    least webp "random inputs" "$(counted $out/webp.log '^random: \([0-9]*\) inputs')" "$N"
    while read -r name want; do
        grep -q "^file tests/outside/webp/$name, .*: $want\$" $out/webp.log || bad webp "$name does not give $want"
    done <<END
even.webp 0 20 62
odd.webp 0 20 155
lossless.webp 19 0 0
extended.webp 19 0 0
END
    faults webp tests/outside/webp.c tests/outside/webp_mutants.c "$(upto 14)" plainly 2000 1 $webps
}

# Explanations between guard pages; the faults that the test must find; whole tiles replayed by what the program's `explain` uses: the last value
# told of every sample is deblocking's.
part_explain() {
    local line
    run_test explain tests/outside/explain.c "$N" "$SEED"
    least explain "edges" "$(counted $out/explain.log '^\([0-9]*\) edges told')" "$N"
    faults explain tests/outside/explain.c tests/outside/explain_mutants.c "$(upto 10)" plainly 2000 1
    if build explain-tiles tests/outside/explain_tiles.c cli/explain.c &&
        line=$($X86RUN $out/explain-tiles $cases/real/*.case bench/*.case 2>&1); then
        least explain "tiles" "${line%% *}" 43
        say explain "${line%%;*}"
    else
        bad explain "$line"
    fi
}

# The call on a key frame's header between guard pages, on frames of encoders and damaged ones; the faults that the test must find.
# shellcheck disable=SC2086
part_frame() {
    run_test frame tests/outside/frame.c "$N" "$SEED" $small bench/*.webp
    least frame "calls" "$(counted $out/frame.log '^ok: \([0-9]*\) calls')" 55000
    faults frame tests/outside/frame.c tests/outside/frame_mutants.c "$(upto 14)" plainly 2000 1 $small
}

# The call from a frame's bytes to the screen between guard pages, beside the three calls; the faults that the test must find.
# shellcheck disable=SC2086
part_show() {
    local kept
    kept=$(echo tests/second/kept/*.webp tests/second/kept/*.ivf)
    run_test show tests/outside/show.c "$N" "$SEED" $small bench/*.webp $kept
    least show "cuts" "$(counted $out/show.log '^cut: \([0-9]*\) cuts')" 1800
    least show "pairs" "$(counted $out/show.log '^apart: \([0-9]*\) pairs')" 160
    least show "random inputs" "$(counted $out/show.log '^random: \([0-9]*\) inputs')" "$N"
    least show "frames of level 0" "$(counted $out/show.log '^level 0: \([0-9]*\) frames')" 500
    faults show tests/outside/show.c tests/outside/show_mutants.c "$(upto 20)" plainly 200 1 tests/outside/webp/even.webp $kept
}

# The call that recodes a frame whole between guard pages, beside the header's and the picture call; the faults that the test must find.
# shellcheck disable=SC2086
part_recode_frame() {
    local kept
    kept=$(echo tests/second/kept/*.webp tests/second/kept/*.ivf)
    run_test recode_frame tests/outside/recode_frame.c $((N / 4)) "$SEED" $small bench/*.webp $kept
    least recode_frame "rooms" "$(counted $out/recode_frame.log '^rooms: \([0-9]*\) rooms')" 1900
    least recode_frame "cuts" "$(counted $out/recode_frame.log '^cut: \([0-9]*\) cuts')" 1800
    least recode_frame "random inputs" "$(counted $out/recode_frame.log '^random: \([0-9]*\) inputs')" $((N / 4))
    faults recode_frame tests/outside/recode_frame.c tests/outside/recode_frame_mutants.c "$(upto 18)" plainly 200 1 tests/outside/webp/even.webp $kept
}

# The Rust wrapper.
part_rust() {
    local passed
    if tests/outside/rust.sh "$ARCHIVE" >$out/rust.log 2>&1; then
        passed=$(grep '^test result' $out/rust.log | awk '{s += $4} END {print s + 0}')
        least rust "tests" "$passed" 34
        say rust "$passed tests passed"
    else
        tail -n 20 $out/rust.log
        bad rust "see $out/rust.log"
    fi
}

# The machine code of the transform's products.
part_products() {
    local line
    if line=$(tests/outside/products.sh "$ARCHIVE" 2>$out/products.log); then
        say products "$line"
    else
        tail -n 5 $out/products.log
        bad products "see $out/products.log"
    fi
}

# As many parts at a time as there are processors, the longest first; what they say is printed in the order above. A part that does not come to
# its end leaves no status, and has not passed.
parts="calls example counts readme damaged faults rescue rescued profile survey surveyed recode recoded nothing webp explain frame show recode_frame rust products"
for part in $parts; do rm -f $out/part-$part.txt $out/part-$part.status; done
running=0
for part in frame webp damaged show recode_frame faults recode rescue profile survey counts surveyed example explain rescued recoded rust nothing products readme calls; do
    if [ $running -ge "$(nproc)" ]; then
        wait -n
        running=$((running - 1))
    fi
    {
        part_$part
        echo $failed >$out/part-$part.status
    } >$out/part-$part.txt 2>&1 &
    running=$((running + 1))
done
wait
for part in $parts; do
    cat $out/part-$part.txt
    [ "$(cat $out/part-$part.status 2>/dev/null)" = 0 ] || bad $part "see above"
done
if [ $failed -eq 0 ]; then echo "outside: passed, seed $SEED"; else echo "outside: FAILED, seed $SEED"; fi
exit $failed
