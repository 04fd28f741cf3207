# bash completion of hookbarley; tests/cli/run.sh compares its options with those that --help lists.
_hookbarley() {
    local word=${COMP_WORDS[COMP_CWORD]} before=${COMP_WORDS[COMP_CWORD - 1]} options=
    if [ "$COMP_CWORD" -eq 1 ]; then
        # shellcheck disable=SC2207
        COMPREPLY=($(compgen -W 'decode info fits wrap recode explain page survey --help --version' -- "$word"))
        return
    fi
    case $before in
    --to) options='yuv pgm ppm' ;;
    --tint) options='segments modes marks' ;;
    -j) options='1 2 4 8' ;;
    esac
    case $options$word in
    -*)
        case ${COMP_WORDS[1]} in
        decode) options='--unfiltered --simple --normal --to --rescue --tint -j' ;;
        explain | page) options='--simple --normal --rescue' ;;
        info | fits) options='--json' ;;
        survey) options='--json --html --add -j' ;;
        esac
        ;;
    esac
    if [ -n "$options" ]; then
        # shellcheck disable=SC2207
        COMPREPLY=($(compgen -W "$options" -- "$word"))
    else
        compopt -o filenames 2>/dev/null
        mapfile -t COMPREPLY < <(compgen -f -- "$word")
    fi
}
complete -F _hookbarley hookbarley
