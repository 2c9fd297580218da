# Completion of dezghuri for bash.

_dezghuri() {
    local word=${COMP_WORDS[COMP_CWORD]} before=${COMP_WORDS[COMP_CWORD - 1]} options=
    local commands='plan check show loss diff moves certify what-if stage undo apply history report record'
    COMPREPLY=()
    if [ "$COMP_CWORD" -eq 1 ]; then
        mapfile -t COMPREPLY < <(compgen -W "$commands help --version" -- "$word")
        return
    fi
    case $before in
        --allowance | --box | --done | --add | --remove | --resize | --ceiling) return ;;
    esac
    # After the file come the words of a change, and no more files.
    if [ "${COMP_WORDS[1]}" = stage ] && [ "$COMP_CWORD" -ge 3 ] && [ "${word:0:1}" != - ]; then
        [ "$COMP_CWORD" -ne 3 ] || mapfile -t COMPREPLY < <(compgen -W 'add remove resize show' -- "$word")
        return
    fi
    if [ "${COMP_WORDS[1]}" = help ]; then
        mapfile -t COMPREPLY < <(compgen -W "$commands" -- "$word")
        return
    fi
    case ${COMP_WORDS[1]} in
        plan) options='--staged --former --out --allowance --replace --damaged-anyway --record --json --help' ;;
        check | loss | diff) options='--staged --json --help' ;;
        show) options='--box --all --staged --json --help' ;;
        moves) options='--by-box --done --staged --json --help' ;;
        certify) options='--former --out --staged --json --help' ;;
        what-if) options='--former --add --remove --resize --ceiling --json --help' ;;
        stage) options='--ceiling --json --help' ;;
        undo | apply | history) options='--json --help' ;;
        report) options='--staged --former --out --help' ;;
        record) options='--former --out --help' ;;
    esac
    case $word in
        -*) mapfile -t COMPREPLY < <(compgen -W "$options" -- "$word") ;;
        *) mapfile -t COMPREPLY < <(compgen -f -- "$word"); compopt -o filenames 2>/dev/null ;;
    esac
}

complete -F _dezghuri dezghuri
