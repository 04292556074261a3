# Completion of the words of edfvd for bash: the commands, and then files where a word names one. A number is not completed.
# shellcheck shell=bash

_edfvd() {
    local word=${COMP_WORDS[COMP_CWORD]} files=0
    COMPREPLY=()
    if [ "$COMP_CWORD" -eq 1 ]; then
        mapfile -t COMPREPLY < <(compgen -W 'check run judge chart report soak migrate live demand partition runall stretch accept
            --help --version' -- "$word")
        return
    fi
    # How many of the words after the command are files.
    case ${COMP_WORDS[1]} in
    check | live | demand | partition | stretch) files=1 ;;
    run | judge | chart | report | migrate | runall) files=2 ;;
    esac
    if [ "$COMP_CWORD" -le $((files + 1)) ]; then
        compopt -o filenames 2>/dev/null
        mapfile -t COMPREPLY < <(compgen -f -- "$word")
    fi
}
complete -F _edfvd edfvd
