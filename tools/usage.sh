# Sourced by a script before it does anything: the usage is what its heading says from `# usage: ` on. `--help` writes
# it, with status 0, and words that are none of the forms get it on standard error, with status 2.

# Else a relative `cd` of a script may lead elsewhere, and prints where.
unset CDPATH

# usage: the lines of the heading
usage() {
    sed -n '/^# usage: /,/^[^#]/s/^# //p' "$0"
}

# wrong_words: ends the script
wrong_words() {
    usage >&2
    exit 2
}

# takes LEAST MOST WORDS..: ends the script if it was given fewer or more words than that, or an option
takes() {
    case ${3:-} in
    --help)
        usage
        exit
        ;;
    -*) wrong_words ;;
    esac
    if [ $# -lt $(($1 + 2)) ] || [ $# -gt $(($2 + 2)) ]; then
        wrong_words
    fi
}

# takes_numbers WORDS..: ends the script if these are more than two words, or others than numbers
takes_numbers() {
    takes 0 2 "$@"
    for word; do
        case $word in
        '' | *[!0-9]*) wrong_words ;;
        esac
    done
}
