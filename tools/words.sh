# shellcheck shell=bash
# What scripts do with their words, in bench/ and .ci/: the comment at the head of each is its help.

# Prints the comment at the head of the script.
print_comment() {
    awk 'NR > 1 { if (!/^#/) exit; sub(/^# ?/, ""); print }' "$0"
}

# Answers a word that asks for help, and ends. Else it takes at most so many words, each a number that isn't below the least.
take_numbers() {
    local least=$1 most=$2 word
    shift 2
    for word; do
        case $word in --help | -h) print_comment && exit 0 ;; esac
    done
    for word; do
        if ! [[ $word =~ ^(0|[1-9][0-9]{0,17})$ ]] || [ "$word" -lt "$least" ]; then most=-1; fi
    done
    if [ $# -gt "$most" ]; then
        { echo "${0##*/}: it takes other words" && print_comment | sed -n '/^Usage/,$p'; } >&2
        exit 2
    fi
}
