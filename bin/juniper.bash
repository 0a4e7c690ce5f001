# shellcheck shell=bash
# Completes the words of bin/juniper in bash: put the line `. CLONE/bin/juniper.bash` into ~/.bashrc. The commands and
# the options are the rows of bin/words.txt.

_juniper_table=$(readlink -f -- "${BASH_SOURCE[0]%/*}/words.txt")

# Prints the parts of this number, from 1, in the rows that begin with the first two parts given.
_juniper_parts() {
    awk -F '|' -v kind="$1" -v command="$2" -v at="$3" '
        $1 == kind && (command == "" || $2 == command) { print (kind == "option" ? "--" : "") $at }' "$_juniper_table"
}

# Prints the options of a command that don't stand among the words behind it.
_juniper_options_left() {
    local option
    for option in $(_juniper_parts option "$1" 3); do
        case " ${*:2} " in *" $option "*) ;; *) echo "$option" ;; esac
    done
    echo --help
}

# Prints names of images and folders that begin with the word given.
_juniper_images() {
    local file
    while read -r file; do
        if [ -d "$file" ]; then echo "$file/"; elif [[ $file == *.[0-7] ]]; then echo "${file%.?}"; fi
    done < <(compgen -f -- "$1") | sort -u
}

_juniper() {
    local word=${COMP_WORDS[COMP_CWORD]} found=
    case "$COMP_CWORD ${COMP_WORDS[1]} ${COMP_WORDS[COMP_CWORD - 1]}" in
        1\ *) found="$(_juniper_parts command '' 2) help --help --version" ;;
        '2 help '*) found=$(_juniper_parts command '' 2) ;;
        *' run --in' | *' run --out' | *' node --in' | *' node --out') mapfile -t COMPREPLY < <(_juniper_images "$word") && return ;;
        *' run --servers') found=$(awk -F '|' '$3 == "servers" { for (i = $5; i <= $6; i++) print i }' "$_juniper_table") ;;
        *' run --pool' | *' run --heads' | *' run --data') ;;
        *' run '*) found=$(_juniper_options_left run "${COMP_WORDS[@]:2:COMP_CWORD-2}") ;;
        2\ node\ *) found="$(echo {0..7}) $(_juniper_options_left node)" ;;
        *' node '*) found=$(_juniper_options_left node "${COMP_WORDS[@]:2:COMP_CWORD-2}") ;;
        '2 trial '*) found=--help ;;
    esac
    mapfile -t COMPREPLY < <(compgen -W "$found" -- "$word")
}

complete -o nospace -F _juniper_spaced juniper bin/juniper ./bin/juniper

# A space follows each word but a folder.
_juniper_spaced() {
    _juniper
    local at
    for at in "${!COMPREPLY[@]}"; do
        [[ ${COMPREPLY[at]} == */ ]] || COMPREPLY[at]+=' '
    done
}
