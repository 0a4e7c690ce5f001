# shellcheck shell=bash disable=SC2034,SC2154
# What bin/juniper says of its words, from the rows of bin/words.txt. The caller has set `top`, the clone's folder.

# Prints the rows of a kind, whose parts have bars between them.
rows() {
    grep "^$1|" "$top/bin/words.txt"
}

# Prints what the row of this kind and this number says.
sentence() {
    rows "$1" | awk -F '|' -v number="$2" '$2 == number { print $3; exit }'
}

print_usage() {
    rows command | awk -F '|' -v only="${1-}" '
        only == "" || $2 == only { printf "%s juniper %s %s\n       %s\n", count++ ? "      " : "usage:", $2, $3, $4 }'
}

# Prints a line for each option, or place, of the command.
print_options() {
    awk -F '|' -v command="$1" '
        function range() {
            if ($4 == "NAME") return " (" $5 " to " $6 " bytes)"
            return $5 == "" ? "" : " (" $5 " to " $6 ($7 == "" ? "" : "; " $7 " if not given") ")"
        }
        $1 == "option" && $2 == command { printf "  %-16s %s%s\n", "--" $3 ($4 == "" ? "" : " " $4), $8, range() }
        $1 == "place" && $2 == command { printf "  %-16s %s (%s to %s)\n", $3, $4, $5, $6 }' "$top/bin/words.txt"
}

print_statuses() {
    printf 'statuses:\n'
    rows status | awk -F '|' '{ printf "  %-3s %s\n", $2, $3 }'
}

# Prints the help on one command, or on all.
print_help() {
    local name
    print_usage "$@"
    [ $# -gt 0 ] || printf '       juniper help [run | trial | node], juniper --help, juniper --version\n'
    for name in ${1-run trial node}; do
        printf '\n%s takes:\n' "$name"
        print_options "$name"
    done
    printf '\n'
    print_statuses
    [ $# -gt 0 ] || printf '\ndocs/SCHEDULE.md has the words of a schedule, docs/REPORT.md those of a report, and docs/FRAMES.md the bytes of frames.\n'
}

print_version() {
    local commit
    commit=$(git -C "$top" rev-parse --short HEAD 2>/dev/null) || commit=
    printf 'juniper%s, ' "${commit:+ of commit $commit}"
    if [ -x "$program" ]; then echo 'with its proved program'; else echo 'with no proved program'; fi
}

# Prints what the words given print, and ends with 0, or with 6 where standard output fails.
answer_with() {
    local text
    text=$("$@")
    printf '%s\n' "$text" 2>/dev/null || exit 6
    exit 0
}

# Answers words that ask for help, and ends. The program itself refuses all of these.
answer_help() {
    local word
    case ${1-} in
        --help | -h) answer_with print_help ;;
        --version | -V) answer_with print_version ;;
        help)
            case "$# ${2-}" in
                '1 ') answer_with print_help ;;
                '2 run' | '2 trial' | '2 node') answer_with print_help "$2" ;;
            esac
            ;;
        run | trial | node)
            for word in "${@:2}"; do
                case $word in
                    --) return 0 ;;
                    --help | -h) answer_with print_help "$1" ;;
                esac
            done
            ;;
    esac
}

# Sets the fault and fails. Each caller ends with that, as `set -e` does nothing within a condition.
fault_is() {
    fault=$*
    return 1
}

# Prints a word as one is to read it: in quotes, and so that it stands on one line.
show() {
    local word=$1
    if [ "${#word}" -gt 60 ]; then word=${word:0:60}..; fi
    if [[ $word == *[!\ -~]* ]]; then printf '%q' "$word"; else printf "'%s'" "$word"; fi
}

# Compares numbers of any size, which have no leading zero.
is_above() {
    [ "${#1}" -gt "${#2}" ] || { [ "${#1}" -eq "${#2}" ] && [[ $1 > $2 ]]; }
}

# Takes a number in decimal digits, without a sign or a leading zero, from the least to the most.
check_number() {
    local what=$1 text=$2 least=$3 most=$4
    if ! [[ $text =~ ^(0|[1-9][0-9]*)$ ]] || is_above "$least" "$text" || is_above "$text" "$most"; then
        fault_is "$(show "$text"): $what is a number from $least to $most, without a sign or a leading zero"
    fi
}

check_value() {
    local name=$1 value=$2 kind=$3 least=$4 most=$5
    if [ "$kind" != NAME ]; then
        check_number "the value of --$name" "$value" "$least" "$most"
    elif [ "${#value}" -lt "$least" ] || [ "${#value}" -gt "$most" ]; then
        fault_is "$(show "$value"): the name behind --$name has $least to $most bytes, and this one has ${#value}"
    fi
}

# Reads one option of the command into `given`; its value may be the word behind it. Sets `taken`, how many words it has.
read_option() {
    local command=$1 word=$2 name value kind least most
    shift
    taken=1
    name=${word#--}
    name=${name%%=*}
    if ! [[ $word =~ ^--[a-z]+(=|$) ]] || ! IFS='|' read -r kind least most < <(option_row "$command" "$name"); then
        fault_is "$(show "$word"): $command has no such option"
    elif [ -n "${given[$name]+given}" ]; then
        fault_is "--$name is given twice"
    elif [ -z "$kind" ]; then
        given[$name]=
        [ "$word" = "--$name" ] || fault_is "$(show "$word"): --$name takes no value"
    elif [[ $word == *=* ]]; then
        value=${word#*=}
    elif [ $# -gt 1 ] && [[ $2 != -?* ]]; then
        value=$2 taken=2
    else
        fault_is "--$name needs a value behind it"
    fi || return
    [ -n "$kind" ] || return 0
    given[$name]=$value
    check_value "$name" "$value" "$kind" "$least" "$most"
}

# Prints what value an option of a command has, with the least and the most, or fails where there is no such option.
option_row() {
    rows "option|$1" | awk -F '|' -v name="$2" '$3 == name { print $4 "|" $5 "|" $6 }'
}

# Images have their own counts of pages, and those that a run begins with aren't written over.
check_together() {
    local name
    [ -n "${given[in]+given}" ] || return 0
    for name in pool heads data; do
        if [ -n "${given[$name]+given}" ]; then
            fault_is "--$name can't stand beside --in, whose images have the counts of pages"
            return
        fi
    done
    check_names
}

check_names() {
    [ "${given[in]}" != "${given[out]-}" ] || fault_is "$(show "${given[in]}"): --out needs another name than --in"
}

check_run() {
    while [ $# -gt 0 ] && [ "$1" != -- ]; do
        if [[ $1 != -?* ]]; then
            fault_is "$(show "$1"): run takes no such word"
            return
        fi
        read_option run "$@" || return
        shift "$taken"
    done
    if [ $# -gt 1 ]; then
        fault_is "$(show "$2"): run takes no such word"
        return
    fi
    check_together
}

check_trial() {
    local word is_open=yes places=()
    for word; do
        if [ "$is_open" = yes ] && [ "$word" = -- ]; then
            is_open=no
        elif [ "$is_open" = yes ] && [[ $word == -?* ]]; then
            fault_is "$(show "$word"): trial has no options"
            return
        else
            places+=("$word")
        fi
    done
    check_places trial "${places[@]}"
}

# Takes the words that are no options, each in its place.
check_places() {
    local command=$1 name least most at=0
    shift
    local places=("$@")
    while IFS='|' read -r _ _ name _ least most; do
        if [ "$at" -ge "${#places[@]}" ]; then
            fault_is "$command needs $name behind it"
            return
        fi
        check_number "$name" "${places[at]}" "$least" "$most" || return
        at=$((at + 1))
    done < <(rows "place|$command")
    [ "${#places[@]}" -le "$at" ] || fault_is "$(show "${places[at]}"): $command takes $at $([ "$at" -eq 1 ] && echo number || echo numbers) alone"
}

check_node() {
    local name is_open=yes places=()
    while [ $# -gt 0 ]; do
        if [ "$is_open" = yes ] && [ "$1" = -- ]; then
            is_open=no taken=1
        elif [ "$is_open" = yes ] && [[ $1 == -?* ]]; then
            read_option node "$@" || return
        else
            places+=("$1") taken=1
        fi
        shift "$taken"
    done
    check_places node "${places[@]}" || return
    given[server]=${places[0]}
    for name in in out; do
        if [ -z "${given[$name]+given}" ]; then
            fault_is "node needs --$name with a name"
            return
        fi
    done
    check_names
}

check_words() {
    local word
    for word; do
        if [[ $word == *[!\ -~]* ]] && ! is_text "$word"; then
            fault_is "$(show "$word"): this word isn't text"
            return
        fi
    done
    if [ $# -eq 0 ]; then
        fault_is 'a command is missing'
        return
    fi
    case $1 in
        run) check_run "${@:2}" ;;
        trial) check_trial "${@:2}" ;;
        node) check_node "${@:2}" ;;
        help) fault_is "$(show "${2-}"): there is no help on this" ;;
        *) fault_is "$(show "$1"): there is no such command" ;;
    esac
}

# Sets `fault` to what is wrong with the words, as the program takes them, or to nothing; and `given`, the options of the
# command. Words are bytes here.
find_fault() {
    local LC_ALL=C
    fault=
    declare -gA given=()
    check_words "$@" || true
}
