# shellcheck shell=bash disable=SC2034,SC2154
# What bin/juniper and bin/build share. The caller has set `top`, the clone's folder.

program=$top/crates/juniper/out/juniper

# Says one line on standard error and ends with the status.
stop() {
    printf 'juniper: %s\n' "$2" >&2
    exit "$1"
}

need_toolchain() {
    command -v rt >/dev/null || stop 69 'the toolchain is needed for this, and its command rt is not on the path'
}

is_text() {
    printf '%s' "$1" | iconv -f UTF-8 -t UTF-8 >/dev/null 2>&1
}

# Sets `sources` to a folder with the sources: the clone, or a copy below the folder given, as the toolchain
# reads no path that isn't text of one line.
find_sources() {
    sources=$top
    if ! is_text "$top" || [[ $top == *$'\n'* ]]; then
        sources=$1/sources
        mkdir "$sources"
        tar -C "$top" -c --exclude=out --exclude=must-fail crates.txt crates | tar -C "$sources" -x
    fi
}

# Lists the program's crates, those with the fewest below first: a line for each, with its name, how many are
# below it, and those that it names.
list_crates() {
    awk -F: '
        function add(name, other) {
            if (!((name, other) in below)) { below[name, other]; size[name]++ }
        }
        function visit(name, parts, n, i, it, line) {
            if (name in size) return
            size[name] = 0
            n = split(uses[name], parts, " ")
            for (i = 1; i <= n; i++) {
                if (!(parts[i] in uses)) continue
                visit(parts[i])
                add(name, parts[i])
                for (it in size) if ((parts[i], it) in below) add(name, it)
                line = line " " parts[i]
            }
            print name, size[name] line
        }
        { sub(/#.*/, "") }
        /:/ { split($1, words, " "); uses[words[1]] = $2 }
        END { visit("juniper") }' "$1/crates.txt" | sort -s -n -k 2,2
}
