#!/usr/bin/env bash
# Runs the program, standard input passed on: `stakeplay.sh COMMAND [WORDS] [FLAGS]`, or in plain words `STORE WORDS`,
# which are passed on as they are. `--help` prints the commands, `COMMAND --help` one of them, `--version` what runs.
# Which program runs, the first that there is of these:
#   1. the one that the variable STAKEPLAY names
#   2. in an installation (install.sh), the one that was installed
#   3. the one that was built here (by `.ci/run`, or by `rt run` in crates/stakeplay), where no source is newer
#   4. the released one (release/), for x86-64 Linux, where the sources are those that it was built from; so that
#      nothing stale runs, their sum is taken once, and again when one of them was touched since
#   5. the kit's interpreter over the sources, which proves nothing, is slow, and writes at most 1 MiB; it says so
# A run that does not end well is told by the program's own line, and by a second line that says more. Where the
# variable STAKEPLAY_PLAIN is set there is none, and this script becomes the program. STAKEPLAY_VERBOSE says which
# program runs.
self="${BASH_SOURCE[0]}"
while [ -L "$self" ]; do
    link="$(readlink "$self")"
    case "$link" in /*) self="$link" ;; *) self="${self%/*}/$link" ;; esac
done
case "$self" in */*) here="${self%/*}" ;; *) here=. ;; esac
called="$0"
case "$called" in /*) called="${called##*/}" ;; esac
base="$here" installed='' package="$here/python/src"
if [ ! -d "$here/crates" ] && [ -d "$here/../share/stakeplay/command" ]; then
    base="$here/../share/stakeplay" installed="$here/../libexec/stakeplay/stakeplay"
    package="$base/python"
fi
parts="$base/command"

# Whether these words are in the natural order: the command first, or a flag.
is_natural() {
    case "$1" in
    -) case "$2" in --help | -h | --version | -V) return 0 ;; *) return 1 ;; esac ;;
    -* | help) return 0 ;;
    esac
    # plain words: what stands behind the store
    case "$2" in replay | resume | query | tally | check | statement | gen | trial | keep | every | past | bech32) return 1 ;; esac
    case "${1,,}" in replay | resume | query | tally | check | statement | gen | trial | version) return 0 ;; esac
    return 1
}

# Keeps in `program` which one runs, and in `found` by which of the lines above.
find_program() {
    program="${STAKEPLAY:-}" found=named
    [ -z "$program" ] || [ "$program" -ef "$self" ] || return 0
    program="$installed" found=installed
    [ -z "$program" ] || return 0
    program="$here/crates/stakeplay/out/stakeplay" found=built
    if [ -x "$program" ] && [ -z "$(find "$here"/crates/*/src -newer "$program" -type f -name '*.rt' -print -quit)" ]; then
        return 0
    fi
    . "$here/release/release.bash"
    found=released
    find_released "$here"
}

# Runs the program with plain words, and ends as it does. It is a child, so that a second line can follow its own;
# signals that end this script are passed on to it.
run() {
    [ -z "${STAKEPLAY_VERBOSE:-}" ] || echo "stakeplay.sh: $program ($found) runs: $*" >&2
    if [ -n "${STAKEPLAY_PLAIN:-}" ] || ! is_able; then
        exec "$program" "$@"
    fi
    local name pid='' caught='' status line last='' told begun='' end="end of $$"
    # where the input begins, if it is a file: a line at fault can be read again there
    [ ! -f /dev/fd/0 ] || while read -r -u 9 name line; do [ "$name" != pos: ] || begun="$line"; done 9</proc/self/fdinfo/0
    for name in HUP INT QUIT TERM; do
        trap "caught=$name; [ -z \"\$pid\" ] || kill -TERM \"\$pid\" 2>/dev/null" "$name"
    done
    # a pipe for its standard error, which this script reads and ends
    { exec {told}<> <(:); } 2>/dev/null || exec "$program" "$@"
    "$program" "$@" <&0 2>&"$told" &
    pid=$!
    [ -z "$caught" ] || kill -TERM "$pid" 2>/dev/null   # it came before the child was known
    wait "$pid" 2>/dev/null
    status=$?
    while [ -n "$caught" ] && kill -0 "$pid" 2>/dev/null; do wait "$pid" 2>/dev/null; done
    echo "$end" >&"$told"
    while IFS= read -r line <&"$told" && [ "$line" != "$end" ]; do
        last="${line%"$end"}"
        if [ "$last" != "$line" ]; then printf '%s' "$last" >&2; break; fi
        printf '%s\n' "$line" >&2
    done
    if [ -n "$caught" ]; then
        die_by "$caught"
    elif [ "$status" -gt 128 ]; then
        die_by $((status - 128))
    elif [ "$status" != 0 ]; then
        . "$parts/explain.bash"
        explained "$status" "$last" >&2
    fi
    exit "$status"
}

# Whether the program can be a child here: the shell is not old, and the three files of the script are open.
is_able() {
    [ "${BASH_VERSINFO[0]}" -gt 4 ] || [ "${BASH_VERSINFO[0]}${BASH_VERSINFO[1]}" = 44 ] || return 1
    [ -e /dev/fd/0 ] && [ -e /dev/fd/1 ] && [ -e /dev/fd/2 ]
}

# Ends by a signal, as the program did; by one that shells ignore, with the status that they have for it.
die_by() {
    local number="$1"
    [ "$number" -gt 0 ] 2>/dev/null || number="$(kill -l "$number")"
    ulimit -c 0
    trap - HUP INT QUIT TERM
    kill -"$number" $$
    exit $((number + 128))
}

# Prints the version, the day and the sources of what runs.
told_version() {
    local version sources='' made=''
    read -r version <"$base/VERSION"
    . "$base/release/release.bash"
    if find_program; then
        case "$found" in
        named) made="$(date -u -r "$program" +%Y-%m-%d)" sources="of $program" ;;
        built) made="$(date -u -r "$program" +%Y-%m-%d)" sources="sources $(sources_sum "$here" "$(release_word "$here" crates)")" ;;
        *) made="$(release_word "$base" made)" sources="sources $(release_word "$base" sources)" ;;
        esac
        echo "stakeplay $version, $found $made, $sources"
    else
        echo "stakeplay $version, sources $(sources_sum "$here" "$(release_word "$here" crates)"), of which no program is here"
    fi
}

# The interpreter, where there is no program.
interpreted() {
    if ! command -v rt >/dev/null; then
        echo 'stakeplay.sh: the program is not built here, the release is of other sources or for another machine, and rt, the' >&2
        echo 'stakeplay.sh: command of the Rattle kit, is not on the path' >&2
        exit 69
    fi
    {
        echo 'stakeplay.sh: the program is not built, or a source is newer, and the release is of other sources: the interpreter'
        echo 'stakeplay.sh: runs them, which is slow and proves nothing. To build the program: (cd crates/stakeplay && rt run)'
    } >&2
    # a store is named from where this was called
    case "${1:-}" in
    -* | /* | '') ;;
    *) set -- "$PWD/$1" "${@:2}" ;;
    esac
    cd "$here/crates/stakeplay" || exit 70
    local log status
    log="$(mktemp)"
    trap 'rm -f "$log"' EXIT
    rt try -- "$@" 2>"$log"
    status=$?
    grep -a '^stakeplay: ' "$log" >&2
    if ! grep -aq '^run=ended' "$log"; then
        cat "$log" >&2
        echo 'stakeplay.sh: the interpreter did not come to an end; build the program for larger inputs' >&2
        exit 70
    fi
    exit $status
}

plain=("$@") order=plain
if [ $# -eq 0 ] || is_natural "$1" "${2:-}"; then
    order=natural asked=help command='' why=''
    . "$parts/table.bash"
    . "$parts/words.bash"
    [ "${1:-}" != - ] || shift
    [ $# -eq 0 ] || read_natural "$@"
    case "$asked" in
    help) told_help "$command"; exit 0 ;;
    version) told_version; exit 0 ;;
    esac
    if [ -n "$why" ]; then
        echo 'stakeplay: usage' >&2
        [ -n "${STAKEPLAY_PLAIN:-}" ] || echo "stakeplay: $why" >&2
        exit 1
    fi
fi
if find_program; then
    run "${plain[@]}"
fi
interpreted "${plain[@]}"
