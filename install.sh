#!/usr/bin/env bash
# Puts the program, its script, man page, completions, pages and the recipes below a folder, and takes them away again:
#
#   ./install.sh PREFIX            as in: sudo ./install.sh /usr/local
#   ./install.sh --remove PREFIX
#
# What was put there is listed in PREFIX/share/stakeplay/installed; an installation that stands there is taken away first.
# A file of somebody else is never written over. With the variable DESTDIR all goes below that folder, as packagers want
# it. The program is the one of STAKEPLAY, else the one that was built here, where no source is newer, else the released
# one, where the sources are those of the release. What is installed may be moved: it finds its parts by where it stands.
# The recipes need Python 3.10 or later. Words that are wrong, and what cannot be written, end with 2.
set -u
top="$(cd "$(dirname "$(readlink -f "${BASH_SOURCE[0]}")")" && pwd)"
list=share/stakeplay/installed

stop() {
    echo "install.sh: $*" >&2
    exit 2
}

# Prints what is installed: a mode, the file, and its place below the folder.
files() {
    local name
    echo "755 $program libexec/stakeplay/stakeplay"
    echo "755 $top/stakeplay.sh bin/stakeplay"
    echo "755 $top/command/recipes.sh bin/stakeplay-recipes"
    echo "644 $top/VERSION share/stakeplay/VERSION"
    echo "644 $told share/stakeplay/release/RELEASE"
    echo "644 $top/release/release.bash share/stakeplay/release/release.bash"
    for name in table words explain faults; do echo "644 $top/command/$name.bash share/stakeplay/command/$name.bash"; done
    echo "644 $top/command/stakeplay.1 share/man/man1/stakeplay.1"
    echo "644 $top/command/completion.bash share/bash-completion/completions/stakeplay"
    echo "644 $top/command/_stakeplay share/zsh/site-functions/_stakeplay"
    for name in README.md CHANGELOG.md SECURITY.md; do echo "644 $top/$name share/doc/stakeplay/$name"; done
    for name in "$top"/docs/*.md; do echo "644 $name share/doc/stakeplay/docs/${name##*/}"; done
    for name in history life; do echo "644 $top/examples/$name.jsonl share/doc/stakeplay/examples/$name.jsonl"; done
    (cd "$top/python/src" && find stakeplay -type f ! -name '*.pyc' | LC_ALL=C sort) | while IFS= read -r name; do
        echo "644 $top/python/src/$name share/stakeplay/python/$name"
    done
}

# Keeps in `program` which one is installed, and writes to the file `told` what `stakeplay --version` says of it.
choose() {
    local made kind
    . "$top/release/release.bash"
    cd "$top" || exit 2
    program="$top/crates/stakeplay/out/stakeplay"
    if [ -n "${STAKEPLAY:-}" ]; then
        program="$(readlink -f "$STAKEPLAY")" kind=named
        [ -x "$program" ] || stop "STAKEPLAY names no program: $STAKEPLAY"
    elif [ -x "$program" ] && [ -z "$(find crates -name out -prune -o -type f \( -name '*.rt' -o -name '*.antt' \) \
        -newer "$program" -print -quit)" ]; then
        kind="the program that was built here"
    elif find_released "$top"; then
        kind="the released program"
    else
        stop "there is no program of these sources: it is not built here (.ci/run), and the release is of others"
    fi
    made="$(date -u -r "$program" +%Y-%m-%d)"
    case "$kind" in
    'the released program') cp release/RELEASE "$told" ;;
    'the program that was built here')
        printf 'made %s\nsources %s\n' "$made" "$(sources_sum "$top" "$(release_word "$top" crates)")" >"$told"
        ;;
    *) printf 'made %s\nsources are not known: it was named\n' "$made" >"$told" ;;
    esac
    "$program" - gen 1 1 >/dev/null || stop "$program does not run here"
}

# Takes away what the list of an installation has, and the folders that are empty then.
take_away() {
    local place folders=''
    [ -f "$root/$list" ] || return 1
    while IFS= read -r place; do
        case "/$place/" in //* | */../*) stop "$root/$list has a place that is none: $place" ;; esac
    done <"$root/$list"
    while IFS= read -r place; do
        rm -f "$root/$place" 2>/dev/null || stop "$root/$place cannot be taken away"
    done <"$root/$list"
    rm -f "$root/$list" || stop "$root/$list cannot be taken away"
    # those that were there before are not listed, and stay
    if [ -f "$root/$list.folders" ]; then
        folders="$(LC_ALL=C sort -r "$root/$list.folders")"
        rm -f "$root/$list.folders"
    fi
    while IFS= read -r place; do
        [ -z "$place" ] || rmdir "$root/$place" 2>/dev/null
    done <<<"$folders"
    return 0
}

# Makes a folder below the root, and those above it; the ones that are new are noted.
new_folder() {
    [ -d "$root/$1" ] && return 0
    case "$1" in */*) new_folder "${1%/*}" || return 1 ;; esac
    mkdir "$root/$1" || return 1
    new_folders+=("$1")
}

# Puts all files there.
put() {
    local mode file place
    local -a new_folders=()
    while read -r mode file place; do
        [ ! -e "$root/$place" ] && [ ! -L "$root/$place" ] || stop "$root/$place is there, and of no installation"
    done <"$all"
    new_folder "${list%/*}" && : >"$root/$list" || stop "$root cannot be written"
    while read -r mode file place; do
        if ! new_folder "${place%/*}" || ! echo "$place" >>"$root/$list" || ! install -m "$mode" "$file" "$root/$place"; then
            printf '%s\n' "${new_folders[@]}" >"$root/$list.folders"
            take_away
            stop "$root/$place cannot be written; nothing is left there"
        fi
    done <"$all"
    printf '%s\n' "${new_folders[@]}" >"$root/$list.folders" || stop "$root/$list.folders cannot be written"
}

remove=''
case "${1:-}" in
--help | -h)
    sed -n '2,/^set -u/s/^# \{0,1\}//p' "$0"
    exit 0
    ;;
--remove) remove=1; shift ;;
esac
[ $# = 1 ] || stop "it takes one folder: ./install.sh [--remove] PREFIX"
case "$1" in
/*) ;;
'' | -*) stop "$1 is no folder; --help says what it takes" ;;
*) [ -z "${DESTDIR:-}" ] || stop "with DESTDIR the folder begins with /" ;;
esac
root="${DESTDIR:-}$1"
case "$root" in *[[:space:]]*) stop "a folder with blanks in its name is not taken" ;; esac
if [ -n "$remove" ]; then
    take_away || stop "no installation stands in $root"
    echo "taken away from $root"
    exit 0
fi
case "$top" in *[[:space:]]*) stop "the repository stands in a folder with blanks in its name" ;; esac
room="$(mktemp -d)" || exit 2
trap 'rm -rf "$room"' EXIT
told="$room/RELEASE" all="$room/all"
choose
files >"$all"
[ ! -f "$root/$list" ] || take_away
mkdir -p "$root" 2>/dev/null || stop "$root cannot be made"
put
echo "installed in $root: stakeplay $(cat "$top/VERSION"), $(wc -l <"$all") files"
