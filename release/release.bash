# Sourced by stakeplay.sh, install.sh, release/make.sh and checks. What is released is told by the lines of
# release/RELEASE, a word and its value each: made (the day), kit, sources (a sum of the sources, below), program (the
# sum of the program), linked (`static`, or the newest version of the C library that it asks for), packed (the sum of
# release/stakeplay.gz) and crates (those that the program stands on).

# The value of a word of the release of a repository.
release_word() { sed -n "s/^$2 //p" "$1/release/RELEASE" 2>/dev/null; }

# The sum of what a program is compiled from: the sources (.rt) of the crates, in the order of their names. Contracts
# stand in them; definitions and proofs don't, since they leave no trace in a program.
sources_sum() {
    (
        cd "$1/crates" || exit 1
        for crate in $2; do
            find "$crate/src" -type f -name '*.rt'
        done | LC_ALL=C sort | xargs sha256sum | sha256sum | cut -d ' ' -f 1
    )
}

# Whether the sources of a repository are those of its release.
is_of_release() {
    local crates
    crates="$(release_word "$1" crates)"
    [ -n "$crates" ] && [ "$(sources_sum "$1" "$crates")" = "$(release_word "$1" sources)" ]
}

# Keeps in `program` the path of the released program, unpacked, where it can run here and the sources are those of the
# release. That they are is noted in a file, so that they are read again only where one of them, or the release, was
# changed since: its status has a time that no copying sets back.
find_released() {
    local word value sum='' crates='' note folders
    [ "$OSTYPE $HOSTTYPE" = 'linux-gnu x86_64' ] || [ "$(uname -sm)" = 'Linux x86_64' ] || return 1
    while read -r word value; do
        case "$word" in program) sum="$value" ;; crates) crates="$value" ;; esac
    done <"$1/release/RELEASE" 2>/dev/null
    [ -n "$sum" ] && [ -n "$crates" ] || return 1
    folders=("$1/release/RELEASE")
    for word in $crates; do folders+=("$1/crates/$word/src"); done
    cache_of "$1"
    for note in "$1/target/release/${sum:0:16}.is-of-these-sources" "$cache/${sum:0:16}.is-of-these-sources"; do
        if [ -e "$note" ] && [ -z "$(find "${folders[@]}" -newercm "$note" -print -quit 2>&1)" ]; then
            read -r program <"$note"
            [ -x "$program" ] && return 0
        fi
    done
    note_release "$1" "$sum"
}

# Reads the sources, unpacks the program where they are those of the release, and notes both.
note_release() {
    local folder new
    for folder in "$1/target/release" "$cache"; do
        mkdir -p "$folder" 2>/dev/null && new="$(mktemp "$folder/new.XXXXXX" 2>/dev/null)" && break
        new=''
    done
    if is_of_release "$1" && program="$(unpacked_program "$1")"; then
        if [ -n "$new" ]; then
            # the note is as old as the time before the sources were read
            cat >"$new.text" <<<"$program" && touch -r "$new" "$new.text" && mv "$new.text" "$folder/${2:0:16}.is-of-these-sources"
            rm -f "$new"
        fi
        return 0
    fi
    rm -f "$new"
    return 1
}

# Keeps in `cache` the folder of what is kept for a repository that may not be written.
cache_of() {
    local place="$1"
    case "$place" in /*) ;; *) place="$PWD/$place" ;; esac
    cache="${XDG_CACHE_HOME:-${HOME:-/nowhere}/.cache}/stakeplay/${place//\//%}"
}

# Prints the path of the released program, unpacked, whatever the sources are.
unpacked_program() {
    local program folder sum
    [ "$(uname -sm)" = "Linux x86_64" ] || return 1
    sum="$(release_word "$1" program)"
    for folder in "$1/target/release" "${XDG_CACHE_HOME:-${HOME:-$1/target}/.cache}/stakeplay"; do
        program="$folder/stakeplay-${sum:0:16}"
        if [ -x "$program" ] || unpack "$1" "$folder" "$program" "$sum"; then
            echo "$program"
            return 0
        fi
    done
    return 1
}

# Unpacks the released program to a path, where its sum is the one that the release tells.
unpack() {
    local new
    mkdir -p "$2" 2>/dev/null && new="$(mktemp "$2/new.XXXXXX" 2>/dev/null)" || return 1
    if gzip -dc "$1/release/stakeplay.gz" >"$new" 2>/dev/null && [ "$(sha256sum <"$new" | cut -d ' ' -f 1)" = "$4" ]; then
        chmod 755 "$new" && mv "$new" "$3"
    else
        rm -f "$new"
        return 1
    fi
}

# Links what the gate compiled without a C library that it would have to find where it runs, to a path: so any Linux runs it.
link_static() {
    local kit object="$1/crates/stakeplay/out/stakeplay.o"
    [ -f "$object" ] && kit="$(dirname "$(rt doc)")" || return 1
    "$kit/toolchain/bin/clang" -static -fuse-ld=lld -o "$2" "$object" "$kit/c/libos_c.a" "$kit/c/liblibc_c.a" 2>/dev/null
}
