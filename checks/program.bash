# Sourced by the checks, at the top of the repository: `built` becomes the path of the program that they try, and `kind` which
# it is, the first that there is of
#   named      the one that the variable STAKEPLAY names
#   here       the one that was built here, where no source is newer
#   released   the released one (release/), where the sources are those that it was built from
#   older      the released one, where sources changed since
# `here` is the path of the second, if there is one. In the gate, which sets STAKEPLAY_MUST and names none, it has to be. What a
# check starts finds the same program, by STAKEPLAY.
. release/release.bash
here="$(realpath -m crates/stakeplay/out/stakeplay)"
newer() { find crates -name out -prune -o -type f \( -name '*.rt' -o -name '*.antt' \) -newer "$here" -print -quit; }
if [ ! -x "$here" ] || [ -n "$(newer)" ]; then
    here=
fi
built='' kind=none
if [ -n "${STAKEPLAY:-}" ]; then
    built="$(realpath -m "$STAKEPLAY")" kind=named
    if [ ! -x "$built" ]; then
        echo "$(basename "$0" .sh): STAKEPLAY names no program: $STAKEPLAY"
        exit 1
    fi
elif [ -n "$here" ]; then
    built="$here" kind=here
elif [ -n "${STAKEPLAY_MUST:-}" ]; then
    echo "$(basename "$0" .sh): the program is not built, or a source is newer"
    exit 1
elif built="$(unpacked_program "$PWD")"; then
    kind=older
    if is_of_release .; then
        kind=released
    fi
fi
[ -z "$built" ] || export STAKEPLAY="$built"

# What is said of the program.
told_program() {
    case "$kind" in
        named) echo "the program $built" ;;
        here) echo "the program that was built here" ;;
        released) echo "the released program of $(release_word . made), of these sources" ;;
        older) echo "the released program of $(release_word . made); SOURCES CHANGED SINCE, and what is built of them is not tried" ;;
        none) echo "none: it is not built here, and the released one is for x86-64 Linux" ;;
    esac
}

# Ends a check that needs the program, where there is none: what did not run has not passed.
need_program() {
    if [ -z "$built" ]; then
        echo "$1: not run, since there is no program: it is not built here, and the released one is for x86-64 Linux"
        exit 1
    fi
}
