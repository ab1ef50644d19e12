#!/usr/bin/env bash
# Installs into an empty root (install.sh), calls what is there as a user without the repository would, and takes it away:
# nothing is left, and no file of others is touched. Then wrong calls: none ends with 0, and none leaves a file. Needs the
# program, and Python for the recipes.
set -u
cd "$(dirname "$0")/.."
. checks/program.bash
need_program install
top="$PWD" room="$(mktemp -d)" bad=0 count=0
trap 'chmod -R u+w "$room"; rm -rf "$room"' EXIT
say() { echo "install: $*"; bad=$((bad + 1)); }
ask() { # WHAT COMMAND..: counts it, and says what does not hold
    count=$((count + 1))
    "${@:2}" || say "$1"
}
tree() { (cd "$1" && find . | LC_ALL=C sort); }
alone() { (cd "$room" && env -i PATH="$1:/usr/bin:/bin:$python" HOME="$room/home" "${@:2}"); }
python="$(dirname "$(python3 -c 'import sys; print(sys.executable)')")"
mkdir -p "$room/root" "$room/home"

DESTDIR="$room/root" ./install.sh /usr/local >"$room/told" 2>&1 || { cat "$room/told"; say "it does not install"; echo "install: 1 calls, 1 not as they are to be"; exit 1; }
bin="$room/root/usr/local/bin" share="$room/root/usr/local/share"
is_run() { alone "$1" stakeplay replay <examples/history.jsonl >"$room/out" 2>"$room/err" && cmp -s "$room/out" examples/history.out && [ ! -s "$room/err" ]; }
ask "the example is not replayed, or something is said: $(head -n 2 "$room/err" 2>/dev/null)" is_run "$bin"
is_version() { [[ "$(alone "$bin" stakeplay --version)" =~ ^"stakeplay $(cat VERSION), installed "[0-9-]+", sources " ]]; }
ask "--version tells something else: $(alone "$bin" stakeplay --version)" is_version
is_help() { alone "$bin" stakeplay query --help | grep -q '^usage: stakeplay query KIND'; }
ask "the help of query" is_help
is_kept() { alone "$bin" stakeplay replay --store chain.db --keep <examples/history.jsonl >/dev/null && [ "$(alone "$bin" stakeplay query supply --store chain.db --height 3 | wc -l)" = 1 ]; }
ask "a store is not made or asked" is_kept
is_told() { alone "$bin" stakeplay query delegation --store chain.db 2>&1 | grep -q 'delegation is none of supply'; }
ask "a wrong word has no second line" is_told
is_linked() { mkdir "$room/links" && ln -s "$bin/stakeplay" "$room/links/stakeplay" && is_run "$room/links"; }
ask "a link to it does not run" is_linked
user=0307070707070707070707070707070707070707
is_sheet() {
    alone "$bin" stakeplay-recipes tax-sheet "$user" "$top/examples/life.out" "$top/examples/life.jsonl" >"$room/sheet" &&
        python3 -B examples/recipes/tax_sheet.py "$user" examples/life.out examples/life.jsonl | cmp -s - "$room/sheet"
}
ask "a recipe does not write what its script does" is_sheet
is_listed() { alone "$bin" stakeplay-recipes --help | grep -q '^  tax-sheet '; }
ask "the recipes are not listed" is_listed
is_complete() { alone "$bin" bash -c ". '$share/bash-completion/completions/stakeplay'; COMP_WORDS=(stakeplay re); COMP_CWORD=1; _stakeplay; echo \${COMPREPLY[*]}" | grep -qx 'replay resume'; }
ask "the completion of bash" is_complete
for file in man/man1/stakeplay.1 zsh/site-functions/_stakeplay doc/stakeplay/README.md doc/stakeplay/docs/FORMATS.md doc/stakeplay/CHANGELOG.md; do
    ask "there is no share/$file" test -s "$share/$file"
done
ask "something was written outside the folder" test "$(tree "$room/root" | grep -cv '^\.\(/usr\(/local\(/.*\)\?\)\?\)\?$')" = 0
ask "a run wrote into the installation" test "$(tree "$room/root" | grep -c pycache)" = 0
is_moved() { mv "$room/root/usr/local" "$room/root/opt" && is_run "$room/root/opt/bin" && mv "$room/root/opt" "$room/root/usr/local"; }
ask "moved, it does not run" is_moved

# again over it, beside a file of others; and away
tree "$room/root" >"$room/first"
echo other >"$share/man/man1/other.1"
ask "it does not install over itself" env DESTDIR="$room/root" ./install.sh /usr/local >/dev/null
rm "$share/man/man1/other.1"
is_same() { tree "$room/root" | diff - "$room/first" >/dev/null; }
ask "an installation over another leaves other files" is_same
echo other >"$share/man/man1/other.1"
DESTDIR="$room/root" ./install.sh --remove /usr/local >/dev/null || say "it is not taken away"
is_left() { [ "$(tree "$room/root/usr/local")" = "$(printf '%s\n' . ./share ./share/man ./share/man/man1 ./share/man/man1/other.1)" ]; }
ask "something is left, or a file of others went: $(tree "$room/root/usr/local" | head -n 9)" is_left
rm "$share/man/man1/other.1"

# what is wrong
wrong() { # WHY COMMAND..: it ends with 2, says why, and leaves what was there
    tree "$room/root" >"$room/before"
    "${@:2}" >"$room/told" 2>&1
    [ $? = 2 ] && grep -q "^install.sh: .*$1" "$room/told" && tree "$room/root" | diff -q - "$room/before" >/dev/null
}
for words in '' "a b" "--remove" "--remove a b" "--nothing" "-x"; do
    ask "wrong words, '$words': $(tail -n 1 "$room/told")" wrong '' ./install.sh $words
done
ask "nothing stands there" wrong 'no installation' ./install.sh --remove "$room/root/usr"
ask "DESTDIR and a folder that is none" wrong 'begins with /' env DESTDIR="$room/root" ./install.sh usr
ask "no program" wrong 'names no program' env STAKEPLAY="$room/none" ./install.sh "$room/root/none"
ask "a program that is none" wrong 'does not run' env STAKEPLAY=/bin/false ./install.sh "$room/root/none"
mkdir -p "$room/root/there/bin"
echo other >"$room/root/there/bin/stakeplay"
ask "a file of others" wrong 'is there, and of no installation' ./install.sh "$room/root/there"
echo other >"$room/root/file"
ask "a folder that is a file" wrong 'cannot be' ./install.sh "$room/root/file"
mkdir -p "$room/root/listed/share/stakeplay"
echo ../../file >"$room/root/listed/share/stakeplay/installed"
ask "a list with a place outside" wrong 'a place that is none' ./install.sh --remove "$room/root/listed"
mkdir -p "$room/root/half/share"
echo other >"$room/root/half/share/zsh"
ask "a folder that cannot be made" wrong 'cannot be written' ./install.sh "$room/root/half"
echo "install: $count calls, $bad not as they are to be"
[ $bad = 0 ]
