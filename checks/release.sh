#!/usr/bin/env bash
# Compares the release with what stands here: its sums are those that it tells, and it unpacks to the program that it tells.
# Where the sources are those of the release, stakeplay.sh runs it without the kit, and the program that was built here, if
# there is one, is the released one, byte by byte; else it is said how many commits ago its sources stood.
set -u
cd "$(dirname "$0")/.."
. release/release.bash
bad=0
say() { echo "release: $*"; bad=1; }
sum() { sha256sum | cut -d ' ' -f 1; }
[ -s release/RELEASE ] || { echo "release: there is none"; exit 1; }
[ "$(sum <release/stakeplay.gz)" = "$(release_word . packed)" ] || say "release/stakeplay.gz has another sum than release/RELEASE tells"
[ "$(gzip -dc release/stakeplay.gz | sum)" = "$(release_word . program)" ] || say "the program has another sum than release/RELEASE tells"
if ! is_of_release .; then
    since="$(git log -1 --format=%H -- release/RELEASE 2>/dev/null)"
    age="$(git rev-list --count "$since..HEAD" -- 'crates/*/src/*' 2>/dev/null)"
    [ $bad = 0 ] && echo "release: of $(release_word . made), whole; sources changed since, in ${age:-some} commits"
    echo "release: left out: a run from the release by stakeplay.sh, and whether a build gives it, since its sources are others"
    exit $bad
fi
# as on a machine without the kit: a copy without what was built, and nothing on the path but what any Linux has
room="$(mktemp -d)"
tar -c stakeplay.sh command VERSION release examples/history.jsonl crates/*/src | tar -x -C "$room"
began="$(date +%s%N)"
(cd "$room" && env -i PATH=/usr/bin:/bin HOME="$room" bash ./stakeplay.sh - replay <examples/history.jsonl >"$room/out" 2>"$room/err")
took=$((($(date +%s%N) - began) / 1000000))
cmp -s "$room/out" examples/history.out || say "from the release, stakeplay.sh writes something else than examples/history.out: $(head -n 1 "$room/err")"
. checks/program.bash
if [ -n "$here" ] && [ "$(release_word . linked)" = static ]; then
    here="$room/linked"
    link_static . "$here" || here=
fi
if [ -n "$here" ]; then
    gzip -dc release/stakeplay.gz | cmp -s - "$here" || say "the program that was built here is not the released one, though the sources are the same"
    same=", the same as built here"
else
    same=
    echo "release: left out: whether a build gives the released program, since none was built here, or its object is gone"
fi
rm -rf "$room"
[ $bad = 0 ] && echo "release: of $(release_word . made), whole, of these sources$same; the example took $took ms"
exit $bad
