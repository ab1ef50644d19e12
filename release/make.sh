#!/usr/bin/env bash
# Makes the release of the program that the gate built here: release/stakeplay.gz and release/RELEASE. It is made when
# behaviour changes, not at each commit; `checks/release.sh` tells how old it is. Needs the gate's program, of these sources.
set -eu
cd "$(dirname "$0")/.."
. checks/program.bash
. release/release.bash
# neither a program that STAKEPLAY names nor an earlier release: these would be told to be of these sources
built="$here"
[ -n "$built" ] || { echo "release: the program is not built, or a source is newer: run .ci/run first" >&2; exit 1; }
crates="$(python3 - <<'PYTHON'
lines = [line.split("#")[0] for line in open("crates.txt")]
below = {line.partition(":")[0].split()[0]: line.partition(":")[2].split() for line in lines if ":" in line}
found, todo = set(), ["stakeplay"]
while todo:
    crate = todo.pop()
    if crate in below and crate not in found:
        found.add(crate)
        todo += below[crate]
print(*sorted(found))
PYTHON
)"
# linked anew without a C library to be found, where that can be done here: what the gate tried is the same object, linked
# to this machine's library, so the cases are run over it; then run `checks/all.sh` over it too, by the variable STAKEPLAY
room="$(mktemp -d)"
trap 'rm -rf "$room"' EXIT
linked="$(objdump -T "$built" 2>/dev/null | grep -o 'GLIBC_[0-9.]*' | sort -uV | tail -n 1)"
if link_static . "$room/stakeplay"; then
    STAKEPLAY="$room/stakeplay" bash checks/cases.sh || { echo "release: linked statically, it does not pass the cases" >&2; exit 1; }
    built="$room/stakeplay" linked=static
fi
# without a name and a time, so that packing twice gives the same bytes
gzip -9 -n -c "$built" >release/stakeplay.gz
sum() { sha256sum "$1" | cut -d ' ' -f 1; }
cat >release/RELEASE <<TEXT
made $(date -u +%Y-%m-%d)
kit $(rt version | head -n 1)
sources $(sources_sum . "$crates")
program $(sum "$built")
linked $linked
packed $(sum release/stakeplay.gz)
crates $crates
TEXT
cat release/RELEASE
