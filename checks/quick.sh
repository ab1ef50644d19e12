#!/usr/bin/env bash
# The checks of an edit, in under a minute: `checks/quick.sh [CRATE]`. The layout of the crate's files (of those that git
# sees changed, where none is named), the pages and lists of the repository, lemmas that nobody cites, and, where there is a
# program of these sources, the cases. It proves nothing: `rt check` in the crate's folder does, and `.ci/run` is the gate.
set -u
cd "$(dirname "$0")/.."
status=0
crates=("$@")
if [ $# -eq 0 ]; then
    mapfile -t crates < <(git status --porcelain -- crates | sed -n 's|^...crates/\([a-z0-9_]*\)/.*|\1|p' | sort -u)
fi
for crate in "${crates[@]}"; do
    if [ ! -d "crates/$crate/src" ]; then
        echo "quick: there is no crate $crate"
        exit 2
    fi
    command -v rt >/dev/null || { echo "quick: left out: the layout of $crate, since rt is not on the path"; continue; }
    # rt fmt lays out what it finds: so it is asked of a copy
    copy="$(mktemp -d)"
    mkdir -p "$copy/crates"
    cp -r "crates/$crate" "$copy/crates/"
    rm -rf "$copy/crates/$crate/out"
    cp crates.txt "$copy/"
    (cd "$copy/crates/$crate" && rt fmt >/dev/null 2>&1)
    if ! diff -rq -x out "crates/$crate" "$copy/crates/$crate" >"$copy/differs"; then
        sed -n 's/^Files \([^ ]*\) and .*/quick: rt fmt would lay out \1/p' "$copy/differs"
        status=1
    fi
    rm -rf "$copy"
done
bash checks/repository.sh || status=1
bash checks/lemmas.sh || status=1
. checks/program.bash
if [ "$kind" = named ] || [ "$kind" = here ] || [ "$kind" = released ]; then
    bash checks/cases.sh || status=1
else
    echo "quick: left out: the cases, since no program was built of these sources"
fi
exit $status
