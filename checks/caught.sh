#!/usr/bin/env bash
# Whether the cases catch a program that ends by the same fault whatever it is given: by one of reading, of writing or of the
# store, by want of memory, or by an address that is not found. Each such program is a line of shell, and the run of forty
# delegators has to tell it. Proofs leave want of memory free, so this alone refuses a program that always pleads it.
set -u
cd "$(dirname "$0")/.."
room="$(mktemp -d)"
trap 'rm -rf "$room"' EXIT
mkdir "$room/run"
cp cases/forty-delegators.* "$room/run/"
bad=0 count=0
while IFS='|' read -r number said; do
    printf '#!/bin/sh\ncat >/dev/null\necho "stakeplay: %s" >&2\nexit %s\n' "$said" "$number" >"$room/faulty"
    chmod +x "$room/faulty"
    count=$((count + 1))
    if STAKEPLAY="$room/faulty" bash checks/cases.sh "$room/run" >/dev/null 2>&1; then
        echo "caught: a program that always ends by '$said' passes"
        bad=$((bad + 1))
    fi
done <<'ROWS'
4|read fault
5|write fault
6|store fault
7|no memory
10|not found
ROWS
echo "caught: $count programs, $bad not caught"
[ $bad = 0 ] && [ $count = 5 ]
