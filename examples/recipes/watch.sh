#!/usr/bin/env bash
# Watches a long run: passes the output on, and tells on standard error how far it has come.
#
# Who wants it: whoever replays a hundred thousand blocks, since the program prints nothing but its output.
# One command:  ./stakeplay.sh - replay < run.jsonl | examples/recipes/watch.sh > run.out
#               examples/recipes/watch.sh run.out > /dev/null     (how far an output came that is there already)
#               EVERY=10 .. tells each tenth block; without it each thousandth
# What comes out on standard error, for the example `life.out` with EVERY=2:
#     watch: block 2, 2024-01-01T00:00:10Z, 8 lines
# Status: 0, or 2 where the output is cut or of another program, which is said.
set -u
fail() {
    echo "watch.sh: $*" >&2
    exit 2
}
case "${1:-}" in
--help | -h)
    sed -n '2,/^set -u/{/^set -u/d;s/^# \{0,1\}//p}' "$0"
    exit 0
    ;;
-?*) fail "unrecognized argument: $1 (--help says what it takes)" ;;
esac
[ $# -le 1 ] || fail "unrecognized argument: $2 (--help says what it takes)"
name="${1--}"
[[ "${EVERY-1000}" =~ ^[1-9][0-9]{0,8}$ ]] || fail "EVERY is no count of blocks, from 1 on"
if [ "$name" != - ]; then
    [ -e "$name" ] || fail "$name: No such file or directory"
    [ ! -d "$name" ] || fail "$name: Is a directory"
    [ -r "$name" ] || fail "$name: Permission denied"
fi
# the point behind the end shows whether the last line has its end
{ cat -- "$name"; printf .; } | LC_ALL=C awk -v every="${EVERY-1000}" '
    function stop(text) {
        printf "watch: %s\n", text > "/dev/stderr"
        stopped = 1
        exit 2
    }
    function time_of(line) {
        sub(/^.*"time":"/, "", line)
        sub(/".*$/, "", line)
        return line
    }
    function judged(line, at, kind) {
        at = match(line, /"kind":"[a-z]+"/)
        kind = at ? substr(line, at + 8, RLENGTH - 9) : ""
        if (!(kind in kinds) || line !~ /^\{".*\}$/)
            stop("line " (NR - 1) ": this is no line of the output of stakeplay")
        if (kind == "genesis") { height = 0; is_run = 1 }
        if (kind == "block") {
            at = substr(line, 11) + 0
            if (is_run && at != height + 1) stop("line " (NR - 1) ": what comes before block " at " is cut")
            height = at; is_run = 1
            if (height % every == 0)
                printf "watch: block %d, %s, %d lines\n", height, time_of(line), NR - 1 > "/dev/stderr"
        }
        last = kind
        print line
    }
    BEGIN {
        n = split("genesis block accepted refused transfer burn allocated pooled period started slashed paid " \
            "commission status jailed unjailed tombstoned removed params supply account validator delegation pending " \
            "unbonding redelegation signing pool", names, " ")
        for (i = 1; i <= n; i++) kinds[names[i]] = 1
    }
    NR > 1 { judged(held) }
    { held = $0 }
    END {
        if (!stopped) {
            if (held != ".") stop("line " NR ": the output is cut in this line")
            if (NR == 1) stop("nothing was read")
            if (is_run && last != "pool")
                stop("the output is cut after line " (NR - 1) ": the end of its report is missing")
            printf "watch: whole, %s%d lines\n", is_run ? "to block " height ", " : "", NR - 1 > "/dev/stderr"
        }
    }'
