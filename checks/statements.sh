#!/usr/bin/env bash
# Reward statements, and lines made of them by one change each, answered by the program's `check` and by the recipe
# python/src/stakeplay/statements/check_statement.py, which shares no code with it: both have to end alike and to write the same. Then
# the statements that the program makes of the payments of each case, beside the lines of its replay.
set -u
cd "$(dirname "$0")/.."
. checks/program.bash
need_program statements
status=0
python3 checks/statements.py "$built" || status=1
python3 -B checks/statements_made.py "$built" || status=1
exit $status
