#!/usr/bin/env bash
# Plays every check that needs no prover, side by side, on a machine with bash and Python 3 alone: `checks/all.sh [NAME ..]`.
# They try the program of checks/program.bash, which is the released one where none was built here, or the one that the
# variable STAKEPLAY names. Each check's lines are printed when it has ended; the last line is `N passed, M failed`, over what
# the checks count. What does not run is counted as failed, or said as left out, with its reason.
set -u
cd "$(dirname "$0")/.."
. checks/program.bash
echo "all: tries $(told_program)"
need_program all
exec python3 -B checks/all.py "$@"
