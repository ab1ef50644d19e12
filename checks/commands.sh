#!/usr/bin/env bash
# Tries the commands of stakeplay.sh over the program: `checks/commands_tried.py` says what. Needs the program.
set -u
cd "$(dirname "$0")/.."
. checks/program.bash
need_program commands
exec python3 -B checks/commands_tried.py "$built"
