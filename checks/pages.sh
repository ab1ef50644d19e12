#!/usr/bin/env bash
# Runs the commands that stand on the pages as a reader would, each block in a new folder with the examples: README, COMMANDS
# (whose examples `stakeplay.sh COMMAND --help` prints), OPERATING, FORMATS, RECIPES and FROM_A_NODE. Numbers and names that a reader puts in are
# put in here; a node answers from the made chain of `examples/recipes/data`. What stands in a console block with its output
# is run by `checks/recipes.sh` and `checks/stores.sh`. Needs the program.
set -u
cd "$(dirname "$0")/.."
. checks/program.bash
need_program pages
exec python3 checks/pages.py "$built"
