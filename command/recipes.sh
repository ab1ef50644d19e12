#!/usr/bin/env bash
# Runs a recipe of an installation (install.sh): `stakeplay-recipes RECIPE ..`. Nothing is written beside the package.
self="$(readlink -f "${BASH_SOURCE[0]}")"
here="${self%/*}"
export PYTHONDONTWRITEBYTECODE=1 PYTHONPATH="$here/../share/stakeplay/python${PYTHONPATH:+:$PYTHONPATH}"
export STAKEPLAY="${STAKEPLAY:-$here/stakeplay}"
exec python3 -m stakeplay "$@"
