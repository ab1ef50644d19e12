#!/usr/bin/env python3
"""Runs `stakeplay.sheets.every_night` of `python/`, installed or not; `--help` says what it does."""
import pathlib
import sys

sys.path.insert(0, str(pathlib.Path(__file__).resolve().parents[2] / "python" / "src"))
from stakeplay.sheets.every_night import command  # noqa: E402

command()
