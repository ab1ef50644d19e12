#!/usr/bin/env bash
# Runs the program on lines of 4,194,304 bytes, the longest there may be, and of one byte more: of spaces, which are no JSON;
# and a genesis and a block with spaces behind them, which are read as if there were none. They are made here, since they
# are long; the other hostile lines are cases of cases/. That needs the program as the gate builds it, or the one that the
# variable STAKEPLAY names.
set -u
cd "$(dirname "$0")/.."
. checks/program.bash
need_program lines
python3 - "$built" <<'PYTHON'
import pathlib, subprocess, sys

LIMIT = 4194304
genesis, block = pathlib.Path("examples/one-send.jsonl").read_bytes().splitlines()
whole = pathlib.Path("examples/one-send.out").read_bytes()
head = whole.splitlines(keepends=True)[0]
spaces = b" " * LIMIT
bad = []
rows = [
    ("spaces, as many as may be", [genesis, spaces, block], 2, "line 2: not JSON", head),
    ("the same at the end of the input", [genesis, spaces], 2, "line 2: not JSON", head),
    ("the same with a carriage return as the last", [genesis, spaces[1:] + b"\r", block], 2, "line 2: not JSON", head),
    ("one space more", [genesis, spaces + b" ", block], 3, "line 2: limit line", head),
    ("one space more at the end of the input", [genesis, spaces + b" "], 3, "line 2: limit line", head),
    ("as many, and a carriage return", [genesis, spaces + b"\r", block], 3, "line 2: limit line", head),
    ("one space more as line 1", [spaces + b" ", block], 3, "line 1: limit line", b""),
    ("a block as long as may be", [genesis, block.ljust(LIMIT)], 0, "", whole),
    ("a block that is longer", [genesis, block.ljust(LIMIT + 1)], 3, "line 2: limit line", head),
    ("a genesis as long as may be", [genesis.ljust(LIMIT), block], 0, "", whole),
    ("a genesis that is longer", [genesis.ljust(LIMIT + 1), block], 3, "line 1: limit line", b""),
]
for name, lines, status, said, written in rows:
    # Without an end behind the last line, where the row speaks of the end of the input.
    given = b"\n".join(lines) + (b"" if "end of the input" in name else b"\n")
    done = subprocess.run([sys.argv[1], "-", "replay"], input=given, capture_output=True)
    wanted = (status, written, f"stakeplay: {said}\n".encode() if said else b"")
    if (done.returncode, done.stdout, done.stderr) != wanted:
        bad.append(name)
        print(f"lines: {name}: ended with {done.returncode}, {done.stderr.decode().strip()}, wrote {len(done.stdout)} bytes")
print(f"lines: {len(rows)} compared, {len(bad)} differ")
sys.exit(1 if bad else 0)
PYTHON
