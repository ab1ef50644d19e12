#!/usr/bin/env python3
"""Times `from_blocks.py` over answers that `make.py` makes: bench/node/run.py [RUNS]

Of 1,000 and 10,000 blocks with 10 validators and 2 transactions each, and of 1,000 blocks with 100 validators and 10
transactions, the least processor time of RUNS runs (3) counts, which other work on the machine changes less than the
time by the clock. Beside it stand the most memory, and the time in which Python reads and parses the same files and
does nothing else. Works in a temporary folder (about 250 MB)."""
from __future__ import annotations

import os
import pathlib
import subprocess
import sys
import tempfile

HERE = pathlib.Path(__file__).resolve().parent
RECIPE = HERE.parents[1] / "examples/recipes/from_blocks.py"
PARSE = """
import gc, json, os, sys
gc.disable()
for entry in os.scandir(sys.argv[1]):
    with open(entry.path, "rb") as file:
        json.loads(file.read())
"""


def used(words: list[str]) -> tuple[float, int]:
    """Processor seconds and most memory in kB of a command that ends well."""
    process = subprocess.Popen(words, stdout=subprocess.DEVNULL, stderr=subprocess.DEVNULL)
    _, status, usage = os.wait4(process.pid, 0)
    process.returncode = os.waitstatus_to_exitcode(status)
    if process.returncode:
        sys.exit(f"{' '.join(words)} ended with {process.returncode}")
    return usage.ru_utime + usage.ru_stime, usage.ru_maxrss


def main() -> None:
    runs = int(sys.argv[1]) if len(sys.argv) > 1 else 3
    print("blocks  validators  transactions  kB a block  seconds  blocks a second  most memory  parsing alone")
    for blocks, validators, txs in ((1000, 10, 2), (10000, 10, 2), (1000, 100, 10)):
        with tempfile.TemporaryDirectory(prefix="node-") as room:
            words = [room, str(blocks), "--validators", str(validators), "--transactions", str(txs)]
            subprocess.run([sys.executable, str(HERE / "make.py"), *words], check=True)
            size = sum(entry.stat().st_size for entry in os.scandir(room)) / blocks / 1000
            tries = [(used([sys.executable, str(RECIPE), room]), used([sys.executable, "-c", PARSE, room])[0])
                     for _ in range(runs)]
        seconds, parsing = min(recipe[0] for recipe, _ in tries), min(parse for _, parse in tries)
        memory = max(recipe[1] for recipe, _ in tries) / 1024
        print(f"{blocks:<7} {validators:<11} {txs:<13} {size:<11.1f} {seconds:<8.2f} {blocks / seconds:<16.0f} "
              f"{memory:<5.1f} MB     {parsing:.2f}", flush=True)


if __name__ == "__main__":
    main()
