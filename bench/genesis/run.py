#!/usr/bin/env python3
"""bench/genesis/run.py [RUNS]: times `stakeplay - replay` of geneses alone: read, started and reported.

Sizes are 50 validators with 500 delegations, 500 with 5,000, and 1,000 with 10,000 (a line has at most 4 MiB); the time for
each delegation must not grow with the size. The program is the one that `.ci/run` built. A genesis is one line, so the time
of reading it alone is that of a genesis which the last condition but one refuses: an account with more than there may be.
"""
import json
import pathlib
import subprocess
import sys
import tempfile
import time

TOP = pathlib.Path(__file__).resolve().parents[2]
PROGRAM = TOP / "crates/stakeplay/out/stakeplay"
PARAMS = json.loads((TOP / "examples/one-send.jsonl").open().readline())["params"]


def address(kind: int, number: int) -> str:
    return f"{kind:02x}{number:038x}"


def genesis(validators: int, delegations: int, amount: str) -> bytes:
    return (
        json.dumps(
            {
                "kind": "genesis",
                "time": "2024-01-01T00:00:00Z",
                "params": PARAMS,
                "accounts": [{"address": address(1, 0), "coins": [{"denom": "uatom", "amount": amount}]}],
                "validators": [
                    {
                        "operator": address(2, place * 7919 % validators),
                        "cons": address(3, place),
                        "rate": "0.1",
                        "max_rate": "0.2",
                        "max_change_rate": "0.01",
                        "min_self_delegation": "1",
                    }
                    for place in range(validators)
                ],
                "delegations": [
                    {
                        "delegator": address(4, place * 7919 % delegations),
                        "validator": address(2, place % validators),
                        "amount": str(1_000_000 + place),
                    }
                    for place in range(delegations)
                ],
            },
            separators=(",", ":"),
        )
        + "\n"
    ).encode()


def seconds(line: bytes, runs: int) -> tuple[float, int]:
    least, lines = float("inf"), 0
    with tempfile.TemporaryFile() as given:
        given.write(line)
        for _ in range(runs):
            given.seek(0)
            start = time.perf_counter()
            out = subprocess.run([PROGRAM, "-", "replay"], stdin=given, capture_output=True, check=False).stdout
            least = min(least, time.perf_counter() - start)
            lines = out.count(b"\n")
    return least, lines


def main() -> None:
    runs = int(sys.argv[1]) if len(sys.argv) > 1 else 5
    if not PROGRAM.exists():
        sys.exit("run .ci/run first: it builds the program")
    print("validators delegations seconds microseconds-per-delegation of-which-reading lines-written")
    for validators, delegations in ((50, 500), (500, 5_000), (1_000, 10_000)):
        whole, lines = seconds(genesis(validators, delegations, "1"), runs)
        read, _ = seconds(genesis(validators, delegations, str(10**18)), runs)
        print(f"{validators} {delegations} {whole:.4f} {whole / delegations * 1e6:.2f} {read / whole:.2f} {lines}")


main()
