#!/usr/bin/env bash
# Runs the program on the generated inputs of cases/trials.txt. Its summary of an input is just the line that the numbers
# there make, at each run; and the lines of that input, written by `gen` and replayed, in either form of addresses, end
# without a fault, with as many transactions accepted and refused, as much burned, and the same supply and pool. Needs the
# program.
set -u
cd "$(dirname "$0")/.."
. checks/program.bash
need_program trials
python3 - "$built" <<'PYTHON'
import json, pathlib, subprocess, sys

bad, count = [], 0


def ran(*words, given=b""):
    done = subprocess.run([sys.argv[1], "-", *words], input=given, capture_output=True)
    return done.returncode, done.stderr, done.stdout


def ask(got, wanted, what):
    global count
    count += 1
    if got != wanted:
        bad.append(f"{what}: {str(got)[:300]}, wanted {str(wanted)[:300]}")


def coins(amount):
    return [{"amount": amount, "denom": "uatom"}]


def line(**members):
    return json.dumps(members, sort_keys=True, separators=(",", ":")).encode() + b"\n"


def try_row(seed, blocks, accepted, refused, burned, supply, pool):
    numbers = {"accepted": int(accepted), "refused": int(refused), "blocks": int(blocks)}
    summary = line(kind="trial", burned=burned, supply=coins(supply), pool=coins(pool), **numbers)
    for words in (["trial"], ["trial"], ["bech32", "trial"]):
        ask(ran(*words, seed, blocks), (0, b"", summary), f"{' '.join(words)} {seed} {blocks}")
    for form in ([], ["bech32"]):
        what = " ".join([*form, "gen", seed, blocks, "replayed"])
        status, said, given = ran(*form, "gen", seed, blocks)
        ask((status, said), (0, b""), what)
        status, said, written = ran(*form, "replay", given=given)
        ask((status, said), (0, b""), what)
        lines = [json.loads(it) for it in written.splitlines()]
        kinds = [it["kind"] for it in lines]
        ask({"accepted": kinds.count("accepted"), "refused": kinds.count("refused"), "blocks": kinds.count("block")}, numbers, what)
        ask(str(sum(int(it["amount"]) for it in lines if it["kind"] == "burn")), burned, f"{what}, the burns")
        ends = [it for it in written.splitlines(keepends=True) if json.loads(it)["kind"] in ("supply", "pool")]
        ask(ends, [line(kind="supply", coins=coins(supply)), line(kind="pool", coins=coins(pool))], f"{what}, its report")


rows = [it for it in pathlib.Path("cases/trials.txt").read_text().splitlines() if not it.startswith("#")]
for row in rows:
    words, *numbers = (part.strip() for part in row.split("|"))
    try_row(*words.split(), *numbers)
for fault in bad:
    print(f"trials: {fault}")
print(f"trials: {len(rows)} inputs, {count} answers compared, {len(bad)} differ")
sys.exit(1 if bad or not rows else 0)
PYTHON
