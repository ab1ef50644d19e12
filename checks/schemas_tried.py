#!/usr/bin/env python3
"""Holds the schemas of lines in against the program, whose path is the first word: a genesis, a block with each kind of
message, a ballot and a statement, each changed in each of its members, have to fail their schema exactly where the
program says `bad shape` or `not JSON`. Called by checks/package.sh."""
from __future__ import annotations

import concurrent.futures
import copy
import json
import pathlib
import re
import subprocess
import sys
import tempfile
from typing import Any, Iterator

ROOT = pathlib.Path(__file__).resolve().parent.parent
sys.path.insert(0, str(ROOT / "checks"))

import schemas  # noqa: E402

GONE, TWICE, MORE = object(), object(), object()
VALUES: list[Any] = [GONE, TWICE, MORE, None, True, 0, -1, 1.5, 2 ** 63, "", "0", "x", "1.5", "1." + "0" * 19, "1" * 39,
                     "1" * 21, [], [7], {}, "2024-02-30T00:00:00Z", "2024-01-01T00:00:05.1234567891Z", "1969-12-31T23:59:59Z", "a" * 40,
                     "A" * 40, "0" * 39 + "1", "a" * 41, "ua", "uatom", "u atom", "bonded", "send", "yes",
                     [{"denom": "uatom", "amount": "1"}], [{"denom": "uatom", "amount": "1"}] * 2, [{"denom": "u", "amount": "1"}],
                     [{"denom": "uatom", "amount": "1.5"}], [{"denom": "uatom"}], "cosmos1gqqqqqqqqqqqqqqqqqqqqqqqqqqqqqqtdvv75w",
                     "cosmosvaloper1gqqqqqqqqqqqqqqqqqqqqqqqqqqqqqqp9fay4d", "cosmos1gqqqqqqqqqqqqqqqqqqqqqqqqqqqqqqtdvv75q"]


def places(value: Any, path: tuple[Any, ...] = ()) -> Iterator[tuple[Any, ...]]:
    """The places of a value, but of a list only those of its first and its last element."""
    if isinstance(value, dict):
        for name in value:
            yield (*path, name)
            yield from places(value[name], (*path, name))
    elif isinstance(value, list):
        for place in sorted({0, len(value) - 1} & set(range(len(value)))):
            yield (*path, place)
            yield from places(value[place], (*path, place))


def changed(value: Any, path: tuple[Any, ...], other: Any) -> Any:
    """The value with another one at a place: removed, doubled, or with a further member beside it."""
    made = copy.deepcopy(value)
    at = made
    for step in path[:-1]:
        at = at[step]
    if other is GONE:
        del at[path[-1]]
    elif other is TWICE:
        at[path[-1]] = [at[path[-1]]] * 2
    elif other is MORE:
        at.update({"more": 1}) if isinstance(at, dict) else at.append(at[-1])
    else:
        at[path[-1]] = other
    return made


def one_block() -> Any:
    """A block of the example with a transaction of each kind of message, and evidence."""
    blocks = [json.loads(line) for line in (ROOT / "examples/history.jsonl").read_text().splitlines()[1:]]
    good = [end.with_suffix(".jsonl") for end in sorted((ROOT / "cases").glob("*.end")) if end.read_text().startswith("0")]
    blocks += [json.loads(line) for path in good for line in path.read_text().splitlines()[1:]]
    kinds = {message["kind"]: message for block in blocks for tx in block["txs"] for message in tx["msgs"]}
    evidence = next(block["evidence"] for block in blocks if block["evidence"])
    made = dict(blocks[0], height=1, evidence=evidence)
    fee = [{"denom": "uatom", "amount": "1"}]
    made["txs"] = [{"payer": "3" * 40, "fee": fee, "msgs": [message]} for message in kinds.values()]
    return made


def shape_fault(program: str, words: list[str], before: str, line: str, place: int) -> bool:
    """Whether the program finds the line not of its form."""
    done = subprocess.run([program, *words], input=before + line + "\n", capture_output=True, text=True)
    found = re.search(r"line (\d+): (bad shape|not JSON)", done.stderr)
    return bool(found) and int(found[1]) == place


def tries(store: str) -> Iterator[tuple[str, list[str], str, str, int]]:
    """The name of a schema, and how the program is asked of a line."""
    genesis = (ROOT / "examples/history.jsonl").read_text().splitlines()[0]
    statement = json.loads((ROOT / "examples/recipes/life.statements.jsonl").read_text().splitlines()[1])
    ballot = {"kind": "ballot", "voter": "4" * 40, "option": "yes"}
    rows = [("genesis", json.loads(genesis), ["-", "replay"], "", 1), ("statement", statement, ["-", "check"], "", 1),
            ("ballot", ballot, [store, "tally"], "", 1)]
    for name, whole, words, before, place in rows:
        for path in places(whole):
            yield from ((name, words, before, json.dumps(changed(whole, path, other)), place) for other in VALUES)
    block = one_block()
    head = dict(block, txs=[])
    for path in places(head):
        yield from (("block", ["-", "replay"], genesis + "\n", json.dumps(changed(head, path, other)), 2) for other in VALUES)
    for tx in block["txs"]:
        whole = dict(head, votes=[], evidence=[], txs=[tx])
        for path in places(tx["msgs"], ("txs", 0, "msgs")):
            yield from (("block", ["-", "replay"], genesis + "\n", json.dumps(changed(whole, path, other)), 2) for other in VALUES)


def main(program: str) -> int:
    of = schemas.schemas(False)
    with tempfile.TemporaryDirectory() as room:
        store = f"{room}/store"
        given = (ROOT / "examples/history.jsonl").read_bytes()
        subprocess.run([program, store, "replay"], input=given, capture_output=True, check=True)
        rows = list(tries(store))
        rows.sort(key=lambda row: row[0] == "ballot")
        first = sum(row[0] != "ballot" for row in rows)
        with concurrent.futures.ThreadPoolExecutor(4) as pool:
            said = list(pool.map(lambda row: shape_fault(program, *row[1:]), rows[:first]))
        said += [shape_fault(program, *row[1:]) for row in rows[first:]]    # a store takes one run at a time
    bad = failing = 0
    for (name, _, _, line, _), is_fault in zip(rows, said):
        try:
            fault = schemas.fault_of(line.encode(), of[name])
        except ValueError:
            fault = "not JSON"
        failing += is_fault
        if bool(fault) != is_fault:
            bad += 1
            if bad < 20:
                does = "refuses" if is_fault else "takes"
                print(f"schemas_tried: the program {does} the form of a {name}, and the schema says {fault or 'nothing'}: "
                      f"{line[:1500]}")
    print(f"schemas_tried: {len(rows)} changed lines, {failing} not of their form; "
          f"the schemas differ from the program in {bad}")
    return 1 if bad else 0


if __name__ == "__main__":
    sys.exit(main(sys.argv[1]))
