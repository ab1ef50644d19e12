"""A night of a store that follows a chain: goes on with the day's blocks, writes the sheets, and says what wants a look.

Who wants it: whoever keeps a store of a chain, from a timer.
One command:  python3 every_night.py chain.db day.jsonl night --operator OPERATOR --address ADDRESS
              python3 every_night.py chain.db blocks tonight --operator OPERATOR --before night/night.out --export export.json
BLOCKS is a file of the lines of the blocks behind the store's, or a folder with a node's answers for them, of which
`from_blocks.py` makes the lines. What comes of the night goes into the folder NIGHT, which is made: `before.out`, the
report that stood before (of the output that --before names, else of the store itself), `night.out`, what `resume` wrote,
`audit.txt`, `validator_OPERATOR.csv` for each operator, `tax_ADDRESS.csv` for each address, `compare.txt` where there is an
export of the height at the end, and `blocks.jsonl` where BLOCKS is a folder. No file that stands is written over.
What comes out: a line `night ..`, a line `look ..` for each thing that wants a look, and `well` where there is none. A
look wants, of each operator: that it is jailed or not bonded, was slashed or jailed, has missed more votes of its window
than --missed; that the lines do not add up, or a report tells something else than they do; that the store differs from
the export, and what `from_blocks.py` wants to be looked at.
Status: 0 all is well, 1 something wants a look, 2 the call is wrong, or something did not come to its end; the text says
what, and the store has what `night.out` tells.
"""
from __future__ import annotations

import argparse
import json
import os
import pathlib
import re
import subprocess
import sys
from typing import Any, Iterable

from stakeplay.calling import Asked, Parser, a_height, an_address, an_operator, opened, stop
from stakeplay.lines import reading
from stakeplay.lines.reading import Order, lines, report_of, run
from stakeplay.node.answers import Folder
from stakeplay.node.state import read_store
from stakeplay.program import Ended, output

Json = dict[str, Any]
PACKAGE = pathlib.Path(__file__).resolve().parents[2]


def a_prefix(text: str) -> str:
    """A prefix of addresses among the words."""
    if not re.fullmatch("[a-z]{1,20}", text):
        raise argparse.ArgumentTypeError(f"{text!r} is no prefix: 1 to 20 small letters")
    return text


def arguments() -> argparse.Namespace:
    """What the recipe was called with."""
    parser = Parser(__doc__)
    parser.add_argument("store", metavar="STORE", help="the file of the store")
    parser.add_argument("blocks", metavar="BLOCKS", help="the lines of the blocks, or a folder with a node's answers")
    parser.add_argument("night", metavar="NIGHT", help="the folder that is made")
    parser.add_argument("--operator", metavar="OPERATOR", type=an_operator, action="append", default=[],
                        help="a validator that is watched; may stand again")
    parser.add_argument("--address", metavar="ADDRESS", type=an_address, action="append", default=[],
                        help="an account whose sheet is written; may stand again")
    parser.before()
    parser.add_argument("--export", metavar="EXPORT", help="what the chain exports at the height of the last block")
    parser.add_argument("--next", metavar="RESULTS", help="the node's /block_results of the block after that of the export")
    parser.add_argument("--missed", metavar="N", type=a_height, default=0, help="more missed votes of the window want a look (0)")
    parser.add_argument("--bech32", metavar="PREFIX", type=a_prefix, nargs="?", const="",
                        help="lines spell addresses so; without PREFIX it is cosmos")
    parser.unknown()
    return parser.words()


class Night:
    """The files of a night, and what wants a look."""

    def __init__(self, words: argparse.Namespace) -> None:
        self.words, self.room, self.looks = words, pathlib.Path(words.night), 0
        self.next: str | None = words.next
        self.store = [words.store]
        if words.bech32 is not None:
            self.store.append(f"bech32:{words.bech32}" if words.bech32 else "bech32")

    def path(self, name: str) -> str:
        """Where a file of the night stands."""
        return str(self.room / name)

    def look(self, what: str) -> None:
        """Tells what wants a look."""
        self.looks += 1
        print(f"look {what}", flush=True)

    def resume(self, name: str, given: Iterable[bytes]) -> str:
        """What `resume` writes of lines, in a file."""
        with open(self.path(name), "xb") as file:
            try:
                file.writelines(output([*self.store, "resume"], given))
            except Ended as ended:
                stop(f"{self.words.store}: resume: {ended}")
        return self.path(name)

    def recipe(self, name: str, words: list[str], made: str) -> tuple[bool, list[str]]:
        """What another recipe writes, in a file: whether it ended with 0 and not with 1, and what it said."""
        around = dict(os.environ, PYTHONPATH=os.pathsep.join(filter(None, [str(PACKAGE), os.environ.get("PYTHONPATH")])))
        command = [sys.executable, "-m", "stakeplay", name, *words]
        with open(self.path(made), "xb") as file:
            done = subprocess.run(command, stdin=subprocess.DEVNULL, stdout=file, stderr=subprocess.PIPE, env=around)
        told = done.stderr.decode(errors="replace").splitlines()
        if done.returncode not in (0, 1):
            stop(f"{name}: {told[-1] if told else f'it ended with {done.returncode}'}")
        return done.returncode == 0, told

    # ---- its steps

    def judge(self, blocks: str | None) -> None:
        """Judges what the call names, before the store goes on."""
        words = self.words
        if blocks is not None:
            with opened(blocks) as file:
                if not is_block(file.readline()):
                    stop(f"{blocks}: its first line is no block")
        for name in (words.export, words.next):
            if name is not None:
                opened(name).close()
        if words.export is None and words.next is not None:
            stop("--next belongs to --export")

    def forms(self, before: str) -> None:
        """Holds the addresses against the report before, which has to name them."""
        is_any = self.words.allow_unknown
        asked = [Asked(self.words.operator, is_operator=True, allow_unknown=is_any), Asked(self.words.address, allow_unknown=is_any)]
        for line in report_of(before, Order()):
            for one in asked:
                one.take(line["kind"], line)
        for one in asked:
            one.end()

    def of_node(self) -> str:
        """The lines of a node's answers, from the store's height on."""
        folder = self.words.blocks
        first, last = read_store(self.words.store).height + 1, Folder(folder).heights()[1]
        if last < first:
            stop(f"{folder}: its last block is {last}, and the store stands at {first - 1}")
        for text in self.recipe("from-blocks", [folder, str(first), str(last)], "blocks.jsonl")[1]:
            if text.startswith("look "):
                self.look(f"blocks: {text.removeprefix('look ')}")
        results = pathlib.Path(folder, f"block_results_{last + 1}.json")
        self.next = self.next or (str(results) if results.exists() else None)
        return self.path("blocks.jsonl")

    def sheets(self, made: str, blocks: str, before: str) -> None:
        """The sheets of operators and addresses, and the audit."""
        behind = [made, blocks, "--before", before]
        for operator in self.words.operator:
            is_well, told = self.recipe("validator-sheet", [operator, *behind], f"validator_{operator}.csv")
            if not is_well:
                self.look(f"{operator}: {told[-1] if told else 'its sheet does not agree with a report'}")
        for address in self.words.address:
            self.recipe("tax-sheet", [address, *behind, "--allow-unknown"], f"tax_{address}.csv")
        if not self.recipe("audit", behind, "audit.txt")[0]:
            self.look(f"the lines do not add up: {self.path('audit.txt')}")

    def watch(self, made: str, before: str) -> None:
        """What the lines of the night tell of the operators that are watched."""
        words, first, last = self.words, 0, 0
        told: dict[str, Json] = {}      # of the last report: by an operator its validator, and by cons its signing record
        found: list[str] = []
        for line in lines(made, before):
            kind, who = line["kind"], line.get("validator")
            if kind == "block":
                first, last = first or line["height"], line["height"]
            elif kind == "supply":
                told = {}
            elif kind in ("validator", "signing"):
                told[line["operator" if kind == "validator" else "cons"]] = line
            elif kind in ("slashed", "jailed", "tombstoned") and who in words.operator:
                part = f", {line['burned']} burned" if kind == "slashed" else ""
                found.append(f"{who}: {kind} in block {line['height']}, line {reading.PLACE}{part}")
        print(f"night {made}: blocks {first} to {last}", flush=True)
        for text in found:
            self.look(text)
        for operator in words.operator:
            self.stand(operator, told)

    def stand(self, operator: str, told: dict[str, Json]) -> None:
        """How a validator stands at the end."""
        validator = told.get(operator)
        if validator is None:
            return self.look(f"{operator}: is no validator at the end")
        missed = told.get(validator["cons"], {}).get("missed", 0)
        if validator["jailed"]:
            self.look(f"{operator}: is jailed")
        elif validator["status"] != "bonded":
            self.look(f"{operator}: is {validator['status']}")
        if missed > self.words.missed:
            self.look(f"{operator}: {missed} votes of the window are missed, more than {self.words.missed}")

    def compare(self) -> None:
        """Holds the store against the chain's export."""
        if self.words.export is None:
            return
        more = [] if self.next is None else ["--next", self.next]
        is_same, _ = self.recipe("compare-export", [self.words.store, self.words.export, *more], "compare.txt")
        if not is_same:
            with open(self.path("compare.txt"), "rb") as file:
                self.look(f"the export differs: {sum(1 for _ in file)} lines in {self.path('compare.txt')}")


def is_block(text: bytes) -> bool:
    """Whether a line is that of a block."""
    try:
        line = json.loads(text.decode())
    except (ValueError, RecursionError):
        return False
    return isinstance(line, dict) and line.get("kind") == "block" and type(line.get("height")) is int


def main() -> int:
    """Plays the night."""
    words = arguments()
    night, is_node = Night(words), os.path.isdir(words.blocks)
    night.judge(None if is_node else words.blocks)
    if words.before is not None:
        night.forms(words.before)
    os.mkdir(words.night)
    before = words.before
    if before is None:
        before = night.resume("before.out", [])
        night.forms(before)
    blocks = night.of_node() if is_node else words.blocks
    with open(blocks, "rb") as file:
        made = night.resume("night.out", file)
    night.watch(made, before)
    night.sheets(made, blocks, before)
    night.compare()
    if not night.looks:
        print("well")
    return 1 if night.looks else 0


def command() -> None:
    """Runs the recipe."""
    run(main)
