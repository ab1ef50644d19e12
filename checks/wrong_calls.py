#!/usr/bin/env python3
"""Calls every recipe and stakeplay.sh wrongly, in each way that words allow, and asks that none ends with 0 or a traceback.

  checks/wrong_calls.py       prints how many calls there were, and those that end so
  checks/wrong_calls.py -v    prints each call, how it ended and what it said

Wrong are words (too few, too many, unknown), addresses (mistyped, cut, of another form or kind, such as no line names),
heights and counts, and files: those that are missing, folders, empty, binary, compressed, cut, of another format or of
another run. Each is put in the place of one word of a call that is right, which is made too and has to end with 0.
A recipe says why in one line, and ends with 2; where 1 means that something does not add up, 1 is taken as well. The script
ends with 1, in the program's line and one that says why.
Its status is 0 where all is so. Needs Python alone, and no program.
"""
from __future__ import annotations

import contextlib
import dataclasses
import gzip
import http.server
import importlib
import json
import os
import pathlib
import runpy
import signal
import subprocess
import sys
import tempfile
import traceback
from typing import Iterator, NoReturn

ROOT = pathlib.Path(__file__).resolve().parent.parent
RECIPES, EXAMPLES, DATA = ROOT / "examples/recipes", ROOT / "examples", ROOT / "examples/recipes/data"
sys.path.insert(0, str(ROOT / "python" / "src"))

from stakeplay.addresses import bech32  # noqa: E402
from stakeplay.commands import RECIPES as RECIPES_OF_PACKAGE  # noqa: E402

PARTS = 4

USER, OTHER, OPERATOR = "03" + "07" * 19, "09" + "07" * 19, "02" + "07" * 19
NOBODY = bytes.fromhex("ab" * 20)
# addresses that are none, or of nobody, in a run whose addresses are hexadecimal
WRONG_EVERYWHERE = [
    "", "hello", "07", USER[:-1], USER + "0", USER[:-1] + "g", "0x" + USER, USER.upper().replace("0", "A"), " " + USER,
    bech32("cosmos", NOBODY)[:-1], bech32("cosmos", NOBODY)[:-1] + "b", bech32("cosmos", NOBODY).upper(),
    bech32("cosmos", NOBODY[:19]), bech32("cosmosvalcons", NOBODY), "cosmos1", "-", "7" * 40 + "\n"]
WRONG_ACCOUNTS = WRONG_EVERYWHERE + [
    USER[:-1] + "8", NOBODY.hex(), bech32("cosmos", bytes.fromhex(USER)), bech32("osmo", bytes.fromhex(USER)),
    bech32("cosmosvaloper", bytes.fromhex(OPERATOR))]
WRONG_OPERATORS = WRONG_EVERYWHERE + [
    OPERATOR[:-1] + "8", NOBODY.hex(), bech32("cosmosvaloper", bytes.fromhex(OPERATOR)), bech32("cosmos", NOBODY),
    "fee_collector", USER]
WRONG_HEIGHTS = ["", "-1", "1.5", "x", "1e1", "9" * 30, "+1", " 1", "٣"]
WRONG_EXPONENTS = ["", "uatom", "uatom=", "uatom=x:ATOM", "uatom=-1:ATOM", "uatom=6", "=6:ATOM", "uatom=6:"]
WRONG_PARTS = ["", "x", "-0.1", "1.5", "nan", "5%"]
WRONG_COUNTS = ["", "0", "-5", "1.5", "x", "9" * 30]


@dataclasses.dataclass
class Call:
    """A call of a recipe; `is_right` where it is to end with 0."""
    words: list[str]
    given: bytes = b""
    is_right: bool = False
    may_be_1: bool = False      # 1 is a status that says so, too
    many_lines: bool = False    # notes may stand before the line
    status: int = 2             # by which it is to end


# ---- files

def bad_files(room: pathlib.Path, good: pathlib.Path, others: list[pathlib.Path]) -> Iterator[str]:
    """Files that may not stand in the place of a good one."""
    text, name = good.read_bytes(), good.name
    kinds = {"empty": b"", "binary": bytes(range(256)) * 9, "compressed": gzip.compress(text), "cut": text[:len(text) * 2 // 3],
             "list": b"[1,2]\n", "text": b"hello\n", "log": b'{"level":"info","msg":"started"}\n', "brackets": b"[" * 200000,
             "csv": b"time,height,what\n", "marked": b"\xef\xbb\xbf" + text,
             "wide": text.decode(errors="ignore").encode("utf-16")}
    yield str(room / "missing")
    yield str(room)
    yield ""
    for kind, made in kinds.items():
        path = room / f"{kind}-{name}"
        path.write_bytes(made)
        yield str(path)
    yield from map(str, others)


def cut_between(room: pathlib.Path, good: pathlib.Path, keep: int) -> str:
    """The first lines of a file."""
    path = room / f"front-{keep}-{good.name}"
    path.write_bytes(b"".join(good.read_bytes().splitlines(keepends=True)[:keep]))
    return str(path)


def without(room: pathlib.Path, good: pathlib.Path, text: bytes) -> str:
    """A file without the lines that have a text."""
    path = room / f"without-{text.hex()}-{good.name}"
    path.write_bytes(b"".join(line for line in good.read_bytes().splitlines(keepends=True) if text not in line))
    return str(path)


# ---- calls

def in_place(words: list[str], place: int, others: list[str], **how: bool) -> Iterator[Call]:
    """Calls with another word in one place."""
    for other in others:
        yield Call(words[:place] + [other] + words[place + 1:], **how)


def wrong_words(words: list[str], least: int, most: int | None, **how: bool) -> Iterator[Call]:
    """Calls with too few words, too many, and flags that are none. `least` counts the words that have to be there."""
    for count in range(1, least + 1):
        yield Call(words[:count], **how)
    if most is not None:
        yield Call([*words, *["more"] * (most + 1 - len(words) + 1)], **how)
    yield Call([*words, "--no-such-flag"], **how)
    yield Call([words[0], "--hel"], **how)
    yield Call([words[0], "-x", *words[1:]], **how)


class Calls:
    """All calls, over files in a room."""

    def __init__(self, room: pathlib.Path, server: str):
        self.room, self.server = room, server
        self.out, self.inp = EXAMPLES / "life.out", EXAMPLES / "life.jsonl"
        self.other_inp = EXAMPLES / "history.jsonl"
        self.store = room / "chain.db"
        made = ["from_export.py", str(DATA / "export_1000.json"), str(self.store), "--head", str(DATA / "block_1000.json")]
        subprocess.run([sys.executable, RECIPES / made[0], *made[1:]], check=True, capture_output=True)

    def bad_outputs(self) -> list[str]:
        """What may not stand in the place of an output."""
        others = [self.inp, DATA / "export_1000.json", EXAMPLES / "refusals.csv", self.store]
        found = list(bad_files(self.room, self.out, others))
        found += [cut_between(self.room, self.out, keep) for keep in (1, 40, 98)]
        texts = b'"height":2,', b'"kind":"pool"', b'"tx":0', b'"kind":"supply"'
        return found + [without(self.room, self.out, text) for text in texts]

    def bad_inputs(self, first_line_only: bool = False) -> list[str]:
        """What may not stand in the place of an input."""
        found = list(bad_files(self.room, self.inp, [self.out, self.other_inp, DATA / "genesis.json", self.store]))
        if first_line_only:     # a file that is cut later is as good
            return [name for name in found if "/cut-" not in name]
        return found + [cut_between(self.room, self.inp, 1), without(self.room, self.inp, b'"height":3,')]

    def all(self) -> Iterator[Call]:
        """Every call, those that are right among them."""
        for part in (self.tax_sheet, self.reconcile, self.validator_sheet, self.audit, self.refusals, self.statements,
                     self.proposal, self.stores, self.exports, self.blocks, self.fetching, self.long_run, self.watching,
                     self.package, self.page, self.operator_day, self.tax_year, self.nights, self.script):
            yield from part()

    def tax_sheet(self) -> Iterator[Call]:
        words = ["tax_sheet.py", USER, str(self.out), str(self.inp), "--statements", str(RECIPES / "life.statements.jsonl")]
        yield Call(words, is_right=True)
        yield from wrong_words(words[:4], 2, 3)
        yield Call(words[:5])
        yield from in_place(words[:3], 1, WRONG_ACCOUNTS)
        yield from in_place(words[:4], 1, [NOBODY.hex()])
        yield from in_place(words[:3], 2, self.bad_outputs())
        yield from in_place(words, 3, self.bad_inputs())
        statements = RECIPES / "life.statements.jsonl"
        moved = self.room / "moved.jsonl"
        moved.write_text(statements.read_text().replace('"height":2', '"height":3'))
        bad = [name for name in bad_files(self.room, statements, [self.out, moved]) if "/empty-" not in name]
        yield from in_place(words, 5, bad)
        yield Call(["tax_sheet.py", USER, str(self.out), "statements="])
        yield Call(["tax_sheet.py", USER, str(self.out), "--hashes", str(self.room)])
        yield Call(["tax_sheet.py", USER, str(self.out), "--hashes", str(self.out)])

    def reconcile(self) -> Iterator[Call]:
        words = ["reconcile.py", "1", "5", str(self.out), USER, OTHER]
        listed = self.room / "addresses"
        listed.write_text(f"# ours\n{USER}\n\n{OTHER}\n")
        yield Call(words, is_right=True)
        yield Call([*words[:4], "--addresses", str(listed)], is_right=True)
        yield Call([*words[:4], f"@{listed}"], is_right=True)
        yield from wrong_words(words, 4, None)
        yield from in_place(words, 1, WRONG_HEIGHTS + ["6"])
        yield from in_place(words, 2, WRONG_HEIGHTS + ["0", "6", "600"])
        yield from in_place(words, 3, self.bad_outputs())
        yield from in_place(words, 5, WRONG_ACCOUNTS)
        bad = list(bad_files(self.room, listed, [self.out]))
        short = self.room / "short"
        short.write_text(f"{USER}\n{OTHER[:-1]}\n")
        yield from in_place([*words[:4], "--addresses", ""], 5, [*bad, str(short), "@", str(self.room)])
        yield from in_place([*words[:4], ""], 4, [*(f"@{name}" for name in bad), f"@{short}", "@"])
        folder = ROOT / "cases/bech32"
        spelled = [bech32("cosmos", bytes.fromhex(USER)), USER, bech32("osmo", bytes.fromhex(USER)), bech32("cosmos", NOBODY)]
        right, *wrong = [["reconcile.py", "1", "5", str(folder / "life.out"), text] for text in spelled]
        yield Call(right, is_right=True)
        yield from map(Call, wrong)

    def validator_sheet(self) -> Iterator[Call]:
        words = ["validator_sheet.py", OPERATOR, str(self.out), str(self.inp), "--svg", str(self.room / "picture.svg")]
        yield Call(words, is_right=True)
        yield from wrong_words(words[:4], 2, 3)
        yield Call(words[:5])
        yield from in_place(words[:3], 1, WRONG_OPERATORS)
        yield from in_place(words, 1, [NOBODY.hex()])
        yield from in_place(words[:3], 2, self.bad_outputs())
        yield from in_place(words, 3, self.bad_inputs())
        yield from in_place(words, 5, [str(self.room), str(self.room / "no/such/folder"), ""])

    def audit(self) -> Iterator[Call]:
        words = ["audit.py", str(self.out), str(self.inp)]
        yield Call(words, is_right=True)
        yield from wrong_words(words, 1, 2)
        yield from in_place(words[:2], 1, self.bad_outputs(), may_be_1=True)
        yield from in_place(words, 2, self.bad_inputs(first_line_only=True), may_be_1=True)

    def refusals(self) -> Iterator[Call]:
        hashes = self.room / "hashes.csv"
        hashes.write_text("height,tx,hash\n3,1,ABCDEF\n")
        words = ["refusals.py", str(self.out), str(self.inp), "--address", USER, "--hashes", str(hashes)]
        yield Call(words, is_right=True)
        yield from wrong_words(words[:3], 1, 2)
        yield from (Call(words[:count]) for count in (4, 6))
        yield from in_place(words[:2], 1, self.bad_outputs())
        yield from in_place(words, 2, self.bad_inputs())
        yield from in_place(words, 4, WRONG_ACCOUNTS)
        yield from in_place(words, 6, [n for n in bad_files(self.room, hashes, [self.out]) if "/marked-" not in n])

    def statements(self) -> Iterator[Call]:
        good = RECIPES / "life.statements.jsonl"
        words = ["check_statement.py", str(good)]
        yield Call(words, is_right=True)
        yield from wrong_words(words, 1, None)
        bad = list(bad_files(self.room, good, [self.out, self.inp, self.store]))
        yield from in_place(words, 1, bad)
        yield Call(["check_statement.py", "bech32", str(good)])
        yield Call(["check_statement.py", "bech33", str(good)])
        yield Call(["check_statement.py", str(good), "bech32"])
        yield Call(["check_statement.py", "bech32", "bech32", str(good)])
        yield from in_place(["check_statement.py", "bech32", ""], 2, bad[:3])

    def proposal(self) -> Iterator[Call]:
        good = self.room / "tally.jsonl"
        good.write_text('{"abstain":"0.000000000000000000","bonded":"2597000","kind":"tally","no":"300000.000000000000000000",'
                        '"no_with_veto":"0.000000000000000000","yes":"1297000.000000000000000000"}\n')
        words = ["proposal.py", str(good), "0.334", "0.5", "0.334"]
        yield Call(words, is_right=True)
        yield from wrong_words(words, 1, 4)
        yield from (Call(words[:count]) for count in (3, 4))
        yield from in_place(words, 1, list(bad_files(self.room, good, [self.out, self.inp, self.store])))
        for place in (2, 3, 4):
            yield from in_place(words, place, ["", "x", "-0.1", "1.5", "1/3", "nan", "33%", "0,5", "9" * 50])
        for member, other in (("bonded", '"-1"'), ("yes", "1297000"), ("no", '"x"'), ("kind", '"pool"')):
            path = self.room / f"tally-{member}.jsonl"
            line = good.read_text()
            path.write_text(line.replace(f'"{member}":"', f'"{member}":{other},"more":"'))
            yield Call(["proposal.py", str(path)])

    def stores(self) -> Iterator[Call]:
        copy = self.room / "first.db"
        words = ["first_format.py", str(self.store), str(copy)]
        yield from wrong_words(words, 2, 2)
        bad = list(bad_files(self.room, self.store, [self.out, DATA / "export_1000.json"]))
        yield from (Call(["first_format.py", name, str(self.room / f"copy-{place}.db")]) for place, name in enumerate(bad))
        yield from in_place(words, 2, [str(self.store), str(self.room), str(self.room / "no/such/copy"), str(self.out)])

    def exports(self) -> Iterator[Call]:
        how = {"many_lines": True}
        export, head, results = DATA / "export_1000.json", DATA / "block_1000.json", DATA / "blocks/block_results_1001.json"
        words = ["from_export.py", str(export), str(self.room / "made.db"), "--head", str(head), "--next", str(results),
                 "--reserve", "uatom"]
        yield from wrong_words(words[:5], 2, 4)
        yield Call(words[:4])
        for place, good in ((1, export), (4, head), (6, results)):
            others = [self.out, DATA / "genesis.json", self.store]
            yield from in_place(words, place, list(bad_files(self.room, good, others)), **how)
        yield from in_place(words, 2, [str(self.room), str(self.room / "no/such/store"), str(self.out)], **how)
        yield from in_place(words, 8, ["U", "1uatom", "uatom,1", "-"], **how)
        yield from (Call([*words[:7], "--power-reduction", text], **how) for text in WRONG_COUNTS)
        yield from in_place(["from_export.py", "", "--genesis"], 1,
                            list(bad_files(self.room, DATA / "genesis.json", [export, self.out])), **how)
        yield Call(["from_export.py", str(DATA / "genesis.json"), str(self.room / "made.db"), "--genesis"])
        words = ["to_export.py", str(self.store), "--next", str(results), "--prefix", "cosmos"]
        yield Call(words, is_right=True)
        yield from wrong_words(words[:2], 1, 1)
        bad_stores = list(bad_files(self.room, self.store, [self.out, export]))
        yield from in_place(words[:2], 1, bad_stores)
        others = [self.out, head, DATA / "blocks/block_results_1003.json"]
        yield from in_place(words, 3, list(bad_files(self.room, results, others)))
        yield from in_place(words, 5, ["", "Cosmos", "cosmosvaloper", "1", "cos mos", "-"])
        words = ["compare_export.py", str(self.store), str(export)]
        yield Call(words, is_right=True)
        yield from wrong_words(words, 2, 2)
        yield from in_place(words, 1, bad_stores)
        others = [self.out, DATA / "genesis.json", self.store]
        yield from in_place(words, 2, list(bad_files(self.room, export, others)), may_be_1=True)
        yield from in_place([*words, "--next", ""], 4, list(bad_files(self.room, results, [head]))[:6])

    def blocks(self) -> Iterator[Call]:
        empty = self.room / "no-blocks"
        empty.mkdir()
        words = ["from_blocks.py", str(DATA / "blocks"), "1001", "1003", "--hashes", str(self.room / "told.csv")]
        yield Call(words, is_right=True)
        yield from wrong_words(words[:4], 1, 3, many_lines=True)
        yield Call(words[:3])
        yield Call(words[:5])
        yield from in_place(words[:2], 1, [str(self.room / "missing"), str(self.out), str(empty), "", "-"])
        yield from in_place(words[:4], 2, WRONG_HEIGHTS + ["0", "1004"])
        yield from in_place(words[:4], 3, WRONG_HEIGHTS + ["0", "1000", "2000"], many_lines=True)
        yield from in_place(words, 5, [str(self.room), str(self.room / "no/such/file"), ""], many_lines=True)

    def fetching(self) -> Iterator[Call]:
        server = self.server
        words = ["fetch_blocks.py", server, server, str(self.room / "fetched"), "1001", "1002"]
        yield from wrong_words(words, 5, 5)
        yield Call(words)   # the server answers with a page of another kind
        bad = ["", "localhost:26657", "ftp://localhost", "http://", "http:///block", "file:///etc/hosts", "http://[::1"]
        bad.append(server + "?x=1")
        yield from in_place(words, 1, [*bad, "http://localhost:1"])
        yield from in_place(words, 2, bad)
        yield from in_place(words, 3, [str(self.out), str(self.out / "below")])
        yield from in_place(words, 4, WRONG_HEIGHTS + ["0", "1003"])
        yield from in_place(words, 5, WRONG_HEIGHTS + ["0", "1000"])

    def long_run(self) -> Iterator[Call]:
        yield Call(["long_run.py", "2"], is_right=True)
        yield from wrong_words(["long_run.py", "2"], 1, 1)
        yield from in_place(["long_run.py", "2"], 1, WRONG_COUNTS)

    def watching(self) -> Iterator[Call]:
        yield Call(["watch.sh", str(self.out)], is_right=True)
        yield Call(["watch.sh", str(self.out), "more"])
        yield Call(["watch.sh", "--no-such-flag"])
        # it passes lines on, and does not ask for the outcome of each transaction or the whole of a report
        passed = [without(self.room, self.out, text) for text in (b'"tx":0', b'"kind":"supply"')]
        yield from in_place(["watch.sh", ""], 1, [name for name in self.bad_outputs() if name not in passed])
        yield from (Call([f"EVERY={text}", "watch.sh", str(self.out)]) for text in ("0", "-1", "x", "", "1.5"))

    def package(self) -> Iterator[Call]:
        wrong = [], ["no-such-recipe"], ["--no-such-flag"], [""], ["tax-sheet"], ["tax-sheet", USER, str(self.room)]
        yield from (Call(["stakeplay", *words]) for words in wrong)


    def page(self) -> Iterator[Call]:
        words = ["page.py", str(self.out), str(self.inp)]
        yield Call(words, is_right=True)
        more = "--denom", "uatom", "--window", "9", "--min-signed", "0.5", "--exponent", "uatom=6:ATOM", "--only", USER
        yield Call([*words, *more], is_right=True)
        yield from wrong_words(words, 1, None)
        yield from in_place(words[:2], 1, self.bad_outputs())
        yield from in_place(words, 2, self.bad_inputs())
        yield from in_place([*words, "--only", ""], 4, WRONG_ACCOUNTS)
        yield from in_place([*words, "--exponent", ""], 4, WRONG_EXPONENTS)
        yield from in_place([*words, "--denom", ""], 4, ["", "u", "no denom", "uosmo"])
        for flag, texts in (("--window", WRONG_COUNTS), ("--min-signed", WRONG_PARTS), ("--most-bytes", WRONG_COUNTS),
                            ("--jobs", WRONG_COUNTS)):
            yield from in_place([*words, flag, ""], 4, texts)
        yield Call([*words, "--jobs", "3"], is_right=True)

    def operator_day(self) -> Iterator[Call]:
        words = ["operator_day.py", OPERATOR, str(self.out), str(self.inp)]
        yield from wrong_words(words, 2, None)
        yield from in_place(words[:3], 1, WRONG_OPERATORS)
        yield from in_place(words[:3], 2, self.bad_outputs())
        yield from in_place(words, 3, self.bad_inputs())
        yield from in_place([*words, "--exponent", ""], 5, WRONG_EXPONENTS)
        yield from in_place([*words, "--window", ""], 5, WRONG_COUNTS)
        for flag in ("--min-signed", "--missed", "--left"):
            yield from in_place([*words, flag, ""], 5, WRONG_PARTS)

    def tax_year(self) -> Iterator[Call]:
        words = ["tax_sheet.py", USER, str(self.out), str(self.inp), "--year", "2024", "--format", "plain"]
        yield Call(words, is_right=True)
        yield from in_place(words, 1, [NOBODY.hex(), USER[:-1] + "8"])
        yield from in_place(words, 2, self.bad_outputs())
        yield from in_place(words, 3, self.bad_inputs())
        yield from in_place(words, 5, ["", "-1", "x", "24", "20240", "2024.5"])
        yield from in_place(words, 7, ["", "x", "koinlyy"])
        yield from in_place([*words, "--exponent", ""], 9, WRONG_EXPONENTS)
        prices = self.room / "prices.csv"
        prices.write_text("date,denom,price\n2024-01-01,uatom,0.00001\n")
        hashes = self.room / "year-hashes.csv"
        hashes.write_text("height,tx,hash\n3,1,ABCDEF\n")
        yield Call([*words, "--hashes", str(hashes)], is_right=True)
        bad = [name for name in bad_files(self.room, hashes, [self.out]) if "/marked-" not in name]
        yield from in_place([*words, "--hashes", ""], 9, bad)
        bad = [name for name in bad_files(self.room, prices, [self.out]) if "/marked-" not in name]  # spreadsheets mark it so
        yield from in_place([*words, "--prices", ""], 9, bad)

    def nights(self) -> Iterator[Call]:
        """Nights that are wrong from the start: no program runs, and no store goes on."""
        day, rest = self.room / "day.jsonl", self.room / "day.out"
        day.write_bytes(b"".join(self.inp.read_bytes().splitlines(keepends=True)[4:]))
        text = self.out.read_bytes()
        rest.write_bytes(text[text.index(b'{"height":4,"kind":"block"'):])
        # the report at its end is all that is read of an output before
        before = [name for name in bad_files(self.room, self.out, [self.inp, self.store]) if "/marked-" not in name]
        before += [cut_between(self.room, self.out, 40), cut_between(self.room, self.out, 98)]
        before += [without(self.room, self.out, b'"kind":"pool"'), without(self.room, self.out, b'"kind":"supply"')]
        words = ["every_night.py", str(self.store), str(day), str(self.room / "night"), "--before", str(self.out)]
        yield from wrong_words(words[:4], 3, 3)
        yield Call(words[:5])
        bad = [name for name in bad_files(self.room, day, [self.out, self.inp, self.store]) if "/cut-" not in name]
        yield from in_place(words, 2, [name for name in bad if name != str(self.room)])
        yield from in_place(words, 3, ["", str(self.room), str(self.room / "no/such/night"), str(self.out)])
        yield from in_place(words, 5, before)
        for flag, texts in (("--operator", WRONG_OPERATORS), ("--address", WRONG_ACCOUNTS), ("--missed", WRONG_HEIGHTS),
                            ("--bech32", ["", "Cosmos", "1", "a b", "a" * 21]), ("--next", [str(self.out)]),
                            ("--export", ["", str(self.room), str(self.room / "missing")])):
            yield from in_place([*words, flag, ""], 7, texts)
        for sheet in (["validator_sheet.py", OPERATOR], ["tax_sheet.py", USER], ["audit.py"],
                      ["tax_sheet.py", USER, "--year", "2024"]):
            yield Call([*sheet, str(rest), str(day), "--before"])
            yield from in_place([*sheet, str(rest), str(day), "--before", ""], len(sheet) + 3, before)
            yield Call([*sheet, str(self.out), str(self.inp), "--before", str(self.out)])

    def script(self) -> Iterator[Call]:
        """Commands of stakeplay.sh with wrong words and flags, which it tells without a program (checks/commands.sh has more)."""
        right = {"replay": "", "resume": "--store x", "query": "supply --store x", "tally": "--store x",
                 "statement": f"{USER} {OPERATOR}", "check": "", "gen": "7 5", "trial": "7 5"}
        for name, words in right.items():
            call = ["stakeplay.sh", name, *words.split()]
            flags = "--no-such-flag", "-x", "--store", "--store=", "--height", "--height=x", "--every", "--every=0", "--bech32=1"
            rows = [[*call, "more"], [*call, "--bech32", "--bech32"], ["stakeplay.sh", name.upper(), *call[2:]],
                    *([*call, flag] for flag in flags), *([call[0], flag, *call[1:]] for flag in ("--nothing", "-s"))]
            yield from (Call(row, status=1, many_lines=True) for row in rows)
        for words in ([], ["a", "b"], ["--remove"], ["--remove", "no/such"], ["--nothing"], [""], ["-x"], ["--remove", ""]):
            yield Call(["install.sh", *words])
        for text in WRONG_COUNTS:
            yield from (Call(["stakeplay.sh", name, "7", text], status=1, many_lines=True) for name in ("gen", "trial"))
        for text in WRONG_HEIGHTS:
            yield Call(["stakeplay.sh", "query", "supply", "--store", "x", "--height", text], status=1, many_lines=True)
        for text in ("", "Supply", "delegation", "supplies", "account", "supply pool", "account x y"):
            yield Call(["stakeplay.sh", "query", *text.split(), "--store", "x"], status=1, many_lines=True)


# ---- running them

Ending = tuple[int, str]    # the status of a call, and what it said


def started(call: Call, room: str) -> Ending:
    """How a call ends that is started as a user does."""
    words = list(call.words)
    around = dict(os.environ, PYTHONPYCACHEPREFIX=f"{room}/cache", PYTHONPATH=str(ROOT / "python/src"))
    around.pop("PYTHONDONTWRITEBYTECODE", None)
    if words[0].startswith("EVERY="):
        around["EVERY"] = words.pop(0)[6:]
    if words[0] == "stakeplay":
        command = [sys.executable, "-m", *words]
    else:
        path = ROOT / words[0] if words[0] in ("stakeplay.sh", "install.sh") else RECIPES / words[0]
        command = ["bash" if words[0].endswith(".sh") else sys.executable, str(path), *words[1:]]
    done = subprocess.run(command, input=call.given, capture_output=True, env=around, cwd=room)
    return done.returncode, done.stderr.decode(errors="replace")


def forked(call: Call, room: str) -> Ending:
    """How a call ends in a copy of this process, which has the package at hand: a start of Python takes most time."""
    with tempfile.TemporaryFile() as given, tempfile.TemporaryFile() as told:
        given.write(call.given)
        given.seek(0)
        child = os.fork()
        if not child:
            carried_out(call, room, given.fileno(), told.fileno())
        _, ending = os.waitpid(child, 0)
        told.seek(0)
        return os.waitstatus_to_exitcode(ending), told.read().decode(errors="replace")


def carried_out(call: Call, room: str, given: int, told: int) -> NoReturn:
    """Makes a call in a copy of this process, and ends it."""
    status = 1
    try:
        os.dup2(given, 0)
        os.dup2(os.open(os.devnull, os.O_WRONLY), 1)
        os.dup2(told, 2)
        os.chdir(room)
        signal.alarm(300)
        sys.argv = [str(RECIPES / call.words[0]), *call.words[1:]]
        runpy.run_path(sys.argv[0], run_name="__main__")
        status = 0
    except SystemExit as end:
        status = end.code if isinstance(end.code, int) else int(end.code is not None)
    except BaseException:
        traceback.print_exc()
    finally:
        with contextlib.suppress(Exception):
            sys.stdout.flush()
        sys.stderr.flush()
        os._exit(status)


def ended(call: Call, room: str) -> Ending:
    """How a call ends; a right one and one of a shell script is started by itself."""
    is_script = call.words[0].endswith(".py")
    return forked(call, room) if is_script and not call.is_right else started(call, room)


def all_ended(calls: list[Call], room: str) -> list[Ending]:
    """How calls end, made by four processes, each of which has its part of them."""
    for name in list(RECIPES.glob("*.py")):     # the package is read before the processes part
        importlib.import_module(f"stakeplay.{folder_of(name.stem)}.{name.stem}")
    sys.stdout.flush()
    parts: list[pathlib.Path] = [pathlib.Path(room, f"ended-{part}") for part in range(PARTS)]
    children = []
    for part, path in enumerate(parts):
        child = os.fork()
        if not child:
            path.write_text(json.dumps([ended(call, room) for call in calls[part::PARTS]]))
            os._exit(0)
        children.append(child)
    for child in children:
        os.waitpid(child, 0)
    results: list[Ending] = [(0, "was not made")] * len(calls)
    for part, path in enumerate(parts):
        results[part::PARTS] = [tuple(ending) for ending in json.loads(path.read_text())]
    return results


def folder_of(name: str) -> str:
    """The folder of a recipe's module."""
    return RECIPES_OF_PACKAGE[name.replace("_", "-")][0]


def fault_of(call: Call, status: int, err: str) -> tuple[bool, str]:
    """Whether a call ended with 0 or a traceback, and what else is not as it is to be."""
    if call.is_right:
        return False, "" if status == 0 else f"is right, and ended with {status}"
    is_silent = status == 0 or "Traceback" in err
    lines = err.splitlines()
    if is_silent:
        return True, f"ended with {status}"
    if status != call.status and not (status == 1 and call.may_be_1):
        return False, f"ended with {status}, not {call.status}"
    is_told = status == 1 and call.may_be_1 or (lines if call.many_lines else len(lines) == 1) and bool(lines[-1].strip())
    return False, "" if is_told else f"said {len(lines)} lines"


class Page(http.server.BaseHTTPRequestHandler):
    """A server that is no node."""

    def do_GET(self) -> None:
        self.send_response(200)
        self.end_headers()
        self.wfile.write(b"<html>hello</html>")

    def log_message(self, *_: object) -> None:
        """Says nothing."""


@contextlib.contextmanager
def served() -> Iterator[str]:
    """The place of that server, which runs in a process of its own."""
    with http.server.HTTPServer(("127.0.0.1", 0), Page) as server:
        child = os.fork()
        if not child:
            server.serve_forever()
        try:
            yield f"http://127.0.0.1:{server.server_port}"
        finally:
            os.kill(child, signal.SIGKILL)
            os.waitpid(child, 0)


def main(is_told: bool) -> int:
    """Makes the calls, and tells of those at fault."""
    with tempfile.TemporaryDirectory() as room, served() as server:
        calls = list(Calls(pathlib.Path(room), server).all())
        results = all_ended(calls, room)
    silent = others = 0
    for call, (status, err) in zip(calls, results):
        is_silent, fault = fault_of(call, status, err)
        silent, others = silent + is_silent, others + bool(fault and not is_silent)
        if fault or is_told:
            print(f"wrong_calls: {call.words}: {fault or status}: {err.strip()[-300:]}")
    wrong = [call for call in calls if not call.is_right]
    print(f"{len(wrong)} wrong calls, {silent} ended with 0 or a traceback")
    if others:
        print(f"wrong_calls: {others} other calls are not as they are to be")
    return 1 if silent or others else 0


if __name__ == "__main__":
    if sys.argv[1:] not in ([], ["-v"]):
        print(__doc__, end="", file=sys.stderr)
        sys.exit(2)
    sys.exit(main("-v" in sys.argv))
