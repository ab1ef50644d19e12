"""A node's answers for a range of blocks, read from a folder and held against each other, for `from_blocks.py`.

For each height H there are `block_H.json` and `block_results_H.json` (CometBFT's `/block` and `/block_results`),
`validators_H-1.json` (its `/validators` of the height before) and `txs_H.json` (the REST server's
`/cosmos/tx/v1beta1/txs/block/H`); further pages have `_2`, `_3` and so on after the height. What does not fit ends the
recipe: answers of another height, block or chain, pages that are missing, an error in place of an answer.
"""
from __future__ import annotations

import base64
import binascii
import os
import re
from dataclasses import dataclass
from typing import Any, Callable

from stakeplay.node.data import Prefix, Stop, Value, stop
from stakeplay.node.unread import Reading

BLOCK_VERSION = "11"
_HASH = re.compile("[0-9A-F]{64}")
_BLOCK_FILE = re.compile(r"block_([1-9][0-9]{0,18})\.json")


def length(value: Value) -> int:
    """How many elements a list has; CometBFT may write null for an empty one."""
    return len(value.raw) if isinstance(value.raw, list) else len(value.elements(or_null=True))


class Pages:
    """The elements of a list that a node answered in pages; `raw` has them one after the other."""

    def __init__(self, lists: list[Value]):
        self.lists = lists
        self.raw: list[Any] = [raw for one in lists for raw in one.raw or ()]

    def elements(self) -> list[Value]:
        """All elements."""
        return [element for one in self.lists for element in one.elements(or_null=True)]


@dataclass(frozen=True)
class Answers:
    """What a node said of one block."""
    height: int
    block: Value        # `result.block`
    results: Value      # `result` of the results
    validators: Pages   # the set of the height before; empty where the block is the chain's first
    txs: Pages          # as the REST server decoded them


class Folder:
    """A folder with the answers of a node; blocks are asked for in ascending order."""

    def __init__(self, path: str):
        self.path, self.prefix, self.reading = path, Prefix(), Reading()
        self.chain_id = ""      # of the blocks that were read
        self.last_hash = ""     # of the block that was read last

    def name(self, kind: str, height: int, page: int = 1) -> str:
        """The path of an answer's file."""
        return f"{self.path}/{kind}_{height}.json" if page == 1 else f"{self.path}/{kind}_{height}_{page}.json"

    def heights(self) -> tuple[int, int]:
        """The first and the last height that has a block; there must be all between them."""
        first, last, count = 0, 0, 0
        try:
            with os.scandir(self.path) as entries:
                for entry in entries:
                    if found := _BLOCK_FILE.fullmatch(entry.name):
                        height = int(found[1])
                        first, last, count = min(first or height, height), max(last, height), count + 1
        except OSError as fault:
            stop("file", f"{self.path}: {fault.strerror}")
        if not count:
            stop("height", f"{self.path}: there is no block_H.json")
        if count <= last - first:
            gap = next(height for height in range(first, last) if not os.path.exists(self.name("block", height)))
            stop("height", f"block_{gap}.json: is missing, and there are blocks from {first} to {last}")
        return first, last

    def answer(self, kind: str, height: int, read: Callable[[str, Prefix], Value]) -> Value:
        """An answer that must be there."""
        path = self.name(kind, height)
        try:
            return read(path, self.prefix)
        except Stop:
            if not os.path.exists(path):
                stop("height", f"{os.path.basename(path)}: is missing")
            raise

    def results(self, height: int) -> Value | None:
        """The results of a block; nothing where there is no such file."""
        if not os.path.exists(self.name("block_results", height)):
            return None
        results = self.answer("block_results", height, self.reading.results)
        if results.has("finalize_block_events"):
            results.fail("is an answer of CometBFT 0.38 or a later one, not of 0.37", "version")
        told = results.member("height")
        if told.number() != height:
            told.fail(f"is {told.raw}, not {height}", "results")
        return results

    def begin(self, first: int) -> None:
        """Reads the block before a range, where there is one, so that the range is held against it."""
        if os.path.exists(self.name("block", first - 1)):
            self.block(first - 1)

    def answers(self, height: int, results: Value | None) -> Answers:
        """What there is of a block, whose results were read before."""
        block, is_first = self.block(height)
        if results is None:
            stop("height", f"block_results_{height}.json: is missing")
        validators = Pages([]) if is_first else self.validators(height - 1)
        return Answers(height, block, results, validators, self.transactions(height))

    def block(self, height: int) -> tuple[Value, bool]:
        """A block, held against the one that was read before it; and whether it is the first of its chain."""
        answer = self.answer("block", height, self.reading.block)
        block, block_hash = answer.member("block"), answer.at("block_id.hash")
        if not _HASH.fullmatch(block_hash.text()):
            block_hash.fail("is no hash of 64 capital hexadecimal digits")
        header = block.member("header")
        told, chain, before = header.member("height"), header.member("chain_id"), header.at("last_block_id.hash")
        version = header.at("version.block")
        if version.raw != BLOCK_VERSION:
            version.fail(f"is {version.raw}, not {BLOCK_VERSION}, which CometBFT 0.37 writes", "version")
        if told.number() != height:
            told.fail(f"is {told.raw}, not {height}", "height")
        if chain.text() != (self.chain_id or chain.raw):
            chain.fail(f"is {chain.raw}, and of the block before {self.chain_id}", "chain-id")
        if before.text() != (self.last_hash or before.raw):
            before.fail(f"is {before.raw}, and the block before has {self.last_hash}", "hash")
        self.chain_id, self.last_hash = chain.raw, block_hash.raw
        return block, not before.raw

    def validators(self, height: int) -> Pages:
        """The validators of a height."""
        def read(answer: Value) -> tuple[Value, Value]:
            told = answer.member("block_height")
            if told.number() != height:
                told.fail(f"is {told.raw}, not {height}", "validators")
            return answer.member("validators"), answer.member("total")
        return self.pages("validators", height, self.reading.validators, read)

    def transactions(self, height: int) -> Pages:
        """The transactions of the block that was read last, decoded."""
        def read(answer: Value) -> tuple[Value, Value]:
            if not answer.has("txs"):
                answer.fail(f"has no txs: {str(answer.raw.get('message', answer.raw))[:200]}", "rest-error")
            told = answer.at("block_id.hash")
            if hexadecimal(told) != self.last_hash:
                told.fail(f"is {hexadecimal(told)}, and in block_{height}.json {self.last_hash}", "hash")
            return answer.member("txs"), answer.at("pagination.total")
        return self.pages("txs", height, self.reading.transactions, read)

    def pages(self, kind: str, height: int, load: Callable[[str, Prefix], Value],
              read: Callable[[Value], tuple[Value, Value]]) -> Pages:
        """The lists of an answer's pages; `read` gives of a page its list, and how many elements all lists have."""
        first, first_total = read(self.answer(kind, height, load))
        lists, count, wanted = [first], length(first), first_total.number()
        while os.path.exists(path := self.name(kind, height, len(lists) + 1)):
            elements, total = read(load(path, self.prefix))
            if total.number() != wanted:
                total.fail(f"is {total.raw}, and {wanted} on the first page", kind)
            lists.append(elements)
            count += length(elements)
        if count != wanted:
            first_total.fail(f"is {wanted}, and there are {count} in {len(lists)} pages", kind)
        return Pages(lists)


def hexadecimal(value: Value) -> str:
    """Bytes that the REST server spells in base64, as CometBFT spells them."""
    try:
        return base64.b64decode(value.text(), validate=True).hex().upper()
    except (binascii.Error, ValueError):
        value.fail("is not in base64")
