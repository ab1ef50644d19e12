"""Fetches a node's answers for a range of blocks into a folder, as `from_blocks.py` reads them.

Who wants it: whoever has a node of a Cosmos SDK v0.47 chain whose RPC and REST servers answer, and that kept the range.
One command:  python3 fetch_blocks.py http://localhost:26657 http://localhost:1317 FOLDER FIRST LAST
It asks for each block, its results, the validators of the height before and the decoded transactions, page by page, and
for the results of the block after the range, which may be missing. What the folder has in full is not asked for again,
and an answer is written in full or not at all, so a range that was stopped is gone on with by the same command.
Status: 0 all is there, 2 the node did not answer (`stop`), or with an error.
"""
from __future__ import annotations

import argparse
import http.client
import json
import os
import sys
import time
import urllib.error
import urllib.parse
import urllib.request

from stakeplay.calling import Parser, a_height
from stakeplay.node.data import Stop, Value, read_document, run, stop

PAGE = 100      # elements of a page
TRIES = 4       # of a request that fails
WAITS = 60      # seconds for an answer
BUSY = 429, 502, 503, 504   # what a server answers that may answer later


def asked(url: str) -> bytes:
    """What a server answers; an answer that tells an error is one too."""
    for left in reversed(range(TRIES)):
        try:
            with urllib.request.urlopen(url, timeout=WAITS) as answer:
                return answer.read()
        except (OSError, ValueError, http.client.HTTPException) as fault:
            if isinstance(fault, urllib.error.HTTPError) and fault.code not in BUSY:
                return fault.read()
            if not left:
                stop("fetch", f"{url}: {fault}")
            time.sleep(TRIES - left)
    raise AssertionError


def is_answer(text: bytes, member: str) -> bool:
    """Whether a text is an object of JSON that has a member."""
    try:
        answer = json.loads(text)
    except (ValueError, RecursionError):
        return False
    return isinstance(answer, dict) and answer.get(member) is not None


class Fetcher:
    """A node and the folder into which its answers go."""

    def __init__(self, rpc: str, rest: str, folder: str):
        self.rpc, self.rest, self.folder = rpc.rstrip("/"), rest.rstrip("/"), folder

    def answer(self, name: str, url: str, member: str) -> Value:
        """The answer of a file, which is asked for where there is none or a cut one; it must have the member."""
        path = os.path.join(self.folder, name + ".json")
        if os.path.exists(path):
            with open(path, "rb") as file:
                if is_answer(file.read(), member):
                    return read_document(path)
        text = asked(url)
        if not is_answer(text, member):
            stop("fetch", f"{url}: {text[:300].decode(errors='replace')}")
        with open(path + ".part", "wb") as file:
            file.write(text)
        os.replace(path + ".part", path)
        return read_document(path)

    def block(self, height: int) -> None:
        """All that is needed of a block."""
        block = self.answer(f"block_{height}", f"{self.rpc}/block?height={height}", "result")
        self.results(height)
        if block.at("result.block.header.last_block_id.hash").text():     # the chain's first block has no votes
            self.pages("validators", height - 1)
        self.pages("txs", height)

    def results(self, height: int) -> None:
        """The results of a block."""
        self.answer(f"block_results_{height}", f"{self.rpc}/block_results?height={height}", "result")

    def pages(self, kind: str, height: int) -> None:
        """The pages of a validator set or of a block's transactions, until there are as many elements as they tell."""
        page, total = 1, 1
        while (page - 1) * PAGE < total:
            name = f"{kind}_{height}" + (f"_{page}" if page > 1 else "")
            if kind == "txs":
                where = f"pagination.offset={(page - 1) * PAGE}&pagination.limit={PAGE}"
                url = f"{self.rest}/cosmos/tx/v1beta1/txs/block/{height}?{where}"
                total = self.answer(name, url, "txs").at("pagination.total").number()
            else:
                url = f"{self.rpc}/validators?height={height}&per_page={PAGE}&page={page}"
                total = self.answer(name, url, "result").at("result.total").number()
            page += 1


def server(text: str) -> str:
    """The place of a server among the words."""
    parts = urllib.parse.urlsplit(text)
    if parts.scheme not in ("http", "https") or not parts.hostname or parts.query or parts.fragment:
        raise argparse.ArgumentTypeError(f"{text!r} is no server's place, as http://localhost:26657")
    return text


def arguments() -> argparse.Namespace:
    """What the recipe was called with."""
    parser = Parser(__doc__)
    parser.add_argument("rpc", metavar="RPC", type=server, help="CometBFT's server, as http://localhost:26657")
    parser.add_argument("rest", metavar="REST", type=server, help="the REST server of the SDK, as http://localhost:1317")
    parser.add_argument("folder", metavar="FOLDER", help="where the answers go")
    parser.add_argument("first", metavar="FIRST", type=a_height, help="the first height")
    parser.add_argument("last", metavar="LAST", type=a_height, help="the last height")
    words = parser.words()
    if not 1 <= words.first <= words.last:
        parser.error("FIRST is from 1 on, and not above LAST")
    return words


def main() -> None:
    """Fetches what a range needs."""
    words = arguments()
    os.makedirs(words.folder, exist_ok=True)
    fetcher = Fetcher(words.rpc, words.rest, words.folder)
    for height in range(words.first, words.last + 1):
        fetcher.block(height)
        if (count := height - words.first + 1) % 100 == 0:
            print(f"fetch_blocks.py: {count} of {words.last - words.first + 1} blocks", file=sys.stderr)
    try:
        fetcher.results(words.last + 1)
    except Stop:
        print(f"fetch_blocks.py: there are no results of block {words.last + 1} yet; what it mints is paid by no line",
              file=sys.stderr)


def command() -> None:
    """Runs the recipe."""
    run(main)
