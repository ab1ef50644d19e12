"""Turns a node's answers for a range of blocks into the block lines that `replay` and `resume` read.

Who wants it: whoever has a node of a Cosmos SDK v0.47 chain (CometBFT 0.37), and goes on from a store that
`from_export.py` made, or from a genesis.
One command:  python3 from_blocks.py FOLDER > blocks.jsonl            (all blocks that the folder has)
              python3 from_blocks.py FOLDER FIRST LAST | ./stakeplay.sh chain.db resume
What the folder has, how it is fetched, and what becomes of each answer stands in `docs/FROM_A_NODE.md`.
Status: 0 all is exact, 1 a person must look at what `look` told, 2 refused (`stop`), and nothing was written.

What is told goes to standard error: `note CODE: ..` where something stands as something else, `total CODE N` for each
such code at the end, `look CODE: ..`, `stop CODE: ..` with file and member. Lines are held back in a file until all
answers are read, so that of a refused range nothing is written; with --at-once each line is written as soon as its
block is read. --jobs N converts parts of the range by N processes beside each other, and writes the same. Memory does not
grow with the range. On a terminal it is told how far it is. --only names the denominations that are taken, the staked one among
them; with --export those are left out that `from_export.py` left out of that export. `look left-out` tells of each
denomination that was left out how much moved of it, fees and all.
"""
from __future__ import annotations

import argparse
import base64
import binascii
import functools
import gc
import hashlib
import itertools
import json
import operator
import os
import shutil
import sys
import tempfile
import time
from typing import Any, Iterator, TextIO

from stakeplay.calling import Parser, a_count, a_height
from stakeplay.node.answers import Answers, Folder, Pages, length
from stakeplay.node.data import Value, look, moment_text, read_document, run, stop, told
from stakeplay.node.denominations import TAKEN
from stakeplay.node.flows import Beginning, Json, beginning, end
from stakeplay.node.left_out import denominations, leave_out_of, tell_left_out
from stakeplay.node.messages import transactions
from stakeplay.node.parts import beside_each_other
from stakeplay.node.unread import Unread

MOST_BYTES = 4_194_304          # of a line
ABSENT, COMMIT, NIL = 1, 2, 3   # the flags of a signature
HEAD = b'"block_id_flag":%d,"validator_address":"%s"'    # of a signature
ABSENT_HEAD = HEAD % (ABSENT, b"")
FOR_NIL = b'"block_id_flag":%d,' % NIL

compact = json.JSONEncoder(separators=(",", ":")).encode


# ---- votes and evidence

class Voters:
    """A validator set as votes need it; the one before is kept, since few blocks change much of it."""

    def __init__(self) -> None:
        self.lists: list[Any] = []  # the lists of validators from which it was made
        self.raw: list[Any] = []    # address and power of each, as the node spells them
        self.votes: list[tuple[str, str, str]] = []  # address, the text of a signed vote, and of one that is not
        self.heads: list[bytes] = []    # how the signature of each begins, for the block
        self.all_signed = ""            # the list of votes, all of them signed

    def follow(self, validators: Pages) -> None:
        """Goes on to the set of the next block."""
        lists = [one.raw for one in validators.lists]
        if self.lists and len(lists) == len(self.lists) and all(map(operator.is_, lists, self.lists)):
            return
        try:
            raw = [(one["address"], one["voting_power"]) for one in validators.raw]
        except (KeyError, TypeError):   # one of them is no validator, which is told as it is read
            raw = []
        if not all(type(text) is str for pair in raw for text in pair):
            raw = []
        if not raw or raw != self.raw:
            known = dict(zip(self.raw, self.votes))
            made = (known.get(pair) for pair in raw)
            self.votes = [found or texts_of_votes(one)
                          for one, found in itertools.zip_longest(validators.elements(), made)]
            self.raw = raw
            self.heads = [HEAD % (COMMIT, address.encode()) for address, _, _ in self.votes]
            self.all_signed = f"[{','.join(signed for _, signed, _ in self.votes)}]"
        self.lists = lists

    def of_heads(self, heads: list[bytes]) -> str | None:
        """The list of votes of signatures that begin so, if each is that of its validator, or absent."""
        if heads == self.heads:
            return self.all_signed
        if len(heads) != len(self.heads):
            return None
        texts = [signed if head in (wanted, FOR_NIL + wanted[len(FOR_NIL):]) else
                 absent if head.startswith(ABSENT_HEAD) else ""
                 for head, wanted, (_, signed, absent) in zip(heads, self.heads, self.votes)]
        return f"[{','.join(texts)}]" if all(texts) else None


def texts_of_votes(validator: Value) -> tuple[str, str, str]:
    """A validator's address, and the texts of its vote, signed and not."""
    address, power = validator.member("address"), validator.member("voting_power").number()
    members = {"cons": address.hex_address().hex(), "power": power}
    return address.raw, compact(members | {"signed": True}), compact(members | {"signed": False})


def votes(answers: Answers, voters: Voters) -> str:
    """The list of votes for the block before: signature by signature, with the validators of its height."""
    voters.follow(answers.validators)
    signatures = answers.block.at("last_commit.signatures")
    if isinstance(signatures.raw, Unread):
        if text := voters.of_heads(signatures.raw.heads):
            return text
        signatures.raw = signatures.raw.read()
    if length(signatures) != len(voters.votes):
        before = f"height {answers.height - 1} has {len(voters.votes)} validators"
        signatures.fail(f"has {length(signatures)} signatures, and {before}", "votes")
    try:
        texts = [voter[1] if raw["block_id_flag"] == COMMIT and raw["validator_address"] == voter[0]
                 else vote(signatures, place, voter)
                 for place, (raw, voter) in enumerate(zip(signatures.raw, voters.votes))]
    except (KeyError, TypeError):   # one of them is no signature
        texts = [vote(signatures, place, voter) for place, voter in enumerate(voters.votes)]
    return f"[{','.join(texts)}]"


def vote(signatures: Value, place: int, voter: tuple[str, str, str]) -> str:
    """The text of a vote: all but an absent one is signed, one for nil too."""
    address, signed, absent = voter
    signature = Value(signatures.raw[place], signatures.prefix, place, signatures)
    flag, told = signature.member("block_id_flag"), signature.member("validator_address")
    if flag.small() not in (ABSENT, COMMIT, NIL):
        flag.fail(f"is {flag.raw}, which is no flag", "votes")
    wanted = "" if flag.raw == ABSENT else address
    if told.text() != wanted:
        told.fail(f"is {told.raw or 'empty'}, and has to be {wanted or 'empty'}", "votes")
    return absent if flag.raw == ABSENT else signed


def evidence(block: Value) -> Iterator[Json]:
    """Evidence of double signing: who signed, at which height and time, with what power."""
    for piece in block.at("evidence.evidence").elements(or_null=True):
        kind, value = piece.member("type"), piece.member("value")
        if kind.raw == "tendermint/DuplicateVoteEvidence":
            signed = value.member("vote_a")
            yield punished(signed.member("validator_address"), signed.member("height"), value,
                           value.member("ValidatorPower"))
        elif kind.raw == "tendermint/LightClientAttackEvidence":
            for validator in value.member("ByzantineValidators").elements(or_null=True):
                yield punished(validator.member("address"), value.member("CommonHeight"), value,
                               validator.member("voting_power"))
        else:
            kind.fail(f"is evidence of another kind: {kind.raw}", "evidence")


def punished(cons: Value, height: Value, value: Value, power: Value) -> Json:
    """A piece of evidence of a line."""
    return {"cons": cons.hex_address().hex(), "height": height.number(),
            "time": moment_text(value.member("Timestamp").moment()), "power": power.number()}


# ---- blocks

def block_transactions(answers: Answers) -> Iterator[list[Json]]:
    """The transactions of a block, decoded, with their results."""
    results, sent = answers.results.member("txs_results"), length(answers.block.at("data.txs"))
    if not length(results) == sent == len(answers.txs.raw):
        there = f"there are {sent} transactions, {len(answers.txs.raw)} of them decoded"
        results.fail(f"has {length(results)} elements, and {there}", "txs")
    for tx, result in zip(answers.txs.elements(), results.elements(or_null=True)):
        yield transactions(tx, result)


def hash_of(sent: Value) -> str:
    """The hash of a transaction, whose bytes a block has in base64."""
    try:
        return hashlib.sha256(base64.b64decode(sent.text(), validate=True)).hexdigest().upper()
    except (binascii.Error, ValueError):
        sent.fail("is not in base64", "txs")


def block_line(answers: Answers, voters: Voters, own: Beginning, following: Beginning | None,
               hashes: TextIO | None = None) -> str:
    """The line of a block; what the next block mints is paid at its end, since no line can do so at a beginning."""
    header = answers.block.member("header")
    txs = list(own.fee("at the beginning of this line")) if answers.height == 1 else []
    txs += own.transactions()
    sent = answers.block.at("data.txs").elements(or_null=True) if hashes else []
    for place, made in enumerate(block_transactions(answers)):
        if hashes:
            hashes.write(f"{answers.height},{len(txs)},{hash_of(sent[place])}\n")
        txs += made
    txs += end(answers.results).transactions()
    if following:
        txs += following.fee(f"at the end of line {answers.height}")
    front = compact({"kind": "block", "height": answers.height, "time": moment_text(header.member("time").moment())})
    rest = compact({"evidence": list(evidence(answers.block)), "txs": txs})
    return f'{front[:-1]},"votes":{votes(answers, voters)},{rest[1:]}'


class EvidenceParameters:
    """The parameters of evidence, which stand in the results of each block; a change is told."""

    def __init__(self) -> None:
        self.last: Any = None

    def follow(self, results: Value) -> None:
        """Goes on to the results of the next block."""
        updates = results.member("consensus_param_updates")
        now = updates.raw and updates.maybe("evidence")
        if now and self.last and now.raw != self.last:
            change = f"is {compact(now.raw)}, and in the block before {compact(self.last)}"
            look("params-changed", f"{now.place} {change}")
        self.last = now.raw if now else self.last


def lines(folder: Folder, first: int, last: int, hashes: TextIO | None = None) -> Iterator[str]:
    """The lines of a range of blocks."""
    parameters, voters = EvidenceParameters(), Voters()
    folder.begin(first)
    if before := folder.results(first - 1):
        parameters.follow(before)
    results = folder.results(first)
    own = beginning(results) if results else None
    for height in range(first, last + 1):
        answers = folder.answers(height, results)
        parameters.follow(answers.results)
        results = folder.results(height + 1)
        following = beginning(results) if results else None
        text = block_line(answers, voters, own, following, hashes)
        if len(text) > MOST_BYTES:
            stop("limit", f"block_{height}.json: its line has {len(text)} bytes, and may have {MOST_BYTES}")
        yield text + "\n"
        own = following


def arguments() -> argparse.Namespace:
    """What the recipe was called with."""
    parser = Parser(__doc__)
    parser.add_argument("folder", metavar="FOLDER", help="the folder with the answers of a node")
    parser.add_argument("first", metavar="FIRST", type=a_height, nargs="?", help="the first height of the range")
    parser.add_argument("last", metavar="LAST", type=a_height, nargs="?", help="the last one; without both, all blocks")
    parser.add_argument("--hashes", metavar="FILE", help="where the hash of each transaction goes, by height and place")
    parser.add_argument("--only", metavar="DENOM,..", type=denominations,
                        help="take these denominations, the staked one among them, and leave out all others")
    parser.add_argument("--export", metavar="EXPORT",
                        help="the export of which the store was made: what it has too much of is left out here too")
    parser.add_argument("--jobs", metavar="N", type=a_count, default=1, help="convert by so many processes (1)")
    parser.add_argument("--at-once", action="store_true", help="write each line as soon as its block is read")
    words = parser.words()
    if words.first is not None and (words.last is None or not 1 <= words.first <= words.last):
        parser.error("FIRST and LAST are two heights, the first from 1 on and not above the last")
    return words


def watched(texts: Iterator[str], first: int, last: int) -> Iterator[str]:
    """The same lines; on a terminal a line each second tells how far it is."""
    if not sys.stderr.isatty():
        yield from texts
        return
    began = shown = time.monotonic()
    for height, text in enumerate(texts, first):
        yield text
        now = time.monotonic()
        if now >= shown + 1:
            shown, speed = now, (height - first + 1) / (now - began)
            print(f"from_blocks.py: height {height} of {last}, {speed:.0f} blocks a second, "
                  f"{(last - height) / speed:.0f} s left", file=sys.stderr)


def part_lines(folder: str, first: int, last: int, hashes: TextIO | None) -> Iterator[str]:
    """The lines of a part of a folder's blocks."""
    return lines(Folder(folder), first, last, hashes)


def range_lines(words: argparse.Namespace, first: int, last: int, hashes: TextIO | None) -> Iterator[str]:
    """The lines of a range, by as many processes as are asked for."""
    if words.jobs == 1:
        return part_lines(words.folder, first, last, hashes)
    return beside_each_other(functools.partial(part_lines, words.folder), first, last, words.jobs, hashes)


def write(texts: Iterator[str], is_at_once: bool) -> None:
    """Writes lines: all of them or none, or each as soon as it is made."""
    if is_at_once:
        sys.stdout.writelines(texts)
    else:
        with tempfile.TemporaryFile("w+") as held:
            held.writelines(texts)
            held.seek(0)
            shutil.copyfileobj(held, sys.stdout)
    sys.stdout.flush()


def begin_taken(words: argparse.Namespace) -> None:
    """Leaves denominations out: those that are not named, or those of which an export has too much."""
    if words.only is not None:
        TAKEN.begin(only=words.only)
    elif words.export is not None:
        leave_out_of(read_document(words.export), None)


def main() -> None:
    """Writes the lines of a range, and then how many notes of each code there were."""
    words = arguments()
    begin_taken(words)
    first, last = (words.first, words.last) if words.first else Folder(words.folder).heights()
    with open(os.devnull if words.hashes is None else words.hashes, "w", encoding="ascii") as hashes:
        hashes.write("height,tx,hash\n")
        told_hashes = None if words.hashes is None else hashes
        write(watched(range_lines(words, first, last, told_hashes), first, last), words.at_once)
    tell_left_out(look, f"{words.folder}:", TAKEN.sums)
    for (word, code), count in sorted(told.items()):
        if word == "note":
            print(f"total {code} {count}", file=sys.stderr)


def command() -> None:
    """Runs the recipe."""
    gc.disable()    # answers have no cycles, and looking for some takes a third of the time
    run(main)
