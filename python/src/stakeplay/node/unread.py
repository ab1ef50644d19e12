"""Long lists of a node's answers that are not read as JSON, for `from_blocks.py`: most of an answer, and little of a line.

The signatures of a block, the validators of a height, and what distribution tells of each validator are taken out of the
text of an answer before it is read, where they have exactly the form in which CometBFT and the SDK write them, byte for
byte. Such a text is JSON, so nothing is passed over that would be refused. Wherever something is of another form, the
whole answer is read, and what is told of it is the same.
"""
from __future__ import annotations

import json
import os
import re
import secrets
from typing import Any, Iterable

from stakeplay.node.data import DECODER, Prefix, Shortened, Value, answered, read_document

MARK = secrets.token_hex(16)    # stands in the place of a list; no answer has it
ITEM = json.dumps(MARK).encode()

SPELLED = rb'(?:"[0-9A-Za-z+/=]*"|null)'
SIGNATURE = re.compile(rb'"block_id_flag":(?:[0-9]|"[A-Z_]+"),"validator_address":%s,"timestamp":"[0-9TZ:.-]*","signature":%s'
                       % (SPELLED, SPELLED))
SIGNED, MOMENT = b'"signatures":[{"block_id_flag":', b',"timestamp":"'
IN_TEXTS = b"0123456789ABCDEFGHIJKLMNOPQRSTUVWXYZabcdefghijklmnopqrstuvwxyz+/=.-"

VALIDATOR = (rb'\{"address":"[0-9A-F]{40}","pub_key":\{"type":"[0-9A-Za-z/]*","value":"[0-9A-Za-z+/=]*"\},'
             rb'"voting_power":"[0-9]{1,19}","proposer_priority":"-?[0-9]{1,30}"\}')
VALIDATORS = re.compile(rb"\[%s(?:,%s)*\]" % (VALIDATOR, VALIDATOR))
POWER = re.compile(r'"address":"([0-9A-F]{40})".*?"voting_power":"([0-9]+)"')
LISTED, PRIORITY = b'"validators":[', b'"proposer_priority":"'

FIRST = re.compile(rb'\{"type":"(?:commission|rewards)"')
SHARES = re.compile(rb'(?:\{"type":"(?:commission|rewards)","attributes":\[\{"key":"amount","value":"[0-9A-Za-z./,_-]*",'
                    rb'"index":true\},\{"key":"validator","value":"[0-9a-z]*","index":true\}\]\},)+')
EVENT = b'{"type":%s},' % ITEM
KIND, AMOUNT, DIGITS = b'{"type":"', b'"key":"amount","value":"', b"0123456789."


class Unread:
    """A list of signatures that was taken out."""
    __slots__ = ("text", "heads")

    def __init__(self, text: bytes, heads: list[bytes]) -> None:
        self.text, self.heads = text, heads     # the list, and how each of its objects begins, with flag and address

    def read(self) -> list[Any]:
        """The list."""
        return json.loads(self.text)


def content(path: str) -> bytes:
    """The bytes of an answer; none where it can't be read, which is told as it is read whole."""
    try:
        with open(path, "rb", buffering=0) as file:
            return file.read()
    except OSError:
        return b""


def parsed(text: bytes) -> Any:
    """A text as JSON; nothing where it is none, which is told as it is read whole."""
    try:
        return DECODER.decode(text.decode())
    except (ValueError, RecursionError):
        return None


def inner(raw: Any, names: Iterable[str]) -> dict[str, Any]:
    """The object at the end of names; an empty one where there is none."""
    for name in names:
        raw = raw.get(name) if isinstance(raw, dict) else None
    return raw if isinstance(raw, dict) else {}


class Commits:
    """The commits of blocks, of which most signatures begin as those of the block before do: with the same address."""

    def __init__(self, *names: str) -> None:
        self.names = names          # which lead to a commit in an answer
        self.heads: list[bytes] = []    # how the signatures of the block before began, up to their times; of some nothing
        self.long = 0               # how long each of these is

    def without_signatures(self, path: str, prefix: Prefix) -> Value | None:
        """An answer, in which the signatures of the commit are taken out; nothing where they have another form."""
        text = content(path)
        at = text.find(SIGNED)
        start = text.index(b"[", at) if at >= 0 else 0
        end = text.find(b"]", start) + 1
        heads = self.heads_of(text[start:end]) if start else None
        if heads is None:
            return None
        raw = parsed(text[:start] + ITEM + text[end:])
        commit = inner(raw, self.names)
        if commit.get("signatures") != MARK:
            return None
        commit["signatures"] = Unread(text[start:end], heads)
        return Value(raw, prefix, os.path.basename(path))

    def heads_of(self, text: bytes) -> list[bytes] | None:
        """How the signatures of a list begin, if it is one and they are written as they are to be."""
        pieces = text[2:-2].split(b"},{")
        if not text.startswith(b"[{") or not text.endswith(b"}]") or len(pieces) != len(self.heads) and not self.begin(pieces):
            return None
        heads = [piece[:self.long] for piece in pieces]
        if heads == self.heads:
            return heads if are_tails([piece[self.long:] for piece in pieces]) else None
        odd = [place for place, (head, known) in enumerate(zip(heads, self.heads)) if head != known]
        tails = [piece[self.long:] for piece, head, known in zip(pieces, heads, self.heads) if head == known]
        if not all(SIGNATURE.fullmatch(pieces[place]) for place in odd) or not are_tails(tails):
            return None
        for place in odd:
            if pieces[place].startswith(MOMENT, self.long):     # else it is absent
                self.heads[place] = heads[place]
        return heads

    def begin(self, pieces: list[bytes]) -> bool:
        """Takes signatures of which nothing is known, if they are some."""
        if not all(map(SIGNATURE.fullmatch, pieces)):
            return False
        self.long = max(piece.find(MOMENT) for piece in pieces)
        self.heads = [piece[:self.long] if piece.startswith(MOMENT, self.long) else b"" for piece in pieces]
        return True


def are_tails(pieces: list[bytes]) -> bool:
    """Whether each of these is a time and a signature, without anything between: their texts are of letters, digits and
    so on, and the rest of them is what it has to be."""
    if not pieces:
        return True
    text, count = b"\n".join(pieces), len(pieces)
    return (text.startswith(MOMENT) and text.endswith(b'"') and text.count(b'"\n' + MOMENT) == count - 1
            and text.count(b'","signature":"') == count
            and text.translate(None, IN_TEXTS) + b"\n" == b',"":"::","":""\n' * count)


class Shares:
    """What distribution tells of each validator at the beginning of a block: mostly the same as in the block before, but for
    the amounts."""

    def __init__(self) -> None:
        self.parts: list[bytes] = []    # of the block before, between its amounts

    def read(self, path: str, prefix: Prefix) -> Value:
        """What CometBFT answered of the results of a block, in which these events are taken out."""
        text = content(path)
        first = FIRST.search(text)
        end = self.end(text, first.start()) if first else 0
        if first and end:
            raw = parsed(text[:first.start()] + EVENT + text[end:])
            result = inner(raw, ["result"])
            events = result.get("begin_block_events")
            if isinstance(events, list) and {"type": MARK} in events:
                at = events.index({"type": MARK})
                del events[at]
                result["begin_block_events"] = Shortened(events, at, text.count(KIND, first.start(), end))
                return answered(Value(raw, prefix, os.path.basename(path)))
        return answered(read_document(path, prefix))

    def end(self, text: bytes, start: int) -> int:
        """Where the events end that begin there; 0 where there are none of the form."""
        if self.parts:
            parts = text[start:].split(AMOUNT, len(self.parts) - 1)
            bare = [part.lstrip(DIGITS) for part in parts]
            rest = bare.pop()
            if bare == self.parts[:-1] and rest.startswith(self.parts[-1]):
                return len(text) - len(rest) + len(self.parts[-1])
        found = SHARES.match(text, start)
        self.parts = [part.lstrip(DIGITS) for part in found[0].split(AMOUNT)] if found else []
        return found.end() if found else 0


class Sets:
    """The validators of heights. A set mostly is that of the height before but for the priorities of proposers, which
    nobody reads: then it is taken for that one."""

    def __init__(self) -> None:
        self.last: dict[str, tuple[bytes, list[Any]]] = {}      # by page: the text without priorities, and the list

    def read(self, path: str, prefix: Prefix) -> Value:
        """What CometBFT answered of a set, or of a page of it."""
        text, page = content(path), "".join(os.path.basename(path).split("_")[2:])
        start = text.find(LISTED) + len(LISTED) - 1
        end = text.find(b"]", start) + 1
        validators = self.listed(text[start:end], page) if start >= len(LISTED) - 1 and end else None
        if validators is not None:
            raw = parsed(text[:start] + ITEM + text[end:])
            result = inner(raw, ["result"])
            if result.get("validators") == MARK:
                result["validators"] = validators
                return answered(Value(raw, prefix, os.path.basename(path)))
        return answered(read_document(path, prefix))

    def listed(self, text: bytes, page: str) -> list[Any] | None:
        """The validators of a list, each with its address and its power; nothing of one that has another form."""
        bare = without_priorities(text)
        known, validators = self.last.get(page, (b"", []))
        if bare == known:
            return validators
        if not VALIDATORS.fullmatch(text):
            return None
        validators = [{"address": address, "voting_power": power} for address, power in POWER.findall(text.decode())]
        self.last[page] = bare, validators
        return validators


def without_priorities(text: bytes) -> bytes:
    """A list of validators without the priorities of proposers."""
    first, *rest = text.split(PRIORITY)
    return PRIORITY.join([first, *(part.lstrip(b"-0123456789") for part in rest)])


class Reading:
    """How the answers of a range of blocks are read, each kind by what is known of those before."""

    def __init__(self) -> None:
        self.commits, self.repeated = Commits("result", "block", "last_commit"), Commits("block", "last_commit")
        self.sets, self.shares = Sets(), Shares()

    def block(self, path: str, prefix: Prefix) -> Value:
        """What CometBFT answered of a block."""
        return answered(self.commits.without_signatures(path, prefix) or read_document(path, prefix))

    def results(self, path: str, prefix: Prefix) -> Value:
        """What CometBFT answered of the results of a block."""
        return self.shares.read(path, prefix)

    def validators(self, path: str, prefix: Prefix) -> Value:
        """What CometBFT answered of the validators of a height."""
        return self.sets.read(path, prefix)

    def transactions(self, path: str, prefix: Prefix) -> Value:
        """What the REST server answered of the transactions of a block, and of the block once more."""
        return self.repeated.without_signatures(path, prefix) or read_document(path, prefix)
