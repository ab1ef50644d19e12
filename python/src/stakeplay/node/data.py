"""What a node of a Cosmos SDK chain writes: its spellings, read and written, for recipes that take a chain's own data.

`Value` walks a JSON document and knows where it stands: what is missing or not of its form ends the recipe with one
line that names the file and the member. Addresses are bytes here, amounts and times (nanoseconds since 1970) whole
numbers, decimals whole numbers of units of 10^-18, coins a dictionary from denomination to one of both.

What is told goes to standard error, a line each: `note` (something was turned into something else), `look` (a person
must look; the recipe ends with status 1), `stop` (refused, status 2, nothing is written).
"""
from __future__ import annotations

import base64
import binascii
import hashlib
import json
import os
import re
import sys
from collections import Counter
from dataclasses import dataclass, field
from datetime import datetime, timedelta
from typing import Any, Callable, Iterable, Iterator, NoReturn

from stakeplay.addresses import MODULES, bech32, from_bech32
from stakeplay.calling import Fault, ended
from stakeplay.node.denominations import TAKEN

ONE = 10 ** 18            # the units of a decimal in one whole
SECOND = 10 ** 9          # the nanoseconds of a second
MOST_WHOLE = 10 ** 18     # the highest supply, and the highest amount
MOST_DECIMAL = 10 ** 20   # each decimal is below this many wholes

Coins = dict[str, int]  # by denomination: an amount, or the units of a decimal


# ---- what is told

class Stop(Fault):
    """Why a recipe refuses its input."""

    def __init__(self, code: str, text: str):
        super().__init__(f"stop {code}: {text}")
        self.code, self.text = code, text


told: Counter[tuple[str, str]] = Counter()  # how many lines there were of each word and code
_looked: set[str] = set()


def stop(code: str, text: str) -> NoReturn:
    """Refuses the input."""
    raise Stop(code, text)


def note(code: str, text: str) -> None:
    """Tells that something was turned into something else."""
    told["note", code] += 1
    print(f"note {code}: {text}", file=sys.stderr)


def look(code: str, text: str) -> None:
    """Tells, once, that a person must look; the recipe will end with status 1."""
    line = f"look {code}: {text}"
    if line not in _looked:
        _looked.add(line)
        told["look", code] += 1
        print(line, file=sys.stderr)


def begin_told() -> None:
    """Begins anew: nothing was told."""
    told.clear()
    _looked.clear()


def tell_again(lines: str, counts: Counter[tuple[str, str]]) -> None:
    """Tells what another process told, and counts its notes; what a person must look at once."""
    for line in lines.splitlines():
        if line.startswith("look "):
            look(*line.removeprefix("look ").split(": ", 1))
        else:
            print(line, file=sys.stderr)
    told.update({key: count for key, count in counts.items() if key[0] != "look"})


def run(main: Callable[[], int | None]) -> NoReturn:
    """Runs a recipe, and ends with its status; with at least 1 after a `look`, with 2 after a `stop`."""
    begin_told()
    TAKEN.begin()
    try:
        status = main() or 0
        sys.stdout.flush()
    except Stop as fault:
        print(fault, file=sys.stderr)
        sys.exit(2)
    except BrokenPipeError:
        os.dup2(os.open(os.devnull, os.O_WRONLY), 1)
        sys.exit(2)
    except Fault as fault:
        ended(str(fault))
    except KeyboardInterrupt:
        sys.exit(130)
    except OSError as fault:
        print(f"stop file: {fault.filename or 'the output'}: {fault.strerror}", file=sys.stderr)
        sys.exit(2)
    sys.exit(max(status, 1 if _looked else 0))


# ---- addresses

def hash_address(text: bytes) -> bytes:
    """The first 20 bytes of SHA-256: of a module's name its address, and of the bytes of an ed25519 key its own."""
    return hashlib.sha256(text).digest()[:20]


COLLECTOR, BONDED, NOT_BONDED, DISTRIBUTION = (bytes(19) + bytes([place]) for place in (1, 2, 3, 4))
MODULE_ACCOUNTS = COLLECTOR, BONDED, NOT_BONDED, DISTRIBUTION
HERE_OF_CHAIN = {hash_address(name.encode()): here for name, here in zip(MODULES, MODULE_ACCOUNTS)}
CHAIN_OF_HERE = {here: chain for chain, here in HERE_OF_CHAIN.items()}
AUTHORITY = hash_address(b"gov")                # the account of `x/gov`
RESERVE = hash_address(b"stakeplay/reserve")    # holds what other modules of the chain take from nowhere


@dataclass
class Prefix:
    """The chain's bech32 prefix: where it is not told, that of the first address which is read."""
    account: str | None = None
    tells_long: bool = True     # whether a person must look at an address that is cut
    seen: dict[tuple[str, str], bytes] = field(default_factory=dict, repr=False)  # addresses of 20 bytes that were read

    def bytes_of(self, text: str, kind: str = "") -> bytes | None:
        """The bytes of an address's text, whose kind is empty, `valoper` or `valcons`; nothing of another text."""
        prefix, address = from_bech32(text) or ("", b"")
        if not prefix.endswith(kind) or len(address) not in (20, 32):
            return None
        account = prefix[:len(prefix) - len(kind)]
        if not account or not kind and account.endswith(("valoper", "valcons")):
            return None
        self.account = self.account or account
        return address if account == self.account else None

    def text_of(self, address: bytes, kind: str = "") -> str:
        """The text of an address of this machine."""
        return bech32((self.account or "cosmos") + kind, CHAIN_OF_HERE.get(address, address))


# ---- numbers, times, coins

_DECIMAL = re.compile(r"([0-9]{1,60})(?:\.([0-9]{1,18}))?")
_SECONDS = re.compile(r"([0-9]{1,30})(?:\.([0-9]{1,9}))?s")
_MOMENT = re.compile(r"([0-9]{4}-[0-9]{2}-[0-9]{2}T[0-9]{2}:[0-9]{2}:[0-9]{2})(?:\.([0-9]{1,9}))?Z")
_COIN = re.compile(r"([0-9]{1,60})([a-zA-Z][a-zA-Z0-9/:._-]{2,127})")
_NUMBER = re.compile("[0-9]{1,19}")
_AMOUNT = re.compile("[0-9]{1,78}")
_DENOM = re.compile("[a-zA-Z][a-zA-Z0-9/:._-]{2,127}")
_HEX_ADDRESS = re.compile("[0-9A-Fa-f]{40}")
_EPOCH = datetime(1970, 1, 1)


def decimal_units(text: str) -> int | None:
    """The units of 10^-18 of a decimal."""
    found = _DECIMAL.fullmatch(text)
    return int(found[1]) * ONE + int((found[2] or "").ljust(18, "0")) if found else None


def decimal_text(units: int) -> str:
    """A decimal with 18 places."""
    return f"{units // ONE}.{units % ONE:018d}"


def moment_of(text: str) -> int | None:
    """The nanoseconds since 1970 of a time of RFC 3339 in UTC; below 0 for a time before."""
    found = _MOMENT.fullmatch(text)
    if not found:
        return None
    try:
        passed = datetime.fromisoformat(found[1]) - _EPOCH
    except ValueError:
        return None
    return (passed.days * 86400 + passed.seconds) * SECOND + int((found[2] or "").ljust(9, "0"))


def _second_text(moment: int) -> str:
    return (_EPOCH + timedelta(seconds=moment // SECOND)).isoformat()


def moment_text(moment: int) -> str:
    """A time as CometBFT and lines have it: no zeros at the end of its part of a second."""
    part = f".{moment % SECOND:09d}".rstrip("0").rstrip(".")
    return f"{_second_text(moment)}{part}Z"


def moment_text_of_state(moment: int) -> str:
    """A time as `app_state` has it: 0, 3, 6 or 9 places for its part of a second."""
    part = f"{moment % SECOND:09d}"
    while part.endswith("000"):
        part = part[:-3]
    return f"{_second_text(moment)}{'.' if part else ''}{part}Z"


def is_denom(text: str) -> bool:
    """Whether a text is a denomination."""
    return bool(_DENOM.fullmatch(text))


def coins_of(text: str) -> Coins | None:
    """The coins of a text as `12aaa,345uatom`; an empty one has none. A denomination that stands twice is added up."""
    coins: Coins = {}
    for part in text.split(",") if text else ():
        found = _COIN.fullmatch(part)
        if not found:
            return None
        amount, denom = found.groups()
        if amount := int(amount):
            coins[denom] = coins.get(denom, 0) + amount
    return coins


def coins_text(coins: Coins) -> str:
    """Coins as a text, for what is told."""
    return ",".join(f"{coins[denom]}{denom}" for denom in sorted(coins)) or "nothing"


def coins_json(coins: Coins, text: Callable[[int], str] = str) -> list[dict[str, str]]:
    """Coins as a list of JSON, by denomination; `decimal_text` makes it one of decimal coins."""
    return [{"denom": denom, "amount": text(coins[denom])} for denom in sorted(coins)]


# ---- documents

class Shortened(list[Any]):
    """A list without some elements that stood one after the other; the places of the others are those of the whole."""

    def __init__(self, rest: list[Any], at: int, left_out: int) -> None:
        super().__init__(rest)
        self.at, self.left_out = at, left_out

    def placed(self) -> Iterator[tuple[int, Any]]:
        """The elements that are left, and their places in the whole list."""
        for index, raw in enumerate(self):
            yield index if index < self.at else index + self.left_out, raw


class Value:
    """A JSON value, where it stands (`export.json: app_state.staking`), and the prefix of its chain's addresses."""
    __slots__ = "raw", "prefix", "step", "above"

    def __init__(self, raw: Any, prefix: Prefix, step: str | int, above: Value | None = None):
        self.raw, self.prefix, self.step, self.above = raw, prefix, step, above

    @property
    def place(self) -> str:
        """The file, and the names and places that lead to the value."""
        if self.above is None:
            return f"{self.step}:"
        place = self.above.place
        if isinstance(self.step, int):
            return f"{place}[{self.step}]"
        return f"{place}{' ' if place.endswith(':') else '.'}{self.step}"

    def fail(self, what: str, code: str = "shape") -> NoReturn:
        """Refuses the document because of this value."""
        stop(code, f"{self.place} {what}")

    def member(self, name: str) -> Value:
        """The member of an object, which must be there."""
        try:
            return Value(self.raw[name], self.prefix, name, self)
        except (KeyError, TypeError):
            if not isinstance(self.raw, dict):
                self.fail("is no object")
            Value(None, self.prefix, name, self).fail("is missing")

    def at(self, path: str) -> Value:
        """The member at the end of names that are joined by points."""
        value = self
        for name in path.split("."):
            value = value.member(name)
        return value

    def has(self, name: str) -> bool:
        """Whether an object has the member, and it is not null."""
        if not isinstance(self.raw, dict):
            self.fail("is no object")
        return self.raw.get(name) is not None

    def maybe(self, name: str) -> Value | None:
        """The member of an object; nothing where it is missing or null."""
        return self.member(name) if self.has(name) else None

    def elements(self, or_null: bool = False) -> list[Value]:
        """The elements of a list; CometBFT may write null for an empty one."""
        if or_null and self.raw is None:
            return []
        if not isinstance(self.raw, list):
            self.fail("is no list")
        return [Value(raw, self.prefix, place, self) for place, raw in self.placed()]

    def placed(self) -> Iterable[tuple[int, Any]]:
        """The elements of a list and their places; some may be left out."""
        return self.raw.placed() if isinstance(self.raw, Shortened) else enumerate(self.raw)

    def list_at(self, path: str) -> list[Value]:
        """The elements of the list at the end of names that are joined by points."""
        return self.at(path).elements()

    def text(self) -> str:
        """A string."""
        if not isinstance(self.raw, str):
            self.fail("is no string")
        return self.raw

    def truth(self) -> bool:
        """A truth value."""
        if not isinstance(self.raw, bool):
            self.fail("is no truth value")
        return self.raw

    def small(self) -> int:
        """A whole number of 32 bits, a JSON number."""
        if type(self.raw) is not int or not 0 <= self.raw < 2 ** 32:
            self.fail("is no whole number of 32 bits")
        return self.raw

    def number(self) -> int:
        """A whole number of 64 bits, a string of digits."""
        if not isinstance(self.raw, str) or not _NUMBER.fullmatch(self.raw) or int(self.raw) >= 2 ** 63:
            self.fail("is no string of a whole number from 0 on, below 2^63")
        return int(self.raw)

    def any_amount(self) -> int:
        """An amount, a string of digits, also one above the limit."""
        if not isinstance(self.raw, str) or not _AMOUNT.fullmatch(self.raw):
            self.fail("is no string of an amount from 0 on")
        return int(self.raw)

    def amount(self) -> int:
        """An amount."""
        amount = self.any_amount()
        if amount > MOST_WHOLE:
            self.fail("is above 10^18", "limit")
        return amount

    def any_decimal(self) -> int:
        """The units of a decimal, also of one above the limit."""
        units = decimal_units(self.text())
        if units is None:
            self.fail("is no decimal from 0 on")
        return units

    def decimal(self) -> int:
        """The units of a decimal."""
        units = self.any_decimal()
        if units >= MOST_DECIMAL * ONE:
            self.fail("is 10^20 or more", "limit")
        return units

    def seconds(self) -> int:
        """A duration as `app_state` spells it, `1814400s`, of whole seconds."""
        found = _SECONDS.fullmatch(self.text())
        if not found:
            self.fail("is no duration")
        if int(found[2] or 0):
            self.fail(f"is not of whole seconds: {self.raw}", "duration")
        return int(found[1])

    def seconds_of_nanoseconds(self) -> int:
        """A duration as CometBFT spells it, nanoseconds, of whole seconds."""
        nanoseconds = self.number()
        if nanoseconds % SECOND:
            self.fail(f"is not of whole seconds: {self.raw} nanoseconds", "duration")
        return nanoseconds // SECOND

    def moment(self) -> int:
        """A time in nanoseconds since 1970."""
        moment = moment_of(self.text())
        if moment is None:
            self.fail("is no time in UTC of RFC 3339")
        if moment < 0:
            self.fail(f"is before 1970: {self.raw}", "limit")
        return moment

    def account(self, kind: str = "") -> bytes:
        """The address of an account, or with the kind `valoper` of an operator; one of 32 bytes is cut, and told."""
        prefix, key = self.prefix, (kind, self.text())
        if (seen := prefix.seen.get(key)) is not None:
            return seen
        address = prefix.bytes_of(self.raw, kind)
        if address is None:
            self.fail(f"is no bech32 text of {prefix.account or ''}{kind}1.. and 20 or 32 bytes: {self.raw}", "address")
        if len(address) == 32:
            address = hash_address(address)
            (look if prefix.tells_long else note)(
                "long-address", f"{self.raw} has 32 bytes; {address.hex()} stands for it")
            return address
        if address in CHAIN_OF_HERE:
            self.fail(f"has the bytes that stand for a module here: {self.raw}", "address")
        if len(prefix.seen) >= 1 << 16:
            prefix.seen.clear()
        return prefix.seen.setdefault(key, HERE_OF_CHAIN.get(address, address))

    def user(self, kind: str = "") -> bytes:
        """The address of an account that is none of the four modules'."""
        address = self.account(kind)
        if address in CHAIN_OF_HERE:
            self.fail(f"is the account of a module: {self.raw}", "address")
        return address

    def operator(self) -> bytes:
        """The address of an operator."""
        return self.user("valoper")

    def consensus(self) -> bytes:
        """A consensus address in bech32."""
        address = self.prefix.bytes_of(self.text(), "valcons")
        if address is None or len(address) != 20:
            self.fail(f"is no bech32 text of {self.prefix.account or ''}valcons1.. and 20 bytes: {self.raw}", "address")
        return address

    def hex_address(self) -> bytes:
        """An address of CometBFT, 40 hexadecimal digits."""
        if not _HEX_ADDRESS.fullmatch(self.text()):
            self.fail(f"is no address of 40 hexadecimal digits: {self.raw}", "address")
        return bytes.fromhex(self.raw)

    def key_address(self) -> bytes:
        """The consensus address of an ed25519 key, in the spelling of the SDK."""
        kind, key = self.member("@type").text(), self.raw.get("key")
        if kind != "/cosmos.crypto.ed25519.PubKey":
            self.fail(f"is no ed25519 key but {kind}", "consensus-key")
        try:
            key_bytes = base64.b64decode(key, validate=True)
        except (binascii.Error, TypeError, ValueError):
            self.fail("has no key in base64", "consensus-key")
        if len(key_bytes) != 32:
            self.fail(f"has {len(key_bytes)} bytes, not 32", "consensus-key")
        return hash_address(key_bytes)

    def denom(self) -> str:
        """A denomination."""
        if not is_denom(self.text()):
            self.fail(f"is no denomination: {self.raw!r}")
        return self.raw

    def coin(self) -> tuple[str, int]:
        """A denomination and an amount."""
        return self.member("denom").denom(), self.member("amount").amount()

    def all_coins(self, read: Callable[[Value], int] | None = None,
                  read_left: Callable[[Value], int] | None = None) -> Coins:
        """Coins without those of 0; of each denomination one. No limit holds for those that are left out."""
        coins: dict[str, int] = {}
        for element in self.elements():
            denom, amount = element.member("denom").denom(), element.member("amount")
            if denom in coins:
                self.fail(f"has {denom} twice")
            form = read or Value.amount if TAKEN.has(denom) else read_left or Value.any_amount
            coins[denom] = form(amount)
        return {denom: amount for denom, amount in coins.items() if amount}

    def coins(self) -> Coins:
        """Coins of the denominations that are taken, without those of 0."""
        return TAKEN.of(self.all_coins())

    def decimal_coins(self) -> Coins:
        """Decimal coins of the denominations that are taken, without those of 0."""
        return TAKEN.of(self.all_coins(Value.decimal, Value.any_decimal))

    def any_coins(self) -> Coins:
        """Coins without those of 0, also those above the limit."""
        return self.all_coins(Value.any_amount)


def _refuse_constant(name: str) -> NoReturn:
    raise ValueError(f"{name} is no number of JSON")


DECODER = json.JSONDecoder(parse_constant=_refuse_constant)


def read_document(path: str, prefix: Prefix | None = None) -> Value:
    """The document of a file."""
    try:
        with open(path, "rb") as file:
            raw = DECODER.decode(file.read().decode())
    except OSError as fault:
        stop("file", f"{path}: {fault.strerror}")
    except (ValueError, RecursionError) as fault:
        stop("json", f"{path} is no JSON: {fault}")
    return Value(raw, prefix or Prefix(), os.path.basename(path))


def answered(answer: Value) -> Value:
    """What CometBFT answered in a document, which stands under `result`."""
    if answer.has("error"):
        answer.fail(f"is an error of the node: {json.dumps(answer.raw['error'])[:200]}", "rpc-error")
    return answer.member("result")


def read_answer(path: str, prefix: Prefix | None = None) -> Value:
    """What CometBFT answered, in a file."""
    return answered(read_document(path, prefix))
