"""Looks at a line again that the program refused, and says where its fault stands.

`python3 -m stakeplay.lines.place START FORM COMMAND LINE REASON ..` prints a phrase, or nothing. `stakeplay.sh` calls it
where standard input is a file: START is the byte at which the input begins there, FORM `bech32` or `hex`, COMMAND `replay`,
`resume`, `tally`, `check` or `statement`, LINE the number of the line, and REASON what the program told: `not JSON`,
`bad shape N`, `bad genesis N` or `bad block N`. The walk is that of docs/FORMATS.md over its tables (`tables/members.json`);
where it comes to another number than the program, nothing is said.
"""
from __future__ import annotations

import datetime
import fractions
import json
import os
import pathlib
import re
import sys
from typing import Any, Iterable, Iterator, NoReturn

from stakeplay.addresses import from_bech32

TABLES: dict[str, Any] = json.loads((pathlib.Path(__file__).parents[1] / "tables/members.json").read_text(encoding="utf-8"))
PREFIXES = {"account": "cosmos", "user": "cosmos", "operator": "cosmosvaloper", "consensus address": "cosmosvalcons"}
PATTERNS = {"amount": "[0-9]{1,38}", "decimal": r"[0-9]{1,20}(\.[0-9]{1,18})?",
            "denomination": "[a-zA-Z][a-zA-Z0-9/:._-]{2,127}"}
MOMENT = r"(\d{4}-\d\d-\d\dT\d\d:\d\d:\d\d)(\.\d{1,9})?Z"
COINS = {"coins": [{"number": 32, "name": "denom", "form": "denomination"}, {"number": 33, "name": "amount", "form": "amount"}],
         "decimal coins": [{"number": 32, "name": "denom", "form": "denomination"},
                           {"number": 134, "name": "amount", "form": "decimal"}]}
LONGEST = 4194304
MOST_BRACKETS = 127
MOST_UNITS = 10 ** 18
SHOWN = 60      # letters of a value


class Number(str):
    """A number of a line, as it stands there."""


class Fault(Exception):
    """The first member at fault: its number, where it stands, and what does."""

    def __init__(self, number: int, path: str, text: str):
        super().__init__(number, path, text)
        self.number, self.path, self.text = number, path, text


# ---- the line

def line_at(start: int, number: int) -> bytes:
    """A line of the file that standard input is, from a byte on; nothing where it is not whole there, or too long."""
    begun, place, seen = start, start, 1
    while piece := os.pread(0, 1 << 20, place):
        at = -1
        while seen < number and (at := piece.find(b"\n", at + 1)) >= 0:
            seen += 1
            begun = place + at + 1
        if seen == number:
            break
        place += len(piece)
    line = os.pread(0, LONGEST + 1, begun).partition(b"\n")[0] if seen == number else b""
    return line


def refuse(text: str) -> NoReturn:
    raise ValueError(text)


def read(text: str) -> Any:
    """The value of a line, its numbers as texts."""
    return json.loads(text, parse_int=Number, parse_float=Number, parse_constant=refuse)


def depth_of(text: str) -> int:
    """How deep brackets stand in a text of JSON."""
    depth = most = 0
    for letter in re.sub(r'"(?:[^"\\]|\\.)*"', "", text):
        depth += (letter in "[{") - (letter in "]}")
        most = max(most, depth)
    return most


def told_text(line: bytes) -> str:
    """Why a line is no JSON."""
    kinds = {b"\x1f\x8b": "is compressed", b"\xef\xbb\xbf": "begins with a byte order mark", b"\xff\xfe": "is UTF-16",
             b"\xfe\xff": "is UTF-16"}
    if not line.strip():
        return "the line is empty"
    for mark, what in kinds.items():
        if line.startswith(mark):
            return f"the line {what}"
    try:
        text = line.decode()
        read(text)
        if depth_of(text) > MOST_BRACKETS:
            return f"brackets stand {depth_of(text)} deep in the line, and at most {MOST_BRACKETS} are read"
    except UnicodeDecodeError as fault:
        return f"byte {fault.start + 1} of the line is no UTF-8"
    except json.JSONDecodeError as fault:
        place = len(text[:fault.pos].encode())
        if place >= len(line.rstrip()):
            return f"the line ends at byte {len(line)}, before its value does; an object has to stand in one line"
        return f"at byte {place + 1} of the line stands {shown(text[fault.pos:fault.pos + 12])}: {fault.msg}"
    except (ValueError, RecursionError):
        pass
    return ""


# ---- the walk

def shown(value: Any) -> str:
    """A value, cut."""
    text = value if isinstance(value, Number) else json.dumps(value, ensure_ascii=False)
    return text if len(text) <= SHOWN else text[:SHOWN] + ".."


def walk_object(members: list[dict[str, Any]], value: Any, path: str, form: str) -> None:
    """Looks at an object by its table."""
    if not isinstance(value, dict):
        raise Fault(members[0]["number"], path or "the line", f"is {shown(value)}, and no object")
    for member in members:
        place = f"{path}.{member['name']}" if path else member["name"]
        if member["name"] in value:
            walk(member, value[member["name"]], place, form)
        elif not member.get("optional"):
            raise Fault(member["number"], place, "is missing")
    names = {member["name"] for member in members}
    for name in value:
        if name not in names:
            raise Fault(0, f"{path}.{name}" if path else name, "stands there, and no table names it")


def walk_kinds(table: dict[str, Any], number: int, value: Any, path: str, form: str) -> None:
    """Looks at an object whose kind says which members it has."""
    if not isinstance(value, dict):
        raise Fault(number, path, f"is {shown(value)}, and no object")
    kind = value.get("kind")
    if not isinstance(kind, str) or isinstance(kind, Number) or kind not in table:
        raise Fault(number, f"{path}.kind", f"is {shown(kind)}, and no kind" if "kind" in value else "is missing")
    first = {"number": number, "name": "kind", "form": kind}
    walk_object([first, *table[kind]], value, path, form)


def walk(member: dict[str, Any], value: Any, path: str, form: str) -> None:
    """Looks at a member by its form."""
    number, kind = member["number"], member["form"]
    wrong = Fault(number, path, f"is {shown(value)}")
    if kind in ("list of objects", "list of messages", "list of entries") or kind in COINS:
        if not isinstance(value, list):
            raise wrong
        for place, element in enumerate(value):
            inner = f"{path}[{place}]"
            if kind in COINS:
                walk_object(COINS[kind], element, inner, form)
            elif "of" in member:
                walk_object(member["of"], element, inner, form)
            else:
                table, first = (TABLES["message"], 90) if kind == "list of messages" else (TABLES["entry"], 131)
                walk_kinds(table, first, element, inner, form)
        if kind in COINS and (twice := first_twice(coin["denom"] for coin in value)) is not None:
            raise Fault(number, f"{path}[{twice}].denom", f"is {shown(value[twice]['denom'])}, which stands before it")
    elif kind == "object":
        walk_object(TABLES["params"], value, path, form)
    elif kind == "coin":
        walk_object(COINS["coins"], value, path, form)
    elif not is_of(kind, value, form):
        raise wrong


def first_twice(values: Iterable[Any]) -> int | None:
    """The place of the first value that stands before it."""
    seen = set()
    for place, value in enumerate(values):
        if value in seen:
            return place
        seen.add(value)
    return None


def is_of(kind: str, value: Any, form: str) -> bool:
    """Whether a value is of a plain form; of a form of no name: one of these strings."""
    if kind == "number":
        return isinstance(value, Number) and re.fullmatch("[0-9]+", value) is not None and int(value) < 2 ** 63
    if kind == "truth value":
        return isinstance(value, bool)
    if not isinstance(value, str) or isinstance(value, Number):
        return False
    if kind in PATTERNS:
        return re.fullmatch(PATTERNS[kind], value, re.A) is not None
    if kind == "moment":
        return is_moment(value)
    if kind in PREFIXES:
        address = address_of(value, PREFIXES[kind], form)
        return address is not None and (kind in ("account", "consensus address") or not is_module(address))
    return value in re.split(", | or ", kind)


def is_moment(text: str) -> bool:
    found = re.fullmatch(MOMENT, text, re.A)
    try:
        return found is not None and datetime.datetime.fromisoformat(found[1]).year >= 1970
    except ValueError:
        return False


def address_of(text: str, prefix: str, form: str) -> bytes | None:
    """The address that a text spells."""
    if form != "bech32":
        return bytes.fromhex(text) if re.fullmatch("[0-9a-f]{40}", text) else None
    found = from_bech32(text)
    return found[1] if found is not None and found[0] == prefix and len(found[1]) == 20 else None


def is_module(address: bytes) -> bool:
    return address[:19] == bytes(19) and 1 <= address[19] <= 4


def shape_fault(table: str, value: Any, form: str) -> Fault | None:
    """The first member at fault of a line."""
    try:
        walk_object(TABLES[table], value, "", form)
    except Fault as fault:
        return fault
    return None


# ---- genesis and blocks

def number_in(text: str) -> fractions.Fraction:
    """A bound of a range: 1,000 or 10^18 or 2^63 - 1."""
    power = re.fullmatch(r"(\d+)\^(\d+)( - 1)?", text)
    return fractions.Fraction(int(power[1]) ** int(power[2]) - bool(power[3]) if power else int(text.replace(",", "")))


def outside(genesis: Any) -> Iterator[str]:
    """The parameters that are outside their ranges."""
    for name, told in TABLES["ranges"].items():
        low, high = map(number_in, told.split(" to "))
        if not low <= fractions.Fraction(genesis["params"][name]) <= high:
            yield f"params.{name} is {shown(genesis['params'][name])}, and its range is {told}"
    if int(genesis["time"][:4]) > 9899:
        yield f"time is {shown(genesis['time'])}"


def first_of(name: str, rows: list[Any], holds: Iterable[bool], member: str) -> Iterator[str]:
    """The first element of which something holds."""
    for place, (row, is_so) in enumerate(zip(rows, holds)):
        if is_so:
            yield f"{name}[{place}].{member} is {shown(row[member])}"


def stands_before(values: list[Any]) -> list[bool]:
    seen: set[Any] = set()
    return [value in seen or seen.add(value) is not None for value in values]


def too_much(genesis: Any) -> Iterator[str]:
    """The denominations of which there are too many units."""
    sums: dict[str, int] = {genesis["params"]["bond_denom"]: sum(int(row["amount"]) for row in genesis["delegations"])}
    for row in genesis["accounts"]:
        for coin in row["coins"]:
            sums[coin["denom"]] = sums.get(coin["denom"], 0) + int(coin["amount"])
    yield from (f"{denom} comes to {units}" for denom, units in sums.items() if units > MOST_UNITS)


def genesis_entries(genesis: Any, number: int, form: str) -> Iterator[str]:
    """What meets a condition of a genesis."""
    accounts, validators, delegations = genesis["accounts"], genesis["validators"], genesis["delegations"]
    addresses = [address_of(row["address"], "cosmos", form) or b"" for row in accounts]
    operators = [row["operator"] for row in validators]
    rates = [[fractions.Fraction(row[name]) for name in ("rate", "max_rate", "max_change_rate")] for row in validators]
    least = fractions.Fraction(genesis["params"]["min_commission_rate"])
    staked = {row["validator"] for row in delegations}
    if number == 1:
        yield from outside(genesis)
    elif number == 2:
        bad = [is_module(address) or twice for address, twice in zip(addresses, stands_before(addresses))]
        yield from first_of("accounts", accounts, bad, "address")
    elif number == 3:
        yield from first_of("validators", validators, stands_before(operators), "operator")
    elif number == 4:
        yield from first_of("validators", validators, stands_before([row["cons"] for row in validators]), "cons")
    elif number == 5:
        bad = [most > 1 or rate > most or step > most or rate < least for rate, most, step in rates]
        yield from first_of("validators", validators, bad, "operator")
    elif number == 6:
        yield from first_of("validators", validators, [int(row["min_self_delegation"]) == 0 for row in validators], "operator")
    elif number == 7:
        yield from first_of("delegations", delegations, [row["validator"] not in operators for row in delegations], "validator")
    elif number == 8:
        pairs = stands_before([(row["delegator"], row["validator"]) for row in delegations])
        yield from first_of("delegations", delegations, pairs, "delegator")
    elif number == 9:
        yield from first_of("delegations", delegations, [int(row["amount"]) == 0 for row in delegations], "delegator")
    elif number == 10:
        yield from first_of("validators", validators, [operator not in staked for operator in operators], "operator")
    elif number == 11:
        yield from too_much(genesis)


def block_entries(block: Any, number: int, last: Any) -> Iterator[str]:
    """What of a block meets a condition, behind the line before it, where there is one."""
    if number == 1 and last:
        due = int(last["height"]) + 1 if last["kind"] == "block" else 1
        yield f"height is {block['height']}, and {due} is due"
    elif number == 2 and last:
        yield f"time is {block['time']}, and the last one is {last['time']}"
    elif number == 4:
        votes = block["votes"]
        yield from first_of("votes", votes, stands_before([row["cons"] for row in votes]), "cons")
    elif number == 6:
        rows = block["evidence"]
        bad = [not 0 < int(row["height"]) < int(block["height"]) for row in rows]
        yield from first_of("evidence", rows, bad, "height")


# ---- what is said

def phrase(start: int, form: str, command: str, number: int, reason: str) -> str:
    """Where the fault of a line stands; nothing where that is not known."""
    line = line_at(start, number)
    what, _, code = reason.rpartition(" ")
    if reason == "not JSON":
        return told_text(line)
    value = read(line.decode())
    if what == "bad shape":
        is_first = number == 1 and command in ("replay", "statement")
        table = {"tally": "ballot", "check": "statement"}.get(command, "genesis" if is_first else "block")
        fault = shape_fault(table, value, form)
        return f"{fault.path} {fault.text}" if fault and fault.number == int(code) else ""
    if what == "bad genesis":
        return next(genesis_entries(value, int(code), form), "")
    if what == "bad block":
        last = read(line_at(start, number - 1).decode()) if number > 1 else None
        return next(block_entries(value, int(code), last), "")
    return ""


def main(words: list[str]) -> None:
    start, form, command, number, *reason = words
    try:
        print(phrase(int(start), form, command, int(number), " ".join(reason)))
    except (OSError, ValueError, LookupError, TypeError, AttributeError, RecursionError, ArithmeticError):
        pass    # it is said without a place


if __name__ == "__main__":
    main(sys.argv[1:])
