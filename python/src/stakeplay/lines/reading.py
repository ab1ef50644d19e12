"""Reads the output lines of stakeplay, and judges whether they are a whole output.

`lines(name)` gives the lines as objects, one by one. It raises a `Fault` where a line is cut or of another program,
where a block does not follow the one before, or where the end is missing. After a report the next blocks and their
report may stand, and before the first line of a run or alone an answer: lines of the report's kinds.
"""
from __future__ import annotations

import json
from typing import Any, Callable, Iterable, Iterator, NoReturn

from stakeplay import calling
from stakeplay.addresses import MODULES, bare  # noqa: F401
from stakeplay.calling import GZIP, Fault, opened, stop

Json = dict[str, Any]
ONE = 10 ** 18
COLLECTOR, BONDED, NOT_BONDED, DISTRIBUTION = MODULES

FACTS = {
    "transfer": "coins from to", "burn": "amount denom from", "allocated": "coins validator", "pooled": "coins",
    "period": "period ratio validator", "started": "delegator period stake validator",
    "slashed": "burned fraction validator", "paid": "coins delegator reward to validator",
    "commission": "coins to validator", "status": "status validator",
    "jailed": "validator", "unjailed": "validator", "tombstoned": "validator", "removed": "validator", "params": "authority",
}
OUTCOMES = {"accepted": "tx", "refused": "number tx"}
REPORT = {  # in the order of the report
    "supply": "coins", "account": "address coins",
    "validator": "cons commission jailed operator outstanding rate shares status tokens",
    "delegation": "delegator shares validator", "pending": "coins delegator validator",
    "unbonding": "balance completes created delegator initial validator",
    "redelegation": "completes created delegator initial shares source target",
    "signing": "cons counted jailed_until missed start tombstoned", "pool": "coins",
}
PLACES = {kind: place for place, kind in enumerate(REPORT)}
MEMBERS = {kind: frozenset(("kind " + names).split()) for kind, names in REPORT.items()}
MEMBERS |= {kind: frozenset(("height kind " + names).split()) for kind, names in (FACTS | OUTCOMES).items()}
MEMBERS |= {"genesis": frozenset(("height", "kind", "supply")), "block": frozenset(("height", "kind", "time"))}
MORE = {"refused": ({"msg"}, {"msg", "until"}, {"msg", "member"}, {"msg", "a", "b", "c", "over"}), "pending": ({"limit"},)}


def is_shaped(kind, line):
    """Whether a line has the members of its kind, and no others."""
    if line.keys() == MEMBERS.get(kind):
        return True
    base = MEMBERS.get(kind, frozenset()) - ({"coins"} if kind == "pending" else set())
    return any(line.keys() == base | more for more in MORE.get(kind, ()))


class Order:
    """Where in an output the reading stands, and what may come next there."""

    def __init__(self):
        self.part, self.height, self.tx, self.group = "nothing", None, 0, None

    def take(self, kind, line):
        """Goes on to a line; the reason why it may not stand here, if there is one."""
        if kind == "genesis":
            if self.part not in ("nothing", "answer"):
                return "another run begins here"
            self.part, self.height = "block", 0
        elif kind == "block":
            if self.part == "report":
                return "the report before it is cut"
            if self.height is not None and line["height"] != self.height + 1:
                return f"what comes before block {line['height']} is cut"
            self.part, self.height, self.tx = "block", line["height"], 0
        elif kind in PLACES:
            return self.take_reported(kind)
        elif self.part != "block" or line["height"] != self.height:
            return f"a line of height {line['height']} does not stand in its block"
        elif kind in OUTCOMES:
            if line["tx"] != self.tx:
                return f"the outcome of transaction {self.tx} is missing before it"
            self.tx += 1
        return None

    def take_reported(self, kind):
        """A line of a report, which begins with the supply and ends with the pool, or of an answer."""
        if kind == "supply" and self.part != "report":
            self.part = "report"
        elif self.part in ("nothing", "answer"):
            self.part = "answer"
        elif self.part != "report":
            return "the beginning of the report is cut"
        elif PLACES[kind] < PLACES[self.group] or kind == self.group == "supply":
            return "a line of the report is not in its place"
        elif kind == "pool":
            self.part = "end"
        self.group = kind
        return None

    def is_cut(self):
        """Whether an output can't end here; the supply alone is an answer."""
        return self.part == "block" or self.part == "report" and (self.height is not None or self.group != "supply")


PLACE = 0  # of the line that was read last, from 1; a recipe reads one output


def lines(name: str, before: str | None = None) -> Iterator[Json]:
    """The lines of a whole output, each as an object; in front of them the report at the end of an output before it."""
    order = Order()
    if before is not None:
        yield from report_of(before, order)
    yield from lines_of(opened(name), order)


def lines_of(texts: Iterable[bytes], order: Order | None = None) -> Iterator[Json]:
    """The lines of a whole output that was opened."""
    global PLACE
    order, place, begun = order or Order(), 0, False
    for place, text in enumerate(texts, 1):
        PLACE, begun = place, True
        if not text.endswith(b"\n"):
            stop(f"line {place}: the output is cut in this line")
        if place == 1 and text.startswith(GZIP):
            stop("the output is compressed; `gunzip` gives its lines")
        yield judged(text, order, place)
    if not begun:
        stop("nothing was read")
    if order.is_cut():
        stop(f"line {place}: the output is cut after this line: the end of its report is missing")


def report_of(name: str, order: Order) -> Iterator[Json]:
    """The report at the end of an output: what was known there."""
    global PLACE
    kept: list[bytes] = []
    place = 0
    for place, text in enumerate(opened(name), 1):
        if b'"kind":"supply"' in text:
            kept = [text]
        elif kept:
            kept = [] if b'"height":' in text else [*kept, text]
    for PLACE, text in enumerate(kept, place - len(kept) + 1):
        try:
            line = judged(text, order, PLACE)
        except Fault as fault:
            stop(f"{name}: {fault}")
        yield line
    if order.part != "end" or not kept[-1].endswith(b"\n"):
        stop(f"{name}: it does not end with a report")


def judged(text: bytes, order: Order, place: int) -> Json:
    """A line as an object, which has the members of its kind and stands where it may."""
    try:
        line = json.loads(text.decode())
        is_line = is_shaped(line["kind"], line)
    except (ValueError, TypeError, KeyError, AttributeError, RecursionError):
        is_line = False
    if not is_line:
        stop(f"line {place}: this is no line of stakeplay's output")
    if fault := order.take(line["kind"], line):
        stop(f"line {place}: {fault}")
    return line


def run(main: Callable[[], int | None]) -> NoReturn:
    """Runs a recipe; a line in which it does not find what the program writes there is of another program."""
    global PLACE
    PLACE = 0

    def judged_main() -> int | None:
        try:
            return main()
        except (ValueError, TypeError, KeyError, IndexError, AttributeError, ArithmeticError, RecursionError, StopIteration):
            if not PLACE:
                raise
            stop(f"line {PLACE}: this is no line of stakeplay's output")
    calling.run(judged_main)


def whole(coins):
    """Coins, as the amount of each denomination."""
    return {coin["denom"]: int(coin["amount"]) for coin in coins}


def raw(text):
    """The units of 10^-18 of a decimal."""
    before, after = text.split(".")
    if len(after) != 18:
        raise ValueError(text)
    return int(before + after)


def units(coins):
    """Decimal coins, as the units of each denomination."""
    return {coin["denom"]: raw(coin["amount"]) for coin in coins}


def shown(number):
    """Units of 10^-18 as a decimal."""
    return f"{number // ONE}.{number % ONE:018d}"


class Input:
    """The input beside its output, read in step with it, one line at a time: of `replay`, or of `resume`, whose first
    line is a block and which has no genesis."""

    def __init__(self, name: str):
        self.name, self.file, self.held = name, opened(name), None
        first = self.next_line(f"{name}: this is no input of `replay` or `resume`")
        self.genesis = first if is_genesis(first) else None
        self.block: Json = {"height": -1}
        if first.get("kind") == "block" and isinstance(first.get("height"), int):
            self.held = first
        elif not self.genesis:
            stop(f"{name}: this is no input of `replay` or `resume`")
        self.first = 0 if self.genesis else first["height"]

    def differs(self) -> NoReturn:
        """Says that the two do not belong together."""
        stop(f"{self.name}: this is not the input of that output")

    def next_line(self, otherwise: str = "") -> Json:
        """The next line, which has to be there."""
        try:
            if self.held:
                line, self.held = self.held, None
            else:
                line = json.loads(self.file.readline().decode())
            if isinstance(line, dict):
                return line
        except (ValueError, RecursionError):
            pass
        stop(otherwise) if otherwise else self.differs()

    def has(self, height: int) -> bool:
        """Whether the input may have a block: one of `resume` has none of the heights before its first line."""
        return height >= self.first

    def transaction(self, line: Json) -> Json:
        """The transaction of an outcome."""
        return self.at(line["height"])["txs"][line["tx"]]

    def at(self, height: int) -> Json:
        """The block of a height; heights are asked for in ascending order."""
        while self.block["height"] < height:
            self.block = self.next_line()
            if not isinstance(self.block.get("height"), int) or not isinstance(self.block.get("txs"), list):
                self.differs()
        if self.block["height"] != height:
            self.differs()
        return self.block

    def take(self, kind: str, line: Json) -> None:
        """Goes on to a line of the output, and holds its block against that of the input."""
        try:
            if kind == "genesis":
                is_other = self.genesis is not None and supply_of(self.genesis) != whole(line["supply"])
            elif kind == "block" and self.has(line["height"]):
                is_other = plain_time(self.at(line["height"])["time"]) != line["time"]
            elif kind in OUTCOMES and self.has(line["height"]):
                is_other = line.get("msg", -1) >= len(self.transaction(line)["msgs"])
            else:
                is_other = False
            if is_other:
                self.differs()
        except (KeyError, TypeError, ValueError, IndexError, AttributeError):
            self.differs()


def is_genesis(line: Json) -> bool:
    """Whether a line has what is read of a genesis."""
    try:
        supply_of(line)
        for validator in line["validators"]:
            float(validator["rate"]), validator["operator"], validator["cons"]
        for delegation in line["delegations"]:
            delegation["delegator"], delegation["validator"]
        params = line["params"]
        return line["kind"] == "genesis" and params["power_reduction"] > 0 and params["max_validators"] > 0
    except (KeyError, TypeError, ValueError, AttributeError):
        return False


def supply_of(genesis: Json) -> dict[str, int]:
    """The coins that a genesis has of each denomination."""
    found = {genesis["params"]["bond_denom"]: sum(int(line["amount"]) for line in genesis["delegations"])}
    for account in genesis["accounts"]:
        for coin in account["coins"]:
            found[coin["denom"]] = found.get(coin["denom"], 0) + int(coin["amount"])
    return {denom: amount for denom, amount in found.items() if amount}


def plain_time(text: str) -> str:
    """A moment as it is written: without zeros at the end of its fraction."""
    before, point, part = text.removesuffix("Z").partition(".")
    return f"{before}{point}{part}".rstrip("0").rstrip(".") + "Z" if point else text


class Stakes:
    """The stakes of those delegations that are wanted, as their lines tell them, and what slashes take of them.

    A stake of the genesis has no line: it is known from the input, from its next start on, or from a report on, where it
    is the value of the delegation's shares."""

    def __init__(self, wants, given=None):
        self.wants, self.at, self.slashes, self.touched = wants, {}, [], None
        self.worth = {}     # by validator: the tokens and the shares that a report tells
        for line in given.genesis["delegations"] if given and given.genesis else ():
            if wants(line["delegator"], line["validator"]):
                self.at.setdefault(line["validator"], {})[line["delegator"]] = int(line["amount"]) * ONE

    def take(self, kind, line):
        """Goes on to a line; at a burn: of whom, at which validator, how many units of what denomination it took."""
        if kind == "started":
            if self.wants(line["delegator"], line["validator"]):
                self.at.setdefault(line["validator"], {})[line["delegator"]] = raw(line["stake"])
        elif kind == "paid":
            self.touched = (line["delegator"], line["validator"])
            self.at.get(line["validator"], {}).pop(line["delegator"], None)
        elif kind == "slashed":
            kept, stakes = ONE - raw(line["fraction"]), self.at.get(line["validator"], {})
            lost = [(d, line["validator"], s - s * kept // ONE) for d, s in stakes.items()]
            self.slashes = lost if kept < ONE else []
            self.touched = None
            for delegator, stake in stakes.items():
                stakes[delegator] = stake * kept // ONE
        elif kind == "burn":
            told, touched = self.slashes, self.touched  # a withdrawal before a burn is that of a redelegation's slash
            if touched and not told and self.wants(*touched):
                told = [(*touched, int(line["amount"]) * ONE)]
            self.slashes, self.touched = [], None
            return [(*part, line["denom"]) for part in told]
        elif kind == "removed":
            self.at.pop(line["validator"], None)
        elif kind == "validator":
            self.worth[line["operator"]] = int(line["tokens"]), raw(line["shares"])
        elif kind == "delegation" and line["validator"] in self.worth and self.wants(line["delegator"], line["validator"]):
            tokens, shares = self.worth[line["validator"]]
            value = raw(line["shares"]) * tokens * ONE // shares
            self.at.setdefault(line["validator"], {}).setdefault(line["delegator"], value)
        elif kind in OUTCOMES or kind == "block":
            self.slashes, self.touched = [], None
        return []


class Rest:
    """Which lines that something joins the pool belong to the end of a period or to a removal: those are taken from
    what is outstanding of the validator of the line that follows."""

    def __init__(self):
        self.due, self.taken = {}, {}

    def take(self, kind, line):
        """Goes on to a line; at a period and a removal: the units that left what is outstanding."""
        if kind == "transfer" and line["to"] == DISTRIBUTION:
            self.due = {n: a * ONE for n, a in whole(line["coins"]).items()}
        elif kind == "allocated":
            share = units(line["coins"])
            self.due = {n: a - share.get(n, 0) for n, a in self.due.items() if a > share.get(n, 0)}
        elif kind == "pooled" and not self.due:
            self.taken = units(line["coins"])
            return {}
        else:
            self.due = {}
        taken, self.taken = self.taken, {}
        return taken if kind in ("period", "removed") else {}
