"""What one address got, gave and lost, fact by fact: for a sheet and for a page, each with the line that tells it.

A transfer out of `distribution` is told before its reason, so a move may be answered some lines after its transfer. The
rules of what names an address are those of `tax_sheet.py`.
"""
from __future__ import annotations

from typing import Any, Iterator, NamedTuple

from stakeplay.lines.reading import COLLECTOR, DISTRIBUTION, MODULES, NOT_BONDED, ONE, Stakes, bare, whole

Json = dict[str, Any]


class Move(NamedTuple):
    """A row: `side` is `in`, `out`, or `aside` for what did not pass through the account."""
    height: int
    place: int      # the line of the output
    what: str
    side: str
    coins: dict[str, int]
    other: str      # who or which validator is at the other end
    tx: int         # the place of its transaction in the block; -1 for what a block's beginning or end does


def word(account: str, is_given: bool) -> str:
    """What a transfer from or to a module is."""
    if account not in MODULES:
        return "sent" if is_given else "received"
    if is_given:
        return {COLLECTOR: "fee", DISTRIBUTION: "pool funding"}.get(account, "delegated")
    return "unbonded" if account == NOT_BONDED else "pool spending"


class Moves:
    """The moves of an address. Those of a transaction are answered once its outcome is known, with its place."""

    def __init__(self, address: str, stakes: Stakes) -> None:
        self.address, self.stakes = address, stakes
        self.waiting: tuple[int, Json] | None = None    # a transfer out of distribution whose reason comes later
        self.held: list[Move] = []
        self.has_fee = False

    def take(self, line: Json, place: int) -> list[Move]:
        """Goes on to a line of the output; the moves that are known by now."""
        kind, done = line["kind"], []
        if self.waiting and kind not in ("pooled", "paid", "commission"):
            self.settle()
        for _, validator, lost, denom in self.stakes.take(kind, line):
            if lost >= ONE:
                self.hold(line, place, "slash", "aside", {denom: lost // ONE}, validator)
        if kind == "transfer":
            self.transfer(line, place)
        elif kind == "paid":
            self.paid(line, place)
        elif kind == "commission":
            self.commission(line, place)
        elif kind in ("accepted", "refused"):
            if kind == "refused" and self.has_fee:
                other = f"tx {line['tx']}" + (f" msg {line['msg']}" if "msg" in line else "")
                self.hold(line, place, f"refused {line['number']}", "aside", {}, other)
            done = [move._replace(tx=line["tx"]) for move in self.held]
            self.held, self.has_fee = [], False
        elif kind in ("block", "supply", "burn", "slashed"):    # only a block's beginning burns and slashes
            done, self.held = self.held, []
        return done

    def hold(self, line: Json, place: int, what: str, side: str, coins: dict[str, int], other: str) -> None:
        """Keeps a move until its transaction's outcome, or the end of its block."""
        self.held.append(Move(line["height"], place, what, side, coins, other, -1))

    def settle(self) -> None:
        """A transfer out of distribution that no payment explains comes from the community pool."""
        if self.waiting:
            place, line = self.waiting
            self.hold(line, place, "pool spending", "in", whole(line["coins"]), "")
            self.waiting = None

    def transfer(self, line: Json, place: int) -> None:
        """A transfer, if it is from or to the address."""
        me, giver, taker = self.address, line["from"], line["to"]
        if giver == me:
            what, other = word(taker, True), "" if taker in MODULES else taker
            self.has_fee = self.has_fee or what == "fee"
            what, side = ("sent to itself", "aside") if taker == me else (what, "out")
            self.hold(line, place, what, side, whole(line["coins"]), other)
        elif taker == me and giver == DISTRIBUTION:
            self.waiting = place, line
        elif taker == me:
            self.hold(line, place, word(giver, False), "in", whole(line["coins"]), "" if giver in MODULES else giver)

    def explained(self, line: Json) -> bool:
        """Whether the transfer that waits is that of a payment; another is settled."""
        if self.waiting and whole(self.waiting[1]["coins"]) != whole(line["coins"]):
            self.settle()
        self.waiting = None
        return True

    def paid(self, line: Json, place: int) -> None:
        """A payment of rewards to the address, or of its own rewards to another."""
        me, coins = self.address, whole(line["coins"])
        self.explained(line)
        if line["to"] == me:
            whose = "reward" if line["delegator"] == me else f"reward of {line['delegator']}"
            self.hold(line, place, whose, "in", coins, line["validator"])
        elif line["delegator"] == me:
            self.hold(line, place, f"reward to {line['to']}", "aside", coins, line["validator"])

    def commission(self, line: Json, place: int) -> None:
        """A payment of commission to the address, or of its own validator's to another."""
        self.explained(line)
        if line["to"] == self.address:
            self.hold(line, place, "commission", "in", whole(line["coins"]), line["validator"])
        elif bare(line["validator"]) == bare(self.address):
            self.hold(line, place, f"commission to {line['to']}", "aside", whole(line["coins"]), line["validator"])


def reckoned(moves: list[Move]) -> Iterator[tuple[str, int]]:
    """By how much each denomination of the account changed by these moves."""
    for move in moves:
        for denom, amount in move.coins.items():
            if move.side != "aside":
                yield denom, amount if move.side == "in" else -amount
