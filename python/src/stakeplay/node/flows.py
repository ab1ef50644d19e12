"""What the other modules of a chain moved, as transactions of a line, for `from_blocks.py`.

Each change of a balance is told by an event of `x/bank`. Whoever lost coins sends them to the reserve, an account that
no chain has, and the reserve sends those that were gained; coins for the fee collector are a fee of the reserve. What
the machine does by itself at a block's beginning and end is passed over.
"""
from __future__ import annotations

from collections import Counter, defaultdict
from dataclasses import dataclass, field
from typing import Any, Iterator, NoReturn

from stakeplay.node.data import (AUTHORITY, BONDED, COLLECTOR, DISTRIBUTION, MODULE_ACCOUNTS, MODULES, NOT_BONDED, RESERVE, Coins,
                       Value, coins_json, coins_text, look, note)
from stakeplay.node.denominations import TAKEN
from stakeplay.node.events import BANK_KINDS, BankEvent, Moved, attributes, is_mint, moves

Json = dict[str, Any]


def transaction(payer: bytes, fee: Coins, messages: list[Json]) -> Json:
    """A transaction of a line."""
    return {"payer": payer.hex(), "fee": coins_json(TAKEN.take(fee)), "msgs": messages}


def send(giver: bytes, taker: bytes, coins: Coins) -> Json:
    """A message that moves coins."""
    return {"kind": "send", "from": giver.hex(), "to": taker.hex(), "coins": coins_json(coins)}


def picked(events: Value, kinds: frozenset[str]) -> list[Value]:
    """Those of a list of events that are of some types."""
    if events.raw is None:
        return []
    try:
        found = [raw["type"] in kinds for raw in events.raw]
    except (KeyError, TypeError):   # no list, or one of them is no event
        found = [event.member("type").text() in kinds for event in events.elements()]
    return [Value(raw, events.prefix, place, events) for (place, raw), is_of in zip(events.placed(), found) if is_of]


class Flows:
    """What each account gained less what it lost, of each denomination."""

    def __init__(self) -> None:
        self.net: dict[tuple[bytes, str], int] = defaultdict(int)

    def add(self, account: bytes, coins: Coins, sign: int) -> None:
        """Adds coins that an account gained (the sign is 1) or lost (-1)."""
        for denom, amount in coins.items():
            self.net[account, denom] += sign * amount

    def add_event(self, event: BankEvent | None) -> None:
        """Adds what an event tells; minted and burned coins are told by the event beside as well."""
        if event and event[0] in ("coin_spent", "coin_received"):
            self.add(event[1], event[2], -1 if event[0] == "coin_spent" else 1)

    def add_pair(self, move: Moved) -> None:
        """Adds what a pair of events tells, in which none of the four modules may be."""
        for account, sign in ((move.giver, -1), (move.taker, 1)):
            if account in MODULE_ACCOUNTS and (coins := TAKEN.of(move.coins)):
                refuse_flow(account, coins, move.event)
            if account is not None:
                self.add(account, move.coins, sign)

    def of(self, account: bytes) -> Coins:
        """What an account gained (above 0) and lost (below 0)."""
        return {denom: amount for (one, denom), amount in self.net.items() if one == account and amount}

    def take_gain(self, account: bytes) -> Coins:
        """Takes out what an account gained."""
        gain = {denom: amount for denom, amount in self.of(account).items() if amount > 0}
        for denom in gain:
            del self.net[account, denom]
        return gain

    def sends(self, where: Value) -> list[Json]:
        """Messages that do the same by way of the reserve; none may be of the four modules."""
        gains: dict[bytes, Coins] = {}
        losses: dict[bytes, Coins] = {}
        for (account, denom), amount in sorted(self.net.items()):
            if not TAKEN.has(denom):
                TAKEN.leave(denom, max(amount, 0))
            elif amount:
                (gains if amount > 0 else losses).setdefault(account, {})[denom] = abs(amount)
        for account in gains | losses:
            if account in MODULE_ACCOUNTS:
                refuse_flow(account, TAKEN.of(self.of(account)), where)
        return ([send(account, RESERVE, coins) for account, coins in losses.items()]
                + [send(RESERVE, account, coins) for account, coins in gains.items()])


def refuse_flow(account: bytes, coins: Coins, where: Value) -> NoReturn:
    """Refuses coins of one of the four modules which no line can move."""
    module = MODULES[MODULE_ACCOUNTS.index(account)]
    where.fail(f"moves {coins_text(coins)} of {module}, which no line can do", "module-flow")


def flow_transaction(flows: Flows, where: Value, code: str) -> Iterator[Json]:
    """What moved, as a transaction of the reserve without a fee; nothing where nothing moved."""
    if sends := flows.sends(where):
        note(code, f"{where.place}: {len(sends)} sends by way of the reserve")
        yield transaction(RESERVE, {}, sends)


def parties(move: Moved) -> tuple[bytes | str | None, bytes | str | None]:
    """Giver and taker of coins: one of the four modules, nobody (minted, burned), or `other`."""
    giver, taker = (who if who is None or who in MODULE_ACCOUNTS else "other" for who in (move.giver, move.taker))
    return giver, taker


# ---- the beginning of a block

BEGINNING_BY_ITSELF = {(COLLECTOR, DISTRIBUTION), (DISTRIBUTION, "other"), (BONDED, None), (NOT_BONDED, None)}


@dataclass
class Beginning:
    """What other modules did at the beginning of a block."""
    events: Value
    minted: Coins = field(default_factory=dict)     # what reached the fee collector, and is paid ahead
    flows: Flows = field(default_factory=Flows)

    def transactions(self) -> Iterator[Json]:
        """What moved between other accounts."""
        return flow_transaction(self.flows, self.events, "begin-flow")

    def fee(self, when: str) -> Iterator[Json]:
        """What was minted, as a fee of the reserve."""
        if self.minted:
            note("mint", f"{self.events.place}: {coins_text(self.minted)}, a fee of the reserve {when}")
            yield transaction(RESERVE, self.minted, [])


def beginning(results: Value) -> Beginning:
    """What other modules did at the beginning of the block of these results."""
    events = results.member("begin_block_events")
    found, minted = Beginning(events), Counter()
    for move in moves(picked(events, BANK_KINDS)):
        if is_mint(move):
            minted.update(TAKEN.take(move.coins))
            found.flows.add(move.giver, move.coins, -1)
        elif parties(move) not in BEGINNING_BY_ITSELF:
            found.flows.add_pair(move)
    found.minted = dict(minted)
    return found


# ---- the end of a block

END_BY_ITSELF = {(BONDED, NOT_BONDED), (NOT_BONDED, BONDED), (NOT_BONDED, "other"), (DISTRIBUTION, "other")}
PROPOSAL = "active_proposal"


@dataclass
class End:
    """What other modules did at the end of a block."""
    events: Value
    flows: Flows = field(default_factory=Flows)
    spends: list[Moved] = field(default_factory=list)   # of the community pool

    def add(self, events: list[Value], is_passed: bool) -> bool:
        """Adds the events before a proposal's own, or after the last; whether some spend the pool for it."""
        count = len(self.spends)
        for move in moves(events):
            if is_passed and parties(move) == (DISTRIBUTION, "other"):
                self.spends += [move._replace(coins=TAKEN.take(move.coins))] if move.coins else []
            elif parties(move) not in END_BY_ITSELF:
                self.flows.add_pair(move)
        return len(self.spends) > count

    def transactions(self) -> Iterator[Json]:
        """What moved between other accounts, and then each spend of the pool."""
        yield from flow_transaction(self.flows, self.events, "end-flow")
        for spend in self.spends:
            if not spend.coins:
                continue
            note("pool-spend", f"{spend.event.place}: {coins_text(spend.coins)} of the community pool")
            yield transaction(AUTHORITY, {}, [{"kind": "community_pool_spend", "authority": AUTHORITY.hex(),
                                               "recipient": spend.taker.hex(), "coins": coins_json(spend.coins)}])


def end(results: Value) -> End:
    """What other modules did at the end of the block of these results; proposals that passed are looked at."""
    events = results.member("end_block_events")
    found, before = End(events), []
    for event in picked(events, BANK_KINDS | {PROPOSAL}):
        if event.raw["type"] != PROPOSAL:
            before.append(event)
            continue
        outcome = attributes(event).get("proposal_result")
        if not isinstance(outcome, str):
            event.fail("has no proposal_result in plain text", "events")
        is_passed = outcome == "proposal_passed"
        if not found.add(before, is_passed) and is_passed:
            look("proposal", f"{event.place}: a proposal passed that moved no coins of the community pool")
        before = []
    found.add(before, False)
    return found
