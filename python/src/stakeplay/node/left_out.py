"""The word `--only DENOM,..` of the recipes that take a chain's own data, and which denominations each of them leaves out.

Without the word the bond denomination is taken, and each other whose supply is within the limit. What is left out is
told with its sum, a line each.
"""
from __future__ import annotations

import argparse
from typing import Callable, Iterable

from stakeplay.calling import Parser
from stakeplay.node.data import MOST_WHOLE, Coins, Value, is_denom
from stakeplay.node.denominations import TAKEN
from stakeplay.node.state import State


def denominations(text: str) -> list[str]:
    """Denominations among the words."""
    found = [denom for denom in text.split(",") if denom]
    for denom in found:
        if not is_denom(denom):
            raise argparse.ArgumentTypeError(f"no denomination: {denom}")
    return found


def add_only(reader: Parser) -> None:
    """Lets the word be read."""
    reader.add_argument("--only", metavar="DENOM,..", type=denominations,
                        help="take these denominations and the one that is staked, and leave out all others")


def supply_of(document: Value) -> Coins:
    """What an export or genesis document has of each denomination, as it tells, or else as its balances are together."""
    bank = document.at("app_state.bank")
    told = bank.member("supply").any_coins()
    if told:
        return told
    held: Coins = {}
    for entry in bank.list_at("balances"):
        for denom, amount in entry.member("coins").any_coins().items():
            held[denom] = held.get(denom, 0) + amount
    return held


def leave_out(supply: Coins, bond: str, only: Iterable[str] | None) -> Coins:
    """Leaves out of a supply what is not named, or without names what is above the limit: its sums."""
    if only is not None:
        TAKEN.begin(only=[bond, *only])
    else:
        TAKEN.begin(without=[denom for denom, amount in supply.items() if amount > MOST_WHOLE and denom != bond])
    return {denom: amount for denom, amount in supply.items() if not TAKEN.has(denom)}


def leave_out_of(document: Value, only: Iterable[str] | None) -> Coins:
    """Leaves out of an export or genesis document; the sums."""
    bond = document.at("app_state.staking.params.bond_denom").denom()
    return leave_out(supply_of(document), bond, only)


def tell_left_out(tell: Callable[[str, str], None], where: str, sums: Coins) -> None:
    """Tells what was left out."""
    for denom, amount in sorted(sums.items()):
        tell("left-out", f"{where} {amount} {denom}")


def keep_taken(state: State) -> None:
    """Takes away from a store's state what is left out."""
    if TAKEN.all:
        return
    of = TAKEN.of
    state.pool, state.supply = of(state.pool), of(state.supply)
    state.balances = {(account, denom): amount for (account, denom), amount in state.balances.items()
                      if TAKEN.has(denom)}
    for purse in state.purses.values():
        for name in ("outstanding", "commission", "current"):
            if (coins := getattr(purse, name)) is not None:
                setattr(purse, name, of(coins))
    for historical in state.historicals.values():
        historical.ratio = of(historical.ratio)
