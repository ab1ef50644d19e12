"""Which denominations of a chain a recipe takes. Of the others it leaves out each amount, and tells their sums.

This machine has at most 10^18 of a denomination. A chain may have more of a voucher with 18 decimals; no rule lets one
denomination decide over another, so what is left out changes nothing of the rest.
"""
from __future__ import annotations

from collections import Counter
from typing import Iterable


class Denominations:
    """Those that are taken: all, or some alone, or all but some; and the sums of what was left out on the way."""

    def __init__(self) -> None:
        self.only: frozenset[str] | None = None     # those that are taken alone; None for all
        self.without: frozenset[str] = frozenset()  # those that are left out
        self.sums: Counter[str] = Counter()
        self.all = True

    def begin(self, only: Iterable[str] | None = None, without: Iterable[str] = ()) -> None:
        """Begins anew, with these alone or without those."""
        self.only, self.without = None if only is None else frozenset(only), frozenset(without)
        self.all = self.only is None and not self.without
        self.sums.clear()

    def has(self, denom: str) -> bool:
        """Whether a denomination is taken."""
        return self.all or denom not in self.without and (self.only is None or denom in self.only)

    def of(self, coins: dict[str, int]) -> dict[str, int]:
        """Those of some coins that are taken."""
        return coins if self.all else {denom: amount for denom, amount in coins.items() if self.has(denom)}

    def leave(self, denom: str, amount: int) -> None:
        """Adds an amount to what was left out of its denomination."""
        self.sums[denom] += amount

    def take(self, coins: dict[str, int]) -> dict[str, int]:
        """Those of some coins that are taken; the others join the sums."""
        if self.all:
            return coins
        for denom, amount in coins.items():
            if not self.has(denom):
                self.leave(denom, amount)
        return self.of(coins)


TAKEN = Denominations()     # of the recipe that runs
