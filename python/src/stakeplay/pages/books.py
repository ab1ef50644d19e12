"""What is kept of each validator and of each address while a run is read."""
from __future__ import annotations

from collections import deque
from typing import Any, Generic, TypeVar

from stakeplay.addresses import HEXADECIMAL, from_bech32
from stakeplay.lines.reading import ONE, Stakes
from stakeplay.pages.series import Series, Steps
from stakeplay.pages.shares import Summed
from stakeplay.sheets.moves import Move, Moves

Json = dict[str, Any]
T = TypeVar("T")


class Ends(Generic[T]):
    """A list of which the first and the last are kept, and how many there were."""

    def __init__(self, first: int, last: int) -> None:
        self.most, self.count = first, 0
        self.first: list[T] = []
        self.last: deque[T] = deque(maxlen=last)

    def add(self, item: T) -> None:
        """Takes one more."""
        self.count += 1
        if len(self.first) < self.most:
            self.first.append(item)
        else:
            self.last.append(item)

    def kept(self) -> list[T]:
        """Those that are kept, in their order."""
        return [*self.first, *self.last]


class Totals:
    """Coins that are added up, with the number of lines and the last of them."""
    __slots__ = ("coins", "count", "place", "height")

    def __init__(self) -> None:
        self.coins: dict[str, int] = {}
        self.count = self.place = self.height = 0

    def add(self, coins: dict[str, int], place: int, height: int) -> None:
        """Takes the coins of a line."""
        for denom, amount in coins.items():
            self.coins[denom] = self.coins.get(denom, 0) + amount
        self.count, self.place, self.height = self.count + 1, place, height


def bytes_of(address: str) -> bytes:
    """The bytes of an address, by which those of equal power are in order."""
    return bytes.fromhex(address) if HEXADECIMAL.fullmatch(address) else (from_bech32(address) or ("", b""))[1]


class Validator:
    """A validator over the run. Amounts that are decimals are in units of 10^-18."""

    def __init__(self, address: str, number: int, steps: Steps) -> None:
        self.address, self.number, self.order = address, number, bytes_of(address)
        self.stakes: dict[str, int] = {}        # of each delegator, as their rewards are reckoned on
        self.stake, self.delegators, self.place = 0, 0, 0
        self.is_known = self.stands = False     # whether all stakes are known; whether it is in the run now
        self.is_jailed, self.missed, self.rank = False, 0, 0
        self.others, self.paid, self.withdrawn, self.burned = Totals(), Totals(), Totals(), Totals()
        self.rate: tuple[str, int, int] | None = None               # the rate of commission, its line, its height
        self.given, self.stake_series, self.rank_series = Series(steps), Series(steps), Series(steps)
        self.units = self.shares = self.share_line = 0     # of the page's denomination: their sum, how many, the last one
        self.missed_series, self.delegator_series, self.rate_series = Series(steps), Series(steps), Series(steps)
        self.withdrawn_series = Series(steps)
        self.slashes = self.came = self.went = 0
        self.marks: Ends[tuple[int, int, str, str]] = Ends(60, 140)
        self.visits: Ends[tuple[int, int, str, str, str]] = Ends(20, 60)
        self.report: Json = {}
        self.signing: Json = {}
        self.report_place = self.signing_place = 0

    def take_shares(self, step: int, values: Summed, blocks: list[tuple[int, int]], place: int) -> None:
        """Shares of the fees of some blocks of a step: of each block its height and the line of its first share are told,
        of which this is the one at `place`."""
        points = [(value, blocks[at][0], blocks[at][1] + place) for value, at in (
            (values.least, values.least_at), (values.greatest, values.greatest_at), (values.last, -1))]
        self.given.merge(step, *points)
        self.units += values.total
        self.shares += len(blocks)
        self.share_line = points[2][2]

    def start(self, delegator: str, stake: int) -> None:
        """A delegation's rewards begin, on this stake."""
        self.stake += stake - self.stakes.get(delegator, 0)
        self.stakes[delegator] = stake

    def cut(self, fraction: int) -> None:
        """A slash of this fraction takes of each stake, each cut."""
        kept = ONE - fraction
        for delegator, stake in self.stakes.items():
            self.stakes[delegator] = stake * kept // ONE
        self.stake = sum(self.stakes.values())


class Asked:
    """An address that the page is to show."""

    def __init__(self, address: str, stakes: Stakes, steps: Steps) -> None:
        self.address, self.steps, self.stakes = address, steps, stakes
        self.moves = Moves(address, stakes)
        self.balances: dict[str, int] = {}      # by how much each changed since the first line
        self.balance_series: dict[str, Series] = {}
        self.stake_series, self.stake = Series(steps), -1
        self.paid: dict[str, int] = {}
        self.paid_series: dict[str, Series] = {}
        self.totals: dict[tuple[str, str], Totals] = {}     # by what and side
        self.rows: Ends[Move] = Ends(2000, 3000)
        self.changed: dict[tuple[bool, str], tuple[int, int]] = {}  # since the last block: whether paid, of which denomination
        self.marks: Ends[tuple[int, int, str, str]] = Ends(100, 200)
        self.pending: list[tuple[Json, int]] = []
        self.staked: list[tuple[Json, int]] = []
        self.unbonding: list[tuple[Json, int]] = []
        self.account: tuple[dict[str, int], int] = {}, 0
        self.place = 0

    def take(self, line: Json, place: int) -> None:
        """Goes on to a line of the output."""
        for move in self.moves.take(line, place):
            self.has(move)

    def has(self, move: Move) -> None:
        """Takes a move: into its sums and its row, and into what its block changed."""
        self.rows.add(move)
        word = move.what.split(" of ")[0].split(" to ")[0]
        self.totals.setdefault((word, move.side), Totals()).add(move.coins, move.place, move.height)
        for denom, amount in move.coins.items():
            if move.side != "aside":
                self.balances[denom] = self.balances.get(denom, 0) + (amount if move.side == "in" else -amount)
                self.changed[False, denom] = self.balances[denom], move.place
            if move.side == "in" and word in ("reward", "commission"):
                self.paid[denom] = self.paid.get(denom, 0) + amount
                self.changed[True, denom] = self.paid[denom], move.place
        if move.what == "slash":
            coins = ", ".join(f"{amount} {denom}" for denom, amount in move.coins.items())
            self.marks.add((move.height, move.place, "slash", f"{coins} of the stake at {move.other}"))

    def close(self, height: int, most: int) -> None:
        """The end of a block: what changed goes into the series, of the first few denominations."""
        step = self.steps.of(height)
        for (is_paid, denom), (value, place) in self.changed.items():
            group = self.paid_series if is_paid else self.balance_series
            if denom not in group and len(group) < most:
                group[denom] = Series(self.steps)
            if denom in group:
                group[denom].add(step, value, height, place)
        self.changed.clear()
        stake = sum(stakes.get(self.address, 0) for stakes in self.stakes.at.values())
        if stake != self.stake:
            self.stake = stake
            self.stake_series.add(step, stake, height, self.place)
