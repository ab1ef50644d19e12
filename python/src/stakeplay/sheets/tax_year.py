"""A tax year of one address: what came in and went out, in the columns that programs for taxes read.

`tax_sheet.py ADDRESS run.out run.jsonl --year 2026 --exponent uatom=6:ATOM --prices prices.csv --format plain` writes it.
A reward counts at the moment at which it was paid, in whole coins; one that went to another payee is a reward and then
sent. A slash is a loss, as far as stakes bore it, cut to whole units. Delegating, redelegating and unbonding move nothing
out: what is staked stays the address's own, so formats of others have no rows for them, and the balance there is all that
the address has. A row of a transaction has its hash where `--hashes` has it, a file of `from_blocks.py`.

The year's opening balance, what the rows add and take, and the closing balance add up by the unit for each denomination,
and the rows of the whole run lead from what stood first (a genesis of the input, or a report in front) to the report at
the end. Where they do not, or a price is missing, the recipe says so and ends with 2. Beside the balance stands what was
put to stake, less slashes. The report's stakes may be worth less, since no line says whose unbonding entries a slash
burned, and some units more or less, since shares round; by how much is the last row of the run's last year.
"""
from __future__ import annotations

import argparse
import csv
import io
import re
import sys
from decimal import ROUND_HALF_EVEN, Decimal, getcontext
from typing import Any, Iterator, NamedTuple, TextIO

from stakeplay.calling import a_year
from stakeplay.lines import reading
from stakeplay.lines.hashes import hashes_of
from stakeplay.lines.reading import ONE, Input, Stakes, lines, raw, stop, whole
from stakeplay.pages.given import Given
from stakeplay.sheets.moves import Move, Moves

Json = dict[str, Any]
getcontext().prec = 80
FORMATS = "plain", "koinly", "cointracking"
INSIDE = {"delegated": 1, "unbonded": -1}   # between the balance and the stake of the same address
# of each kind: Koinly's label, CoinTracking's type
WORDS = {"reward": ("reward", "Staking"), "commission": ("reward", "Staking"), "slash": ("lost", "Lost"),
         "fee": ("cost", "Other Fee"), "sent": ("", "Withdrawal"), "received": ("", "Deposit"),
         "pool funding": ("donation", "Donation"), "pool spending": ("other income", "Income")}
COLUMNS = {
    "plain": ["Date", "Kind", "In", "Out", "To stake", "Coin", "Price", "Value", "Currency", "Hash", "Height", "Line", "Other"],
    "koinly": ["Date", "Sent Amount", "Sent Currency", "Received Amount", "Received Currency", "Fee Amount", "Fee Currency",
               "Net Worth Amount", "Net Worth Currency", "Label", "Description", "TxHash"],
    "cointracking": ["Type", "Buy Amount", "Buy Currency", "Sell Amount", "Sell Currency", "Fee", "Fee Currency", "Exchange",
                     "Group", "Comment", "Date", "Tx-ID"]}


class Row(NamedTuple):
    """A row: whole units of one denomination; `side` is `in`, `out`, or `stake` for what stays the address's own."""
    time: str
    kind: str
    side: str
    amount: int
    denom: str
    tx_hash: str
    move: Move


# ---- words

def an_exponent(text: str) -> tuple[str, tuple[int, str]]:
    """`uatom=6:ATOM`: 10^6 units of uatom are one ATOM."""
    found = re.fullmatch(r"([^=]+)=(\d{1,2}):(\S{1,20})", text)
    if not found:
        raise argparse.ArgumentTypeError(f"{text}: this is to be as uatom=6:ATOM")
    return found[1], (int(found[2]), found[3])


def add_words(parser: argparse.ArgumentParser) -> None:
    """The words of a tax year."""
    group = parser.add_argument_group("a tax year, in columns that programs for taxes read")
    group.add_argument("--year", type=a_year, metavar="YEAR", help="the year, by UTC; without it the sheet is the plain one")
    group.add_argument("--format", choices=FORMATS, default="plain", help="whose columns; plain has a sum of each kind too")
    group.add_argument("--exponent", metavar="DENOM=N:NAME", type=an_exponent, action="append", default=[],
                       help="10^N units of DENOM are one NAME; may stand again")
    group.add_argument("--prices", metavar="FILE", help="rows of date, NAME or DENOM, price: that of the day")
    group.add_argument("--currency", metavar="NAME", default="EUR", help="in which the prices are")
    group.add_argument("--hashes", metavar="FILE", help="rows of height, transaction and hash, as from_blocks.py writes them")


# ---- prices, hashes

class Prices:
    """The prices of days; nothing where no file is given."""

    def __init__(self, name: str | None, exponents: dict[str, tuple[int, str]]) -> None:
        self.name, self.at = name, {}   # type: str | None, dict[tuple[str, str], Decimal]
        names = {told: denom for denom, (_, told) in exponents.items()}
        if name is None:
            return
        try:
            with open(name, encoding="utf-8-sig", newline="") as file:
                for number, row in enumerate(csv.reader(file), 1):
                    if number == 1 and row and not re.match(r"\d{4}-", row[0]):
                        continue
                    if len(row) != 3 or not re.fullmatch(r"\d{4}-\d{2}-\d{2}", row[0]) or not re.fullmatch(r"\d+(\.\d+)?", row[2]):
                        stop(f"{name}: line {number} is to be a date, a coin and a price, as 2026-03-01,ATOM,4.25")
                    self.at[row[0], names.get(row[1], row[1])] = Decimal(row[2])
        except OSError as fault:
            stop(f"{name}: {fault.strerror}")
        except (ValueError, csv.Error) as fault:
            stop(f"{name}: this is no table of prices: {fault}")
        if not self.at:
            stop(f"{name}: there is no price")

    def of(self, row: Row) -> Decimal | None:
        """The price of a row's day, which has to be there."""
        if self.name is None:
            return None
        price = self.at.get((row.time[:10], row.denom))
        return price if price is not None else stop(f"{self.name}: there is no price of {row.denom} on {row.time[:10]}")


# ---- rows

class Year:
    """The rows of a year, and what the address had before and after them."""

    def __init__(self, address: str, year: int, given: Given, told: dict[tuple[int, int], str]) -> None:
        self.address, self.year, self.told = address, year, told
        self.stakes = Stakes(lambda delegator, _: delegator == address, given if given.genesis else None)
        self.moves = Moves(address, self.stakes)
        self.times: dict[int, str] = {}
        self.rows: list[Row] = []
        self.changed = self.before = self.during = None     # type: Any
        self.changed, self.before, self.during = {}, {}, {}     # of the balance: by all rows, before the year, in it
        self.first: dict[str, int] | None = None                # the balance that stood first, where it is told
        self.account: dict[str, int] = {}
        self.staked = {"first": 0, "before": 0, "during": 0, "after": 0, "report": 0}
        self.is_staked_first = False        # whether what was staked first is told
        self.bond, self.tokens = "", {}     # type: str, dict[str, tuple[int, int]]
        self.is_begun = self.is_named = self.is_last = False    # is_last: the last block is of the year
        if given.genesis:
            told = [line for line in given.genesis["accounts"] if line["address"] == address]
            self.first = whole(told[0]["coins"]) if told else {}
            self.is_named = bool(told) or bool(self.stakes.at)
            self.staked["first"] = sum(stake // ONE for stakes in self.stakes.at.values() for stake in stakes.values())
            self.bond, self.is_staked_first = given.genesis["params"]["bond_denom"], True

    def take(self, line: Json, place: int) -> None:
        """Goes on to a line of the output."""
        kind = line["kind"]
        for move in self.moves.take(line, place):
            self.has(move)
        if kind == "block":
            if self.first is None and not self.is_begun and self.times.get(-1):
                self.first, self.staked["first"], self.is_staked_first = dict(self.account), self.staked["report"], True
            self.is_begun = True
            self.times = {height: time for height, time in self.times.items() if height >= line["height"] - 1}
            self.times[line["height"]] = line["time"]
            self.is_last = line["time"][:4] == str(self.year)
        elif kind == "supply":
            self.account, self.times[-1], self.staked["report"] = {}, "report", 0
        elif kind == "account" and line["address"] == self.address:
            self.account, self.is_named = whole(line["coins"]), True
        elif kind == "validator":
            self.tokens[line["operator"]] = int(line["tokens"]), raw(line["shares"])
        elif kind == "delegation" and line["delegator"] == self.address:
            tokens, shares = self.tokens[line["validator"]]
            self.is_named = True
            self.staked["report"] += raw(line["shares"]) * tokens // shares
        elif kind == "unbonding" and line["delegator"] == self.address:
            self.staked["report"] += int(line["balance"])

    def has(self, move: Move) -> None:
        """Takes a move, as rows of its denominations."""
        self.is_named = True
        time = self.times.get(move.height, "")
        for denom, amount in move.coins.items():
            for kind, side in kinds_of(move):
                change = {"in": amount, "out": -amount, "stake": -INSIDE.get(kind, 0) * amount}[side]
                change = 0 if kind == "slash" else change
                self.stake(kind, amount, denom, "before" if time[:4] < str(self.year) else "during" if time[:4] == str(self.year) else "after")
                self.changed[denom] = self.changed.get(denom, 0) + change
                if time[:4] < str(self.year):
                    self.before[denom] = self.before.get(denom, 0) + change
                elif time[:4] == str(self.year):
                    self.during[denom] = self.during.get(denom, 0) + change
                    self.rows.append(Row(time, kind, side, amount, denom, self.hash_of(move), move))

    def stake(self, kind: str, amount: int, denom: str, when: str) -> None:
        """What a row adds to what is staked, or takes of it."""
        change = -amount if kind == "slash" else INSIDE.get(kind, 0) * amount
        if change:
            self.bond = self.bond or denom
            self.staked[when] += change

    def stakes_told(self) -> tuple[int, int, int]:
        """What was put to stake, less slashes, at the beginning and the end of the year, and what the report has more."""
        moved = self.staked["before"] + self.staked["during"] + self.staked["after"]
        first = self.staked["first"] if self.is_staked_first else self.staked["report"] - moved
        opening = first + self.staked["before"]
        return opening, opening + self.staked["during"], self.staked["report"] - first - moved

    def hash_of(self, move: Move) -> str:
        """The hash of a move's transaction, where the file of hashes has it."""
        return self.told.get((move.height, move.tx), "")

    def opening(self) -> dict[str, int]:
        """The balance at the beginning of the year; what stood first is told, or reckoned back from the report."""
        denoms = {*self.account, *self.changed, *(self.first or {})}
        begun = self.first if self.first is not None else {d: self.account.get(d, 0) - self.changed.get(d, 0) for d in denoms}
        for denom in sorted(denoms):
            ends = begun.get(denom, 0) + self.changed.get(denom, 0)
            if ends != self.account.get(denom, 0):
                stop(f"the balance does not add up: the rows lead to {ends} {denom}, and the report has {self.account.get(denom, 0)}")
            if begun.get(denom, 0) < 0:
                stop(f"the balance does not add up: it would begin with {begun[denom]} {denom}")
        return {denom: begun.get(denom, 0) + self.before.get(denom, 0) for denom in sorted(denoms)}


def kinds_of(move: Move) -> Iterator[tuple[str, str]]:
    """The kinds of a move's rows, and on which side each stands."""
    what = move.what.partition(" of ")[0].partition(" to ")[0]
    if what in INSIDE:
        yield what, "stake"
    elif what == "slash":
        yield "slash", "out"
    elif move.side == "aside" and what in ("reward", "commission"):     # it went to another payee
        yield what, "in"
        yield "sent", "out"
    elif move.side != "aside":
        yield what, move.side


# ---- sheets

class Sheet:
    """Writes rows in the columns of a format."""

    def __init__(self, words: argparse.Namespace, exponents: dict[str, tuple[int, str]], out: TextIO) -> None:
        self.format, self.currency, self.exponents = words.format, words.currency, exponents
        self.prices = Prices(words.prices, exponents)
        self.out = csv.writer(out, lineterminator="\n")
        self.out.writerow(COLUMNS[words.format])
        self.sums: dict[tuple[str, str, str], tuple[int, Decimal]] = {}

    def coins(self, amount: int, denom: str) -> str:
        """An amount in whole coins, exactly."""
        return f"{Decimal(amount).scaleb(-self.exponents.get(denom, (0, denom))[0]):f}"

    def name(self, denom: str) -> str:
        """What a coin is called."""
        return self.exponents.get(denom, (0, denom))[1]

    def row(self, row: Row) -> None:
        """Writes a row, and adds it to the sum of its kind."""
        price = self.prices.of(row) if row.side != "stake" else None
        value = None
        if price is not None:
            value = (Decimal(self.coins(row.amount, row.denom)) * price).quantize(Decimal("0.01"), ROUND_HALF_EVEN)
        before = self.sums.get((row.kind, row.side, row.denom), (0, Decimal(0)))
        self.sums[row.kind, row.side, row.denom] = before[0] + row.amount, before[1] + (value or 0)
        if self.format == "plain":
            self.out.writerow(self.plain(row, price, value))
        elif row.side != "stake":
            self.out.writerow(self.koinly(row, value) if self.format == "koinly" else self.cointracking(row))

    def plain(self, row: Row, price: Decimal | None, value: Decimal | None) -> list[Any]:
        """A row of this project's own columns."""
        amount, sides = self.coins(row.amount, row.denom), ["in", "out", "stake"]
        cells = [("-" if row.kind == "unbonded" else "") + amount if side == row.side else "" for side in sides]
        return [row.time, row.kind, *cells, self.name(row.denom), price if price is not None else "", value if value is not None else "",
                self.currency if value is not None else "", row.tx_hash, row.move.height, row.move.place, row.move.other]

    def koinly(self, row: Row, value: Decimal | None) -> list[Any]:
        """A row of Koinly's custom columns."""
        date, pair = row.time[:19].replace("T", " ") + " UTC", [self.coins(row.amount, row.denom), self.name(row.denom)]
        worth = [value, self.currency] if value is not None else ["", ""]
        return [date, *(["", ""] + pair if row.side == "in" else pair + ["", ""]), "", "", *worth, WORDS[row.kind][0],
                described(row), row.tx_hash]

    def cointracking(self, row: Row) -> list[Any]:
        """A row of CoinTracking's columns."""
        pair = [self.coins(row.amount, row.denom), self.name(row.denom)]
        return [WORDS[row.kind][1], *(pair + ["", ""] if row.side == "in" else ["", ""] + pair), "", "", "stakeplay", "",
                described(row), row.time[:19].replace("T", " "), row.tx_hash]

    def add_up(self, year: Year) -> list[list[str]]:
        """A row for the sum of each kind, and the balances before and after, which add up."""
        rows, opening = [], year.opening()
        for denom in opening:
            if opening[denom] < 0 or opening[denom] + year.during.get(denom, 0) < 0:
                stop(f"the balance does not add up: it would be {min(opening[denom], opening[denom] + year.during.get(denom, 0))} {denom}")
        first, last, more = year.stakes_told()
        rows += [self.balance(f"opening balance {year.year}", opening[denom], denom, first if denom == year.bond else None)
                 for denom in opening]
        for (kind, side, denom), (amount, value) in sorted(self.sums.items()):
            cells = [("-" if kind == "unbonded" else "") + self.coins(amount, denom) if told == side else "" for told in ("in", "out", "stake")]
            worth = ["", str(value), self.currency] if self.prices.name and side != "stake" else ["", "", ""]
            rows.append(["", f"sum {kind}", *cells, self.name(denom), *worth, "", "", "", ""])
        rows += [self.balance(f"closing balance {year.year}", opening[denom] + year.during.get(denom, 0), denom,
                              last if denom == year.bond else None) for denom in opening]
        if more and year.is_last:
            rows.append(["", "stake of the report, less that", "", "", self.coins(more, year.bond), self.name(year.bond), *[""] * 7])
        return rows

    def balance(self, kind: str, amount: int, denom: str, stake: int | None) -> list[str]:
        """The row of a balance, and of what is staked beside it."""
        staked = "" if stake is None else self.coins(stake, denom)
        return ["", kind, self.coins(amount, denom), "", staked, self.name(denom), "", "", "", "", "", "", ""]


def described(row: Row) -> str:
    """A row in words: its kind, who is at the other end, its height and line."""
    return f"{row.kind} {row.move.other}".strip() + f", block {row.move.height}, line {row.move.place}"


def write(words: argparse.Namespace) -> None:
    """Writes the sheet of a year: the sums behind it where the columns are our own, else on standard error."""
    given = Given([] if words.input is None else [words.input])
    held = None if words.input is None else Input(words.input)
    year = Year(words.address, words.year, given, hashes_of(words.hashes))
    for line in lines(words.output, words.before):
        if held:
            held.take(line["kind"], line)
        year.take(line, reading.PLACE)
    if not year.is_named and not getattr(words, "allow_unknown", False):
        stop(f"no line names {words.address}")
    text = io.StringIO()
    sheet = Sheet(words, dict(words.exponent), text)
    for row in year.rows:
        sheet.row(row)
    sums = sheet.add_up(year)
    if words.format == "plain":
        sheet.out.writerows(sums)
    else:
        csv.writer(sys.stderr, lineterminator="\n").writerows([[cell for cell in row[1:9] if cell] for row in sums])
    sys.stdout.write(text.getvalue())
