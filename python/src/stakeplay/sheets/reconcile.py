"""Reconciles a list of addresses between two heights: what was there, what came and went, what is there, to the unit.

Who wants it: an exchange that holds coins of its customers in several accounts, and closes its books each day.
One command:  python3 reconcile.py FROM TO run.out ADDRESS..  (after block FROM, to after block TO; `-`: standard input)
              python3 reconcile.py FROM TO run.out --addresses FILE  (an address on each line; `@FILE` for ADDRESS too)
What comes out, for the third user of the example `life.out` and the heights 1 and 5, and then `adds up`:
    address,denom,was,received,paid,unbonded,sent,fees,delegated,funded,is,burned,known
    0307070707070707070707070707070707070707,uatom,999700,0,44,380000,0,7,0,0,1379737,11250,reckoned report
`is` = `was` + received + paid + unbonded - sent - fees - delegated - funded. `paid` is rewards and commission;
`received` also what the community pool spent, `unbonded` what came back from staking; `burned` is what slashes took
of stakes (cut to whole units), which are in no account. `known` says where `was` and `is` come from: `report`, where
the output has one at that height, else `reckoned` from the report that is nearest after it. Each address that was asked
for has a row; one without coins at both heights that moved none has a row of zeros, without a denomination.

After a report the next blocks and their report may stand, and lines of accounts before the first block; each report is
held against the one before it and all that moved between them.
Status: 0 all adds up, 1 something does not, 2 the output is cut, of another program, does not reach from FROM to TO, or
names some address in no line.
"""
from __future__ import annotations

import argparse
import csv
import sys
from collections import Counter, defaultdict

from stakeplay.calling import Asked, Parser, a_height, addresses_of
from stakeplay.lines.reading import COLLECTOR, DISTRIBUTION, MODULES, NOT_BONDED, ONE, Stakes, lines, run, stop, whole

CAME = ("received", "paid", "unbonded")
WENT = ("sent", "fees", "delegated", "funded")


def word(account, is_given):
    """The column of a transfer from or to another account."""
    if is_given:
        return {COLLECTOR: "fees", DISTRIBUTION: "funded"}.get(account, "delegated" if account in MODULES else "sent")
    return "unbonded" if account == NOT_BONDED else "received"


class Books:
    def __init__(self, first, last, addresses):
        self.first, self.last, self.addresses = first, last, dict.fromkeys(addresses)
        self.height, self.waiting, self.faults = None, None, []
        self.net, self.least = Counter(), Counter()    # by (address, denomination): since the reading began; its least
        self.begin = None                              # what they held there, once a report tells it
        self.marks, self.reports, self.now = {}, set(), {}
        self.moved = defaultdict(Counter)              # between the heights: by (address, denomination), each column
        self.stakes = Stakes(lambda delegator, validator: delegator in self.addresses)

    def is_open(self):
        return self.height is not None and self.first < self.height <= self.last

    def move(self, address, column, coins, sign):
        for denom, amount in coins.items():
            key = address, denom
            self.net[key] += sign * amount
            self.least[key] = min(self.least[key], self.net[key])
            if self.is_open():
                self.moved[key][column] += amount

    def take(self, line):
        kind = line["kind"]
        if kind in ("genesis", "block", "supply"):
            self.settle()
            self.close()
        if kind == "genesis":
            self.height = 0
        elif kind == "block":
            if self.height is None:
                self.height = line["height"] - 1
                if self.now:  # lines of accounts; who has none held nothing
                    self.begin, self.now = self.held(), {}
                    self.reports.add(self.height)
                self.close()
            self.height = line["height"]
        elif kind == "transfer":
            self.settle()
            self.transfer(line)
        elif kind in ("paid", "commission"):
            coins = whole(line["coins"])
            if self.waiting == (line["to"], coins):
                self.move(line["to"], "paid", coins, 1)
                self.waiting = None
        elif kind == "account":
            if line["address"] in self.addresses:
                self.now[line["address"]] = whole(line["coins"])
        elif kind == "pool":
            self.compare()
        if kind not in ("transfer", "pooled", "account"):
            self.settle()
        for delegator, validator, lost, denom in self.stakes.take(kind, line):
            if self.is_open():
                self.moved[delegator, denom]["burned"] += lost

    def settle(self):
        """Coins of distribution that nobody was paid as a reward or commission are a spending of the pool."""
        if self.waiting:
            self.move(self.waiting[0], "received", self.waiting[1], 1)
            self.waiting = None

    def transfer(self, line):
        giver, taker, coins = line["from"], line["to"], whole(line["coins"])
        if giver in self.addresses:
            self.move(giver, word(taker, True), coins, -1)
        if taker in self.addresses:
            if giver == DISTRIBUTION:
                self.waiting = taker, coins
            else:
                self.move(taker, word(giver, False), coins, 1)

    def close(self):
        """The end of a block: at one of the two heights what moved until then is kept."""
        if self.height in (self.first, self.last):
            self.marks.setdefault(self.height, Counter(self.net))

    def held(self):
        return Counter({(address, denom): amount
                        for address, coins in self.now.items() for denom, amount in coins.items()})

    def compare(self):
        """A report: what it tells of the addresses is held against what moved since the one before."""
        held = self.held()
        keys = held.keys() | self.net.keys() | (self.begin or Counter()).keys()
        if self.begin is None:
            self.begin = Counter({key: held[key] - self.net[key] for key in keys})
        for key in sorted(keys):
            if self.begin[key] + self.net[key] != held[key]:
                self.faults.append(f"{key[0]} has {held[key]} {key[1]} at height {self.height}, "
                                   f"and lines leave {self.begin[key] + self.net[key]}")
            if self.begin[key] + self.least[key] < 0:
                self.faults.append(f"{key[0]} gave more {key[1]} than it had")
        self.reports.add(self.height)
        self.close()
        self.now = {}

    def write(self):
        out = csv.writer(sys.stdout, lineterminator="\n")
        out.writerow(["address", "denom", "was", *CAME, *WENT, "is", "burned", "known"])
        known = " ".join("report" if height in self.reports else "reckoned" for height in (self.first, self.last))
        keys = self.begin.keys() | self.moved.keys()
        for key in sorted(keys | {(address, "") for address in self.addresses.keys() - {key[0] for key in keys}}):
            was, then = (self.begin[key] + self.marks[height][key] for height in (self.first, self.last))
            moved = self.moved[key]
            columns = [moved[name] for name in CAME + WENT]
            if was + sum(moved[name] for name in CAME) - sum(moved[name] for name in WENT) != then:
                self.faults.append(f"{key[0]}, {key[1]}: what was there and what moved is not what is there")
            out.writerow([*key, was, *columns, then, moved["burned"] // ONE, known])


def arguments() -> argparse.Namespace:
    """What the recipe was called with."""
    parser = Parser(__doc__)
    parser.add_argument("first", metavar="FROM", type=a_height, help="a height")
    parser.add_argument("last", metavar="TO", type=a_height, help="another, not below the first")
    parser.output()
    parser.add_argument("some", metavar="ADDRESS", nargs="*", help="an account's address, or @FILE with some")
    parser.add_argument("--addresses", metavar="FILE", action="append", default=[], help="a file with an address on each line")
    parser.unknown()
    words = parser.words()
    if words.first > words.last:
        parser.error("FROM is above TO")
    if not words.some and not words.addresses:
        parser.error("no address is asked for")
    return words


def main() -> int:
    """Writes the books, and what does not add up."""
    words = arguments()
    addresses = addresses_of(words.some, words.addresses)
    asked = Asked(addresses, allow_unknown=words.allow_unknown)
    books = Books(words.first, words.last, addresses)
    for line in lines(words.output):
        asked.take(line["kind"], line)
        books.take(line)
    if books.begin is None:
        stop("no report tells what the addresses have")
    if not books.marks.keys() >= {books.first, books.last}:
        stop(f"the output does not reach from height {books.first} to height {books.last}")
    asked.end()
    books.write()
    for fault in books.faults:
        print(f"WRONG {fault}")
    print("does not add up" if books.faults else "adds up")
    return 1 if books.faults else 0


def command() -> None:
    """Runs the recipe."""
    run(main)
