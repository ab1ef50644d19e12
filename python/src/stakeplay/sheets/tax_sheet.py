"""A sheet for taxes: what one address was paid, got, gave, paid in fees and lost in slashes, with each block's time.

Who wants it: whoever declares what an address earned, and a program for taxes that reads CSV.
One command:  python3 tax_sheet.py ADDRESS run.out            (`-` for standard input)
              python3 tax_sheet.py ADDRESS run.out run.jsonl  (with the input beside it; see below)
              python3 tax_sheet.py ADDRESS run.out --statements FILE  (with reward statements; `statements=FILE` too)
              python3 tax_sheet.py ADDRESS run.out run.jsonl --year 2024 --exponent uatom=6:ATOM  (a tax year; see below)
What comes out, for the third user of the example `life.out`:
    time,height,what,in,out,aside,denom,other
    2024-01-01T00:00:05Z,1,fee,,300,,uatom,
`in` and `out` are whole amounts that the account got and gave, so their difference is the change of its balance;
`aside` is what did not pass through it: a reward that went to another payee, the part of a slash that its stake bore
(cut to whole units), and at a report its balance and what is pending.

With reward statements, as the command `statement` makes them, a payment that has one has rows for what it was before
whole coins were paid, between which bounds sharing each block's fees at once would put it, and the slack of rounding.
Whether a statement is right is another question: `check_statement.py`.

A refusal names nobody: it is told of the payer of its fee, so one without a fee is told only with the input beside
the output, as is what a slash takes of a delegation of the genesis. Burns of unbonding entries name no delegator and
are in no sheet; what is left of an entry is the row `unbonded`. Of what `resume` wrote the input is its own, and --before
the output of the night before, whose report tells the stakes that stood. A row of a refusal ends by the place of its message,
its kind (with the input), the refusal's name and condition, and with `--hashes` the transaction's hash.
With --year the sheet is that of a tax year, in whole coins, with values of --prices, hashes of --hashes, a sum of each
kind, and balances that add up; with --format in the columns of Koinly or CoinTracking (written from memory of them).
Delegating, redelegating and unbonding move nothing out there: what is staked stays the address's own.
Status: 0, or 2 where the output is cut or of another program, or where no line of it names the address.
"""
from __future__ import annotations

import argparse
import csv
import json
import sys

from stakeplay.calling import Asked, Parser, an_address
from stakeplay.sheets import tax_year
from stakeplay.lines.hashes import Hashes, hashes_of
from stakeplay.lines.reading import COLLECTOR, DISTRIBUTION, MODULES, NOT_BONDED, ONE, Input, Stakes
from stakeplay.lines.reading import bare, lines, opened, run, stop, units, shown, whole
from stakeplay.tables import refusal_named


def word(account, is_given):
    """What a transfer from or to a module is."""
    if account not in MODULES:
        return "sent" if is_given else "received"
    if is_given:
        return {COLLECTOR: "fee", DISTRIBUTION: "pool funding"}.get(account, "delegated")
    return "unbonded" if account == NOT_BONDED else "pool spending"


def statements_of(name):
    """The statements of a file, by what they are of: a delegator, a validator and a height, each in their order."""
    made = {}
    for number, line in enumerate(opened(name), 1):
        try:
            s = json.loads(line.decode())
            [units(s[member]) for member in ("reward", "low", "high", "slack")]
            made.setdefault((s["delegator"], s["validator"], s["height"]), []).append(s)
        except (ValueError, TypeError, KeyError, AttributeError, RecursionError):
            stop(f"{name}: line {number} is no statement")
    return made


def is_same(s, other):
    """Whether two statements are one."""
    return all(s[member] == other[member] for member in ("reward", "low", "high", "slack"))


class Sheet:
    def __init__(self, address, given, statements, asked):
        self.statements, self.asked, self.stated, self.first = statements, asked, [], None
        self.hashes: Hashes = {}
        self.address, self.given, self.out = address, given, csv.writer(sys.stdout, lineterminator="\n")
        self.time = self.height = ""
        self.payer, self.waiting = None, {}  # who paid this transaction's fee; coins whose reason comes a line later
        self.stakes = Stakes(lambda delegator, validator: delegator == address, given)
        self.out.writerow(["time", "height", "what", "in", "out", "aside", "denom", "other"])

    def row(self, what, column, coins, other=""):
        for denom, amount in coins.items():
            amounts = [amount if place == column else "" for place in ("in", "out", "aside")]
            self.out.writerow([self.time, self.height, what, *amounts, denom, other])

    def take(self, line):
        kind = line["kind"]
        self.asked.take(kind, line)
        if self.given:
            self.given.take(kind, line)
        is_reason = kind in ("paid", "commission") and whole(line["coins"]) == self.waiting
        if self.waiting and kind != "pooled" and not is_reason:
            self.row("pool spending", "in", self.waiting)
            self.waiting = {}
        for delegator, validator, lost, denom in self.stakes.take(kind, line):
            self.row("slash", "aside", {denom: lost // ONE}, validator)
        if hasattr(self, kind):
            getattr(self, kind)(line)

    def block(self, line):
        self.time, self.height, self.payer = line["time"], line["height"], None
        self.first = self.height if self.first is None else self.first

    def transfer(self, line):
        coins, me = whole(line["coins"]), self.address
        if line["to"] == COLLECTOR:
            self.payer = line["from"]
        if line["from"] == me and line["to"] == me:
            self.row("sent to itself", "aside", coins)
        elif line["from"] == me:
            self.row(word(line["to"], True), "out", coins, "" if line["to"] in MODULES else line["to"])
        elif line["to"] == me and line["from"] == DISTRIBUTION:
            self.waiting = coins
        elif line["to"] == me:
            self.row(word(line["from"], False), "in", coins, "" if line["from"] in MODULES else line["from"])

    def paid(self, line):
        if line["to"] == self.address:
            whose = "reward" if line["delegator"] == self.address else f"reward of {line['delegator']}"
            self.row(whose, "in", whole(line["coins"]), line["validator"])
        elif line["delegator"] == self.address:
            self.row(f"reward to {line['to']}", "aside", whole(line["coins"]), line["validator"])
        if self.address in (line["to"], line["delegator"]):
            self.state(line)
        self.waiting = {}

    def state(self, line):
        """The statement of a payment, where there is one: the first of its height whose reward it is."""
        made = self.statements.get((line["delegator"], line["validator"], line["height"]), [])
        for s in [s for s in made if units(s["reward"]) == units(line["reward"])][:1]:
            made.remove(s)
            self.stated.append(s)
            for member, what in ("reward", "reward"), ("low", "at least"), ("high", "at most"), ("slack", "slack"):
                coins = {denom: shown(amount) for denom, amount in units(s[member]).items()}
                self.row("stated " + what, "aside", coins, line["validator"])

    def end(self):
        """A statement of the address and a height of the run has to be one of a payment."""
        self.asked.end()
        for (delegator, _, height), made in self.statements.items():
            left = [s for s in made if not any(is_same(s, other) for other in self.stated)]
            if left and delegator == self.address and self.first is not None and self.first <= height <= self.height:
                stop(f"a statement of height {height} is of no payment of this run")

    def commission(self, line):
        if line["to"] == self.address:
            self.row("commission", "in", whole(line["coins"]), line["validator"])
        elif bare(line["validator"]) == bare(self.address):
            self.row(f"commission to {line['to']}", "aside", whole(line["coins"]), line["validator"])
        self.waiting = {}

    def accepted(self, line):
        self.payer = None

    def refused(self, line):
        sent = self.given.transaction(line) if self.given and self.given.has(line["height"]) else None
        if (sent["payer"] if sent else self.payer) == self.address:
            self.asked.name(self.address)
            place = f"tx {line['tx']}" + (f" msg {line['msg']}" if "msg" in line else "")
            kind = f" {sent['msgs'][line['msg']]['kind']}" if sent and "msg" in line else ""
            own = self.hashes.get((line["height"], line["tx"]))
            why = f"{place}{kind}: {refusal_named(line['number'])}" + (f" ({own})" if own else "")
            self.out.writerow([self.time, self.height, f"refused {line['number']}", "", "", "", "", why])
        self.payer = None

    def account(self, line):
        if line["address"] == self.address:
            self.row("balance", "aside", whole(line["coins"]))

    def pending(self, line):
        if line["delegator"] == self.address and "coins" in line:
            coins = {denom: shown(amount) for denom, amount in units(line["coins"]).items()}
            self.row("pending", "aside", coins, line["validator"])


def arguments() -> argparse.Namespace:
    """What the recipe was called with."""
    parser = Parser(__doc__)
    parser.add_argument("address", metavar="ADDRESS", type=an_address, help="of the account, as the run spells it")
    parser.output()
    parser.input_beside()
    parser.before()
    parser.add_argument("--statements", metavar="FILE", help="reward statements, as the command `statement` makes them")
    parser.unknown()
    tax_year.add_words(parser)
    given = sys.argv[1:]
    sys.argv[1:] = [part for word in given for part in (
        ["--statements", word[11:]] if word.startswith("statements=") else [word])]
    return parser.words()


def main() -> None:
    """Writes the sheet."""
    words = arguments()
    if words.year is not None:
        tax_year.write(words)
        return
    asked = Asked([words.address], allow_unknown=words.allow_unknown)
    statements = statements_of(words.statements) if words.statements is not None else {}
    sheet = Sheet(words.address, Input(words.input) if words.input is not None else None, statements, asked)
    sheet.hashes = hashes_of(words.hashes)
    for line in lines(words.output, words.before):
        sheet.take(line)
    sheet.end()


def command() -> None:
    """Runs the recipe."""
    run(main)
