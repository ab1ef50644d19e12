"""A sheet for an operator: block by block what one validator has, earns and loses, and a picture of it over time.

Who wants it: whoever operates a validator, and those who delegate to it.
One command:  python3 validator_sheet.py OPERATOR run.out                          (`-` for standard input)
              python3 validator_sheet.py OPERATOR run.out run.jsonl --svg run.svg  (with the input, and a picture)
What comes out, for the second operator of the example `life.out` with its input:
    time,height,status,jailed,tokens,shares,commission,outstanding,stake,allocated,paid,withdrawn,fraction,burned,power,signed,missed
    2024-01-01T00:00:05Z,1,bonded,no,,,,,2000000.000000000000000000,,,,,0,1,yes,
`tokens`, `shares` and `missed` (of the window) stand in reports alone, so they are told where one stands: replay the
input up to a block, and it has its own. `stake` is the sum of the stakes on which rewards are reckoned, cut at each
slash: the tokens but for rounding. `outstanding` is reckoned from the genesis on; `commission` too, with the input
beside the output, which has the rates. The votes (`power`, `signed`) are the input's. Several slashes of a block are
added up in `burned`. A cell is empty where no line tells its value, and the picture's line of the stake begins where one
is known: of what `resume` wrote that is its report, or with --before that of the night before, which tells the rate, the
status and what is outstanding, too; the input is then that of `resume`.
Status: 0, or 1 where a report has another value than was reckoned, or 2 where the output is cut or of another program,
or where no line of it names the validator.
"""
from __future__ import annotations

import argparse
import csv
import sys
from collections import Counter

from stakeplay.calling import Asked, Parser, an_operator
from stakeplay.lines.reading import ONE, Input, Rest, Stakes, lines, raw, run, shown, stop, units, whole

COLUMNS = ("time height status jailed tokens shares commission outstanding stake allocated paid withdrawn fraction "
           "burned power signed missed").split()


def text_of(coins):
    if coins is None:
        return None
    return " ".join(shown(amount) + denom for denom, amount in sorted(coins.items()) if amount)


def whole_text_of(coins):
    return " ".join(f"{amount}{denom}" for denom, amount in sorted(coins.items()))


def even(a, b):
    """A product of decimals, rounded half to even."""
    part, rest = divmod(a * b, ONE)
    return part + (2 * rest > ONE or 2 * rest == ONE and part % 2)


def decimal(text):
    """The units of a decimal of the input."""
    before, _, after = text.partition(".")
    return int(before) * ONE + int(after.ljust(18, "0"))


def bonded_at_start(genesis):
    """The operators that the genesis bonds: the most power first, of equal power the lower address."""
    tokens, params = Counter(), genesis["params"]
    for line in genesis["delegations"]:
        tokens[line["validator"]] += int(line["amount"])
    powers = sorted((-(t // params["power_reduction"]), v) for v, t in tokens.items())
    return {v for power, v in powers[:params["max_validators"]] if power}


class Picture:
    """Stake and rewards over the blocks, in at most a thousand points."""

    def __init__(self):
        self.points, self.marks, self.step, self.denom, self.rewards, self.stake = [], [], 1, None, 0, None

    def add(self, height, stake, shares):
        self.stake = self.stake if stake is None else stake
        for denom, amount in shares.items():
            self.denom = self.denom or denom
            self.rewards += amount if denom == self.denom else 0
        if height % self.step == 0:
            self.points.append((height, self.stake, self.rewards))
        if len(self.points) > 1000:
            self.points, self.step = self.points[::2], self.step * 2

    def mark(self, height, color):
        if len(self.marks) < 200:
            self.marks.append((height, color))

    def line(self, place, color):
        first, last = self.points[0][0], max(self.points[-1][0], self.points[0][0] + 1)
        told = [point for point in self.points if point[place] is not None]
        most = max((point[place] for point in told), default=0)
        dots = " ".join(f"{60 + 880 * (p[0] - first) / (last - first):.1f},{340 - 300 * p[place] / (most or 1):.1f}"
                        for p in told)
        return f'<polyline fill="none" stroke="{color}" stroke-width="2" points="{dots}"/>', most, first, last

    def write(self, name, operator):
        if not self.points:
            stop("no block tells of this validator, so there is no picture")
        stake, most_stake, first, last = self.line(1, "#1f77b4")
        rewards, most_rewards, _, _ = self.line(2, "#2ca02c")
        marks = "".join(f'<line x1="{x}" x2="{x}" y1="40" y2="340" stroke="{color}" stroke-dasharray="4"/>\n'
                        for x, color in ((f"{60 + 880 * (h - first) / (last - first):.1f}", c) for h, c in self.marks))
        at = next((point[0] for point in self.points if point[1] is not None), None)
        begins = "" if at == first else f", known from block {at} on"
        told = f"stake, at most {shown(most_stake)}{begins}" if at is not None else "the stake is told nowhere"
        words = [(60, 25, "#000", operator), (60, 360, "#000", f"block {first}"), (860, 360, "#000", f"block {last}"),
                 (60, 385, "#1f77b4", told),
                 (60, 405, "#2ca02c", f"rewards allocated, together {shown(most_rewards)} {self.denom or ''}"),
                 (700, 385, "#d62728", "slashed"), (780, 385, "#ff7f0e", "jailed")]
        texts = "".join(f'<text x="{x}" y="{y}" fill="{color}" font-size="14">{text}</text>\n'
                        for x, y, color, text in words)
        with open(name, "w", encoding="utf-8") as file:
            file.write('<svg xmlns="http://www.w3.org/2000/svg" viewBox="0 0 1000 420" font-family="sans-serif">\n'
                       '<rect x="60" y="40" width="880" height="300" fill="none" stroke="#999"/>\n'
                       f"{marks}{stake}\n{rewards}\n{texts}</svg>\n")


class Sheet:
    def __init__(self, operator, given, asked):
        self.asked, genesis = asked, given.genesis if given else None
        self.operator, self.given, self.out = operator, given, csv.writer(sys.stdout, lineterminator="\n")
        self.rest, self.stakes = Rest(), Stakes(lambda delegator, validator: validator == operator, given)
        self.has_stakes, self.is_slash = genesis is not None, False
        self.picture, self.row, self.wrong = Picture(), None, 0
        self.known = False
        self.status = self.jailed = self.outstanding = self.commission = self.rate = self.cons = None
        self.tells = {"allocated": self.allocated, "paid": self.paid, "commission": self.withdrawn,
                      "slashed": self.slashed, "period": self.period, "status": self.changed, "jailed": self.jail,
                      "unjailed": self.jail, "removed": self.removed}
        self.out.writerow(COLUMNS)
        for line in genesis["validators"] if genesis else ():
            if line["operator"] == operator:
                asked.name(operator)
                self.known, self.cons, self.rate, self.commission = True, line["cons"], decimal(line["rate"]), {}
                self.status = "bonded" if operator in bonded_at_start(genesis) else "unbonded"

    def take(self, line):
        kind, is_mine = line["kind"], line.get("validator") == self.operator
        self.asked.take(kind, line)
        if self.given:
            self.given.take(kind, line)
        left, lost = self.rest.take(kind, line), self.stakes.take(kind, line)
        if kind == "genesis":
            self.outstanding, self.jailed = {}, False
        elif kind == "block":
            self.close()
            self.open(line)
        elif kind == "pool":
            self.has_stakes = self.has_stakes or self.known
            self.close()
        elif kind == "accepted" and self.given and self.given.has(line["height"]):
            self.rates(self.given.transaction(line)["msgs"])
        elif kind == "burn":
            if lost and not self.is_slash:  # of a redelegation to here
                self.row["burned"] += int(line["amount"])
            self.is_slash = False
        elif kind == "signing" and line["cons"] == self.cons and self.row:
            self.row["missed"] = line["missed"]
        elif kind == "validator" and line["operator"] == self.operator:
            self.reported(line)
        self.is_slash = self.is_slash or kind == "slashed"
        if is_mine and kind in self.tells:
            self.known = True
            self.lose(left)
            self.tells[kind](line)

    def open(self, line):
        self.row = {"time": line["time"], "height": line["height"], "burned": 0}
        self.row |= {name: Counter() for name in ("allocated", "paid", "withdrawn")}
        for vote in self.given.at(line["height"])["votes"] if self.given and self.given.has(line["height"]) else ():
            if vote["cons"] == self.cons:
                self.row |= {"power": vote["power"], "signed": "yes" if vote["signed"] else "no"}

    def close(self):
        """Writes the row of a block, once the next block or the end of its report was read."""
        row, self.row = self.row, None
        if row is None or not self.known:
            return
        stake = sum(self.stakes.at.get(self.operator, {}).values()) if self.has_stakes else None
        if "height" in row:
            self.picture.add(row["height"], stake, row["allocated"])
        row |= {"status": self.status, "jailed": {True: "yes", False: "no"}.get(self.jailed),
                "outstanding": text_of(self.outstanding), "commission": text_of(self.commission),
                "stake": None if stake is None else shown(stake)}
        row["allocated"] = text_of(row.get("allocated", {}))
        row |= {name: whole_text_of(row.get(name, {})) for name in ("paid", "withdrawn")}
        self.out.writerow([row.get(name) for name in COLUMNS])

    def rates(self, messages):
        """What accepted messages make of the rate."""
        for message in messages:
            if message.get("validator") == self.operator and message["kind"] in ("create_validator", "edit_validator"):
                if message["kind"] == "create_validator":
                    self.cons, self.commission = message["cons"], {}
                if "rate" in message:
                    self.rate = decimal(message["rate"])

    def lose(self, coins):
        if self.outstanding is not None:
            self.outstanding = Counter(self.outstanding)
            self.outstanding.subtract(coins)

    def allocated(self, line):
        share = units(line["coins"])
        self.row["allocated"].update(share)
        self.lose({denom: -amount for denom, amount in share.items()})
        if self.rate is None or self.commission is None:
            self.commission = None
        else:
            self.commission = Counter(self.commission)
            self.commission.update({denom: even(amount, self.rate) for denom, amount in share.items()})

    def paid(self, line):
        self.row["paid"].update(whole(line["coins"]))
        self.lose(units(line["reward"]))

    def withdrawn(self, line):
        coins = whole(line["coins"])
        self.row["withdrawn"].update(coins)
        self.lose({denom: amount * ONE for denom, amount in coins.items()})
        if self.commission is not None:
            self.commission = Counter(self.commission)
            self.commission.subtract({denom: amount * ONE for denom, amount in coins.items()})

    def period(self, line):
        if line["period"] == 1:  # it is created here
            self.status, self.jailed, self.outstanding = "unbonded", False, {}

    def slashed(self, line):
        self.row["fraction"] = line["fraction"]
        self.row["burned"] += int(line["burned"])
        self.picture.mark(line["height"], "#d62728")

    def changed(self, line):
        self.status = line["status"]

    def jail(self, line):
        self.jailed = line["kind"] == "jailed"
        if self.jailed:
            self.picture.mark(line["height"], "#ff7f0e")

    def removed(self, line):
        self.status, self.jailed, self.outstanding, self.commission = "removed", False, {}, {} if self.given else None

    def reported(self, line):
        """What a report tells is held against what was reckoned, and goes into the row of its block."""
        self.known, self.cons = True, line["cons"]
        for name in ("outstanding", "commission"):
            before, told = getattr(self, name), units(line[name])
            if before is not None and {n: a for n, a in before.items() if a} != told:
                self.wrong += 1
                print(f"WRONG {name} of the report: {text_of(told)}, and lines leave {text_of(before)}",
                      file=sys.stderr)
            setattr(self, name, told)
        self.row = self.row or {}
        self.row |= {"tokens": line["tokens"], "shares": line["shares"]}
        self.status, self.jailed, self.rate = line["status"], line["jailed"], raw(line["rate"]) if self.given else None


def arguments() -> argparse.Namespace:
    """What the recipe was called with."""
    parser = Parser(__doc__)
    parser.add_argument("operator", metavar="OPERATOR", type=an_operator, help="the validator's, as the run spells it")
    parser.output()
    parser.input_beside()
    parser.before()
    parser.add_argument("--svg", metavar="FILE", help="where a picture goes")
    parser.unknown()
    return parser.words()


def main() -> int:
    """Writes the sheet and the picture."""
    words = arguments()
    asked = Asked([words.operator], is_operator=True, allow_unknown=words.allow_unknown)
    sheet = Sheet(words.operator, Input(words.input) if words.input is not None else None, asked)
    for line in lines(words.output, words.before):
        sheet.take(line)
    sheet.close()
    asked.end()
    if words.svg is not None:
        sheet.picture.write(words.svg, words.operator)
    return 1 if sheet.wrong else 0


def command() -> None:
    """Runs the recipe."""
    run(main)
