"""An operator's day: a screen of one validator, and status 1 for what wants a look.

Who wants it: whoever operates a validator, each morning or from a timer.
One command:  python3 operator_day.py OPERATOR day.out day.jsonl [--exponent uatom=6:ATOM]
The output is that of the day, also with the report of the evening before in front; the input has the votes. It tells what
the validator was given and paid, its commission, the votes that it missed and how many more it may miss, its rank, and
who came and went. What wants a look begins with `!`: it is jailed or not bonded, was slashed, missed more than a part of
what it may miss (--missed, a half), lost rank, or a delegator of more than a part of its stake went (--left, a tenth).
The window is that of a genesis in the input, or of --window and --min-signed; without one nothing is said of jail.
Status: 0; 1 where something wants a look; 2 where the output is cut or of another program, or names no such validator.
"""
from __future__ import annotations

import argparse
import gc
from fractions import Fraction
from typing import Iterator

from stakeplay.addresses import bare
from stakeplay.calling import Parser, a_count, a_part, an_operator, stop
from stakeplay.lines.reading import ONE, raw, shown
from stakeplay.lines.reading import run as guarded
from stakeplay.pages.books import Validator
from stakeplay.pages.given import FILES, Given
from stakeplay.pages.run import Run
from stakeplay.sheets.tax_year import an_exponent

LOOK, PLAIN = "! ", "  "


def arguments() -> argparse.Namespace:
    """What the recipe was called with."""
    parser = Parser(__doc__)
    parser.add_argument("operator", metavar="OPERATOR", type=an_operator, help="of the validator, as the run spells it")
    parser.output()
    parser.add_argument("inputs", metavar="INPUT", nargs="*", help="the files of its input")
    parser.add_argument("--exponent", metavar="DENOM=N:NAME", type=an_exponent, action="append", default=[],
                        help="10^N units of DENOM are one NAME")
    parser.add_argument("--window", metavar="N", type=a_count, help="the votes of the window, where no genesis tells it")
    parser.add_argument("--min-signed", metavar="PART", type=a_part, default="0.5", help="the part of them that is to be signed")
    parser.add_argument("--missed", metavar="PART", type=a_part, default="0.5", help="of what may be missed: more wants a look")
    parser.add_argument("--left", metavar="PART", type=a_part, default="0.1", help="of the stake: who leaves with more wants a look")
    return parser.words()


class Day:
    """The rows of the screen; whether one of them wants a look."""

    def __init__(self, run: Run, validator: Validator, words: argparse.Namespace) -> None:
        self.run, self.validator, self.words = run, validator, words
        self.exponents = dict(words.exponent)
        self.wants_look = False

    def row(self, name: str, text: str, is_odd: bool = False) -> str:
        """A row, with its mark."""
        self.wants_look = self.wants_look or is_odd
        return f"{LOOK if is_odd else PLAIN}{name:<13}{text}"

    def coins(self, coins: dict[str, int], places: int = 0) -> str:
        """Coins in whole coins, exactly; `places` are those that their units have already."""
        texts = []
        for denom, amount in sorted(coins.items()):
            by, name = self.exponents.get(denom, (0, denom))
            front, rest = divmod(amount, 10 ** (by + places))
            part = f"{rest:0{by + places}d}".rstrip("0") if by + places else ""
            texts.append(f"{front}{'.' + part if part else ''} {name}")
        return ", ".join(texts) or "nothing"

    def lines(self) -> Iterator[str]:
        """The whole screen."""
        run, validator, report = self.run, self.validator, self.validator.report
        yield f"{validator.address}: blocks {run.first_height} to {run.height}"
        yield from self.standing()
        given = dict(validator.others.coins)
        if validator.shares:
            given[run.denom or ""] = validator.units
        yield self.row("given", f"{self.coins(given, 18)}, before commission")
        yield self.row("paid", f"{self.coins(validator.paid.coins)} to delegators")
        waiting = {coin["denom"]: raw(coin["amount"]) for coin in report.get("commission", [])}
        yield self.row("commission", f"rate {percent(report['rate'])}, paid {self.coins(validator.withdrawn.coins)}, "
                                     f"waiting {self.coins(waiting, 18)}" if report else "gone")
        yield from self.votes()
        yield from self.visits()
        for height, place, kind, text in validator.marks.kept():
            yield self.row("event", f"block {height}, line {place}: {kind} {text}".rstrip(),
                           kind in ("slashed", "jailed", "tombstoned", "unbonding", "removed"))

    def standing(self) -> Iterator[str]:
        """The state, the tokens and the rank."""
        run, validator, report = self.run, self.validator, self.validator.report
        if validator not in set(run.report["validators"][0]):
            yield self.row("state", "removed", True)
            return
        state = "tombstoned" if validator.signing.get("tombstoned") else "jailed" if report["jailed"] else report["status"]
        until = f" until {validator.signing['jailed_until']}" if state == "jailed" and validator.signing else ""
        yield self.row("state", state + until, state != "bonded")
        yield self.row("tokens", self.coins({run.bond or "": int(report["tokens"])}))
        ranks = [value for _, value, _ in validator.rank_series.points()]
        if ranks:
            text = f"{ranks[-1]} of {len(run.report['validators'][0])}" + (f", {ranks[0]} at first" if ranks[0] != ranks[-1] else "")
            yield self.row("rank", text, ranks[-1] > ranks[0])

    def votes(self) -> Iterator[str]:
        """The misses, and how many more lead to jail."""
        validator, votes = self.validator, self.run.votes
        if not validator.signing:
            yield self.row("missed", "no signing record")
            return
        missed = validator.signing["missed"]
        if votes.size == FILES:
            yield self.row("missed", f"{missed} in the window, whose length nothing tells (--window)")
            return
        left = max(0, votes.allowed - missed)
        yield self.row("missed", f"{missed} of the last {votes.size}; {left} more before the next one jails",
                       missed > Fraction(self.words.missed) * votes.allowed)

    def visits(self) -> Iterator[str]:
        """Who came and who went, with their stakes."""
        validator = self.validator
        yield self.row("delegators", f"{self.run.delegations.get(validator.address, 0)}: {validator.came} came, {validator.went} went")
        for height, place, kind, delegator, stake in validator.visits.kept():
            amount = int(stake or 0)
            is_great = kind == "went" and amount > Fraction(self.words.left) * max(1, validator.stake)
            with_ = f" with {self.coins({self.run.bond or '': amount // ONE})}" if amount else ""
            yield self.row(kind, f"{delegator}{with_}, block {height}, line {place}", is_great)


def percent(text: str) -> str:
    """A decimal as a part of a hundred, exactly."""
    return (shown(raw(text) * 100).rstrip("0").rstrip(".") or "0") + "%"


def main() -> int:
    """Writes the screen."""
    words = arguments()
    run = Run(words.output, Given(words.inputs), [], None, (256, 256))
    if words.window:
        run.votes.parameters({"signed_blocks_window": words.window, "min_signed_per_window": words.min_signed})
    run.read()
    validator = next((v for v in run.by_text.values() if bare(v.address) == bare(words.operator)), None)
    if validator is None:
        stop(f"no line names {words.operator}")
    day = Day(run, validator, words)
    for text in day.lines():
        print(text)
    for text in run.wrong:
        print(day.row("WRONG", text, True))
    return 1 if day.wants_look else 0


def command() -> None:
    """Runs the recipe."""
    gc.disable()    # what is kept of a run has no cycles, and looking for some takes a good part of the time
    guarded(main)
