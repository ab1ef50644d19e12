#!/usr/bin/env python3
"""Reckons the payments of the case `thirty-delegators` from its input alone, and compares them with its expected lines.

One validator without commission or tax, of which evidence took a twentieth, so that shares are worth less than a token. The
rewards are reckoned twice: by the rules, in whole numbers of units of 10^-18, and in exact fractions, each block's fees shared
at once by stake. Each payment told is the reward of the rules, and what is outstanding cut none of them; it is at most the
ideal one, and lower by at most the slack. What may be cut at all stays below one unit. Nothing here is the program's.
"""
import json
import pathlib
import sys
from fractions import Fraction

ONE = 10 ** 18
CASE = pathlib.Path(__file__).resolve().parent.parent / "cases/thirty-delegators"
faults = []


def ask(holds: bool, what: str) -> None:
    if not holds:
        faults.append(what)


def even(numerator: int, denominator: int) -> int:
    """A quotient rounded half to even."""
    whole, rest = divmod(numerator, denominator)
    return whole + (2 * rest > denominator or (2 * rest == denominator and whole % 2))


def value(part: int, tokens: int, shares: int) -> int:
    """What shares are worth, in units: a quotient of 36 places, which is rounded half to even to 18."""
    return even(part * tokens * ONE * ONE // shares, ONE)


class Delegation:
    """The shares of a delegator, and where its rewards begin: by the rules, and as an ideal span."""

    def __init__(self, shares: int):
        self.shares = shares

    def start(self, validator: "Validator", height: int) -> None:
        self.period, self.height = len(validator.ratios) - 1, height
        self.stake = self.shares * validator.tokens * ONE * ONE // validator.shares // ONE
        # in tokens, exactly; then the ideal reward, what a token was given, ended periods, the stretches and removals
        self.first = self.ideal = Fraction(self.shares * validator.tokens, validator.shares)
        self.due, self.rate, self.ended, self.stretch, self.left, self.slack = Fraction(0), Fraction(0), 0, 1, 0, Fraction(0)

    def open_slack(self) -> Fraction:
        return 1 + self.first * self.ended + self.stretch * (1 + self.first) * self.rate


class Validator:
    """Tokens, shares, ratios, slashes and what is outstanding, the last three in units of 10^-18."""

    def __init__(self, amounts: dict[str, int]):
        self.tokens = self.shares = 0
        self.ratios, self.current, self.outstanding, self.slashes, self.removals = [0], 0, 0, [], 0
        self.stakes: dict[str, Delegation] = {}
        for who, amount in amounts.items():
            self.end_period()
            self.tokens, self.shares = self.tokens + amount, self.shares + amount * ONE
            self.stakes[who] = Delegation(amount * ONE)
            self.stakes[who].start(self, 0)

    def end_period(self) -> None:
        self.ratios.append(self.ratios[-1] + (self.current * ONE * ONE // (self.tokens * ONE) // ONE if self.tokens else 0))
        self.current = 0
        for stake in self.stakes.values():
            stake.ended += 1

    def allocate(self, fee: int) -> None:
        self.current, self.outstanding = self.current + fee * ONE, self.outstanding + fee * ONE
        for stake in self.stakes.values():
            stake.due += fee * stake.ideal / self.tokens
            stake.rate += Fraction(fee, self.tokens)

    def slash(self, burn: int, height: int) -> None:
        self.end_period()
        digits = burn * ONE * ONE // self.tokens
        self.slashes.append((height, len(self.ratios) - 1, -(-digits // ONE)))
        for stake in self.stakes.values():
            stake.slack, stake.stretch = stake.slack + stake.open_slack(), stake.stretch + 1
            stake.ideal, stake.rate, stake.ended = stake.ideal * Fraction(self.tokens - burn, self.tokens), Fraction(0), 0
        self.tokens -= burn

    def reward(self, stake: Delegation, height: int) -> int:
        """By the rules, at the period that has just ended."""
        if stake.height == height:
            return 0
        total, at, part = 0, stake.period, stake.stake
        for when, period, fraction in self.slashes:
            if when >= stake.height and period > at:
                total += (self.ratios[period] - self.ratios[at]) * part // ONE
                at, part = period, part * (ONE - fraction) // ONE
        part = min(part, value(stake.shares, self.tokens, self.shares))
        return total + (self.ratios[-1] - self.ratios[at]) * part // ONE

    def withdraw(self, who: str, height: int) -> tuple[int, int]:
        """The reward and the coins of a withdrawal, behind which the rewards of who withdrew begin anew."""
        self.end_period()
        stake = self.stakes[who]
        reward = self.reward(stake, height)
        ask(reward <= self.outstanding, f"the reward of {who} at {height} is more than what is outstanding")
        slack = (stake.slack + stake.open_slack() + (stake.left + 1) * stake.rate) / ONE
        if stake.height != height:
            ask(Fraction(reward, ONE) <= stake.due, f"the reward of {who} at {height} is above the ideal one")
            ask(stake.due <= Fraction(reward, ONE) + slack, f"the reward of {who} at {height} is below the ideal one by more than the slack")
        self.outstanding -= reward
        return reward, reward // ONE

    def undelegate(self, who: str, amount: int, height: int) -> tuple[int, int]:
        paid = self.withdraw(who, height)
        stake, part = self.stakes[who], even(self.shares * amount * ONE // self.tokens, ONE)
        given = value(part, self.tokens, self.shares) // ONE
        stake.shares, self.shares, self.tokens, self.removals = stake.shares - part, self.shares - part, self.tokens - given, self.removals + 1
        for other in self.stakes.values():
            other.left += 1
        stake.start(self, height)
        return paid


def reckoned(lines: list[dict]) -> tuple[Validator, list[tuple]]:
    """The payments of the case, in their order: height, delegator, reward in units, and coins."""
    genesis, paid, fees = lines[0], [], 0
    params, (only,) = genesis["params"], genesis["validators"]
    ask(params["community_tax"] == only["rate"] == "0", "there is a tax or a commission")
    validator = Validator({it["delegator"]: int(it["amount"]) for it in genesis["delegations"]})
    fraction = Fraction(params["slash_fraction_double_sign"])
    for block in lines[1:]:
        if fees:
            ask(len(block["votes"]) == 1, "fees are shared without the vote")
            validator.allocate(fees)
            fees = 0
        for evidence in block["evidence"]:
            validator.slash(int(evidence["power"] * params["power_reduction"] * fraction), block["height"])
        for tx in block["txs"]:
            fees += sum(int(coin["amount"]) for coin in tx["fee"])
            for message in tx["msgs"]:
                if message["kind"] == "undelegate":
                    what = validator.undelegate(message["delegator"], int(message["amount"]["amount"]), block["height"])
                else:
                    ask(message["kind"] == "withdraw_reward", f"a message of the kind {message['kind']}")
                    what = validator.withdraw(message["delegator"], block["height"])
                    validator.stakes[message["delegator"]].start(validator, block["height"])
                paid.append((block["height"], message["delegator"], *what))
    return validator, paid


def told(line: dict) -> tuple:
    """A payment as a line tells it."""
    raw = [int(coin["amount"].replace(".", "")) for coin in line["reward"]]
    return line["height"], line["delegator"], sum(raw), sum(int(coin["amount"]) for coin in line["coins"])


def main() -> int:
    validator, paid = reckoned([json.loads(line) for line in CASE.with_suffix(".jsonl").read_text().splitlines()])
    lines = [json.loads(line) for line in CASE.with_suffix(".out").read_text().splitlines()]
    ask([told(line) for line in lines if line["kind"] == "paid"] == paid, "the lines tell other payments")
    (last,) = [line for line in lines if line["kind"] == "validator"]
    ask([coin["amount"] for coin in last["outstanding"]] == [f"0.{validator.outstanding:018}"], "another amount is outstanding at the end")
    ask(last["tokens"] == str(validator.tokens), "the validator has other tokens at the end")
    # as often as shares left, the last ratio, in units: how much more the claims may be than what is outstanding
    ask(validator.removals * validator.ratios[-1] < ONE, "a unit might be cut")
    for fault in faults:
        print(f"payments: {fault}")
    if not faults:
        print(f"payments: {len(paid)} payments are as reckoned, and none is cut; shares left {validator.removals} times, "
              f"and the last ratio is 0.{validator.ratios[-1]:018}")
    return 1 if faults else 0


if __name__ == "__main__":
    sys.exit(main())
