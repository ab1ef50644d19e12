#!/usr/bin/env python3
"""Makes a chain's lines as real chains have them: bench/store/blocks.py OUT [--blocks N] [--window N] [--filled N]
[--validators N] [--delegators N] [--each N] [--transactions N] [--missed SHARE] [--seed N]

  genesis    the validators (180), all of whom are bonded, each with a delegation of its own, and one rich account
  building   blocks without votes in which that account gives each delegator (250) coins, who delegates them to some
             validators (`--each`, 2)
  filling    blocks of votes alone (`--filled`, none): as many as the window of votes is long fill it
  usual      `--blocks` (1,000) blocks with a vote of each validator, of which a share (`--missed`, 0.01) is missed,
             and transactions (5) that pay a fee: 35 in 100 send, 20 delegate, 30 withdraw rewards, 7 undelegate,
             4 redelegate and 4 withdraw a commission

Addresses are bytes of a hash, as those of users are, and a block comes each 6 seconds. OUT gets all lines. Other
scripts take `Blocks` and ask it for one part after the other."""
import argparse
import datetime
import hashlib
import json
import pathlib
import random
from collections.abc import Iterator
from typing import Any

DENOM = "uatom"
BEGIN = datetime.datetime(2024, 1, 1)
GIVEN, DELEGATED, RICH = 50_000_000, 1_000_000, 10**17
BUILT_AT_ONCE = 3000
PARAMETERS: dict[str, Any] = {
    "bond_denom": DENOM,
    "power_reduction": 1_000_000,
    "unbonding_time": 1_814_400,
    "max_entries": 7,
    "min_commission_rate": "0",
    "community_tax": "0.02",
    "withdraw_addr_enabled": True,
    "min_signed_per_window": "0.05",
    "downtime_jail_duration": 600,
    "slash_fraction_double_sign": "0.05",
    "slash_fraction_downtime": "0.0001",
    "max_age_duration": 172_800,
    "max_age_num_blocks": 100_000,
    "authority": "9" * 40,
}


def address(kind: str, number: int = 0) -> str:
    return hashlib.sha256(f"{kind} {number}".encode()).hexdigest()[:40]


def moment(height: int) -> str:
    return (BEGIN + datetime.timedelta(seconds=6 * height)).strftime("%Y-%m-%dT%H:%M:%SZ")


def text(value: Any) -> str:
    return json.dumps(value, separators=(",", ":"))


def coin(amount: int) -> dict[str, str]:
    return {"denom": DENOM, "amount": str(amount)}


def send(sender: str, receiver: str, amount: int) -> dict[str, Any]:
    return {"kind": "send", "from": sender, "to": receiver, "coins": [coin(amount)]}


def delegation(delegator: str, operator: str, amount: int, kind: str = "delegate") -> dict[str, Any]:
    return {"kind": kind, "delegator": delegator, "validator": operator, "amount": coin(amount)}


def transaction(payer: str, fee: int, messages: list[dict[str, Any]]) -> str:
    return text({"payer": payer, "fee": [coin(fee)] if fee else [], "msgs": messages})


class Blocks:
    """A chain's lines, each part of which goes on at the height at which the last one ended."""

    def __init__(
        self, validators: int = 180, delegators: int = 250, each: int = 2, transactions: int = 5,
        window: int = 10_000, missed: float = 0.01, seed: int = 1,
    ) -> None:
        self.height = 0
        self.window, self.missed, self.transactions = window, missed, transactions
        self.draw = random.Random(seed)
        self.bank = address("bank")
        self.operators = [address("operator", n) for n in range(validators)]
        self.consensus = [address("consensus", n) for n in range(validators)]
        self.powers = [1000 + 10 * (validators - n) for n in range(validators)]
        self.delegators = [address("delegator", n) for n in range(delegators)]
        self.delegations = [
            (who, place) for n, who in enumerate(self.delegators) for place in self.places(n, each)
        ]
        self.votes = {
            signed: [
                f'{{"cons":"{cons}","power":{power},"signed":{text(signed)}}}'
                for cons, power in zip(self.consensus, self.powers)
            ]
            for signed in (False, True)
        }

    def places(self, number: int, each: int) -> list[int]:
        """The validators of the delegator of this number, each once."""
        count = len(self.operators)
        return list(dict.fromkeys((number * 7 + turn * 13 + number // count) % count for turn in range(each)))

    def genesis(self) -> str:
        validators = [
            {"operator": operator, "cons": cons, "rate": "0.1", "max_rate": "0.2", "max_change_rate": "0.01",
             "min_self_delegation": "1"}
            for operator, cons in zip(self.operators, self.consensus)
        ]
        own = [
            {"delegator": operator, "validator": operator, "amount": str(power * 1_000_000)}
            for operator, power in zip(self.operators, self.powers)
        ]
        parameters = PARAMETERS | {"max_validators": len(self.operators), "signed_blocks_window": self.window}
        return text({
            "kind": "genesis", "time": moment(0), "params": parameters,
            "accounts": [{"address": self.bank, "coins": [coin(RICH)]}], "validators": validators, "delegations": own,
        }) + "\n"

    def block(self, transactions: list[str], votes: list[str]) -> str:
        self.height += 1
        return (
            f'{{"kind":"block","height":{self.height},"time":"{moment(self.height)}","votes":[{",".join(votes)}],'
            f'"evidence":[],"txs":[{",".join(transactions)}]}}\n'
        )

    def building(self) -> Iterator[str]:
        """Blocks after which each delegator has its delegations."""
        places: dict[str, list[int]] = {}
        for who, place in self.delegations:
            places.setdefault(who, []).append(place)
        waiting: list[str] = []
        for who in self.delegators:
            waiting.append(transaction(self.bank, 0, [send(self.bank, who, GIVEN)]))
            messages = [delegation(who, self.operators[place], DELEGATED) for place in places.get(who, [])]
            waiting.append(transaction(who, 0, messages))
            if len(waiting) >= BUILT_AT_ONCE:
                yield self.block(waiting, [])
                waiting = []
        if waiting:
            yield self.block(waiting, [])

    def all_votes(self) -> list[str]:
        return [
            self.votes[self.draw.random() >= self.missed][place] for place in range(len(self.operators))
        ]

    def filling(self, blocks: int) -> Iterator[str]:
        """Blocks of votes alone."""
        for _ in range(blocks):
            yield self.block([], self.all_votes())

    def usual(self, blocks: int) -> Iterator[str]:
        """Blocks of votes and of transactions that pay fees."""
        for _ in range(blocks):
            transactions = [self.any_transaction() for _ in range(self.transactions)]
            yield self.block(transactions, self.all_votes())

    def any_transaction(self) -> str:
        who, place = self.draw.choice(self.delegations)
        operator, share = self.operators[place], self.draw.random()
        small, large = self.draw.randint(1, 100), self.draw.randint(1, 1000)
        if share < 0.35:
            message = send(who, self.draw.choice(self.delegators), large)
        elif share < 0.55:
            message = delegation(who, operator, large)
        elif share < 0.85:
            message = {"kind": "withdraw_reward", "delegator": who, "validator": operator}
        elif share < 0.92:
            message = delegation(who, operator, small, "undelegate")
        elif share < 0.96:
            target = self.operators[(place + 1) % len(self.operators)]
            message = {"kind": "begin_redelegate", "delegator": who, "source": operator, "target": target,
                       "amount": coin(small)}
        else:
            who, message = operator, {"kind": "withdraw_commission", "validator": operator}
        return transaction(who, self.draw.randint(1000, 9000), [message])

    def begun(self, filled: int = 0) -> Iterator[str]:
        """The genesis and the blocks before the usual ones."""
        yield self.genesis()
        yield from self.building()
        yield from self.filling(filled)


def main() -> None:
    words = argparse.ArgumentParser()
    words.add_argument("out", type=pathlib.Path)
    numbers = {"blocks": 1000, "window": 10_000, "filled": 0, "validators": 180, "delegators": 250, "each": 2,
               "transactions": 5, "seed": 1}
    for name, number in numbers.items():
        words.add_argument(f"--{name}", type=int, default=number)
    words.add_argument("--missed", type=float, default=0.01)
    given = words.parse_args()
    blocks = Blocks(
        given.validators, given.delegators, given.each, given.transactions, given.window, given.missed, given.seed
    )
    with given.out.open("w") as file:
        file.writelines(blocks.begun(given.filled))
        file.writelines(blocks.usual(given.blocks))


if __name__ == "__main__":
    main()
