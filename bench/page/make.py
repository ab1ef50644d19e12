#!/usr/bin/env python3
"""Writes an input of many blocks with many validators for `replay`, to time what reads its output.

    bench/page/make.py BLOCKS [--validators N] [--transactions N] > run.jsonl

Each block has the votes of all validators and so many transactions of the usual kinds, with fees, so that each validator
is given its share in each block. Now and then one of them misses votes, is slashed and jailed, and leaves jail. The same
words make the same bytes.
"""
from __future__ import annotations

import argparse
import hashlib
import json
import sys
from datetime import datetime, timedelta
from typing import Any

Json = dict[str, Any]
START, DELEGATORS, SPELL, AWAY = datetime(2024, 1, 1), 400, 1000, 60
PARAMS = {"bond_denom": "uatom", "power_reduction": 1000000, "unbonding_time": 100000, "max_validators": 1000,
          "max_entries": 7, "min_commission_rate": "0", "community_tax": "0.02", "withdraw_addr_enabled": True,
          "signed_blocks_window": 100, "min_signed_per_window": "0.5", "downtime_jail_duration": 60,
          "slash_fraction_double_sign": "0.05", "slash_fraction_downtime": "0.0001", "max_age_duration": 172800,
          "max_age_num_blocks": 100000, "authority": "99" * 20}


def address(kind: str, number: int) -> str:
    """An address, which is a hash of a small text."""
    return hashlib.sha256(f"{kind} {number}".encode()).hexdigest()[:40]


def coin(amount: int) -> Json:
    """Some of the only denomination."""
    return {"amount": str(amount), "denom": "uatom"}


class Chain:
    """A chain with so many validators and transactions."""

    def __init__(self, validators: int, transactions: int) -> None:
        self.operators = [address("user", number) for number in range(validators)]
        self.users = self.operators + [address("user", validators + number) for number in range(DELEGATORS)]
        self.cons = [address("cons", number) for number in range(validators)]
        self.count, self.draw = transactions, 1

    def drawn(self, below: int) -> int:
        """The next number below a bound."""
        self.draw = (self.draw * 6364136223846793005 + 1442695040888963407) % 2 ** 64
        return (self.draw >> 24) % below

    def genesis(self) -> Json:
        """The first line."""
        many = len(self.operators)
        return {"kind": "genesis", "time": START.isoformat() + "Z", "params": PARAMS,
                "accounts": [{"address": user, "coins": [coin(10 ** 13)]} for user in self.users],
                "validators": [{"operator": operator, "cons": cons, "rate": f"0.{1 + number % 20:02d}", "max_rate": "0.5",
                                "max_change_rate": "0.01", "min_self_delegation": "1"}
                               for number, (operator, cons) in enumerate(zip(self.operators, self.cons))],
                "delegations": [{"delegator": user, "validator": self.operators[number % many],
                                 "amount": str(10 ** 9 + 10 ** 7 * (number * number % 997))}
                                for number, user in enumerate(self.users)]}

    def message(self) -> Json:
        """One of the kinds that a chain sees each day."""
        number, many = self.drawn(len(self.users)), len(self.operators)
        who, where = self.users[number], self.operators[(number if self.drawn(3) else self.drawn(many)) % many]
        amount = 1 + self.drawn(10 ** 6)
        kinds = [{"kind": "send", "from": who, "to": self.users[self.drawn(len(self.users))], "coins": [coin(amount)]},
                 {"kind": "delegate", "delegator": who, "validator": where, "amount": coin(amount)},
                 {"kind": "undelegate", "delegator": who, "validator": where, "amount": coin(amount)},
                 {"kind": "withdraw_reward", "delegator": who, "validator": where},
                 {"kind": "begin_redelegate", "delegator": who, "source": where,
                  "target": self.operators[self.drawn(many)], "amount": coin(amount)},
                 {"kind": "withdraw_commission", "validator": where}]
        return kinds[self.drawn(len(kinds))]

    def block(self, height: int) -> Json:
        """A block; in the first part of each spell a validator is away, and leaves jail in its middle."""
        away = height // SPELL * 7 % len(self.operators) if height % SPELL < AWAY else -1
        votes = [{"cons": cons, "power": 1000 + number, "signed": number != away and (height * 31 + number * 17) % 9000 != 3}
                 for number, cons in enumerate(self.cons)]
        txs = [{"payer": self.users[self.drawn(len(self.users))], "fee": [coin(1000 + self.drawn(5000))],
                "msgs": [self.message()]} for _ in range(self.count)]
        if height % SPELL == SPELL // 2:
            operator = self.operators[height // SPELL * 7 % len(self.operators)]
            txs.append({"payer": operator, "fee": [], "msgs": [{"kind": "unjail", "validator": operator}]})
        return {"kind": "block", "height": height, "time": (START + timedelta(seconds=6 * height)).isoformat() + "Z",
                "votes": votes, "evidence": [], "txs": txs}


def main() -> None:
    """Writes the lines."""
    parser = argparse.ArgumentParser(description=__doc__, formatter_class=argparse.RawDescriptionHelpFormatter)
    parser.add_argument("blocks", metavar="BLOCKS", type=int, help="how many")
    parser.add_argument("--validators", metavar="N", type=int, default=100, help="how many (100)")
    parser.add_argument("--transactions", metavar="N", type=int, default=3, help="how many in a block (3)")
    words = parser.parse_args()
    chain, compact = Chain(words.validators, words.transactions), json.JSONEncoder(separators=(",", ":")).encode
    sys.stdout.write(compact(chain.genesis()) + "\n")
    for height in range(1, words.blocks + 1):
        sys.stdout.write(compact(chain.block(height)) + "\n")


main()
