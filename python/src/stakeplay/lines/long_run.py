"""Writes an input of many blocks for `replay`: five validators, twenty delegators, fees, rewards, unbondings, slashes.

Who wants it: whoever tries how long a replay takes, or a script that reads its output.
One command:  python3 long_run.py 100000 > run.jsonl
Each block comes five seconds after the one before, and has all votes and two transactions. Every few hundred blocks a
validator misses votes for a while, is slashed and jailed, and leaves jail. The same number gives the same bytes.
"""
from __future__ import annotations

import json
from datetime import datetime, timedelta

from stakeplay.calling import Parser, a_count, run

VALIDATORS, DELEGATORS, AUTHORITY = 5, 20, "99" * 20
START = datetime(2024, 1, 1)
PARAMS = {"bond_denom": "uatom", "power_reduction": 1000000, "unbonding_time": 1000, "max_validators": 100,
          "max_entries": 7, "min_commission_rate": "0", "community_tax": "0.02", "withdraw_addr_enabled": True,
          "signed_blocks_window": 20, "min_signed_per_window": "0.5", "downtime_jail_duration": 60,
          "slash_fraction_double_sign": "0.05",
          "slash_fraction_downtime": "0.0001", "max_age_duration": 172800, "max_age_num_blocks": 100000,
          "authority": AUTHORITY}


def user(number):
    return f"{number + 16:02x}" * 20


def cons(number):
    return f"{number + 16:02x}" * 19 + "00"


def coin(amount):
    return {"amount": str(amount), "denom": "uatom"}


def genesis():
    return {"kind": "genesis", "time": START.isoformat() + "Z", "params": PARAMS,
            "accounts": [{"address": user(n), "coins": [coin(10 ** 12)]} for n in range(VALIDATORS + DELEGATORS)],
            "validators": [{"operator": user(n), "cons": cons(n), "rate": "0.1", "max_rate": "0.2",
                            "max_change_rate": "0.01", "min_self_delegation": "1"} for n in range(VALIDATORS)],
            "delegations": [{"delegator": user(n), "validator": user(n % VALIDATORS), "amount": str(10 ** 8 + n)}
                            for n in range(VALIDATORS + DELEGATORS)]}


def message(draw, height):
    """One of the kinds that a chain sees each day."""
    delegator, validator = user(draw % (VALIDATORS + DELEGATORS)), user(draw // 64 % VALIDATORS)
    amount = 1 + draw // 512 % 99999
    kinds = [{"kind": "send", "from": delegator, "to": user(draw // 8 % 25), "coins": [coin(amount)]},
             {"kind": "delegate", "delegator": delegator, "validator": validator, "amount": coin(amount)},
             {"kind": "undelegate", "delegator": delegator, "validator": validator, "amount": coin(amount)},
             {"kind": "withdraw_reward", "delegator": delegator, "validator": validator},
             {"kind": "begin_redelegate", "delegator": delegator, "source": validator,
              "target": user(height % VALIDATORS), "amount": coin(amount)},
             {"kind": "withdraw_commission", "validator": validator}]
    return kinds[draw // 4096 % len(kinds)]


def block(height, draw):
    away = height // 400 % VALIDATORS  # who misses votes in a part of each 400 blocks
    votes = [{"cons": cons(n), "power": 500, "signed": n != away or height % 400 > 30} for n in range(VALIDATORS)]
    txs = [{"payer": user(d % 25), "fee": [coin(1000 + d % 100)], "msgs": [message(d, height)]}
           for d in (draw, draw >> 16)]
    if height % 400 == 60:
        txs.append({"payer": user(away), "fee": [], "msgs": [{"kind": "unjail", "validator": user(away)}]})
    return {"kind": "block", "height": height, "time": (START + timedelta(seconds=5 * height)).isoformat() + "Z",
            "votes": votes, "evidence": [], "txs": txs}


def main() -> None:
    """Writes the lines."""
    parser = Parser(__doc__)
    parser.add_argument("blocks", metavar="BLOCKS", type=a_count, help="how many")
    blocks, draw = parser.words().blocks, 1
    print(json.dumps(genesis(), separators=(",", ":")))
    for height in range(1, blocks + 1):
        draw = (draw * 6364136223846793005 + 1442695040888963407) % 2 ** 64
        print(json.dumps(block(height, draw >> 16), separators=(",", ":")))


def command() -> None:
    """Runs the recipe."""
    run(main)
