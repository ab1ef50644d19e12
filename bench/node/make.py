#!/usr/bin/env python3
"""Makes a node's answers for blocks of a chain that never was, in the shapes of Cosmos SDK v0.47 and CometBFT 0.37.

    bench/node/make.py FOLDER BLOCKS [--validators N] [--transactions N]    writes the answers, four files for a block
    bench/node/make.py --genesis [--validators N]                           writes the genesis line that they follow on

Each block has the votes of all validators (now and then one is absent, or votes for nil), coins that are minted, what
distribution tells of each validator, and transactions: one in seven fails, one in seven is carried out for somebody
else, one in four is of another module. Keys, hashes and signatures are hashes of small texts; events are those that
`from_blocks.py` reads, and some more for their size. The same words make the same bytes.
"""
from __future__ import annotations

import argparse
import base64
import functools
import hashlib
import json
import os
import pathlib
import sys
from datetime import datetime, timedelta
from typing import Any

sys.path.insert(0, str(pathlib.Path(__file__).resolve().parents[2] / "python/src"))

from stakeplay.node.data import RESERVE, bech32, hash_address  # noqa: E402

Json = dict[str, Any]
CHAIN, START, USERS, MINTED = "made-1", datetime(2024, 1, 1), 100, 5000
SUPPLY, STAKE = 10 ** 12, 10 ** 9
COLLECTOR, BONDED, DISTRIBUTION, MINT, GOV = (
    hash_address(name) for name in (b"fee_collector", b"bonded_tokens_pool", b"distribution", b"mint", b"gov"))


# ---- keys, hashes, spellings

def digest(*words: object) -> bytes:
    """Bytes that stand for a key or a hash."""
    return hashlib.sha256(repr(words).encode()).digest()


def hashed(*words: object) -> str:
    """A hash as CometBFT spells it."""
    return digest(*words).hex().upper()


def in_base64(text: bytes) -> str:
    return base64.b64encode(text).decode()


def signature(*words: object) -> str:
    return in_base64(digest(*words, 1) + digest(*words, 2))


@functools.cache
def user(number: int) -> bytes:
    return digest("user", number)[:20]


@functools.cache
def key(number: int) -> bytes:
    return digest("validator", number)


@functools.cache
def cons(number: int) -> str:
    return hash_address(key(number)).hex().upper()


@functools.cache
def account(address: bytes, kind: str = "") -> str:
    return bech32("cosmos" + kind, address)


def moment(height: int) -> str:
    return (START + timedelta(seconds=6 * height, microseconds=1)).isoformat() + "Z"


def coins(amount: int) -> list[Json]:
    return [{"denom": "uatom", "amount": str(amount)}]


# ---- events

def event(kind: str, **attributes: str) -> Json:
    return {"type": kind, "attributes": [{"key": k, "value": v, "index": True} for k, v in attributes.items()]}


def moved(giver: bytes, taker: bytes, amount: int) -> list[Json]:
    """What the bank tells of coins that go from one account to another."""
    text = f"{amount}uatom"
    return [event("coin_spent", spender=account(giver), amount=text),
            event("coin_received", receiver=account(taker), amount=text),
            event("transfer", recipient=account(taker), sender=account(giver), amount=text),
            event("message", sender=account(giver))]


def begun(height: int, validators: int) -> list[Json]:
    """The events of a block's beginning: minted coins, and what distribution gives to each validator."""
    text = f"{MINTED}uatom"
    events = [event("coin_received", receiver=account(MINT), amount=text),
              event("coinbase", minter=account(MINT), amount=text), *moved(MINT, COLLECTOR, MINTED),
              event("mint", bonded_ratio="0.670000000000000000", inflation="0.130000000000000000",
                    annual_provisions="1000000.000000000000000000", amount=str(MINTED))]
    if height == 1:
        return events
    events += moved(COLLECTOR, DISTRIBUTION, MINTED)
    for number in range(validators):
        operator, share = account(user(number), "valoper"), MINTED * 98 // 100 // validators
        events += [event("commission", amount=f"{share // 10}.000000000000000000uatom", validator=operator),
                   event("rewards", amount=f"{share}.000000000000000000uatom", validator=operator)]
    return events


# ---- transactions

def message(draw: int, validators: int) -> tuple[Json, list[Json]]:
    """A message that passes, and its events behind the one with its action."""
    who, other, amount = USERS + draw % USERS, USERS + draw // 7 % USERS, 1 + draw // 64 % 1000
    delegator, operator = account(user(who)), account(user(draw // 5 % validators), "valoper")
    bank, staking = "/cosmos.bank.v1beta1.Msg", "/cosmos.staking.v1beta1.Msg"
    kinds = [
        ({"@type": bank + "Send", "from_address": delegator, "to_address": account(user(other)),
          "amount": coins(amount)},
         moved(user(who), user(other), amount)),
        ({"@type": staking + "Delegate", "delegator_address": delegator, "validator_address": operator,
          "amount": coins(amount)[0]},
         [*moved(user(who), BONDED, amount)[:2], event("delegate", validator=operator, amount=f"{amount}uatom")]),
        ({"@type": bank + "MultiSend", "inputs": [{"address": delegator, "coins": coins(2 * amount)}],
          "outputs": [{"address": account(user(USERS + n)), "coins": coins(amount)} for n in (1, 2)]},
         moved(user(who), user(USERS + 1), amount) + moved(user(who), user(USERS + 2), amount)),
        ({"@type": "/cosmos.gov.v1.MsgDeposit", "proposal_id": "1", "depositor": delegator, "amount": coins(amount)},
         [*moved(user(who), GOV, amount), event("proposal_deposit", amount=f"{amount}uatom", proposal_id="1")]),
    ]
    return kinds[draw // 11 % len(kinds)]


def transaction(draw: int, validators: int) -> tuple[Json, Json]:
    """A transaction as the REST server decodes it, and its result."""
    payer, fee, case = user(USERS + draw % USERS), 100 + draw % 50, draw // 3 % 7
    carried, events = message(draw, validators)
    if case == 1:
        carried = {"@type": "/cosmos.authz.v1beta1.MsgExec", "grantee": account(payer), "msgs": [carried]}
        events = [{**e, "attributes": [*e["attributes"], {"key": "authz_msg_index", "value": "0", "index": True}]}
                  for e in events]
    proof = signature("tx", draw)
    ante = [*moved(payer, COLLECTOR, fee), event("tx", fee=f"{fee}uatom", fee_payer=account(payer)),
            event("tx", acc_seq=account(payer) + "/0"), event("tx", signature=proof)]
    action = event("message", action=carried["@type"], sender=account(payer))
    tx = {"body": {"messages": [carried], "memo": "", "timeout_height": "0", "extension_options": [],
                   "non_critical_extension_options": []},
          "auth_info": {"signer_infos": [{"public_key": {"@type": "/cosmos.crypto.secp256k1.PubKey", "key": proof[:44]},
                                          "mode_info": {"single": {"mode": "SIGN_MODE_DIRECT"}}, "sequence": "0"}],
                        "fee": {"amount": coins(fee), "gas_limit": "200000", "payer": "", "granter": ""}, "tip": None},
          "signatures": [proof]}
    result = {"code": 5 if case == 0 else 0, "data": None if case == 0 else "bWFkZQ==", "log": "[]", "info": "",
              "gas_wanted": "200000", "gas_used": "90000", "events": ante if case == 0 else [*ante, action, *events],
              "codespace": "sdk" if case == 0 else ""}
    return tx, result


# ---- answers

def block_id(height: int) -> Json:
    if height == 0:
        return {"hash": "", "parts": {"total": 0, "hash": ""}}
    return {"hash": hashed("block", height), "parts": {"total": 1, "hash": hashed("parts", height)}}


def commit(height: int, validators: int) -> Json:
    """The signatures of a block: of nine hundred one is absent and one is for nil."""
    signatures = []
    for number in range(validators if height else 0):
        luck = (height * 31 + number * 17) % 900
        absent = luck == 3
        signatures.append({"block_id_flag": 1 if absent else 3 if luck == 4 else 2,
                           "validator_address": "" if absent else cons(number),
                           "timestamp": "0001-01-01T00:00:00Z" if absent else moment(height),
                           "signature": None if absent else signature("vote", height, number)})
    return {"height": str(height), "round": 0, "block_id": block_id(height), "signatures": signatures}


def block(height: int, validators: int, transactions: int) -> Json:
    header = {"version": {"block": "11"}, "chain_id": CHAIN, "height": str(height), "time": moment(height),
              "last_block_id": block_id(height - 1)}
    header |= {name: hashed(name, height) for name in (
        "last_commit_hash", "data_hash", "validators_hash", "next_validators_hash", "consensus_hash", "app_hash",
        "last_results_hash", "evidence_hash")}
    header["proposer_address"] = cons(height % validators)
    return {"header": header, "data": {"txs": [signature("bytes", height, n) for n in range(transactions)]},
            "evidence": {"evidence": []}, "last_commit": commit(height - 1, validators)}


def answered(result: Json) -> Json:
    return {"jsonrpc": "2.0", "id": -1, "result": result}


def answers(height: int, validators: int, transactions: int) -> dict[str, Json]:
    """The answers of a block, by the name of their file."""
    made = block(height, validators, transactions)
    txs = [transaction(int.from_bytes(digest("draw", height, n)[:6], "big"), validators) for n in range(transactions)]
    parameters = {"block": {"max_bytes": "22020096", "max_gas": "-1"},
                  "evidence": {"max_age_num_blocks": "100000", "max_age_duration": "172800000000000",
                               "max_bytes": "1048576"},
                  "validator": {"pub_key_types": ["ed25519"]}}
    there = {
        f"block_{height}": answered({"block_id": block_id(height), "block": made}),
        f"block_results_{height}": answered({
            "height": str(height), "txs_results": [result for _, result in txs] or None,
            "begin_block_events": begun(height, validators), "end_block_events": None, "validator_updates": None,
            "consensus_param_updates": parameters}),
        f"txs_{height}": {
            "txs": [tx for tx, _ in txs],
            "block_id": {"hash": in_base64(digest("block", height)), "part_set_header": {"total": 1, "hash": ""}},
            "block": made, "pagination": {"next_key": None, "total": str(transactions)}},
    }
    if height > 1:
        there[f"validators_{height - 1}"] = answered({
            "block_height": str(height - 1), "count": str(validators), "total": str(validators),
            "validators": [{"address": cons(n),
                            "pub_key": {"type": "tendermint/PubKeyEd25519", "value": in_base64(key(n))},
                            "voting_power": str(STAKE // 10 ** 6),
                            "proposer_priority": str(height * n % 1000 - 500)} for n in range(validators)]})
    return there


def genesis(validators: int) -> Json:
    """The genesis line; it has the reserve, whose coins the blocks mint."""
    held = {user(USERS + n).hex(): SUPPLY for n in range(USERS)} | {RESERVE.hex(): SUPPLY * 1000}
    return {
        "kind": "genesis", "time": START.isoformat() + "Z",
        "params": {"bond_denom": "uatom", "power_reduction": 10 ** 6, "unbonding_time": 1814400, "max_validators": 180,
                   "max_entries": 7, "min_commission_rate": "0", "community_tax": "0.02", "withdraw_addr_enabled": True,
                   "signed_blocks_window": 10000, "min_signed_per_window": "0.05", "downtime_jail_duration": 600,
                   "slash_fraction_double_sign": "0.05", "slash_fraction_downtime": "0.0001",
                   "max_age_duration": 172800, "max_age_num_blocks": 100000, "authority": GOV.hex()},
        "accounts": [{"address": address, "coins": coins(amount)} for address, amount in held.items()],
        "validators": [{"operator": user(n).hex(), "cons": cons(n).lower(), "rate": "0.1", "max_rate": "0.2",
                        "max_change_rate": "0.01", "min_self_delegation": "1"} for n in range(validators)],
        "delegations": [{"delegator": user(n).hex(), "validator": user(n).hex(), "amount": str(STAKE)}
                        for n in range(validators)]}


def compact(value: Json) -> str:
    return json.dumps(value, separators=(",", ":"))


def main() -> None:
    parser = argparse.ArgumentParser(description=__doc__, formatter_class=argparse.RawDescriptionHelpFormatter)
    parser.add_argument("folder", metavar="FOLDER", nargs="?", help="where the answers go")
    parser.add_argument("blocks", metavar="BLOCKS", nargs="?", type=int, help="how many blocks")
    parser.add_argument("--genesis", action="store_true", help="write the genesis line alone, to standard output")
    parser.add_argument("--validators", metavar="N", type=int, default=10, help="in each block (10)")
    parser.add_argument("--transactions", metavar="N", type=int, default=2, help="in each block (2)")
    words = parser.parse_args()
    if words.genesis:
        print(compact(genesis(words.validators)))
        return
    if words.folder is None or words.blocks is None:
        parser.error("FOLDER and BLOCKS are wanted, or --genesis")
    os.makedirs(words.folder, exist_ok=True)
    for height in range(1, words.blocks + 1):
        for name, answer in answers(height, words.validators, words.transactions).items():
            pathlib.Path(words.folder, name + ".json").write_text(compact(answer))


if __name__ == "__main__":
    main()
