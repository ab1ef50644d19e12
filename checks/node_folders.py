"""Small folders of a node's answers for the tries of `from_blocks.py`: those of `bench/node/make.py`, and changes of
their third block.
"""
from __future__ import annotations

import contextlib
import copy
import io
import json
import pathlib
import sys
import tempfile
from typing import Any, Callable

sys.path[:0] = ["bench/node", "python/src"]

import make  # noqa: E402
from stakeplay.node import data as node_data, from_blocks  # noqa: E402

Json = Any
Answers = dict[str, Json]
Edit = Callable[[Answers], None]
BLOCKS, VALIDATORS = 4, 3


def put_down(room: str, answers: Answers) -> None:
    """Writes answers as files."""
    for name, answer in answers.items():
        raw = answer if isinstance(answer, bytes) else json.dumps(answer).encode()
        pathlib.Path(room, name + ".json").write_bytes(raw)


def converted_in(room: str, *words: str) -> tuple[int, str, str]:
    """Runs the recipe over a folder: its status, what it writes and what it tells."""
    out, err, sys.argv = io.StringIO(), io.StringIO(), ["from_blocks.py", room, *words]
    with contextlib.redirect_stdout(out), contextlib.redirect_stderr(err):
        try:
            node_data.run(from_blocks.main)
        except SystemExit as end:
            return int(end.code or 0), out.getvalue(), err.getvalue().replace(room + "/", "")
    raise AssertionError


def converted(answers: Answers, *words: str) -> tuple[int, str, str]:
    """The same over a new folder with these answers."""
    with tempfile.TemporaryDirectory() as room:
        put_down(room, answers)
        return converted_in(room, *words)


# ---- where things stand in answers

PLAIN: Answers = {}
for height in range(1, BLOCKS + 1):
    PLAIN |= make.answers(height, VALIDATORS, 0)


def block(answers: Answers, height: int = 3) -> Json:
    return answers[f"block_{height}"]["result"]["block"]


def results(answers: Answers, height: int = 3) -> Json:
    return answers[f"block_results_{height}"]["result"]


def validators(answers: Answers) -> Json:
    return answers["validators_2"]["result"]


def signatures(answers: Answers) -> Json:
    return block(answers)["last_commit"]["signatures"]


def begun(events: list[Json]) -> Edit:
    """Puts events of a block's beginning before the others."""
    return lambda answers: results(answers).update(begin_block_events=events + results(answers)["begin_block_events"])


def ended(*events: Json) -> Edit:
    return lambda answers: results(answers).update(end_block_events=list(events))


def sent(message: Json, events: list[Json] = [], code: int = 0, fee: int = 7) -> Edit:
    """Puts a transaction of one message into block 3; the events are those behind the one with its action."""
    def edit(answers: Answers) -> None:
        tx, result = make.transaction(2, VALIDATORS)
        payer = make.user(1)
        tx["body"]["messages"], tx["auth_info"]["fee"]["amount"] = [message], make.coins(fee) if fee else []
        ante = make.moved(payer, make.COLLECTOR, fee) if fee else []
        told = make.event("tx", fee=f"{fee}uatom" if fee else "", fee_payer=make.account(payer))
        action = make.event("message", action=message["@type"], sender="made")
        result.update(code=code, events=[*ante, told, *([] if code else [action, *events])])
        block(answers)["data"]["txs"] = ["bWFkZQ=="]
        answers["txs_3"].update(txs=[tx], pagination={"next_key": None, "total": "1"})
        results(answers)["txs_results"] = [result]
    return edit


def then(*edits: Edit) -> Edit:
    def all_of(answers: Answers) -> None:
        for edit in edits:
            edit(answers)
    return all_of


def changed(edit: Edit | None) -> Answers:
    answers = copy.deepcopy(PLAIN)
    if edit:
        edit(answers)
    return answers


# ---- names

ONE, TWO = make.user(1), make.user(2)
A, B = make.account(ONE), make.account(TWO)
VALOPER, OTHER = make.account(ONE, "valoper"), make.account(TWO, "valoper")
COIN, HERE = {"denom": "uatom", "amount": "9"}, {"denom": "uatom", "amount": "9"}
BANK, STAKING = "/cosmos.bank.v1beta1.Msg", "/cosmos.staking.v1beta1.Msg"
DISTRIBUTION = "/cosmos.distribution.v1beta1.Msg"
KEY = {"@type": "/cosmos.crypto.ed25519.PubKey", "key": make.in_base64(make.key(7))}
D, V = {"delegator_address": A}, {"validator_address": VALOPER}
DH, VH = {"delegator": ONE.hex()}, {"validator": ONE.hex()}

# messages of other modules, and the events of proposals
VOTE: Json = {"@type": "/cosmos.gov.v1.MsgVote", "voter": A}
DEPOSIT = {"@type": "/cosmos.gov.v1.MsgDeposit", "depositor": A}
PASSED = make.event("active_proposal", proposal_id="1", proposal_result="proposal_passed")
REJECTED = make.event("active_proposal", proposal_id="2", proposal_result="proposal_rejected")

# evidence
DUPLICATE = {"type": "tendermint/DuplicateVoteEvidence",
             "value": {"vote_a": {"validator_address": make.cons(1), "height": "2"}, "ValidatorPower": "55",
                       "TotalVotingPower": "3000", "Timestamp": "2024-01-01T00:00:12.500000000Z"}}

# messages, each with those that it becomes
SEND = ({"@type": BANK + "Send", "from_address": A, "to_address": B, "amount": [COIN]},
        [{"kind": "send", "from": ONE.hex(), "to": TWO.hex(), "coins": [HERE]}])
MESSAGES: list[tuple[Json, list[Json]]] = [
    SEND,
    ({"@type": BANK + "MultiSend", "inputs": [{"address": A, "coins": [COIN]}],
      "outputs": [{"address": B, "coins": [COIN]}, {"address": A, "coins": [COIN]}]},
     [SEND[1][0], SEND[1][0] | {"to": ONE.hex()}]),
    ({"@type": STAKING + "CreateValidator", "description": {}, **D, **V, "pubkey": KEY, "min_self_delegation": "5",
      "commission": {"rate": "0.1", "max_rate": "0.200000000000000000", "max_change_rate": "1"}, "value": COIN},
     [{"kind": "create_validator", **VH, "cons": make.cons(7).lower(), "rate": "0.100000000000000000",
       "max_rate": "0.200000000000000000", "max_change_rate": "1.000000000000000000", "min_self_delegation": "5",
       "amount": HERE}]),
    ({"@type": STAKING + "EditValidator", **V, "commission_rate": None, "min_self_delegation": None},
     [{"kind": "edit_validator", **VH}]),
    ({"@type": STAKING + "EditValidator", **V, "commission_rate": "0.05", "min_self_delegation": "6"},
     [{"kind": "edit_validator", **VH, "rate": "0.050000000000000000", "min_self_delegation": "6"}]),
    ({"@type": STAKING + "Delegate", **D, **V, "amount": COIN}, [{"kind": "delegate", **DH, **VH, "amount": HERE}]),
    ({"@type": STAKING + "Undelegate", **D, **V, "amount": COIN}, [{"kind": "undelegate", **DH, **VH, "amount": HERE}]),
    ({"@type": STAKING + "BeginRedelegate", **D, "validator_src_address": VALOPER, "validator_dst_address": OTHER,
      "amount": COIN}, [{"kind": "begin_redelegate", **DH, "source": ONE.hex(), "target": TWO.hex(), "amount": HERE}]),
    ({"@type": STAKING + "CancelUnbondingDelegation", **D, **V, "amount": COIN, "creation_height": "2"},
     [{"kind": "cancel_unbonding", **DH, **VH, "amount": HERE, "creation_height": 2}]),
    ({"@type": "/cosmos.slashing.v1beta1.MsgUnjail", "validator_addr": VALOPER}, [{"kind": "unjail", **VH}]),
    ({"@type": DISTRIBUTION + "WithdrawDelegatorReward", **D, **V}, [{"kind": "withdraw_reward", **DH, **VH}]),
    ({"@type": DISTRIBUTION + "WithdrawValidatorCommission", **V}, [{"kind": "withdraw_commission", **VH}]),
    ({"@type": DISTRIBUTION + "SetWithdrawAddress", **D, "withdraw_address": B},
     [{"kind": "set_withdraw_address", **DH, "withdraw": TWO.hex()}]),
    ({"@type": DISTRIBUTION + "FundCommunityPool", "amount": [COIN], "depositor": A},
     [{"kind": "fund_community_pool", "depositor": ONE.hex(), "coins": [HERE]}]),
    ({"@type": DISTRIBUTION + "FundCommunityPool", "amount": [], "depositor": A}, []),
]


def carried(*messages: Json) -> Json:
    return {"@type": "/cosmos.authz.v1beta1.MsgExec", "grantee": A, "msgs": list(messages)}


def indexed(events: list[Json], *places: int) -> list[Json]:
    """Events as a message that carries others out tells them: the place within the innermost comes first."""
    more = [{"key": "authz_msg_index", "value": str(place), "index": True} for place in places]
    return [event | {"attributes": event["attributes"] + more} for event in events]
