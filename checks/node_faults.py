"""What `from_blocks.py` is to refuse, and what a person is to look at: changes of a folder with answers."""
from __future__ import annotations

import copy
import json

from node_folders import (A, B, COIN, DEPOSIT, DUPLICATE, MESSAGES, ONE, PASSED, SEND, TWO, VALOPER, Answers, Edit,
                          Json, begun, block, carried, ended, make, node_data, results, sent, signatures, then,
                          validators)

# ---- what is refused

def cut(name: str, by: int = 1) -> Edit:
    """Takes bytes from the end of a file."""
    def edit(answers: Answers) -> None:
        answers[name] = json.dumps(answers[name]).encode()[:-by]
    return edit


def gone(name: str) -> Edit:
    return lambda answers: answers.pop(name)


def put(name: str, answer: Json) -> Edit:
    return lambda answers: answers.update({name: answer})


def in_base64(answers: Answers) -> None:
    """Writes the keys of a transaction's events as Tendermint 0.34 did."""
    sent(SEND[0], fee=0)(answers)
    for event in results(answers)["txs_results"][0]["events"]:
        for pair in event["attributes"]:
            pair["key"] = make.in_base64(pair["key"].encode())


def of_newer_comet(answers: Answers) -> None:
    """Turns the results into those of CometBFT 0.38."""
    events = results(answers)
    events["finalize_block_events"] = events.pop("begin_block_events") + (events.pop("end_block_events") or [])


def second_page(member: str, value: str) -> Edit:
    """Adds a page of transactions, which belongs to another block, or to another number of transactions."""
    def edit(answers: Answers) -> None:
        sent(SEND[0])(answers)
        page = copy.deepcopy(answers["txs_3"]) | {"txs": []}
        page[member]["hash" if member == "block_id" else "total"] = value
        answers["txs_3_2"] = page
    return edit


def auth(**members: Json) -> Edit:
    return then(sent(SEND[0]), lambda a: a["txs_3"]["txs"][0]["auth_info"].update(members))


RPC_ERROR = {"jsonrpc": "2.0", "id": -1, "error": {"code": -32603, "message": "Internal error", "data": "pruned"}}
LONG = make.account(make.digest("long"))
MODULE = make.account(make.COLLECTOR)
NEAR_RESERVE = make.account(node_data.RESERVE)

# what is wrong, and what is told: the code, the file and the member
STOPS: list[tuple[str, Edit, str]] = [
    ("a block that is cut", cut("block_3"), "stop json: block_3.json"),
    ("results that are cut in the middle", cut("block_results_3", 900), "stop json: block_results_3.json"),
    ("validators that are empty", put("validators_2", b""), "stop json: validators_2.json"),
    ("a page of HTML", put("txs_3", b"<html>502 Bad Gateway</html>"), "stop json: txs_3.json"),
    ("bytes that are no text", put("txs_3", b'{"txs":"\xff"}'), "stop json: txs_3.json"),
    ("a number that is none", put("txs_3", b'{"txs":NaN}'), "stop json: txs_3.json"),
    ("brackets without an end", put("txs_3", b"[" * 10 ** 5), "stop json: txs_3.json"),
    ("a list", put("block_3", []), "stop shape: block_3.json: is no object"),
    ("an error in place of a block", put("block_3", RPC_ERROR), "stop rpc-error: block_3.json: "),
    ("an error in place of results", put("block_results_3", RPC_ERROR), "stop rpc-error: block_results_3.json: "),
    ("an error in place of validators", put("validators_2", RPC_ERROR), "stop rpc-error: validators_2.json: "),
    ("an error of the REST server", put("txs_3", {"code": 5, "message": "pruned"}), "stop rest-error: txs_3.json: "),
    ("a block that is missing", gone("block_3"), "stop height: block_3.json: is missing"),
    ("results that are missing", gone("block_results_3"), "stop height: block_results_3.json: is missing"),
    ("validators that are missing", gone("validators_2"), "stop height: validators_2.json: is missing"),
    ("transactions that are missing", gone("txs_3"), "stop height: txs_3.json: is missing"),
    ("a block of another height", lambda a: block(a)["header"].update(height="4"),
     "stop height: block_3.json: result.block.header.height is 4"),
    ("results of another height", lambda a: results(a).update(height="4"),
     "stop results: block_results_3.json: result.height is 4"),
    ("validators of another height", lambda a: validators(a).update(block_height="3"),
     "stop validators: validators_2.json: result.block_height is 3"),
    ("another chain", lambda a: block(a)["header"].update(chain_id="made-2"),
     "stop chain-id: block_3.json: result.block.header.chain_id is made-2"),
    ("another block before", lambda a: block(a)["header"]["last_block_id"].update(hash=make.hashed("other")),
     "stop hash: block_3.json: result.block.header.last_block_id.hash is "),
    ("a block without a hash", lambda a: a["block_3"]["result"]["block_id"].update(hash=""),
     "stop shape: block_3.json: result.block_id.hash is no hash"),
    ("transactions of another block",
     lambda a: a["txs_3"]["block_id"].update(hash=make.in_base64(make.digest("other"))),
     "stop hash: txs_3.json: block_id.hash is "),
    ("a second page of another block", second_page("block_id", make.in_base64(make.digest("other"))),
     "stop hash: txs_3_2.json: block_id.hash is "),
    ("a second page with another total", second_page("pagination", "2"),
     "stop txs: txs_3_2.json: pagination.total is 2"),
    ("a hash that is none", lambda a: a["txs_3"]["block_id"].update(hash="?"),
     "stop shape: txs_3.json: block_id.hash "),
    ("a page of validators is missing", lambda a: validators(a).update(total="4"),
     "stop validators: validators_2.json: result.total is 4"),
    ("another version of blocks", lambda a: block(a)["header"]["version"].update(block="12"),
     "stop version: block_3.json: result.block.header.version.block is 12"),
    ("results of CometBFT 0.38", of_newer_comet, "stop version: block_results_3.json: "),
    ("events of Tendermint 0.34", in_base64, "stop events: block_results_3.json: result.txs_results[0].events[0] "),
    ("a member that is missing", lambda a: block(a)["header"].pop("time"),
     "stop shape: block_3.json: result.block.header.time is missing"),
    ("a time that is none", lambda a: block(a)["header"].update(time="2024-13-01T00:00:00Z"),
     "stop shape: block_3.json: result.block.header.time "),
    ("a height as a number", lambda a: block(a)["header"].update(height=3),
     "stop shape: block_3.json: result.block.header.height "),
    ("a signature too many", lambda a: signatures(a).append(signatures(a)[0]),
     "stop votes: block_3.json: result.block.last_commit.signatures has 4 signatures"),
    ("no signatures", lambda a: block(a)["last_commit"].update(signatures=None),
     "stop votes: block_3.json: result.block.last_commit.signatures has 0 signatures"),
    ("signatures in another order", lambda a: signatures(a).reverse(),
     "stop votes: block_3.json: result.block.last_commit.signatures[0].validator_address is "),
    ("an absent signature with an address", lambda a: signatures(a)[1].update(block_id_flag=1),
     "stop votes: block_3.json: result.block.last_commit.signatures[1].validator_address is "),
    ("a flag that does not exist", lambda a: signatures(a)[1].update(block_id_flag=4),
     "stop votes: block_3.json: result.block.last_commit.signatures[1].block_id_flag is 4"),
    ("a power that is no number", lambda a: validators(a)["validators"][1].update(voting_power="-1"),
     "stop shape: validators_2.json: result.validators[1].voting_power "),
    ("evidence of another kind",
     lambda a: block(a)["evidence"]["evidence"].append(DUPLICATE | {"type": "tendermint/Other"}),
     "stop evidence: block_3.json: result.block.evidence.evidence[0].type "),
    ("more results than transactions", lambda a: results(a).update(txs_results=[{}]),
     "stop txs: block_results_3.json: result.txs_results has 1 elements"),
    ("a transaction without results", then(sent(SEND[0]), lambda a: results(a).update(txs_results=None)),
     "stop txs: block_results_3.json: result.txs_results has 0 elements"),
    ("a tip", auth(tip={"amount": [COIN], "tipper": A}), "stop tip: txs_3.json: txs[0].auth_info.tip "),
    ("a fee that was not paid", auth(fee={"amount": [COIN]}),
     "stop fee: txs_3.json: txs[0].auth_info.fee.amount is 9uatom"),
    ("more than the fee before the messages",
     then(sent(SEND[0]), lambda a: results(a)["txs_results"][0].update(
         events=make.moved(ONE, TWO, 3) + results(a)["txs_results"][0]["events"])),
     "stop ante-flow: block_results_3.json: result.txs_results[0] "),
    ("a message without its event", then(sent(SEND[0]), lambda a: results(a)["txs_results"][0]["events"].pop()),
     "stop events: txs_3.json: txs[0].body.messages[0] has no event"),
    ("a transaction that passed without a fee's event",
     then(sent(SEND[0], fee=0), lambda a: results(a)["txs_results"][0]["events"].pop(0)),
     "stop events: block_results_3.json: result.txs_results[0] passed"),
    ("an amount that is no coins", sent(DEPOSIT, [make.event("coin_spent", spender=A, amount="9")]),
     "stop events: block_results_3.json: result.txs_results[0].events["),
    ("an operator in place of an account", sent(SEND[0] | {"from_address": VALOPER}),
     "stop address: txs_3.json: txs[0].body.messages[0].from_address "),
    ("an address with a wrong letter", sent(SEND[0] | {"to_address": B[:-1] + ("q" if B[-1] != "q" else "p")}),
     "stop address: txs_3.json: txs[0].body.messages[0].to_address "),
    ("a module that sends", sent(SEND[0] | {"from_address": MODULE}),
     "stop address: txs_3.json: txs[0].body.messages[0].from_address is the account of a module"),
    ("an account with the address of the reserve", sent(SEND[0] | {"to_address": NEAR_RESERVE}),
     "stop reserve: txs_3.json: txs[0].body.messages[0].to_address "),
    ("coins that go to the account of the reserve", sent(DEPOSIT, make.moved(ONE, node_data.RESERVE, 9)),
     "stop reserve: block_results_3.json: result.txs_results[0].events["),
    ("an amount above the highest", sent(SEND[0] | {"amount": [COIN | {"amount": str(10 ** 18 + 1)}]}),
     "stop limit: txs_3.json: txs[0].body.messages[0].amount[0].amount "),
    ("another kind of key",
     sent(MESSAGES[2][0] | {"pubkey": {"@type": "/cosmos.crypto.secp256k1.PubKey", "key": "AA=="}}),
     "stop consensus-key: txs_3.json: txs[0].body.messages[0].pubkey "),
    ("a send from two inputs", sent(MESSAGES[1][0] | {"inputs": 2 * MESSAGES[1][0]["inputs"]}),
     "stop multi-send: txs_3.json: txs[0].body.messages[0] has 2 inputs"),
    ("coins that another module bonds", sent(DEPOSIT, make.moved(ONE, make.BONDED, 9)),
     "stop module-flow: txs_3.json: txs[0].body.messages[0] moves 9uatom of bonded_tokens_pool"),
    ("coins that another module takes of the fee collector", sent(DEPOSIT, make.moved(make.COLLECTOR, ONE, 9)),
     "stop module-flow: txs_3.json: txs[0].body.messages[0] "),
    ("events that tell not whose they are", sent(carried(DEPOSIT, DEPOSIT), make.moved(ONE, make.GOV, 9)),
     "stop events: block_results_3.json: result.txs_results[0].events["),
    ("coins at the beginning that nobody received", begun(make.moved(ONE, TWO, 9)[:1]),
     "stop events: block_results_3.json: result.begin_block_events[1] "),
    ("coins at the end that nobody received", ended(*make.moved(ONE, TWO, 9)[:1]),
     "stop events: block_results_3.json: result.end_block_events[0] "),
    ("coins at the beginning that go to a pool", begun(make.moved(ONE, make.BONDED, 9)),
     "stop module-flow: block_results_3.json: result.begin_block_events[1] moves 9uatom of bonded_tokens_pool"),
    ("coins at the end that go to the fee collector", ended(*make.moved(ONE, make.COLLECTOR, 9)),
     "stop module-flow: block_results_3.json: result.end_block_events[1] moves 9uatom of fee_collector"),
]

# what a person must look at; the lines are written
LOOKS: list[tuple[str, Edit, str]] = [
    ("a proposal that passed", ended(PASSED), "look proposal: block_results_3.json: result.end_block_events[0]"),
    ("other consensus parameters",
     lambda a: results(a)["consensus_param_updates"]["evidence"].update(max_age_num_blocks="7"),
     "look params-changed: block_results_3.json: result.consensus_param_updates.evidence"),
    ("an address of 32 bytes", sent(SEND[0] | {"to_address": LONG}),
     f"look long-address: {LONG} has 32 bytes"),
]


