"""The genesis line of a chain that has not begun, from its genesis document."""
from __future__ import annotations

import json
from dataclasses import dataclass, fields
from typing import Any

from stakeplay.node.data import (BONDED, CHAIN_OF_HERE, COLLECTOR, DISTRIBUTION, MOST_WHOLE, NOT_BONDED, ONE, RESERVE, Coins,
                       Value, coins_json, coins_text, decimal_text, look, moment_text, stop)
from stakeplay.node.export import keyed, read_balances, read_params, read_validator
from stakeplay.node.sound import FRACTIONS, ask_ranges, commission_fault
from stakeplay.node.state import UNBONDED_STATUS, Params

MOST_BYTES = 4_194_304    # of a line
RAN = {  # lists that are empty where a chain has not begun, by module
    "staking": "unbonding_delegations redelegations last_validator_powers",
    "slashing": "signing_infos missed_blocks",
    "distribution": "delegator_withdraw_infos outstanding_rewards validator_accumulated_commissions "
                    "validator_historical_rewards validator_current_rewards delegator_starting_infos "
                    "validator_slash_events",
}


@dataclass
class Founder:
    """A validator of the genesis."""
    cons: bytes
    rate: int
    max_rate: int
    max_change_rate: int
    min_self_delegation: int


class Genesis:
    """What a genesis document says, as it is gathered for the line."""

    def __init__(self, document: Value, power_reduction: int):
        self.document = document
        self.time = document.member("genesis_time").moment()
        self.params = read_params(document, power_reduction)
        self.balances = read_balances(document.at("app_state.bank"))
        self.validators: dict[bytes, Founder] = {}
        self.delegations: dict[tuple[bytes, bytes], int] = {}   # by operator, delegator

    def read(self) -> None:
        """Reads the document."""
        ask_not_begun(self.document, self.balances)
        ask_ranges(self.params, self.time, self.document.place.rstrip(":"))
        self.read_staking()
        self.ask_not_bonded()
        self.ask_supply()
        genutil = self.document.member("app_state").maybe("genutil")
        for entry in genutil.list_at("gen_txs") if genutil else []:
            self.take_transaction(entry)

    def add_validator(self, value: Value, operator: bytes, founder: Founder) -> None:
        """Adds a validator that may be."""
        if fault := commission_fault(founder.rate, founder.max_rate, founder.max_change_rate):
            value.fail(fault, "commission")
        if founder.rate < self.params.min_commission_rate:
            value.fail("has a rate below min_commission_rate", "commission")
        if not founder.min_self_delegation:
            value.fail("has a least self-delegation of 0", "validator")
        if any(founder.cons == other.cons for other in self.validators.values()):
            value.fail("has the consensus key of a validator before it", "consensus-key-twice")
        self.validators[operator] = founder

    def read_staking(self) -> None:
        """Reads the validators, which are unbonded, and their delegations, each of whole shares."""
        staking = self.document.at("app_state.staking")
        listed = keyed(staking.list_at("validators"), lambda value: value.member("operator_address").operator(),
                       lambda value: value)
        left = {operator: self.read_founder(value, operator) for operator, value in listed.items()}
        shares = keyed(staking.list_at("delegations"),
                       lambda value: (value.member("validator_address").operator(),
                                      value.member("delegator_address").user()), lambda value: value)
        for (operator, delegator), value in shares.items():
            units = value.member("shares").decimal()
            if operator not in left:
                value.fail("is to no validator", "shares")
            if not units or units % ONE:
                value.fail("has shares that are no whole number above 0", "in-flight")
            left[operator] -= units
            self.delegations[operator, delegator] = units // ONE
        for operator, units in left.items():
            if units:
                listed[operator].fail("has not the shares of its delegations", "shares")

    def read_founder(self, value: Value, operator: bytes) -> int:
        """Reads a validator; its shares."""
        validator = read_validator(value)
        if validator.jailed or validator.status != UNBONDED_STATUS or validator.shares != validator.tokens * ONE:
            value.fail("is jailed, or not unbonded, or its shares are not its tokens", "in-flight")
        if not validator.tokens:
            value.fail("has no delegation", "shares")
        if validator.update_time != self.time:
            look("update-time", f"{value.place}.commission.update_time is not the genesis time, which the line takes")
        founder = Founder(**{part.name: getattr(validator, part.name) for part in fields(Founder)})
        self.add_validator(value, operator, founder)
        return validator.shares

    def ask_not_bonded(self) -> None:
        """The not-bonded account holds just what is delegated."""
        owed = {self.params.bond_denom: sum(self.delegations.values())}
        held = self.balances.get(NOT_BONDED, {})
        if held != {denom: amount for denom, amount in owed.items() if amount}:
            self.document.at("app_state.bank.balances").fail(
                f"have {coins_text(held)} at not_bonded_tokens_pool, and delegated are {coins_text(owed)}", "pool")

    def supply(self) -> Coins:
        """The sum of the balances."""
        supply: Coins = {}
        for coins in self.balances.values():
            for denom, amount in coins.items():
                supply[denom] = supply.get(denom, 0) + amount
        return supply

    def ask_supply(self) -> None:
        """A supply that is given is the sum of the balances; none is above the limit."""
        given, held = self.document.at("app_state.bank.supply"), self.supply()
        if given.elements() and given.coins() != held:
            given.fail(f"is not the sum of the balances, {coins_text(held)}", "supply")
        if any(amount > MOST_WHOLE for amount in held.values()):
            self.document.at("app_state.bank.balances").fail("are above 10^18 together", "limit")

    def take_transaction(self, entry: Value) -> None:
        """Takes a transaction of the genesis: a validator, and what its operator delegates."""
        messages = entry.at("body.messages").elements()
        kinds = [message.member("@type").text() for message in messages]
        if kinds != ["/cosmos.staking.v1beta1.MsgCreateValidator"]:
            entry.fail(f"has other messages than one MsgCreateValidator: {', '.join(kinds)}", "gen-tx")
        if entry.at("auth_info.fee.amount").elements():
            entry.fail("has a fee", "gen-tx")
        message = messages[0]
        operator = message.member("validator_address").operator()
        if operator in self.validators:
            message.fail("creates a validator that is there already", "gen-tx")
        rates = [message.at(f"commission.{name}").decimal() for name in ("rate", "max_rate", "max_change_rate")]
        founder = Founder(message.member("pubkey").key_address(), *rates, message.member("min_self_delegation").amount())
        self.add_validator(message, operator, founder)
        self.delegate(message.member("value"), operator)

    def delegate(self, value: Value, operator: bytes) -> None:
        """The operator delegates of its balance."""
        denom, amount = value.coin()
        held = self.balances.get(operator, {})
        if denom != self.params.bond_denom or not amount:
            value.fail(f"is no amount of {self.params.bond_denom}", "gen-tx")
        if amount > held.get(denom, 0):
            value.fail(f"is {amount}{denom}, and the operator has {coins_text(held)}", "gen-tx")
        self.balances[operator] = {name: left for name, left in (held | {denom: held[denom] - amount}).items() if left}
        self.delegations[operator, operator] = amount

    def line(self) -> dict[str, Any]:
        """The line as an object."""
        accounts = sorted(item for item in self.balances.items() if item[0] not in CHAIN_OF_HERE)
        return {
            "kind": "genesis", "time": moment_text(self.time), "params": params_json(self.params),
            "accounts": [{"address": address.hex(), "coins": coins_json(coins)} for address, coins in accounts],
            "validators": [founder_json(operator, founder) for operator, founder in self.validators.items()],
            "delegations": [{"delegator": delegator.hex(), "validator": operator.hex(), "amount": str(amount)}
                            for (operator, delegator), amount in self.delegations.items()],
        }


def ask_not_begun(document: Value, balances: dict[bytes, Coins]) -> None:
    """Refuses a chain that ran: its heights, periods and signing records can't be said in a line."""
    app_state = document.member("app_state")
    exported = app_state.at("staking").maybe("exported")
    height = document.maybe("initial_height")
    if exported and exported.truth():
        exported.fail("is true: the chain ran; make a store of its export", "in-flight")
    if height and height.number() > 1:
        height.fail(f"is {height.raw}: the chain does not begin at height 1", "in-flight")
    for module, names in RAN.items():
        for name in names.split():
            value = app_state.member(module).member(name)
            if value.elements():
                value.fail("is not empty: the chain ran", "in-flight")
    pool = app_state.at("distribution.fee_pool.community_pool")
    if pool.decimal_coins():
        pool.fail("is not empty", "in-flight")
    for account in (COLLECTOR, BONDED, DISTRIBUTION):
        if balances.get(account):
            app_state.at("bank.balances").fail(f"has coins of {document.prefix.text_of(account)}, a module", "in-flight")


def params_json(params: Params) -> dict[str, Any]:
    """The parameters of a line."""
    values = {part.name: getattr(params, part.name) for part in fields(params)}
    return values | {name: decimal_text(values[name]) for name in FRACTIONS} | {"authority": params.authority.hex()}


def founder_json(operator: bytes, founder: Founder) -> dict[str, Any]:
    """A validator of a line."""
    return {"operator": operator.hex(), "cons": founder.cons.hex(), "rate": decimal_text(founder.rate),
            "max_rate": decimal_text(founder.max_rate), "max_change_rate": decimal_text(founder.max_change_rate),
            "min_self_delegation": str(founder.min_self_delegation)}


def genesis_line(document: Value, power_reduction: int, reserve: list[str]) -> str:
    """The line of a genesis document, where the reserve has what lacks to a supply of 10^18."""
    genesis = Genesis(document, power_reduction)
    supply = genesis.supply()
    genesis.read()
    lacking = {denom: MOST_WHOLE - supply.get(denom, 0) for denom in reserve}
    if reserve:
        genesis.balances[RESERVE] = {denom: amount for denom, amount in lacking.items() if amount}
    line = json.dumps(genesis.line(), separators=(",", ":"))
    if len(line) > MOST_BYTES:
        stop("limit", f"{document.place} the line has {len(line)} bytes, and may have {MOST_BYTES}")
    return line
