"""The state in a chain's export, `app_state` and what stands beside it: read from one, and written in its shape.

What is written has what a store has: a validator has `consensus_address` in place of its key, and no member stands
there that means nothing to this machine (descriptions, the previous proposer, headers that are kept). What is read may
have both spellings. Nothing is judged here but the form of each member; `sound.py` judges the whole.
"""
from __future__ import annotations

from dataclasses import dataclass, field
from typing import Any, Callable, Iterable, TypeVar

from stakeplay.node.data import (AUTHORITY, CHAIN_OF_HERE, COLLECTOR, RESERVE, SECOND, Coins, Prefix, Value, coins_json,
                       decimal_text, moment_text_of_state, stop)
from stakeplay.node.state import BONDED_STATUS, STATUSES, Entry, Historical, Params, Purse, Signing, Start, State, Validator

MOST_PLACES = 100_000     # the widest window of votes
Record = TypeVar("Record")
Json = dict[str, Any]


# ---- members that are one field each

@dataclass(frozen=True)
class Form:
    """How a member is read, and how it is written."""
    read: Callable[[Value], Any]
    write: Callable[[Any], Any]


def _status(value: Value) -> int:
    if value.text() not in STATUSES:
        value.fail(f"is no status of a validator: {value.raw}")
    return STATUSES.index(value.raw)


AMOUNT = Form(Value.amount, str)
NUMBER = Form(Value.number, str)
SMALL = Form(Value.small, int)
TRUTH = Form(Value.truth, bool)
DENOM = Form(Value.denom, str)
DECIMAL = Form(Value.decimal, decimal_text)
MOMENT = Form(Value.moment, moment_text_of_state)
SECONDS = Form(Value.seconds, "{}s".format)
NANOSECONDS = Form(Value.seconds_of_nanoseconds, lambda seconds: str(seconds * SECOND))
STATUS = Form(_status, STATUSES.__getitem__)
Members = dict[str, tuple[str, Form]]     # by the path of a member: its field, and its form

PARAMS: Members = {
    "app_state.staking.params.unbonding_time": ("unbonding_time", SECONDS),
    "app_state.staking.params.max_validators": ("max_validators", SMALL),
    "app_state.staking.params.max_entries": ("max_entries", SMALL),
    "app_state.staking.params.bond_denom": ("bond_denom", DENOM),
    "app_state.staking.params.min_commission_rate": ("min_commission_rate", DECIMAL),
    "app_state.distribution.params.community_tax": ("community_tax", DECIMAL),
    "app_state.distribution.params.withdraw_addr_enabled": ("withdraw_addr_enabled", TRUTH),
    "app_state.slashing.params.signed_blocks_window": ("signed_blocks_window", NUMBER),
    "app_state.slashing.params.min_signed_per_window": ("min_signed_per_window", DECIMAL),
    "app_state.slashing.params.downtime_jail_duration": ("downtime_jail_duration", SECONDS),
    "app_state.slashing.params.slash_fraction_double_sign": ("slash_fraction_double_sign", DECIMAL),
    "app_state.slashing.params.slash_fraction_downtime": ("slash_fraction_downtime", DECIMAL),
    "consensus_params.evidence.max_age_num_blocks": ("max_age_num_blocks", NUMBER),
    "consensus_params.evidence.max_age_duration": ("max_age_duration", NANOSECONDS),
}
VALIDATOR: Members = {
    "jailed": ("jailed", TRUTH), "status": ("status", STATUS),
    "tokens": ("tokens", AMOUNT), "delegator_shares": ("shares", DECIMAL),
    "unbonding_height": ("unbonding_height", NUMBER), "unbonding_time": ("unbonding_time", MOMENT),
    "commission.commission_rates.rate": ("rate", DECIMAL),
    "commission.commission_rates.max_rate": ("max_rate", DECIMAL),
    "commission.commission_rates.max_change_rate": ("max_change_rate", DECIMAL),
    "commission.update_time": ("update_time", MOMENT), "min_self_delegation": ("min_self_delegation", AMOUNT),
}
UNBONDING: Members = {"creation_height": ("created", NUMBER), "completion_time": ("completes", MOMENT),
                      "initial_balance": ("initial", AMOUNT), "balance": ("left", AMOUNT)}
REDELEGATION: Members = UNBONDING | {"shares_dst": ("left", DECIMAL)}
del REDELEGATION["balance"]
SIGNING: Members = {"start_height": ("start", NUMBER), "index_offset": ("counted", NUMBER),
                    "jailed_until": ("jailed_until", MOMENT), "tombstoned": ("tombstoned", TRUTH),
                    "missed_blocks_counter": ("missed", NUMBER)}
START: Members = {"previous_period": ("period", NUMBER), "stake": ("stake", DECIMAL), "height": ("height", NUMBER)}


def read_members(value: Value, members: Members, record: Callable[..., Record], **others: Any) -> Record:
    """A record of the fields that stand at these members, and of the others that are given."""
    return record(**{name: form.read(value.at(path)) for path, (name, form) in members.items()}, **others)


def write_members(record: Any, members: Members, into: Json) -> Json:
    """Writes the fields of a record to their members."""
    for path, (name, form) in members.items():
        *above, last = path.split(".")
        at = into
        for step in above:
            at = at.setdefault(step, {})
        at[last] = form.write(getattr(record, name))
    return into


# ---- reading

@dataclass
class Export:
    """An export: its state, the powers of the validators as the chain tells them, and the accounts that are listed."""
    state: State
    powers: dict[bytes, int]
    total_power: int
    accounts: dict[bytes, Coins] = field(default_factory=dict)


def keyed(elements: Iterable[Value], key: Callable[[Value], Any], record: Callable[[Value], Any]) -> dict[Any, Any]:
    """A dictionary of the elements of a list; each key stands there once."""
    found: dict[Any, Any] = {}
    for element in elements:
        name = key(element)
        if name in found:
            element.fail("has the key of an element before it")
        found[name] = record(element)
    return found


def _operator(element: Value) -> bytes:
    return element.member("validator_address").operator()


def _delegator(element: Value) -> bytes:
    return element.member("delegator_address").user()


def _delegation(element: Value) -> tuple[bytes, bytes]:
    return _operator(element), _delegator(element)


def read_params(document: Value, power_reduction: int) -> Params:
    """The parameters of a chain."""
    return read_members(document, PARAMS, Params, power_reduction=power_reduction, authority=AUTHORITY)


def read_balances(bank: Value) -> dict[bytes, Coins]:
    """The coins of each account that is listed, also those of one without."""
    return keyed(bank.list_at("balances"), lambda entry: entry.member("address").account(),
                 lambda entry: entry.member("coins").coins())


def key_of(validator: Value) -> bytes:
    """The consensus address of a validator: of its key, or as `to_export.py` writes it."""
    if validator.has("consensus_address"):
        return validator.member("consensus_address").consensus()
    return validator.member("consensus_pubkey").key_address()


def read_validator(value: Value) -> Validator:
    """A validator of `x/staking`, which no other module holds back."""
    ask_not_on_hold(value)
    return read_members(value, VALIDATOR, Validator, cons=key_of(value))


def ask_not_on_hold(value: Value) -> None:
    """Refuses a validator or an entry whose unbonding another module holds back; v0.46 has no such member."""
    count = value.maybe("unbonding_on_hold_ref_count")
    if count and count.number():
        count.fail("is above 0: another module holds this unbonding back", "on-hold")


def _entries(members: Members) -> Callable[[Value], list[Entry]]:
    def read(value: Value) -> list[Entry]:
        entries = value.list_at("entries")
        for entry in entries:
            ask_not_on_hold(entry)
        return [read_members(entry, members, Entry) for entry in entries]
    return read


def _read_staking(state: State, staking: Value) -> None:
    state.validators = keyed(staking.list_at("validators"),
                             lambda value: value.member("operator_address").operator(), read_validator)
    state.delegations = keyed(staking.list_at("delegations"), _delegation,
                              lambda value: value.member("shares").decimal())
    state.unbondings = keyed(staking.list_at("unbonding_delegations"),
                             lambda value: (_delegator(value), _operator(value)), _entries(UNBONDING))
    state.redelegations = keyed(
        staking.list_at("redelegations"),
        lambda value: (_delegator(value), value.member("validator_src_address").operator(),
                       value.member("validator_dst_address").operator()), _entries(REDELEGATION))


def _read_slashing(state: State, slashing: Value) -> None:
    window = state.params.signed_blocks_window

    def signing(value: Value) -> Signing:
        record = read_members(value.member("validator_signing_info"), SIGNING, Signing, ring=[])
        record.ring = [False] * min(record.counted, window, MOST_PLACES)
        return record

    def missed(value: Value) -> dict[int, bool]:
        return keyed(value.list_at("missed_blocks"), lambda place: place.member("index").number(),
                     lambda place: place.member("missed").truth())

    def cons(value: Value) -> bytes:
        return value.member("address").consensus()

    state.signings = keyed(slashing.list_at("signing_infos"), cons, signing)
    lists = slashing.member("missed_blocks")
    for address, places in keyed(lists.elements(), cons, missed).items():
        last = max((place for place, is_missed in places.items() if is_missed), default=-1)
        if last >= 0 and (address not in state.signings or last >= MOST_PLACES):
            lists.fail(f"has a missed place {last} that is in no window", "window")
        ring = state.signings[address].ring if address in state.signings else []
        ring += [False] * (last + 1 - len(ring))
        for place in places:
            if places[place]:
                ring[place] = True


def _read_distribution(state: State, distribution: Value) -> None:
    state.pool = distribution.at("fee_pool.community_pool").decimal_coins()
    state.withdraws = keyed(distribution.list_at("delegator_withdraw_infos"), _delegator, _withdraw_address)
    outstanding = keyed(distribution.list_at("outstanding_rewards"), _operator,
                        lambda value: value.member("outstanding_rewards").decimal_coins())
    commission = keyed(distribution.list_at("validator_accumulated_commissions"), _operator,
                       lambda value: value.at("accumulated.commission").decimal_coins())
    current = keyed(distribution.list_at("validator_current_rewards"), _operator,
                    lambda value: value.at("rewards.rewards").decimal_coins())
    state.purses = {operator: Purse(outstanding.get(operator), commission.get(operator), current.get(operator))
                    for operator in outstanding | commission | current}
    state.periods = keyed(distribution.list_at("validator_current_rewards"), _operator,
                          lambda value: value.at("rewards.period").number())
    state.historicals = keyed(
        distribution.list_at("validator_historical_rewards"),
        lambda value: (_operator(value), value.member("period").number()),
        lambda value: Historical(value.at("rewards.cumulative_reward_ratio").decimal_coins(),
                                 value.at("rewards.reference_count").small()))
    state.starts = keyed(distribution.list_at("delegator_starting_infos"), _delegation, _starting_info)
    state.events = keyed(
        distribution.list_at("validator_slash_events"),
        lambda value: (_operator(value), value.member("height").number(), value.member("period").number()), _fraction)


def _withdraw_address(value: Value) -> bytes:
    address = value.member("withdraw_address").account()
    if address in CHAIN_OF_HERE:
        value.fail("leads to the account of a module", "withdraw-module")
    return address


def _starting_info(value: Value) -> Start:
    info = value.member("starting_info")
    members = dict(START)
    if not info.has("height") and info.has("creation_height"):   # its name in older exports
        members["creation_height"] = members.pop("height")
    return read_members(info, members, Start)


def _fraction(value: Value) -> int:
    if value.at("validator_slash_event.validator_period").number() != value.member("period").number():
        value.fail("has two periods", "slash-event")
    return value.at("validator_slash_event.fraction").decimal()


def read_export(document: Value, power_reduction: int, time: int) -> Export:
    """The state in an export, with the time of its last block."""
    staking = document.at("app_state.staking")
    height = document.member("initial_height").number() - 1
    state = State(height, time, read_params(document, power_reduction))
    bank = document.at("app_state.bank")
    accounts = read_balances(bank)
    for account, coins in accounts.items():
        for denom, amount in coins.items():
            state.balances[account, denom] = amount
    state.supply = bank.member("supply").coins()
    _read_staking(state, staking)
    _read_slashing(state, document.at("app_state.slashing"))
    _read_distribution(state, document.at("app_state.distribution"))
    powers = keyed(staking.list_at("last_validator_powers"), lambda value: value.member("address").operator(),
                   lambda value: value.member("power").number())
    return Export(state, powers, staking.member("last_total_power").amount(), accounts)


# ---- writing

def decimal_coins_json(coins: Coins | None) -> list[dict[str, str]]:
    """Decimal coins as a list of JSON."""
    return coins_json(coins or {}, decimal_text)


def powers_of(state: State) -> dict[bytes, int]:
    """The powers of the bonded validators, which the last block's end told CometBFT."""
    return {operator: validator.tokens // state.params.power_reduction
            for operator, validator in state.validators.items() if validator.status == BONDED_STATUS}


def export_of_store(state: State, paid_ahead: Coins) -> Export:
    """A store's state as the chain has it: without the reserve, and without what was paid ahead of the next block."""
    _take_away(state, RESERVE, state.coins(RESERVE))
    _take_away(state, COLLECTOR, paid_ahead)
    powers = powers_of(state)
    return Export(state, powers, sum(powers.values()))


def _take_away(state: State, account: bytes, coins: Coins) -> None:
    for denom, amount in coins.items():
        if amount > state.balances.get((account, denom), 0):
            stop("next", f"the fee collector has less than the {amount}{denom} that these results minted")
        state.add(account, denom, -amount)
        state.supply[denom] = state.supply.get(denom, 0) - amount
    state.supply = {denom: amount for denom, amount in state.supply.items() if amount}


class Writer:
    """Writes an export with the addresses of one chain; lists stand in the order of the chain's store."""

    def __init__(self, prefix: Prefix):
        self.account = prefix.text_of
        self.operator = lambda address: prefix.text_of(address, "valoper")
        self.cons = lambda address: prefix.text_of(address, "valcons")

    def document(self, export: Export) -> Json:
        """The whole export."""
        state = export.state
        document = {"app_state": {"bank": self.bank(state), "distribution": self.distribution(state),
                                  "slashing": self.slashing(state), "staking": self.staking(export)},
                    "consensus_params": {}, "initial_height": str(state.height + 1)}
        return write_members(state.params, PARAMS, document)

    def bank(self, state: State) -> Json:
        """Balances by address, and the supply."""
        accounts: dict[bytes, Coins] = {}
        for (account, denom), amount in state.balances.items():
            accounts.setdefault(CHAIN_OF_HERE.get(account, account), {})[denom] = amount
        balances = [{"address": self.account(account), "coins": coins_json(coins)}
                    for account, coins in sorted(accounts.items())]
        return {"balances": balances, "supply": coins_json(state.supply)}

    def distribution(self, state: State) -> Json:
        """Rewards; historical ones stand by the bytes of their period, the lowest first."""
        purses = sorted(state.purses.items())
        historicals = sorted(state.historicals.items(), key=lambda item: (item[0][0], item[0][1].to_bytes(8, "little")))
        return {
            "fee_pool": {"community_pool": decimal_coins_json(state.pool)},
            "delegator_withdraw_infos": [
                {"delegator_address": self.account(delegator), "withdraw_address": self.account(address)}
                for delegator, address in sorted(state.withdraws.items())],
            "outstanding_rewards": [self.rewards(operator, "outstanding_rewards", decimal_coins_json(purse.outstanding))
                                    for operator, purse in purses if purse.outstanding is not None],
            "validator_accumulated_commissions": [
                self.rewards(operator, "accumulated", {"commission": decimal_coins_json(purse.commission)})
                for operator, purse in purses if purse.commission is not None],
            "validator_historical_rewards": [
                {"validator_address": self.operator(operator), "period": str(period),
                 "rewards": {"cumulative_reward_ratio": decimal_coins_json(historical.ratio),
                             "reference_count": historical.count}}
                for (operator, period), historical in historicals],
            "validator_current_rewards": [
                self.rewards(operator, "rewards", {"rewards": decimal_coins_json(purse.current),
                                                   "period": str(state.periods[operator])})
                for operator, purse in purses if operator in state.periods],
            "delegator_starting_infos": [
                {"delegator_address": self.account(delegator), "validator_address": self.operator(operator),
                 "starting_info": write_members(start, START, {})}
                for (operator, delegator), start in sorted(state.starts.items())],
            "validator_slash_events": [self.slash(key, fraction) for key, fraction in sorted(state.events.items())],
        }

    def rewards(self, operator: bytes, name: str, value: Any) -> Json:
        """A record of a validator's rewards."""
        return {"validator_address": self.operator(operator), name: value}

    def slash(self, key: tuple[bytes, int, int], fraction: int) -> Json:
        """A slash event."""
        operator, height, period = key
        return {"validator_address": self.operator(operator), "height": str(height), "period": str(period),
                "validator_slash_event": {"validator_period": str(period), "fraction": decimal_text(fraction)}}

    def slashing(self, state: State) -> Json:
        """Signing records, and the places of the votes that were missed."""
        infos, places = [], []
        for cons, signing in sorted(state.signings.items()):
            address = self.cons(cons)
            infos.append({"address": address,
                          "validator_signing_info": write_members(signing, SIGNING, {"address": address})})
            places.append({"address": address, "missed_blocks": [
                {"index": str(place), "missed": True} for place, missed in enumerate(signing.ring) if missed]})
        return {"signing_infos": infos, "missed_blocks": places}

    def staking(self, export: Export) -> Json:
        """Validators, delegations and entries; delegations stand by delegator first."""
        state = export.state
        return {
            "last_total_power": str(export.total_power),
            "last_validator_powers": [{"address": self.operator(operator), "power": str(power)}
                                      for operator, power in sorted(export.powers.items())],
            "validators": [
                write_members(validator, VALIDATOR, {"operator_address": self.operator(operator),
                                                     "consensus_address": self.cons(validator.cons)})
                for operator, validator in sorted(state.validators.items())],
            "delegations": [
                {"delegator_address": self.account(delegator), "validator_address": self.operator(operator),
                 "shares": decimal_text(state.delegations[operator, delegator])}
                for delegator, operator in sorted((delegator, operator) for operator, delegator in state.delegations)],
            "unbonding_delegations": [
                {"delegator_address": self.account(delegator), "validator_address": self.operator(operator),
                 "entries": [write_members(entry, UNBONDING, {}) for entry in entries]}
                for (delegator, operator), entries in sorted(state.unbondings.items())],
            "redelegations": [
                {"delegator_address": self.account(delegator), "validator_src_address": self.operator(source),
                 "validator_dst_address": self.operator(target),
                 "entries": [write_members(entry, REDELEGATION, {}) for entry in entries]}
                for (delegator, source, target), entries in sorted(state.redelegations.items())],
        }
