"""Whether the state in a chain's export is one that this machine can go on from, and the first reason why not.

A chain that runs by the rules has such a state: what it fails here it would fail by its own invariants, or is a part of
the chain that this machine has not. Each reason has a code and names the member of the export.
"""
from __future__ import annotations

from collections import Counter
from typing import Iterable, NoReturn

from stakeplay.node.data import BONDED, DISTRIBUTION, NOT_BONDED, ONE, RESERVE, SECOND, Coins, Value, coins_text, look, stop
from stakeplay.node.export import Export, powers_of
from stakeplay.node.state import BONDED_STATUS, UNBONDED_STATUS, Entry, Params, State, Validator

MOST_HEIGHT = 2 ** 63 - 1
MOST_SECONDS = 10 ** 9
MOST_PERIOD = 10 ** 18
MOST_ENTRIES = 100
END_OF_BLOCKS = 250_246_627_200 * SECOND   # the year 9900
STAKE_MARGIN = 3                          # by so many units of 10^-18 the chain lets a stake be above its shares' worth
FRACTIONS = ("min_commission_rate", "community_tax", "min_signed_per_window", "slash_fraction_double_sign",
             "slash_fraction_downtime")
RANGES = {
    "power_reduction": (1, 10 ** 18), "unbonding_time": (1, MOST_SECONDS), "max_validators": (1, 1000),
    "max_entries": (1, 100), "signed_blocks_window": (1, 100_000), "downtime_jail_duration": (0, MOST_SECONDS),
    "max_age_duration": (0, MOST_SECONDS), "max_age_num_blocks": (0, MOST_HEIGHT),
} | {name: (0, ONE) for name in FRACTIONS}


def ask_ranges(params: Params, time: int, name: str) -> None:
    """Refuses parameters, and a time, that are outside the ranges of the formats."""
    for param, (least, most) in RANGES.items():
        value = getattr(params, param)
        if not least <= value <= most:
            unit = " units of 10^-18" if param in FRACTIONS else ""
            stop("range", f"{name}: {param} is {value}{unit}, and not from {least} to {most}")
    if time >= END_OF_BLOCKS:
        stop("limit", f"{name}: the time is past the year 9899")


def commission_fault(rate: int, max_rate: int, max_change_rate: int) -> str | None:
    """What is wrong with the rates of a commission."""
    if max_rate > ONE:
        return "has a highest rate above 1"
    if rate > max_rate:
        return "has a rate above its highest rate"
    if max_change_rate > max_rate:
        return "has a greatest change above its highest rate"
    return None


def worth(shares: int, validator: Validator) -> int:
    """The units of what shares are worth: a quotient with 36 places, the last 18 of them rounded half to even."""
    quotient = shares * validator.tokens * ONE * ONE // validator.shares
    units, rest = divmod(quotient, ONE)
    return units + (2 * rest > ONE or 2 * rest == ONE and units % 2 == 1)


class Judge:
    """Judges the state of an export."""

    def __init__(self, document: Value, export: Export):
        self.state, self.powers = export.state, export.powers
        self.name, self.prefix = document.place.rstrip(":"), document.prefix

    def judge(self) -> None:
        """Refuses a state that is not sound, by its first reason."""
        ask_ranges(self.state.params, self.state.time, self.name)
        self.ask_supply()
        self.ask_validators()
        self.ask_shares()
        self.ask_entries()
        self.ask_signings()
        self.ask_powers()
        self.ask_purses()
        self.ask_starts()
        self.ask_events()
        self.ask_ratios()
        self.ask_references()
        self.ask_stakes()

    # ---- names of members

    def account(self, address: bytes) -> str:
        return self.prefix.text_of(address)

    def operator(self, address: bytes) -> str:
        return self.prefix.text_of(address, "valoper")

    def fail(self, code: str, path: str, what: str) -> NoReturn:
        stop(code, f"{self.name}: app_state.{path} {what}")

    def fail_validator(self, code: str, operator: bytes, what: str) -> NoReturn:
        self.fail(code, f"staking.validators[{self.operator(operator)}]", what)

    def fail_start(self, code: str, key: tuple[bytes, bytes], what: str) -> NoReturn:
        operator, delegator = key
        names = f"{self.account(delegator)}/{self.operator(operator)}"
        self.fail(code, f"distribution.delegator_starting_infos[{names}]", what)

    def fail_historical(self, code: str, key: tuple[bytes, int], what: str) -> NoReturn:
        self.fail(code, f"distribution.validator_historical_rewards[{self.operator(key[0])}/{key[1]}]", what)

    # ---- what is asked

    def ask_supply(self) -> None:
        """The supply is the sum of the balances."""
        held: Counter[str] = Counter()
        for (_, denom), amount in self.state.balances.items():
            held[denom] += amount
        for denom in held | self.state.supply:
            if held[denom] != self.state.supply.get(denom, 0):
                self.fail("supply", f"bank.supply[{denom}]",
                          f"is {self.state.supply.get(denom, 0)}, and the balances are {held[denom]}")

    def ask_validators(self) -> None:
        """Validators are whole, have keys of their own, and signing records where they vote or did so lately."""
        owners: dict[bytes, bytes] = {}
        for operator, validator in self.state.validators.items():
            if fault := commission_fault(validator.rate, validator.max_rate, validator.max_change_rate):
                self.fail_validator("commission", operator, fault)
            if validator.unbonding_height > self.state.height:
                self.fail_validator("validator", operator, "has an unbonding height above the last")
            if validator.cons in owners:
                self.fail_validator("consensus-key-twice", operator,
                                    f"has the consensus key of {self.operator(owners[validator.cons])}")
            owners[validator.cons] = operator
            if validator.status != UNBONDED_STATUS and validator.cons not in self.state.signings:
                self.fail_validator("signing-info", operator, "is bonded or unbonding, and has no signing info")

    def ask_shares(self) -> None:
        """The shares of each validator are those of its delegations."""
        shares: Counter[bytes] = Counter()
        for (operator, delegator), amount in self.state.delegations.items():
            if operator not in self.state.validators or not amount:
                names = f"{self.account(delegator)}/{self.operator(operator)}"
                self.fail("shares", f"staking.delegations[{names}]", "is to no validator, or has no shares")
            shares[operator] += amount
        for operator, validator in self.state.validators.items():
            if shares[operator] != validator.shares or validator.tokens and not validator.shares:
                self.fail_validator("shares", operator, "has not the shares of its delegations, or tokens and no shares")

    def ask_entries(self) -> None:
        """Entries are no more than they began with, and were made at a height that was."""
        for unbonding, entries in self.state.unbondings.items():
            fault = self.entries_fault(entries)
            if any(entry.left > entry.initial for entry in entries):
                fault = "has an entry with a balance above its initial one"
            if fault:
                self.fail_entries("unbonding_delegations", unbonding, fault)
        for redelegation, entries in self.state.redelegations.items():
            if fault := self.entries_fault(entries):
                self.fail_entries("redelegations", redelegation, fault)

    def entries_fault(self, entries: list[Entry]) -> str | None:
        """What is wrong with a list: it has 1 to 100 entries, made at heights that were."""
        if not 1 <= len(entries) <= MOST_ENTRIES:
            return f"has {len(entries)} entries, and not from 1 to {MOST_ENTRIES}"
        if any(entry.created > self.state.height for entry in entries):
            return "has an entry that was made above the last height"
        return None

    def fail_entries(self, name: str, key: tuple[bytes, ...], fault: str) -> NoReturn:
        names = [self.account(key[0])] + [self.operator(operator) for operator in key[1:]]
        self.fail("entry", f"staking.{name}[{'/'.join(names)}]", fault)

    def ask_signings(self) -> None:
        """No more votes are counted than there were heights, and missed ones are just those of the window."""
        for cons, signing in self.state.signings.items():
            if max(signing.counted, signing.start) > self.state.height:
                self.fail_signing("signing-info", cons, "starts or counts votes above the last height")
            if len(signing.ring) != min(signing.counted, self.state.params.signed_blocks_window):
                self.fail_signing("window", cons, f"has a missed place {len(signing.ring) - 1} behind its window")
            if sum(signing.ring) != signing.missed:
                self.fail_signing("window", cons, f"counts {signing.missed} missed votes of {sum(signing.ring)} places")

    def fail_signing(self, code: str, cons: bytes, fault: str) -> NoReturn:
        self.fail(code, f"slashing.signing_infos[{self.prefix.text_of(cons, 'valcons')}]", fault)

    def ask_powers(self) -> None:
        """The powers that CometBFT was told are those of the bonded validators."""
        powers = powers_of(self.state)
        for operator in powers | self.powers:
            if powers.get(operator) != self.powers.get(operator):
                told, reckoned = (str(some.get(operator, "none")) for some in (self.powers, powers))
                self.fail("power-reduction", f"staking.last_validator_powers[{self.operator(operator)}]",
                          f"is {told}, and {reckoned} by a power reduction of {self.state.params.power_reduction}")

    def ask_purses(self) -> None:
        """Rewards stand for validators; a commission that is missing counts as empty."""
        for operator in self.state.validators.keys() | self.state.purses.keys():
            purse = self.state.purses.get(operator)
            is_whole = purse and purse.outstanding is not None and purse.current is not None
            if operator not in self.state.validators or not is_whole:
                self.fail_validator("purse", operator, "or its outstanding or current rewards are missing")
            if not 1 <= self.state.periods[operator] <= MOST_PERIOD:
                self.fail_validator("purse", operator, f"has the period {self.state.periods[operator]}")

    def ask_starts(self) -> None:
        """Starts stand for delegations, before the running period and not above the last height."""
        for key in self.state.delegations.keys() | self.state.starts.keys():
            if key not in self.state.starts:
                self.fail_start("starting-info", key, "is missing for a delegation")
            if key not in self.state.delegations:
                self.fail_start("starting-info", key, "is there without a delegation")
            start = self.state.starts[key]
            if start.period >= self.state.periods[key[0]]:
                self.fail_start("starting-info", key, "is not before the running period")
            if start.height > self.state.height:
                self.fail_start("starting-info", key, "is above the last height")

    def ask_events(self) -> None:
        """Slash events are of validators, take at most all, and have periods that grow with the heights that were."""
        last = None
        for (operator, height, period), fraction in sorted(self.state.events.items()):
            is_before = period < self.state.periods.get(operator, 0)
            is_later = last is None or last[0] != operator or last[1] < period
            if fraction > ONE or height > self.state.height or not is_before or not is_later:
                names = f"{self.operator(operator)}/{height}/{period}"
                self.fail("slash-event", f"distribution.validator_slash_events[{names}]",
                          "takes more than all, or is above the last height, or its period is not in its place")
            last = operator, period

    def ask_ratios(self) -> None:
        """Ratios don't fall as the period grows."""
        last: tuple[bytes, Coins] | None = None
        for key, historical in sorted(self.state.historicals.items(), key=lambda item: item[0]):
            if last and last[0] == key[0] and any(amount > historical.ratio.get(denom, 0)
                                                  for denom, amount in last[1].items()):
                self.fail_historical("ratio", key, "has a lower ratio than the record before it")
            last = key[0], historical.ratio

    def ask_references(self) -> None:
        """The record of a period stands where something refers to it, and has the number of these references."""
        references = Counter((operator, period - 1) for operator, period in self.state.periods.items())
        references.update((operator, start.period) for (operator, _), start in self.state.starts.items())
        references.update((operator, period) for operator, _, period in self.state.events)
        for key in references.keys() | self.state.historicals.keys():
            if key not in self.state.historicals:
                self.fail_historical("reference-count", key, f"is missing, and {references[key]} refer to it")
            if not references[key] or self.state.historicals[key].count != references[key]:
                self.fail_historical("reference-count", key,
                                     f"counts {self.state.historicals[key].count} references, of {references[key]}")

    def ask_stakes(self) -> None:
        """A stake, cut by the slashes since its start, is not above what its shares are worth but for a margin."""
        events: dict[bytes, list[tuple[int, int, int]]] = {}
        for (operator, height, period), fraction in sorted(self.state.events.items()):
            events.setdefault(operator, []).append((height, period, fraction))
        for (operator, delegator), start in self.state.starts.items():
            stake = start.stake
            for height, period, fraction in events.get(operator, ()):
                if height >= start.height and period > start.period:
                    stake = stake * (ONE - fraction) // ONE
            value = worth(self.state.delegations[operator, delegator], self.state.validators[operator])
            if stake > value + STAKE_MARGIN:
                self.fail_start("stake", (operator, delegator),
                                f"has a stake of {stake} units of 10^-18, and its shares are worth {value}")

    # ---- what modules hold

    def settle_accounts(self) -> None:
        """Modules hold what they owe; what they have beyond it goes to the reserve, and is told."""
        state, bond = self.state, self.state.params.bond_denom
        bonded = sum(v.tokens for v in state.validators.values() if v.status == BONDED_STATUS)
        others = sum(v.tokens for v in state.validators.values() if v.status != BONDED_STATUS)
        entries = sum(entry.left for entries in state.unbondings.values() for entry in entries)
        self.settle("bonded_tokens_pool", BONDED, {bond: bonded})
        self.settle("not_bonded_tokens_pool", NOT_BONDED, {bond: others + entries})
        self.settle("distribution", DISTRIBUTION, self.owed_rewards())

    def owed_rewards(self) -> Coins:
        """What is outstanding, and the community pool: together a whole amount of each denomination."""
        units = Counter(self.state.pool)
        for purse in self.state.purses.values():
            units.update(purse.outstanding or {})
        for denom, amount in units.items():
            if amount % ONE:
                self.fail("pool", "distribution", f"owes {amount} units of 10^-18 {denom}, which is no whole amount")
        return {denom: amount // ONE for denom, amount in units.items()}

    def settle(self, name: str, account: bytes, owed: Coins) -> None:
        """An account holds what it owes, or more."""
        held = self.state.coins(account)
        surplus = {denom: held.get(denom, 0) - owed.get(denom, 0) for denom in held | owed}
        if any(amount < 0 for amount in surplus.values()):
            self.fail("pool", f"bank.balances[{self.account(account)}]",
                      f"({name}) holds {coins_text(held)}, and owes {coins_text(owed)}")
        surplus = {denom: amount for denom, amount in surplus.items() if amount}
        if surplus:
            look("surplus", f"{self.name}: {name} holds {coins_text(surplus)} more than it owes; the reserve takes it")
        self.state.move(account, RESERVE, surplus)


def fill_reserve(state: State, denoms: Iterable[str]) -> None:
    """Gives the reserve of each denomination what lacks to a supply of 10^18."""
    for denom in denoms:
        lacking = ONE - state.supply.get(denom, 0)
        state.add(RESERVE, denom, lacking)
        state.supply[denom] = ONE
