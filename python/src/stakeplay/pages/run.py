"""Reads a run once, beside its input where that is given, and keeps what a page shows.

Lines of allocated rewards are most of a long run, one for each validator and block; they are read by their form alone.
Where the beginning of a run is not told (balances, the bonded tokens, who is bonded), values are reckoned back from the
report at its end. What two reports, or a genesis and a report, tell otherwise than the lines between them is kept in
`wrong`.
"""
from __future__ import annotations

import json
import re
from array import array
from bisect import bisect_right
from typing import Any

from stakeplay.lines import reading
from stakeplay.lines.reading import BONDED, COLLECTOR, DISTRIBUTION, ONE, PLACES, Order, Stakes
from stakeplay.lines.reading import is_shaped, opened, raw, stop, units, whole
from stakeplay.pages.books import Asked, Ends, Totals, Validator
from stakeplay.pages.given import FILES, Given, Votes, Window, decimal, nanoseconds
from stakeplay.pages.quiet import Forms, outcomes
from stakeplay.pages.series import Series, Steps, Sums
from stakeplay.pages.shares import MIDDLE, Group, Parts, Reader, Told, summed

Json = dict[str, Any]
TELLING = b"create_validator", b"edit_validator", b"update_params", b"\\"    # messages that do what no fact tells
SCAN = json.JSONDecoder().scan_once
COUNTED = "active", "jailed", "all"     # numbers of validators
NOTHING = re.compile(rb"(?!)")


class Run:
    """What is known of a run, up to the line that is read."""

    def __init__(self, name: str, given: Given, asked: list[str], denom: str | None, steps: tuple[int, int]) -> None:
        self.name, self.given, self.order = name, given, Order()
        self.chain, self.steps, self.wide = Steps(steps[0]), Steps(steps[1]), Steps(steps[0])
        self.denom, self.bond = denom, None     # type: str | None, str | None
        self.by_text: dict[str, Validator] = {}
        self.by_bytes: dict[bytes, Validator] = {}
        # the shares that were read since the last step: whose they are, of each block its height and first line, and values
        self.names, self.share_of = [], []          # type: list[bytes], list[Validator]
        self.share_blocks, self.share_values = [], []   # type: list[tuple[int, int]], list[list[int]]
        self.reader = Reader()
        self.text = b""                             # the part of the file that is read
        self.told: Told = {}                        # what other processes read of it
        self.group: Group | None = None             # to which the shares belong, where one of them read them
        self.votes = Votes()
        self.cons: dict[str, str] = {}              # of an operator
        self.operators: dict[str, Validator] = {}   # by the consensus address, as the report has them
        self.is_telling: bool | None = None     # whether the block of the input has messages that no fact tells; not known yet
        self.moments: array[int] = array("q")
        self.block_lines: array[int] = array("q")
        self.first_height = self.height = self.lines = 0
        self.is_open = False
        self.middle = b"}"                      # what a share of the block has between its amount and its validator
        self.forms: Forms | None = None         # of lines, once the denomination is known
        self.form = NOTHING                     # of quiet lines and of shares, which stand in the block
        self.of_height = b""                    # what each line of the block has
        self.pooled_denoms: set[str] = set()
        self.step = 0                           # of the block, among the validators' steps
        self.bonded = 0                         # by how much the bonded tokens changed
        self.burned: dict[str, int] = {}
        self.starts: dict[str, tuple[dict[str, int], int]] = {}     # what stood first: by name, and where it is told
        self.wrong: list[str] = []
        self.counts = [0, 0, 0]                 # by how much these changed: bonded, jailed, all validators
        self.sums = {name: Totals() for name in ("fees", "allocated", "rewards", "commission", "burned")}
        names = ("bonded", "supply", "fees", "allocated", "rewards", "commission", "active", "jailed", "all")
        self.series = {name: Series(self.chain) for name in names}
        self.rate = Sums(self.chain)
        self.marks: Ends[tuple[int, int, str, str]] = Ends(300, 700)
        self.touched: dict[tuple[str, str], tuple[bool, int]] = {}
        self.left: dict[tuple[str, str], int] = {}  # the stakes of delegations whose rewards were paid in this block
        self.stakes_moved: dict[Validator, None] = {}
        self.counted: dict[Validator, int] = {}
        self.withdrew: dict[Validator, int] = {}
        self.ranking: list[Validator] = []
        self.are_ranked = False                 # whether the ranking has just those that stand
        self.given_of_block = self.given_first = self.given_last = 0
        self.changed: dict[str, int] = {}       # which series of the chain this block changed, and where it is told
        self.texts: dict[str, int] = {}
        self.report: dict[str, tuple[Any, int]] = {}
        self.supply_now: dict[str, int] = {}
        self.delegations: dict[str, int] = {}
        self.has_stakes = False
        self.addresses = [Asked(address, Stakes(lambda d, v, me=address: d == me), self.wide) for address in asked]
        self.tells = {kind: getattr(self, kind) for kind in (
            "genesis", "block", "transfer", "burn", "allocated", "pooled", "period", "started", "slashed", "paid",
            "commission", "status", "jailed", "unjailed", "tombstoned", "removed", "params", "accepted", "refused",
            "supply", "account", "validator", "delegation", "pending", "unbonding", "redelegation", "signing", "pool")}
        if given.genesis:
            self.begin(given.genesis, given.place)

    # ---- reading

    def read(self, jobs: int | None = None) -> "Run":
        """Reads the whole output, by so many processes."""
        number, parts = 0, Parts(opened(self.name), self.name, jobs)
        try:
            for text, self.told in parts:
                number = self.read_part(text, number)
                if self.moments and self.denom and not parts.looks:
                    parts.looks = self.denom, (self.steps.most, self.steps.first)
        except Exception:
            reading.PLACE = self.lines + 1
            raise
        if self.order.part == "nothing":
            stop("nothing was read")
        if self.order.is_cut():
            stop(f"line {number}: the output is cut after this line: the end of its report is missing")
        self.flush()
        self.lines = number
        return self

    def read_part(self, text: bytes, number: int) -> int:
        """Reads whole lines behind so many; how many there are then."""
        self.text, place, end = text, 0, len(text)
        while place < end:
            self.lines, count = number, 0
            if found := self.form.match(text, place):
                count, stop_at = self.quiet_at(text, place, found.end()) if found[1] else self.shares_at(text, place, number)
            if not count:
                count, stop_at = 1, text.find(b"\n", place) + 1 or end
                self.take(text[place:stop_at], number + 1)
            number, place = number + count, stop_at
        return number

    def quiet_at(self, text: bytes, place: int, end: int) -> tuple[int, int]:
        """Lines that change nothing of the page: how many there are if they are all of this block, and where they end."""
        count, passed = text.count(b"\n", place, end), outcomes(text, place, end, self.order.tx)
        if passed < 0 or text.count(self.of_height, place, end) != count:
            return 0, place
        self.order.tx += passed
        return count, end

    # ---- shares of fees: most lines of a run

    def shares_at(self, text: bytes, place: int, number: int) -> tuple[int, int]:
        """The shares of the block's fees that stand there, if they are of the page's denomination alone and of validators
        that were heard of: how many there are, and where they end."""
        if told := self.told.get(place):
            group, (_, end, height, total) = told
            if height == self.height and self.goes_on_with(group):
                return self.has_shares(len(group.names), total, number), end
        if self.group:
            self.flush()
        shares = self.reader.at(text, place, self.middle)
        if not shares or shares.names != self.names and not self.follow(shares.names):
            return 0, place
        self.share_values.append(shares.values)
        return self.has_shares(len(shares.names), sum(shares.values), number), shares.end

    def has_shares(self, count: int, total: int, number: int) -> int:
        """Notes so many shares of the block, behind so many lines."""
        self.share_blocks.append((self.height, number + 1))
        self.given_of_block += total
        self.given_last = number + count
        return count

    def goes_on_with(self, group: Group) -> bool:
        """Whether shares of a group, which another process read, are taken: all of it or none."""
        if group is not self.group:
            group.is_read = group.is_read and self.follow(group.names)
            self.group = group if group.is_read else None
        return group.is_read

    def follow(self, names: list[bytes]) -> bool:
        """Goes on to shares of other validators than before, if each was heard of."""
        self.flush()
        found = [self.by_bytes.get(name) for name in names]
        self.names = names if None not in found and len(set(names)) == len(names) else []
        self.share_of = [validator for validator in found if validator]
        return bool(self.names)

    def flush(self) -> None:
        """Hands the shares that were read to their validators."""
        if self.share_blocks:
            if self.group and len(self.group.found) != len(self.share_blocks):
                self.part_with(self.group)
            for place, values in enumerate(self.group.kept if self.group else map(summed, zip(*self.share_values))):
                self.share_of[place].take_shares(self.step, values, self.share_blocks, place)
            self.share_blocks, self.share_values = [], []
        self.group = None

    def part_with(self, group: Group) -> None:
        """Reads anew those of a group that stood before a line which parts it."""
        self.group, group.is_read = None, False
        for place, _, height, _ in group.found[:len(self.share_blocks)]:
            shares = self.reader.at(self.text, place, MIDDLE % ((self.denom or "").encode(), height))
            self.share_values.append(shares.values if shares else [])

    def take(self, text: bytes, number: int) -> None:
        """Judges a line, and tells it to whom it concerns."""
        if not text.endswith(b"\n"):
            stop(f"line {number}: the output is cut in this line")
        words = text.decode()
        line, end = SCAN(words, 0)
        kind = line["kind"]
        if end != len(words) - 1 or not is_shaped(kind, line):
            raise ValueError(kind)
        if fault := self.order.take(kind, line):
            stop(f"line {number}: {fault}")
        for asked in self.addresses:
            asked.take(line, number)
        if self.is_open and (kind == "block" or kind in PLACES):
            self.close()
        self.tells[kind](line, number)

    # ---- what stood at first

    def begin(self, genesis: Json, place: int) -> None:
        """What a genesis of the input tells: the parameters, the validators, their delegations, who is bonded."""
        params = genesis["params"]
        self.bond = params["bond_denom"]
        self.votes.parameters(params)
        for line in genesis["validators"]:
            validator = self.validator_of(line["operator"])
            validator.stands = validator.is_known = True
            validator.rate = line["rate"], place, 0
            validator.place = place
            self.cons[validator.address] = line["cons"]
        for line in genesis["delegations"]:
            validator = self.validator_of(line["validator"])
            validator.start(line["delegator"], int(line["amount"]) * ONE)
            validator.delegators += 1
            for asked in self.addresses:
                if line["delegator"] == asked.address:
                    asked.stakes.at.setdefault(line["validator"], {})[asked.address] = int(line["amount"]) * ONE
                    asked.place = place
        powers = sorted((-(v.stake // ONE // params["power_reduction"]), v.order, v.address) for v in self.by_text.values())
        bonded = {address for power, _, address in powers[:params["max_validators"]] if power}
        tokens = sum(v.stake // ONE for v in self.by_text.values() if v.address in bonded)
        self.votes.windows = {self.cons[address]: Window(self.by_text[address], 0) for address in bonded}
        self.has_stakes = True
        self.starts = {"bonded": ({"": tokens}, place), "active": ({"": len(bonded)}, place),
                       "jailed": ({"": 0}, place), "all": ({"": len(self.by_text)}, place)}
        coins = {line["address"]: whole(line["coins"]) for line in genesis["accounts"]} if self.addresses else {}
        for asked in self.addresses:
            self.starts["account " + asked.address] = coins.get(asked.address, {}), place

    def validator_of(self, address: str) -> Validator:
        """The validator of an operator, also one that was not heard of yet."""
        if address not in self.by_text:
            validator = Validator(address, len(self.by_text), self.steps)
            self.by_text[address] = validator
            self.by_bytes[address.encode()] = validator
        return self.by_text[address]

    # ---- a block

    def genesis(self, line: Json, place: int) -> None:
        """The beginning of a run."""
        self.starts["supply"] = whole(line["supply"]), place

    def block(self, line: Json, place: int) -> None:
        """A block begins: its moment, and the votes of the input."""
        self.height = line["height"]
        if not self.first_height:
            self.first_height = self.height
            for steps in (self.chain, self.steps, self.wide):
                steps.first = self.height
            self.changed = dict.fromkeys(("bonded", "supply", "active", "jailed", "all"), place)
            self.stakes_moved = dict.fromkeys(v for v in self.by_text.values() if v.stands)
            self.counted = {v: v.place for v in self.stakes_moved}
            for asked in self.addresses:
                coins, told = self.starts.get("account " + asked.address, ({}, 0))
                asked.changed |= {(False, denom): (0, told) for denom in coins}
            self.votes.moved = dict.fromkeys(w for w in self.votes.windows.values() if self.given.is_there)
        self.moments.append(nanoseconds(line["time"]))
        self.block_lines.append(place)
        self.is_telling = None
        if (self.height - self.steps.first) // self.steps.width != self.step:
            self.flush()
        self.step, self.is_open = self.steps.of(self.height), True
        self.middle = MIDDLE % ((self.denom or "").encode(), self.height)
        self.of_height = b'"height":%d,"kind":"' % self.height
        self.given_of_block, self.given_first, self.given_last = 0, place, place
        if self.given.is_there:
            if not self.given.at(self.height) or not self.given.is_of(line["time"]):
                stop(f"{', '.join(self.given.names)}: there is no block {self.height}, so this is not that output's input")
            self.votes.take(self.given)
        self.begin_form()

    def begin_form(self) -> None:
        """What lines may look like that are read by their form, in this block."""
        if self.denom and not self.forms:
            self.forms = Forms(self.denom)
        if self.forms:
            asks = bool(self.addresses)
            self.form = self.forms.shares if asks else self.forms.but_outcomes if self.tells_more() else self.forms.all

    def close(self) -> None:
        """A block ends: what it changed goes into the series."""
        self.is_open, self.middle, self.form = False, b"}", NOTHING
        height = self.height
        step, place = self.chain.of(height), self.given_last
        if self.given_of_block:
            self.sums["allocated"].add({self.denom or "": self.given_of_block}, place, height)
            self.changed["allocated"] = place
        if self.bond == self.denom or self.bond is None:
            self.rate.add(step, self.given_of_block, (self.given_first, place), height, self.bonded)
        for name, told in self.changed.items():
            if name in self.sums:
                self.series[name].add(step, self.sums[name].coins.get(self.denom or "", 0), height, told)
            elif name in COUNTED:
                self.series[name].add(step, self.counts[COUNTED.index(name)], height, told)
            else:
                supply = -self.burned.get(self.bond or "", 0)
                value, told = (self.bonded, (told, supply)) if name == "bonded" else (supply, told)
                self.series[name].add(step, value, height, told)
        self.changed.clear()
        self.close_stakes()
        self.close_votes()
        for asked in self.addresses:
            asked.close(height, 3)

    def close_stakes(self) -> None:
        """The stakes, ranks and numbers of delegators after a block."""
        height, step = self.height, self.step
        for (delegator, operator), (was, place) in self.touched.items():
            self.visit(self.by_text[operator], delegator, was, place)
        self.touched.clear()
        self.left.clear()
        for validator, place in self.counted.items():
            validator.delegator_series.add(step, validator.delegators, height, place)
        self.counted.clear()
        for validator, place in self.withdrew.items():
            amount = validator.withdrawn.coins.get(self.denom or "", 0)
            validator.withdrawn_series.add(step, amount, height, place)
        self.withdrew.clear()
        for validator in self.stakes_moved:
            if validator.is_known:
                validator.stake_series.add(step, validator.stake, height, validator.place)
        if self.stakes_moved and self.has_stakes:
            self.rank()
        self.stakes_moved.clear()

    def visit(self, validator: Validator, delegator: str, was: bool, place: int) -> None:
        """A delegation that the block touched: whether its delegator came or went."""
        is_there = delegator in validator.stakes
        if was != is_there:
            validator.came, validator.went = validator.came + is_there, validator.went + was
            validator.delegators += is_there - was
            self.counted[validator] = place
            stake = str(validator.stakes[delegator] if is_there else self.left.get((delegator, validator.address), 0) or "")
            validator.visits.add((self.height, place, "came" if is_there else "went", delegator, stake))

    def is_ranked(self, validator: Validator) -> bool:
        """Whether a validator's stake still lies between those of its neighbours in the ranking."""
        place, ranking = validator.rank, self.ranking
        if not 0 < place <= len(ranking) or ranking[place - 1] is not validator:
            return False
        before, after = ranking[place - 2] if place > 1 else None, ranking[place] if place < len(ranking) else None
        return (before is None or (-before.stake, before.order) < (-validator.stake, validator.order)) and (
            after is None or (-validator.stake, validator.order) < (-after.stake, after.order))

    def rank(self) -> None:
        """The places of the validators by their stakes, the greatest first, of equal ones the lower address."""
        if self.are_ranked and all(map(self.is_ranked, self.stakes_moved)):
            return
        self.ranking = sorted((v for v in self.by_text.values() if v.stands), key=lambda v: (-v.stake, v.order))
        self.are_ranked = True
        cause = next(iter(self.stakes_moved)).place
        for place, validator in enumerate(self.ranking, 1):
            if validator.rank != place:
                validator.rank = place
                told = validator.place if validator in self.stakes_moved else cause
                validator.rank_series.add(self.step, place, self.height, told)

    def close_votes(self) -> None:
        """The misses in the windows after a block."""
        for window in self.votes.moved:
            window.validator.missed_series.add(self.step, len(window.misses), self.height, self.given.place)
        self.votes.moved.clear()

    # ---- facts

    def transfer(self, line: Json, place: int) -> None:
        """Coins move: to and from the bonded tokens, and as a block's fees to distribution."""
        giver, taker = line["from"], line["to"]
        if (giver == BONDED) != (taker == BONDED):
            for denom, amount in whole(line["coins"]).items():
                self.bond = self.bond or denom
                self.bonded += amount if taker == BONDED else -amount
                self.changed["bonded"] = place
        elif giver == COLLECTOR and taker == DISTRIBUTION:
            coins = whole(line["coins"])
            self.sums["fees"].add(coins, place, self.height)
            if self.denom is None and coins:
                self.denom = self.bond if self.bond in coins else next(iter(coins))
                self.middle = MIDDLE % (self.denom.encode(), self.height)
                self.begin_form()
            if self.denom in coins:
                self.series["fees"].add(self.chain.of(self.height), coins[self.denom], self.height, place)

    def burn(self, line: Json, place: int) -> None:
        """Tokens are destroyed."""
        amount, denom = int(line["amount"]), line["denom"]
        self.bond = self.bond or denom
        self.burned[denom] = self.burned.get(denom, 0) + amount
        self.sums["burned"].add({denom: amount}, place, self.height)
        self.marks.add((self.height, place, "burn", f"{amount} {denom}"))
        self.changed["supply"] = place
        if line["from"] == BONDED:
            self.bonded -= amount
            self.changed["bonded"] = place

    def allocated(self, line: Json, place: int) -> None:
        """A share of a block's fees, of any denominations."""
        validator, coins = self.validator_of(line["validator"]), units(line["coins"])
        others = {denom: amount for denom, amount in coins.items() if denom != self.denom}
        if others:
            validator.others.add(others, place, self.height)
        if self.denom in coins:
            self.flush()
            validator.take_shares(self.step, summed((coins[self.denom],)), [(self.height, place)], 0)
            self.given_of_block += coins[self.denom]
            self.given_last = place

    def pooled(self, line: Json, place: int) -> None:
        """Something joins the community pool."""
        self.pooled_denoms |= units(line["coins"]).keys()

    def period(self, line: Json, place: int) -> None:
        """A period ends; the first one of a validator is that of its creation."""
        if line["period"] == 1:
            validator = self.validator_of(line["validator"])
            validator.stands = validator.is_known = True
            validator.is_jailed, validator.stakes, validator.stake, validator.place = False, {}, 0, place
            self.votes.change()
            self.count(2, 1, place, "all")
            self.mark(validator, place, "created", "")
            self.are_ranked = False

    def height_of(self, place: int) -> int:
        """The height of the block in which a line stands."""
        return self.first_height + bisect_right(self.block_lines, place) - 1

    def count(self, which: int, change: int, place: int, name: str) -> None:
        """One of the numbers of validators changes."""
        self.counts[which] += change
        self.changed[name] = place

    def mark(self, validator: Validator, place: int, kind: str, text: str) -> None:
        """Something that happened to a validator."""
        validator.marks.add((self.height, place, kind, text))

    def touch(self, validator: Validator, delegator: str, was: bool, place: int) -> None:
        """A delegation changes; whether it stood before the block is told by the first line of it."""
        known = self.touched.get((delegator, validator.address))
        self.touched[delegator, validator.address] = (known[0] if known else was), place
        validator.place = place
        self.stakes_moved[validator] = None
        for asked in self.addresses:
            if asked.address == delegator:
                asked.place = place

    def started(self, line: Json, place: int) -> None:
        """A delegation's rewards begin anew."""
        validator, delegator = self.validator_of(line["validator"]), line["delegator"]
        self.touch(validator, delegator, delegator in validator.stakes, place)
        validator.start(delegator, raw(line["stake"]))

    def paid(self, line: Json, place: int) -> None:
        """Rewards are paid; the delegation's stake is told anew by what follows, or it is gone."""
        validator, delegator, coins = self.validator_of(line["validator"]), line["delegator"], whole(line["coins"])
        validator.paid.add(coins, place, self.height)
        self.sums["rewards"].add(coins, place, self.height)
        self.changed["rewards"] = place
        self.touch(validator, delegator, True, place)
        gone = validator.stakes.pop(delegator, 0)
        validator.stake -= gone
        self.left[delegator, validator.address] = gone

    def commission(self, line: Json, place: int) -> None:
        """Commission is paid."""
        validator, coins = self.validator_of(line["validator"]), whole(line["coins"])
        validator.withdrawn.add(coins, place, self.height)
        self.sums["commission"].add(coins, place, self.height)
        self.changed["commission"] = place
        self.withdrew[validator] = place

    def slashed(self, line: Json, place: int) -> None:
        """A slash burns a part of a validator's tokens."""
        validator = self.validator_of(line["validator"])
        validator.slashes += 1
        validator.burned.add({self.bond or "": int(line["burned"])}, place, self.height)
        validator.cut(raw(line["fraction"]))
        validator.place = place
        self.stakes_moved[validator] = None
        self.mark(validator, place, "slashed", f"{line['burned']} burned, fraction {line['fraction']}")
        for asked in self.addresses:
            if asked.address in validator.stakes:
                asked.place = place

    def status(self, line: Json, place: int) -> None:
        """A validator joins the bonded ones, or leaves them."""
        validator, status = self.validator_of(line["validator"]), line["status"]
        if status != "unbonded":
            self.count(0, 1 if status == "bonded" else -1, place, "active")
        self.mark(validator, place, status, "")
        if status == "bonded" and (cons := self.cons.get(validator.address)):
            window = self.votes.windows.setdefault(cons, Window(validator, self.height))
            window.validator, window.start = validator, self.height
            self.votes.moved[window] = None
            self.votes.change()

    def jailed(self, line: Json, place: int) -> None:
        """A validator is jailed; after downtime its votes begin anew."""
        validator = self.validator_of(line["validator"])
        validator.is_jailed = True
        self.votes.change()
        self.count(1, 1, place, "jailed")
        self.mark(validator, place, "jailed", "")
        for cons, window in self.votes.windows.items():
            if window.validator is validator and self.is_down(cons, window):
                window.reset(self.votes.now)
                self.votes.moved[window] = None

    def is_down(self, cons: str, window: Window) -> bool:
        """Whether the vote of this block is the one by which more was missed than may be."""
        return (self.height > window.start + self.votes.size and len(window.misses) > self.votes.allowed
                and any(vote["cons"] == cons for vote in self.given.block()["votes"]))

    def unjailed(self, line: Json, place: int) -> None:
        """A validator leaves jail."""
        validator = self.validator_of(line["validator"])
        validator.is_jailed = False
        self.votes.change()
        self.count(1, -1, place, "jailed")
        self.mark(validator, place, "unjailed", "")

    def tombstoned(self, line: Json, place: int) -> None:
        """A validator is jailed for ever."""
        self.mark(self.validator_of(line["validator"]), place, "tombstoned", "")

    def removed(self, line: Json, place: int) -> None:
        """A validator without shares is gone."""
        validator = self.validator_of(line["validator"])
        if validator.is_jailed:
            self.count(1, -1, place, "jailed")
        validator.stands = validator.is_jailed = False
        self.votes.change()
        validator.rank, validator.stake, validator.stakes, self.are_ranked = 0, 0, {}, False
        self.count(2, -1, place, "all")
        self.mark(validator, place, "removed", "")
        validator.place = place
        self.stakes_moved[validator] = None

    def params(self, line: Json, place: int) -> None:
        """The parameters are replaced; which ones stands in the input alone."""
        self.marks.add((self.height, place, "params", f"by {line['authority']}"))

    def tells_more(self) -> bool:
        """Whether the block of the input may have messages that do what no fact tells."""
        if self.is_telling is None:
            self.is_telling = self.given.is_there and any(word in self.votes.beside for word in TELLING)
        return self.is_telling

    def accepted(self, line: Json, place: int) -> None:
        """A transaction passed: what its messages do that no fact tells."""
        if not self.tells_more():
            return
        for message in self.given.block()["txs"][line["tx"]]["msgs"]:
            kind = message["kind"]
            if kind in ("create_validator", "edit_validator") and "rate" in message:
                validator = self.validator_of(message["validator"])
                validator.rate = message["rate"], self.given.place, self.height
                validator.rate_series.add(self.step, decimal(message["rate"]), self.height, self.given.place)
            if kind == "create_validator":
                self.cons[message["validator"]] = message["cons"]
            elif kind == "update_params":
                self.votes.parameters(message["params"])

    def refused(self, line: Json, place: int) -> None:
        """A transaction did not pass; its fee is told by a transfer."""

    # ---- reports

    def supply(self, line: Json, place: int) -> None:
        """A report begins."""
        self.report = {"supply": (whole(line["coins"]), place), "accounts": ({}, place), "validators": ([], place)}
        self.delegations = {}
        for asked in self.addresses:
            asked.pending, asked.staked, asked.unbonding, asked.account = [], [], [], ({}, place)

    def account(self, line: Json, place: int) -> None:
        """What an account has: that of the bonded tokens, and those that are asked for."""
        if line["address"] == BONDED:
            coins = whole(line["coins"])
            self.bond = self.bond or next(iter(coins), None)
            self.report["bonded"] = coins.get(self.bond or "", 0), place
        for asked in self.addresses:
            if line["address"] == asked.address:
                asked.account = whole(line["coins"]), place

    def validator(self, line: Json, place: int) -> None:
        """A validator as it stands."""
        validator = self.validator_of(line["operator"])
        validator.report, validator.report_place = line, place
        self.cons[validator.address] = line["cons"]
        self.operators[line["cons"]] = validator
        self.report["validators"][0].append(validator)
        if not self.is_begun():
            validator.stands, validator.is_jailed, validator.place = True, line["jailed"], place

    def is_begun(self) -> bool:
        """Whether a block was read."""
        return bool(self.moments)

    def delegation(self, line: Json, place: int) -> None:
        """A delegation: where its stake was not told, it is the value of its shares."""
        validator = self.validator_of(line["validator"])
        self.delegations[validator.address] = self.delegations.get(validator.address, 0) + 1
        if not self.has_stakes:
            stake = raw(line["shares"]) * int(validator.report["tokens"]) * ONE // raw(validator.report["shares"])
            if line["delegator"] not in validator.stakes:
                validator.start(line["delegator"], stake)
                validator.delegators += 0 if self.is_begun() else 1
        for asked in self.addresses:
            if line["delegator"] == asked.address:
                asked.staked.append((line, place))
                asked.stakes.at.setdefault(line["validator"], {}).setdefault(
                    asked.address, validator.stakes.get(asked.address, 0))
                asked.place = asked.place or place

    def pending(self, line: Json, place: int) -> None:
        """What is pending for a delegation."""
        for asked in self.addresses:
            if line["delegator"] == asked.address:
                asked.pending.append((line, place))

    def unbonding(self, line: Json, place: int) -> None:
        """An entry of what is unbonding."""
        for asked in self.addresses:
            if line["delegator"] == asked.address:
                asked.unbonding.append((line, place))

    def redelegation(self, line: Json, place: int) -> None:
        """An entry of what was redelegated; the stakes tell it already."""

    def signing(self, line: Json, place: int) -> None:
        """A signing record: held against the votes that were read, or the first that is known of them."""
        validator = self.operators.get(line["cons"])
        if validator is None:
            return
        validator.signing, validator.signing_place = line, place
        window = self.votes.windows.setdefault(line["cons"], Window(validator, line["start"]))
        if not self.is_begun():
            window.start, window.before = line["start"], line["missed"]
            window.stopped = window.begun = line["counted"]
        elif (self.given.is_there and self.votes.size < FILES and window.is_whole(self.votes.now, self.votes.size)
              and len(window.misses) != line["missed"]):
            self.wrong.append(f"line {place}: {line['missed']} votes are missed, and the input leaves {len(window.misses)}")

    def pool(self, line: Json, place: int) -> None:
        """The end of a report: what it tells is held against what stood first."""
        self.report["pool"] = units(line["coins"]), place
        self.starts = self.ends()
        self.has_stakes = True
        for validator in self.report["validators"][0]:
            validator.is_known = validator.is_known or not self.is_begun()

    def ends(self) -> dict[str, tuple[dict[str, int], int]]:
        """What stood first, reckoned back from the report that was read."""
        supply, place = self.report["supply"]
        bonded, bonded_place = self.report.get("bonded", (0, place))
        standing, at = self.report["validators"]
        counts = (sum(v.report["status"] == "bonded" for v in standing),
                  sum(v.report["jailed"] for v in standing), len(standing))
        found = {"supply": ({d: supply.get(d, 0) + self.burned.get(d, 0) for d in {*supply, *self.burned}}, place),
                 "bonded": ({"": bonded - self.bonded}, bonded_place)}
        found |= {name: ({"": count - change}, at)
                  for name, count, change in zip(("active", "jailed", "all"), counts, self.counts)}
        for asked in self.addresses:
            coins, told = asked.account
            first = {d: coins.get(d, 0) - asked.balances.get(d, 0) for d in {*coins, *asked.balances}}
            found["account " + asked.address] = first, told
        for name, (coins, place) in found.items():
            before = self.starts.get(name)
            if before and {d: a for d, a in before[0].items() if a} != {d: a for d, a in coins.items() if a}:
                self.wrong.append(f"line {place}: {name} does not add up with what was told before")
        return {name: self.starts.get(name, told) for name, told in found.items()}
