"""Opens pages that `examples/recipes/page.py` makes in a browser, and holds what they show against the lines of the runs.

  python3 checks/page.py [--pictures FOLDER] [--drawing FILE]

The browser is what `checks/browser.py` finds (on Debian `apt-get install chromium`; the variable CHROMIUM names another);
where there is none, the check says that it was left out, and ends with 0. The runs are made by `stakeplay.sh`, or by the
program that the variable STAKEPLAY names. What a figure has to be is reckoned here from the lines alone, by other and
slower code than the recipe's: of each curve the values after all blocks, of each sum its lines. With --pictures the
pictures of both themes and two widths stay in a folder, to be looked at; --drawing makes the one of README.
"""
from __future__ import annotations

import argparse
import json
import os
import pathlib
import re
import subprocess
import sys
import tempfile
from collections import Counter, defaultdict
from typing import Any, Iterator

sys.dont_write_bytecode = True
import browser  # noqa: E402

ROOT = pathlib.Path(__file__).resolve().parent.parent
RECIPES = ROOT / "examples/recipes"
LETTERS = "qpzry9x8gf2tvdw0s3jn54khce6mua7l"
ONE, FILES = 10 ** 18, 1 << 40
Json = dict[str, Any]
bad: list[str] = []
tried = 0


def ask(holds: bool, text: str) -> None:
    """Notes what does not hold."""
    global tried
    tried += 1
    if not holds:
        bad.append(text)


# ---- a run, read slowly

class Told:
    """The lines of a run and of its input, and what they say, reckoned here."""

    def __init__(self, out: pathlib.Path, inputs: list[pathlib.Path]) -> None:
        self.out, self.inputs = out, inputs
        self.texts = [out.read_text().splitlines(), *(path.read_text().splitlines() for path in inputs)]
        self.lines = [json.loads(text) for text in self.texts[0]]
        self.at = {number: line for number, line in enumerate(self.lines, 1)}
        self.blocks: dict[int, list[tuple[int, Json]]] = defaultdict(list)
        for number, line in self.at.items():
            if line.get("height"):
                self.blocks[line["height"]].append((number, line))
        self.heights = sorted(self.blocks)
        end = max(number for number, line in self.at.items() if line["kind"] == "supply")
        self.report = [(number, line) for number, line in self.at.items() if number >= end]
        given = [json.loads(text) for text in self.texts[1]] if len(self.texts) > 1 else []
        self.genesis = given[0] if given and given[0]["kind"] == "genesis" else None
        self.given = {line["height"]: line for line in given if line["kind"] == "block"}
        bond = [line for _, line in self.report if line["kind"] == "account" and line["address"] == "bonded_tokens_pool"]
        self.bond = bond[0]["coins"][0]["denom"]

    def reported(self, kind: str) -> list[tuple[int, Json]]:
        """The lines of a kind in the report."""
        return [(number, line) for number, line in self.report if line["kind"] == kind]

    def facts(self, kind: str) -> Iterator[tuple[int, Json]]:
        """The lines of a kind before the report."""
        return ((number, line) for number, line in self.at.items() if line["kind"] == kind)

    # values after all blocks: what stands in the report, less what later lines changed

    def back(self, last: int, change: Any) -> dict[int, int]:
        """A value after each block, from the one at the end, by what each line changes."""
        after, value = {}, last
        for height in reversed(self.heights):
            after[height] = value
            value -= sum(change(line) for _, line in self.blocks[height])
        return after

    def bonded(self) -> dict[int, int]:
        def change(line: Json) -> int:
            if line["kind"] == "burn":
                return -int(line["amount"]) if line["from"] == "bonded_tokens_pool" else 0
            if line["kind"] != "transfer":
                return 0
            amount = sum(int(coin["amount"]) for coin in line["coins"])
            return amount * ((line["to"] == "bonded_tokens_pool") - (line["from"] == "bonded_tokens_pool"))
        account = [line for _, line in self.reported("account") if line["address"] == "bonded_tokens_pool"]
        return self.back(int(account[0]["coins"][0]["amount"]), change)

    def supply(self) -> dict[int, int]:
        last = {coin["denom"]: int(coin["amount"]) for coin in self.reported("supply")[0][1]["coins"]}
        return self.back(last[self.bond], lambda line: -int(line["amount"]) if line["kind"] == "burn" and line["denom"] == self.bond else 0)

    def active(self) -> dict[int, int]:
        last = sum(line["status"] == "bonded" for _, line in self.reported("validator"))
        return self.back(last, lambda line: {"bonded": 1, "unbonding": -1}.get(line.get("status", ""), 0) if line["kind"] == "status" else 0)

    def jailed(self) -> dict[int, int]:
        """How many are jailed: who was jailed in these blocks and left neither jail nor the chain, and who was before."""
        last, now, after = sum(line["jailed"] for _, line in self.reported("validator")), set(), {}
        left = 0
        for height in self.heights:
            for _, line in self.blocks[height]:
                if line["kind"] == "jailed":
                    now.add(line["validator"])
                elif line["kind"] in ("unjailed", "removed"):
                    left += line["kind"] == "unjailed" and line["validator"] not in now
                    now.discard(line["validator"])
            after[height] = len(now) - left
        return {height: count + last - after[self.heights[-1]] for height, count in after.items()}

    def balance(self, address: str, denom: str) -> dict[int, int]:
        def change(line: Json) -> int:
            if line["kind"] != "transfer":
                return 0
            amount = sum(int(coin["amount"]) for coin in line["coins"] if coin["denom"] == denom)
            return amount * ((line["to"] == address) - (line["from"] == address))
        last = [coin for _, line in self.reported("account") if line["address"] == address for coin in line["coins"] if coin["denom"] == denom]
        return self.back(int(last[0]["amount"]) if last else 0, change)

    def delegators(self, operator: str) -> dict[int, int]:
        """How many delegations an operator has after each block, from those at the end on."""
        have = {line["delegator"] for _, line in self.reported("delegation") if line["validator"] == operator}
        after = {}
        for height in reversed(self.heights):
            after[height] = len(have)
            mine = [line for _, line in self.blocks[height] if line.get("validator") == operator and line["kind"] in ("paid", "started")]
            for delegator in {line["delegator"] for line in mine}:
                first = next(line for line in mine if line["delegator"] == delegator)
                (have.add if first["kind"] == "paid" else have.discard)(delegator)
        return after

    # values that lines tell one after the other

    def shares(self, operator: str, denom: str) -> dict[int, tuple[int, int]]:
        """What each block gave to a validator, and the line."""
        return {line["height"]: (units(coin["amount"]), number) for number, line in self.facts("allocated") if line["validator"] == operator
                for coin in line["coins"] if coin["denom"] == denom}

    def fees(self, denom: str) -> dict[int, tuple[int, int]]:
        return {line["height"]: (int(coin["amount"]), number) for number, line in self.facts("transfer")
                if line["from"] == "fee_collector" and line["to"] == "distribution" for coin in line["coins"] if coin["denom"] == denom}

    def added(self, kind: str, denom: str, holds: Any = lambda line: True) -> dict[int, tuple[int, int]]:
        """All coins of a kind up to each block that has one, and the last line of it."""
        total, after = 0, {}
        for number, line in self.facts(kind):
            if holds(line):
                total += sum(units(coin["amount"]) if "." in coin["amount"] else int(coin["amount"]) for coin in line["coins"] if coin["denom"] == denom)
                after[line["height"]] = total, number
        return after

    def stakes(self) -> tuple[dict[str, dict[int, int]], dict[str, dict[int, int]], dict[str, dict[int, int]]]:
        """Of each validator its stake, its rank, and of each delegator its stake, after each block; and what slashes took."""
        self.lost: dict[str, list[int]] = defaultdict(list)
        at: dict[tuple[str, str], int] = {}
        first = [] if self.genesis else self.lines[:next(n for n, line in enumerate(self.lines) if line["kind"] == "block")]
        worth = {line["operator"]: (int(line["tokens"]), units(line["shares"])) for line in first if line["kind"] == "validator"}
        for line in first:
            if line["kind"] == "delegation":
                tokens, shares = worth[line["validator"]]
                at[line["validator"], line["delegator"]] = units(line["shares"]) * tokens * ONE // shares
        for line in self.genesis["delegations"] if self.genesis else []:
            at[line["validator"], line["delegator"]] = int(line["amount"]) * ONE
        stand = {line["operator"] for line in self.genesis["validators"]} if self.genesis else {*worth}
        seen = {*stand}
        stake: Any = defaultdict(dict)
        rank: Any = defaultdict(dict)
        own: Any = defaultdict(dict)
        for height in self.heights:
            for _, line in self.blocks[height]:
                kind, who = line["kind"], (line.get("validator"), line.get("delegator"))
                if kind == "started":
                    at[who] = units(line["stake"])
                elif kind == "paid":
                    at.pop(who, None)
                elif kind == "slashed":
                    for pair in [pair for pair in at if pair[0] == who[0]]:
                        kept = at[pair] * (ONE - units(line["fraction"])) // ONE
                        if at[pair] - kept >= ONE:
                            self.lost[pair[1]].append((at[pair] - kept) // ONE)
                        at[pair] = kept
                elif kind == "period" and line["period"] == 1:
                    stand.add(who[0])
                    seen.add(who[0])
                elif kind == "removed":
                    stand.discard(who[0])
            sums: dict[str, int] = defaultdict(int)
            ours: dict[str, int] = defaultdict(int)
            for (operator, delegator), amount in at.items():
                sums[operator] += amount
                ours[delegator] += amount
            for operator in seen:
                stake[operator][height] = sums[operator]
            for delegator, amount in ours.items():
                own[delegator][height] = amount
            for place, operator in enumerate(sorted(stand, key=lambda name: (-sums[name], order_of(name))), 1):
                rank[operator][height] = place
        return stake, rank, own

    def missed(self, cons: str, operator: str) -> dict[int, int]:
        """The misses among the last votes of a window after each block: a list of all votes, anew at each downtime."""
        params, votes, after, jailed, start = self.genesis["params"], [], {}, False, 0
        size = params["signed_blocks_window"]
        changes = [line for _, line in self.facts("status") if line["validator"] == operator]
        has_record = not changes or changes[0]["status"] != "bonded"    # else it begins when it is bonded first
        for height in self.heights:
            vote = [v for v in self.given[height]["votes"] if v["cons"] == cons and has_record]
            if vote and not jailed:
                votes.append(vote[0]["signed"])
            if vote and not jailed and height > start + size and votes[-size:].count(False) * 2 > size and params["min_signed_per_window"] == "0.5":
                votes = []
            for _, line in self.blocks[height]:
                if line.get("validator") == operator:
                    jailed = {"jailed": True, "unjailed": False}.get(line["kind"], jailed)
                    start = height if line.get("status") == "bonded" else start
                    has_record = has_record or line.get("status") == "bonded"
            after[height] = votes[-size:].count(False)
        return after


def order_of(address: str) -> list[int]:
    """What puts addresses into the order of their bytes: digits, or the letters of a spelling by what they stand for."""
    letters = address.rpartition("1")[2][:-6] if address.startswith("cosmos") else address
    return ["0123456789abcdef".index(letter) if letters is address else LETTERS.index(letter) for letter in letters]


def units(text: str) -> int:
    """A decimal of 18 places as a whole number."""
    front, _, rest = text.partition(".")
    return int(front + rest.ljust(18, "0"))


# ---- curves

class Curves:
    """The curves of a page against what the run says after each block."""

    def __init__(self, told: Told, page: browser.Browser, data: Json) -> None:
        self.told, self.page, self.data = told, page, data
        self.first = told.heights[0]

    def points(self, path: str, places: int = 0) -> list[tuple[int, int, int]]:
        """The points of a curve as the page has them: height, value in whole units, place of the line."""
        made = self.page.value(f"(() => {{ const p = stakeplay.points(stakeplay.data.{path}, {places}); return [p.h, p.v, p.p]; }})()")
        return [(height, units(value) if places else int(value), place) for height, value, place in zip(*made)]

    def exactly(self, path: str, each: dict[int, tuple[int, int]], width: int, places: int = 0) -> None:
        """A curve that each block tells anew has the first least, the first greatest and the last value of each step."""
        steps: dict[int, list[int]] = defaultdict(list)
        for height in sorted(each):
            steps[(height - self.first) // width].append(height)
        wanted = []
        for heights in steps.values():
            kept = {min(heights, key=lambda h: (each[h][0], h)), min(heights, key=lambda h: (-each[h][0], h)), heights[-1]}
            wanted += [(height, *each[height]) for height in sorted(kept)]
        found = self.points(path, places)
        ask(found == wanted, f"{path}: {len(found)} points, and there are to be {len(wanted)}: {[p for p in found if p not in wanted][:3]} "
                             f"in place of {[p for p in wanted if p not in found][:3]}")

    def after(self, path: str, values: dict[int, int], width: int, places: int = 0, last: int | None = None) -> None:
        """A curve of what stands after blocks: its points are right, and no step lacks a least, greatest or last change."""
        found = self.points(path, places)
        for height, value, place in found:
            ask(values.get(height) == value, f"{path}: {value} after block {height}, and the lines lead to {values.get(height)}")
            file, line = divmod(place, FILES)
            has = json.loads(self.told.texts[file][line - 1])
            ask(has.get("height", height) == height or (file == 1 and line == 1), f"{path}: line {line} of file {file} is not of block {height}")
        steps = defaultdict(list)
        for height in sorted(values):
            if values[height] != last:
                steps[(height - self.first) // width].append(values[height])
            last = values[height]
        have = defaultdict(list)
        for height, value, _ in found:
            have[(height - self.first) // width].append(value)
        for step, changes in steps.items():
            lacks = {min(changes), max(changes), changes[-1]} - {*have[step]}
            ask(not lacks, f"{path}: step {step} lacks {lacks}")

    def of_chain(self) -> None:
        told, (width, _, _), denom = self.told, self.data["run"]["widths"], self.data["run"]["denom"]
        self.after("chain.series.bonded", told.bonded(), width)
        self.after("chain.series.supply", told.supply(), width)
        self.after("chain.series.active", told.active(), width)
        self.after("chain.series.jailed", told.jailed(), width)
        self.exactly("chain.series.fees", told.fees(denom), width)
        self.exactly("chain.series.allocated", told.added("allocated", denom), width, 18)
        self.exactly("chain.series.rewards", told.added("paid", denom), width)
        self.exactly("chain.series.commission", told.added("commission", denom), width)
        self.rates(told.bonded(), told.added("allocated", denom), width)

    def rates(self, bonded: dict[int, int], given: dict[int, tuple[int, int]], width: int) -> None:
        """What a bonded token gets in a year, of each step."""
        import datetime
        times = {line["height"]: datetime.datetime.fromisoformat(line["time"][:19]) for _, line in self.told.facts("block")}
        begin = datetime.datetime.fromisoformat((self.told.genesis or {"time": None})["time"][:19]) if self.told.genesis else times[self.first]
        before, last, total = begin, 0, 0
        for height, rate, value, tokens, _, end, _ in self.data["chain"]["rate"]:
            for at in range(max(last + 1, self.first), height + 1):
                total = given.get(at, (total, 0))[0]
            step = total - (given_before := getattr(self, "given_before", 0))
            self.given_before = given_before + step
            span = (times[height] - before).total_seconds()
            ask(int(value) == step and int(tokens) == bonded[height], f"rate at {height}: {value} over {tokens}, and the lines have {step} over {bonded[height]}")
            ask(abs(rate - step * 31536000 * 10 ** 8 / (span * bonded[height] * ONE)) <= max(1, rate / 10 ** 9), f"rate at {height} is {rate}")
            before, last = times[height], height

    def of_validators(self) -> None:
        told, (_, width, _), denom = self.told, self.data["run"]["widths"], self.data["run"]["denom"]
        stake, rank, _ = told.stakes()
        for place, row in enumerate(self.data["validators"]):
            path, operator = f"validators[{place}].series", row["a"]
            for name in row["series"]:
                if name == "stake":
                    self.after(f"{path}.stake", stake[operator], width, 18)
                elif name == "rank":
                    self.after(f"{path}.rank", rank[operator], width)
                elif name == "given":
                    self.exactly(f"{path}.given", told.shares(operator, denom), width, 18)
                elif name == "delegators":
                    self.after(f"{path}.delegators", told.delegators(operator), width, last=0 if not row.get("stands") or row["came"] else None)
                elif name == "withdrawn":
                    self.exactly(f"{path}.withdrawn", told.added("commission", denom, lambda line: line["validator"] == operator), width)
                elif name == "missed" and told.genesis:
                    cons = row.get("cons") or next(line["cons"] for line in told.genesis["validators"] if line["operator"] == operator)
                    after = told.missed(cons, operator)
                    self.after(f"{path}.missed", after, width, last=0)
                    signing = [line for _, line in told.reported("signing") if line["cons"] == cons]
                    ask(not signing or after[told.heights[-1]] == signing[0]["missed"], f"this check reckons other misses of {operator} than the report has")

    def of_addresses(self) -> None:
        told, (_, _, width) = self.told, self.data["run"]["widths"]
        own = told.stakes()[2] if told.genesis else {}
        for place, row in enumerate(self.data["addresses"]):
            path, address = f"addresses[{place}].series", row["a"]
            for denom in row["series"]["balance"]:
                self.after(f"{path}.balance['{denom}']", told.balance(address, denom), width)
            if told.genesis:
                after = {height: own[address].get(height, 0) for height in told.heights}
                self.after(f"{path}.stake", after, width, 18)


# ---- figures of the document

FIGURES = """[...document.querySelectorAll('.fig[data-value]')].map(node => ({text: node.textContent, value: node.dataset.value,
  denom: node.dataset.denom || '', place: Number(node.dataset.place), height: Number(node.dataset.height), note: node.dataset.note || '',
  what: node.dataset.what || '', of: (node.closest('[data-of]') || {dataset: {}}).dataset.of || '', title: node.title}))"""


def amounts(line: Json) -> set[tuple[str, str]]:
    """The figures of a line: its coins with their denominations, and its other members alone."""
    found = set()
    for name, member in line.items():
        if isinstance(member, list):
            found |= {(coin["amount"], coin["denom"]) for coin in member if isinstance(coin, dict) and "amount" in coin}
        else:
            found.add((str(member), ""))
    return found


class Figures:
    """The figures that stand in the document, against the lines."""

    def __init__(self, told: Told, page: browser.Browser, data: Json) -> None:
        self.told, self.page, self.data = told, page, data
        self.exponents = data["run"]["exponents"]

    def all(self) -> int:
        """Each figure that is seen: its text, its place, and what its line or its lines say."""
        found = self.page.value(FIGURES)
        for figure in found:
            self.text(figure)
            file, number = divmod(figure["place"], FILES)
            line = json.loads(self.told.texts[file][number - 1])
            if re.match(r"the sum of \d", figure["note"]):
                self.sum(figure, line)
            elif not figure["note"]:
                here = amounts(line)
                is_told = (figure["value"], figure["denom"]) in here or (figure["value"], "") in here
                ask(is_told or figure["what"] == "stake of the delegation that began" and units(line["stake"]) == units(figure["value"])
                    or figure["what"] == "slash", f"{figure} is not in line {number}: {line}")
        return len(found)

    def text(self, figure: Json) -> None:
        """What is read is a front of all digits in whole coins, cut where it says so, and all of it where it is pointed at."""
        by = self.exponents.get(figure["denom"], [0, ""])[0]
        front, _, rest = figure["value"].partition(".")
        front = front.rjust(by + 1, "0")
        digits = (front[:len(front) - by] + "." + front[len(front) - by:] + rest).rstrip("0").rstrip(".")
        seen = figure["text"].replace("\u202f", "")
        if seen.endswith("%"):
            ask(float(seen[:-1]) == float(figure["value"]) * 100, f"{figure} shows another part")
        else:
            is_front = digits.startswith(seen[:-1]) if seen.endswith("\u2026") else digits == seen
            ask(is_front and digits in figure["title"], f"{figure} is to be {digits}")

    def sum(self, figure: Json, last: Json) -> None:
        """A sum: so many lines of a kind, the last one this, and together that."""
        count, kind = re.match(r"the sum of (\d+) lines `(.*?)`", figure["note"]).groups()
        if figure["what"].startswith("lost of its stake"):
            ask(int(figure["value"]) == sum(self.told.lost[figure["of"]]) and int(count) == len(self.told.lost[figure["of"]]), f"{figure} is to be {self.told.lost}")
            return
        holds = self.scope(kind, figure)
        lines = [(number, line) for number, line in self.told.at.items() if holds(line)]
        coins = [line.get("coins", []) for _, line in lines]
        if kind == "burn":
            coins = [[{"amount": line["amount"], "denom": line["denom"]}] for _, line in lines]
        elif kind == "slashed":
            coins = [[{"amount": line["burned"], "denom": self.told.bond}] for _, line in lines]
        total = sum(units(coin["amount"]) for part in coins for coin in part if coin["denom"] == figure["denom"])
        ask(total == units(figure["value"]), f"{figure} is to be {total}")
        ask(int(count) == len(lines) and lines[-1][0] == figure["place"] % FILES, f"{figure}: there are {len(lines)} lines, the last {lines[-1][0]}")

    def scope(self, kind: str, figure: Json) -> Any:
        """Which lines a sum is of."""
        of, what = figure["of"], figure["what"]
        validators, addresses = ({row["a"] for row in self.data[name]} for name in ("validators", "addresses"))
        if of in addresses and of not in validators or of in addresses and what in OF_ADDRESS:
            return lambda line: OF_ADDRESS[what](line, of)
        if kind == "transfer":
            return lambda line: line["kind"] == kind and line["from"] == "fee_collector" and line["to"] == "distribution"
        return lambda line: line["kind"] == kind and (of not in validators or line["validator"] == of)

    def table(self) -> None:
        """The table of validators: each row's cells are what the report and the sums have."""
        rows = self.page.value("""[...document.querySelectorAll('#validators-table tbody tr')].map(row => [row.dataset.of,
            ...[...row.cells].map(cell => { const node = cell.querySelector('.fig'); return node ? node.dataset.value : cell.textContent; })])""")
        denom = self.data["run"]["denom"]
        report = {line["operator"]: line for _, line in self.told.reported("validator")}
        missed = {line["cons"]: line["missed"] for _, line in self.told.reported("signing")}
        for of, _, _, _, tokens, _, rate, given, paid, misses, slashes, delegators, *_ in rows:
            if of not in report:
                continue
            line = report[of]
            told = {kind: max(self.told.added(kind, denom, lambda line: line["validator"] == of).values(), key=lambda pair: pair[1], default=(0, 0))[0]
                    for kind in ("allocated", "paid")}
            ask((tokens, rate) == (line["tokens"], line["rate"]), f"{of}: {tokens} {rate}, and the report has {line}")
            ask(units(given if given != "\u2013" else "0") == told["allocated"], f"{of} was given {told['allocated']}, and the page has {given}")
            ask(paid == "\u2013" and not told["paid"] or int(paid) == told["paid"], f"{of} paid {told['paid']}, and the page has {paid}")
            ask(misses == str(missed.get(line["cons"], "\u2013")), f"{of} missed {missed.get(line['cons'])}, and the page has {misses}")
            ask(int(slashes) == sum(fact["validator"] == of for _, fact in self.told.facts("slashed")), f"{of}: {slashes} slashes")
            ask(int(delegators) == sum(fact["validator"] == of for _, fact in self.told.reported("delegation")), f"{of}: {delegators} delegators")


OF_ADDRESS = {
    "rewards paid, added up": lambda line, me: line["kind"] == "paid" and line["to"] == me,
    "commission paid, added up": lambda line, me: line["kind"] == "commission" and line["to"] == me,
    "fees paid, added up": lambda line, me: line["kind"] == "transfer" and line["from"] == me and line["to"] == "fee_collector",
    "pending in the report, added up": lambda line, me: line["kind"] == "pending" and line["delegator"] == me,
}


# ---- hands and eyes

class Hands:
    """Sorts, filters, points and clicks, as somebody at the page does."""

    def __init__(self, told: Told, page: browser.Browser) -> None:
        self.told, self.page = told, page

    def where(self, script: str) -> tuple[float, float]:
        """The middle of an element, which is brought into sight."""
        self.page.value(f"document.documentElement.style.scrollBehavior = 'auto'; ({script}).scrollIntoView({{block: 'center'}})")
        x, y = self.page.value(f"(() => {{ const r = ({script}).getBoundingClientRect(); return [r.left + r.width / 2, r.top + r.height / 2]; }})()")
        return x, y

    def click(self, script: str) -> None:
        x, y = self.where(script)
        self.page.mouse("move", x, y)
        self.page.mouse("click", x, y)

    def sorts(self, table: str, column: int) -> None:
        """A click on a head sorts, another one turns it."""
        head = f"document.querySelectorAll('{table} thead th')[{column}].querySelector('button')"
        cells = (f"[...document.querySelectorAll('{table} tbody tr')].map(row => {{ const node = row.cells[{column}].querySelector('.fig');"
                 "return node ? node.dataset.value || node.textContent : row.cells[%d].textContent; })" % column)
        state = f"document.querySelectorAll('{table} thead th')[{column}].getAttribute('aria-sort')"
        for _ in range(2):
            self.click(head)
            values = [units(value.replace("\u202f", "")) for value in self.page.value(cells) if re.fullmatch(r"[\d\u202f.]+", value)]
            ask(values == sorted(values, reverse=self.page.value(state) == "descending") and self.page.value(state) != "none",
                f"{table}: column {column} is not sorted as {self.page.value(state)}: {values[:5]}")

    def filters(self, table: str, words: str) -> None:
        """What is typed into the filter leaves the rows that have it."""
        self.click(f"document.querySelector('{table} input')")
        self.page.ask("Input.insertText", text=words)
        rows = self.page.value(f"[...document.querySelectorAll('{table} tbody tr')].map(row => row.textContent + (row.dataset.of || '') + [...row.querySelectorAll('[title]')].map(n => n.title).join(' '))")
        told = self.page.value(f"document.querySelector('{table} [role=status]').textContent")
        ask(bool(rows) and all(words in row for row in rows), f"{table}: the filter {words} leaves {rows[:3]}")
        ask(told.split()[0] == str(len(rows)), f"{table}: {told}, and there are {len(rows)} rows")
        self.page.value(f"(() => {{ const box = document.querySelector('{table} input'); box.value = ''; box.dispatchEvent(new Event('input')); }})()")

    def clicks(self) -> None:
        """A click on a figure shows its height and line."""
        for at in range(0, self.page.value("document.querySelectorAll('.fig[data-value]').length"), 7):
            script = f"document.querySelectorAll('.fig[data-value]')[{at}]"
            self.click(script)
            shown = self.page.value("({...document.getElementById('fact').dataset, hidden: document.getElementById('fact').hidden, text: document.getElementById('fact').textContent})")
            figure = self.page.value(f"({{...{script}.dataset}})")
            ask(not shown["hidden"] and shown["value"] == figure["value"] and shown["line"] == str(int(figure["place"]) % FILES)
                and shown["height"] == figure["height"] and f"sed -n {shown['line']}p" in shown["text"], f"a click on {figure} shows {shown}")
        self.page.value("document.querySelector('#fact button').click()")
        ask(self.page.value("document.getElementById('fact').hidden"), "the place of a figure does not go away")

    def points(self) -> None:
        """Pointing at a curve tells the exact figure of a point of it, a click its line, which is of that block."""
        for chart in range(self.page.value("stakeplay.charts().length")):
            x, y = self.where(f"stakeplay.charts()[{chart}].picture")
            self.page.mouse("move", x + 7, y)
            self.page.mouse("click", x + 7, y)
            tip = self.page.value("({...document.getElementById('tip').dataset, hidden: document.getElementById('tip').hidden, text: document.getElementById('tip').textContent})")
            shown = self.page.value("({...document.getElementById('fact').dataset})")
            line = self.told.texts[int(shown["file"] != str(self.told.out))][int(shown["line"]) - 1]
            title = self.page.value(f"stakeplay.charts()[{chart}].title")
            ask(not tip["hidden"] and tip["height"] == shown["height"], f"{title}: {tip} and {shown}")
            ask(json.loads(line).get("height", 0) in (0, int(shown["height"])), f"{title}: line {shown['line']} is not of block {shown['height']}")
            whole = shown["value"].partition(".")[0].lstrip("0")[:1]
            ask(not whole or whole in tip["text"], f"{title}: {tip['text']} does not have {shown['value']}")

    def keys(self) -> None:
        """The keyboard alone leads along a curve and to its line."""
        self.page.value("stakeplay.charts()[0].picture.focus()")
        self.page.key("ArrowLeft")
        height = self.page.value("document.getElementById('tip').dataset.height")
        self.page.key("ArrowLeft")
        before = self.page.value("document.getElementById('tip').dataset.height")
        self.page.key("Enter")
        ask(int(before) <= int(height) and self.page.value("document.getElementById('fact').dataset.height") == before, "keys do not lead to a point")
        ask("height" in self.page.value("document.getElementById('told').textContent"), "nothing is told to who does not see")

    def theme(self) -> None:
        """The button changes the theme."""
        before = self.page.value("document.documentElement.dataset.theme")
        self.click("document.querySelector('#head button')")
        ask(self.page.value("document.documentElement.dataset.theme") != before, "the button does not change the theme")
        self.click("document.querySelector('#head button')")

    def named(self) -> None:
        """What one acts on has a name, what is seen has its role, and no text is too pale."""
        nameless = self.page.value("""[...document.querySelectorAll('button, input, select, a, svg[tabindex], section')].filter(node =>
            !(node.textContent.trim() || node.getAttribute('aria-label') || node.getAttribute('aria-labelledby'))).map(node => node.outerHTML.slice(0, 80))""")
        ask(not nameless, f"these have no name: {nameless[:3]}")
        ask(self.page.value("document.querySelectorAll('h1').length === 1 && document.documentElement.lang === 'en' && Boolean(document.title)"), "no title, or no language")
        ask(self.page.value("[...document.querySelectorAll('svg[tabindex]')].every(node => node.getAttribute('aria-label').length > 60)"), "a chart is not told in words")
        pale = self.page.value(CONTRAST)
        ask(not pale, f"too little contrast: {pale[:4]}")


CONTRAST = """(() => {
  const parts = text => text.match(/[\\d.]+/g).map(Number), lit = c => { c /= 255; return c <= .04045 ? c / 12.92 : ((c + .055) / 1.055) ** 2.4; };
  const light = rgb => .2126 * lit(rgb[0]) + .7152 * lit(rgb[1]) + .0722 * lit(rgb[2]);
  const back = node => { for (; node; node = node.parentElement) { const c = parts(getComputedStyle(node).backgroundColor); if (c.length < 4 || c[3] > 0) return c; } return [255, 255, 255]; };
  const found = new Set();
  for (const node of document.querySelectorAll('h1, h2, h3, p, dt, dd, td, th button, th span, .fig, .unit, .state, .push, .addr, nav a, summary, li, text, .legend button, .key')) {
    if (!node.textContent.trim() || node.disabled || !node.getClientRects().length) continue;
    const style = getComputedStyle(node), [a, b] = [light(parts(node.tagName === 'text' ? style.fill : style.color)), light(back(node.tagName === 'text' ? node.closest('figure') : node))];
    const ratio = (Math.max(a, b) + .05) / (Math.min(a, b) + .05);
    if (ratio < 4.5) found.add(`${node.tagName}.${node.className.baseVal ?? node.className} ${ratio.toFixed(2)}`);
  }
  return [...found];
})()"""


# ---- runs

def program() -> list[str]:
    """The program, or the script that finds it."""
    named = os.environ.get("STAKEPLAY")
    return [named] if named else ["bash", str(ROOT / "stakeplay.sh")]


def played(words: list[str], given: bytes) -> bytes:
    """What the program writes."""
    done = subprocess.run([*program(), *words], input=given, capture_output=True)
    if done.returncode:
        raise RuntimeError(f"{words}: {done.stderr.decode()[-300:]}")
    return done.stdout


def made(words: list[str], path: pathlib.Path) -> None:
    """A page, which the recipe makes of a run."""
    done = subprocess.run([sys.executable, str(RECIPES / "page.py"), *words], capture_output=True)
    ask(done.returncode == 0, f"page.py {words} ended with {done.returncode}: {done.stderr.decode()[-400:]}")
    path.write_bytes(done.stdout)


class Case:
    """A run, its page, and its name."""

    def __init__(self, name: str, room: pathlib.Path, out: bytes, inputs: list[bytes], words: list[str]) -> None:
        self.name, self.path = name, room / f"{name}.html"
        files = [room / f"{name}.out", *(room / f"{name}.{number}.jsonl" for number in range(1, len(inputs) + 1))]
        for path, text in zip(files, [out, *inputs]):
            path.write_bytes(text)
        made([*map(str, files), *words], self.path)
        self.told = Told(files[0], files[1:])


def cases(room: pathlib.Path) -> Iterator[Case]:
    """The runs of the check."""
    exponent = ["--exponent", "uatom=6:ATOM"]
    drawn = played(["-", "gen", "7", "900"], b"")
    out = played(["-", "replay"], drawn)
    yield Case("generated", room, out, [drawn], exponent)
    paid = [json.loads(line) for line in out.splitlines() if b'"kind":"paid"' in line and b'"coins":[]' not in line]
    pairs = Counter((line["delegator"], line["validator"]) for line in paid if line["delegator"] != line["validator"])
    (who, where), _ = pairs.most_common(1)[0]
    statements = played(["-", "statement", who, where], drawn)
    yield Case("address", room, out, [drawn, statements], [*exponent, "--only", who])
    spelled = played(["-", "bech32", "gen", "9", "60"], b"")
    yield Case("spelled", room, played(["-", "bech32", "replay"], spelled), [spelled], [])
    life = (ROOT / "examples/life.jsonl").read_bytes()
    yield Case("life", room, (ROOT / "examples/life.out").read_bytes(), [life], exponent)
    texts, store = drawn.splitlines(True), str(room / "chain.db")
    report = played([store, "replay"], b"".join(texts[:400]))
    report = b"".join(line for line in report.splitlines(True) if b'"height"' not in line)
    rest = b"".join(texts[400:700])
    yield Case("resumed", room, report + played([store, "resume"], rest), [rest], exponent)


def try_case(case: Case, page: browser.Browser, pictures: pathlib.Path) -> None:
    """All that is asked of a page."""
    page.told.clear()
    page.open(case.path, 1240, "light")
    data = page.value("stakeplay.data")
    curves, figures, hands = Curves(case.told, page, data), Figures(case.told, page, data), Hands(case.told, page)
    curves.of_chain()
    curves.of_validators()
    curves.of_addresses()
    count = figures.all()
    ask(count > 10, f"{case.name}: there are {count} figures")
    if data["validators"]:
        figures.table()
        hands.sorts("#validators-table", 3)
        hands.sorts("#validators-table", 6)
        hands.filters("#validators-table", "bonded")
    if data["addresses"]:
        hands.sorts("#moves", 6)
        hands.filters("#moves", "reward")
    hands.clicks()
    hands.points()
    hands.keys()
    hands.theme()
    for width in (1240, 390):
        for theme in ("light", "dark"):
            page.open(case.path, width, theme)
            ask(page.value("document.documentElement.dataset.theme") == theme, f"{case.name} is not {theme}")
            ask(page.value("document.documentElement.scrollWidth <= innerWidth"), f"{case.name} is wider than {width}")
            hands.named()
            name = pictures / f"{case.name}_{width}_{theme}.png"
            page.picture(name)
            ask(name.stat().st_size > 20000, f"{name} shows nothing")
    metrics = {part["name"]: part["value"] for part in page.ask("Performance.getMetrics")["metrics"]}
    ask(metrics["TaskDuration"] < 2, f"{case.name} took {metrics['TaskDuration']} s of the processor to be drawn")
    ask(not page.requests(), f"{case.name} asks for {page.requests()[:3]}")
    ask(not page.console(), f"{case.name} says {page.console()[:2]}")


def draw(path: pathlib.Path, page: browser.Browser, room: pathlib.Path) -> None:
    """The picture of README: a generated run, as its page begins."""
    given = played(["-", "gen", "7", "3000"], b"")
    (room / "run.jsonl").write_bytes(given)
    (room / "run.out").write_bytes(played(["-", "replay"], given))
    here = os.getcwd()
    os.chdir(room)
    made(["run.out", "run.jsonl", "--exponent", "uatom=6:ATOM"], room / "drawing.html")
    os.chdir(here)
    page.open(room / "drawing.html", 1180, "light")
    page.size(1180, 860)
    page.picture(path, whole=False)


def main() -> int:
    """Tries the pages."""
    parser = argparse.ArgumentParser(description=__doc__, formatter_class=argparse.RawDescriptionHelpFormatter)
    parser.add_argument("--pictures", metavar="FOLDER", type=pathlib.Path, help="where the pictures stay")
    parser.add_argument("--case", metavar="NAME", help="the page that is tried; else all are")
    parser.add_argument("--drawing", metavar="FILE", type=pathlib.Path, help="makes the picture of README, and tries nothing")
    words = parser.parse_args()
    if not browser.found():
        print("page: left out: no browser was found (apt-get install chromium, or CHROMIUM=..)")
        return 0
    with tempfile.TemporaryDirectory() as folder, browser.browser() as page:
        room = pathlib.Path(folder)
        pictures = words.pictures or room
        pictures.mkdir(parents=True, exist_ok=True)
        if words.drawing:
            draw(words.drawing, page, room)
            return 0
        for case in cases(room):
            if words.case in (None, case.name):
                try_case(case, page, pictures)
    for text in bad[:40]:
        print(f"page: {text}")
    print(f"page: {tried} questions to five pages in a browser, {len(bad)} not as they are to be")
    return 1 if bad else 0


sys.exit(main())
