"""The document that a browser opens: one file of HTML with its style, its script and the figures of a run.

Figures stand in it as texts, as they are printed; the places of their lines beside them. Series are texts of points
`height,value,place`, heights and places as differences in base 36, so that a long run makes a small file.
"""
from __future__ import annotations

import html
import json
import pathlib
from typing import Any, Iterable

from stakeplay.lines.reading import ONE, bare, shown, units
from stakeplay.pages.books import Asked, Totals, Validator
from stakeplay.pages.given import FILES, nanoseconds
from stakeplay.pages.run import Run
from stakeplay.pages.series import Series

Json = dict[str, Any]
HERE = pathlib.Path(__file__).resolve().parent
DIGITS = "0123456789abcdefghijklmnopqrstuvwxyz"
YEAR = 365 * 24 * 3600 * 10 ** 9


def base36(number: int) -> str:
    """A whole number in base 36."""
    if number < 0:
        return "-" + base36(-number)
    text = DIGITS[number % 36]
    while number := number // 36:
        text = DIGITS[number % 36] + text
    return text


def differences(numbers: Iterable[int]) -> str:
    """Ascending numbers, each as its difference from the one before."""
    texts, last = [], 0
    for number in numbers:
        texts.append(base36(number - last))
        last = number
    return ",".join(texts)


class Document:
    """The figures of a run, in the form that the script of the page reads."""

    def __init__(self, run: Run, exponents: dict[str, tuple[int, str]]) -> None:
        self.run, self.exponents = run, exponents
        self.heights: set[int] = set()

    # ---- parts

    def points(self, series: Series, offset: int = 0) -> str:
        """A series as a text; a point of the bonded tokens has the supply too."""
        texts, last_height, last_place = [], 0, 0
        for height, value, told in series.points():
            place, more = told if isinstance(told, tuple) else (told, None)
            text = f"{base36(height - last_height)},{value + offset},{base36(place - last_place)}"
            texts.append(text if more is None else f"{text},{more + self.first('supply', self.run.bond or '')}")
            last_height, last_place = height, place
            self.heights.add(height)
        return ";".join(texts)

    def first(self, name: str, denom: str = "") -> int:
        """What stood first of something."""
        return self.run.starts.get(name, ({}, 0))[0].get(denom, 0)

    def figure(self, text: str, denom: str, place: int, height: int, note: str = "") -> list[Any]:
        """A figure: its text as it is printed, its denomination, its place, its height, and how it was reckoned."""
        self.heights.add(height)
        return [text, denom, place, height, note] if note else [text, denom, place, height]

    def printed(self, coins: list[Json], place: int) -> list[list[Any]]:
        """The coins of a line of the report."""
        return [self.figure(coin["amount"], coin["denom"], place, self.run.height) for coin in coins]

    def added(self, totals: Totals, kind: str, is_decimal: bool = False) -> list[list[Any]]:
        """Coins that were added up of lines of a kind."""
        note = f"the sum of {totals.count} lines `{kind}`, this one the last"
        return [self.figure(shown(amount) if is_decimal else str(amount), denom, totals.place, totals.height, note)
                for denom, amount in sorted(totals.coins.items())]

    def marks(self, marks: Any) -> Json:
        """Marks: height, place, kind and words."""
        kept = marks.kept()
        self.heights.update(mark[0] for mark in kept)
        return {"count": marks.count, "rows": [list(mark) for mark in kept]}

    # ---- the chain

    def chain(self) -> Json:
        """What is told of the chain."""
        run = self.run
        offsets = {"bonded": self.first("bonded"), "supply": self.first("supply", run.bond or "")}
        offsets |= {name: self.first(name) for name in ("active", "jailed", "all")}
        series = {name: self.points(part, offsets.get(name, 0)) for name, part in run.series.items()}
        return {"series": series, "rate": self.rates(), "marks": self.marks(run.marks), "coins": self.coins(),
                "pool": [self.figure(shown(a), d, run.report["pool"][1], run.height)
                         for d, a in sorted(run.report["pool"][0].items())]}

    def coins(self) -> list[Json]:
        """What the chain has, burned and gave, by denomination."""
        run, (supply, place) = self.run, self.run.report["supply"]
        first, first_place = run.starts["supply"]
        totals = dict(run.sums)
        totals["allocated"] = self.allocated()
        kinds = {"fees": "transfer", "rewards": "paid", "commission": "commission", "burned": "burn", "allocated": "allocated"}
        rows = []
        for denom in sorted({*first, *supply, *run.pooled_denoms, *(d for t in totals.values() for d in t.coins)}):
            row: Json = {"denom": denom}
            row["first"] = self.figure(str(first.get(denom, 0)), denom, first_place, run.first_height - 1)
            row["supply"] = self.figure(str(supply.get(denom, 0)), denom, place, run.height)
            for name, kind in kinds.items():
                found = [figure for figure in self.added(totals[name], kind, name == "allocated") if figure[1] == denom]
                row[name] = found[0] if found else None
            rows.append(row)
        return rows

    def allocated(self) -> Totals:
        """All shares of fees that the validators were given."""
        run, total = self.run, Totals()
        for validator in run.by_text.values():
            others = validator.others
            parts = [({run.denom or "": validator.units}, validator.shares, validator.share_line), (others.coins, others.count, others.place)]
            for coins, count, place in parts:
                if count:
                    last = max(place, total.place)
                    before, total.count = total.count, 0
                    total.add(coins, last, run.height_of(last))
                    total.count = before + count
        return total

    def rates(self) -> list[list[Any]]:
        """Of each step: what a bonded token was given, as of a year, in parts of 10^8, and of what that was reckoned."""
        run, rows = self.run, []
        genesis = run.given.genesis
        last = nanoseconds(genesis["time"]) if genesis else run.moments[0] if run.moments else 0
        for _, value, first, end, height, bonded in run.rate.parts:
            now, tokens = run.moments[height - run.first_height], bonded + self.first("bonded")
            span, last = now - last, now
            if span > 0 and tokens > 0:
                self.heights.add(height)
                rows.append([height, value * YEAR * 10 ** 8 // (span * tokens * ONE), str(value), str(tokens), first, end,
                             str(span)])
        return rows

    # ---- validators

    def validator(self, validator: Validator) -> Json:
        """What is told of a validator."""
        run, report, place = self.run, validator.report, validator.report_place
        stands = validator in self.standing
        row: Json = {"a": validator.address, "stands": stands, "known": validator.is_known, "jailed": False, "status": "removed"}
        if stands:
            row |= {"cons": report["cons"], "status": report["status"], "jailed": report["jailed"],
                    "tokens": self.figure(report["tokens"], run.bond or "", place, run.height),
                    "shares": self.figure(report["shares"], "", place, run.height),
                    "rate": self.figure(report["rate"], "", place, run.height),
                    "commission": self.printed(report["commission"], place),
                    "outstanding": self.printed(report["outstanding"], place)}
            count = run.delegations.get(validator.address, 0)
            row["delegators"] = self.figure(str(count), "", run.report["supply"][1], run.height, f"{count} lines `delegation` of the report")
        if validator.signing:
            row["missed"] = self.figure(str(validator.signing["missed"]), "", validator.signing_place, run.height)
            row["until"], row["tombstoned"] = validator.signing["jailed_until"], validator.signing["tombstoned"]
        if validator.rank:
            row["rank"] = validator.rank
        line, note = validator.share_line, f"the sum of {validator.shares} lines `allocated`, this one the last"
        allocated = [self.figure(shown(validator.units), run.denom or "", line, run.height_of(line), note)] if line else []
        row["allocated"] = allocated + self.added(validator.others, "allocated", True)
        row["paid"] = self.added(validator.paid, "paid")
        row["withdrawn"] = self.added(validator.withdrawn, "commission")
        row["burned"] = self.added(validator.burned, "slashed")
        row |= {"slashes": validator.slashes, "came": validator.came, "went": validator.went}
        row["marks"] = self.marks(validator.marks)
        visits = validator.visits.kept()
        self.heights.update(visit[0] for visit in visits)
        row["visits"] = {"count": validator.visits.count, "rows": [list(visit) for visit in visits]}
        row["series"] = self.series_of(validator, stands)
        return row

    def series_of(self, validator: Validator, stands: bool) -> Json:
        """The series of a validator, without those that are empty."""
        offset = self.run.delegations.get(validator.address, 0) - validator.delegators if stands else 0
        parts = {"stake": (validator.stake_series, 0), "rank": (validator.rank_series, 0), "given": (validator.given, 0),
                 "missed": (validator.missed_series, 0), "delegators": (validator.delegator_series, offset),
                 "rate": (validator.rate_series, 0), "withdrawn": (validator.withdrawn_series, 0)}
        return {name: text for name, (part, more) in parts.items() if (text := self.points(part, more))}

    # ---- addresses, statements

    def address(self, asked: Asked) -> Json:
        """What is told of an address."""
        run, rows = self.run, asked.rows.kept()
        first = run.starts["account " + asked.address][0]
        self.heights.update(move.height for move in rows)
        coins, place = asked.account
        pending = Totals()
        for line, at in asked.pending:
            pending.add(units(line.get("coins", [])), at, run.height)
        return {
            "a": asked.address, "sum": self.added(pending, "pending", True),
            "balance": [self.figure(str(a), d, place, run.height) for d, a in sorted(coins.items())],
            "staked": [[line["validator"], self.figure(line["shares"], "", at, run.height)] for line, at in asked.staked],
            "pending": [[line["validator"], self.printed(line.get("coins", []), at)] for line, at in asked.pending],
            "unbonding": [[line["validator"], self.figure(line["balance"], run.bond or "", at, run.height), line["completes"]]
                          for line, at in asked.unbonding],
            "totals": [[word, side, self.added(total, "of this kind"), total.count]
                       for (word, side), total in sorted(asked.totals.items())],
            "rows": {"count": asked.rows.count, "rows": [
                [move.height, move.place, move.what, move.side, [[str(a), d] for d, a in move.coins.items()], move.other]
                for move in rows]},
            "marks": self.marks(asked.marks),
            "series": {"balance": {d: self.points(s, first.get(d, 0)) for d, s in asked.balance_series.items()},
                       "paid": {d: self.points(s) for d, s in asked.paid_series.items()},
                       "stake": self.points(asked.stake_series)}}

    def statements(self) -> Json:
        """The statements that were given, with their bounds."""
        rows = []
        for line, place in self.run.given.statements.kept():
            self.heights.add(line["height"])
            coins = {member: {coin["denom"]: coin["amount"] for coin in line[member]}
                     for member in ("reward", "low", "high", "slack")}
            rows.append([line["height"], place, line["delegator"], line["validator"],
                         [[d, *(coins[m].get(d, shown(0)) for m in ("low", "reward", "high", "slack"))] for d in coins["slack"]]])
        return {"count": self.run.given.statements.count, "rows": rows}

    # ---- the whole

    def chosen(self) -> list[Validator]:
        """The validators of the page: all, or those with which the addresses that are asked for have to do."""
        run = self.run
        if not run.addresses:
            return list(run.by_text.values())
        names = {bare(asked.address) for asked in run.addresses}
        touched = {line["validator"] for asked in run.addresses for line, _ in asked.staked}
        touched |= {move.other for asked in run.addresses for move in asked.rows.kept()}
        return [v for v in run.by_text.values() if bare(v.address) in names or v.address in touched]

    def times(self) -> Json:
        """The moments of all heights that are named; those outside the blocks have none."""
        run = self.run
        moments = [(h, run.moments[h - run.first_height]) for h in sorted(self.heights)
                   if run.first_height <= h <= run.height and run.moments]
        if run.given.genesis and 0 in self.heights:
            moments.insert(0, (0, nanoseconds(run.given.genesis["time"])))
        rests = [str(moment % 10 ** 9) for _, moment in moments]
        return {"h": differences(h for h, _ in moments), "s": differences(m // 10 ** 9 for _, m in moments),
                "f": ",".join(rests) if any(rest != "0" for rest in rests) else ""}

    def data(self) -> Json:
        """All figures of the page."""
        run, self.heights = self.run, {self.run.first_height, self.run.height}
        self.standing = set(run.report["validators"][0])
        made: Json = {
            "run": {"name": run.name, "inputs": run.given.names, "lines": run.lines, "blocks": len(run.moments),
                    "from": run.first_height, "to": run.height, "bond": run.bond or "", "denom": run.denom or "",
                    "files": FILES, "window": run.votes.size if run.votes.size < FILES else 0, "allowed": run.votes.allowed, "voted": run.given.is_there,
                    "exponents": {denom: list(pair) for denom, pair in self.exponents.items()},
                    "widths": [run.chain.width, run.steps.width, run.wide.width], "wrong": run.wrong[:20],
                    "asked": len(run.addresses), "all": len(run.by_text)},
            "chain": self.chain(), "validators": [self.validator(v) for v in self.chosen()],
            "addresses": [self.address(asked) for asked in run.addresses], "statements": self.statements()}
        return made | {"times": self.times()}


def page(document: Document, most: int) -> str:
    """The text of the file; the validators' steps are made wider until it has at most so many bytes."""
    run = document.run
    frame = {name: (HERE / name).read_text(encoding="utf-8") for name in ("page.html", "page.css", "page.js", "page_parts.js")}
    while True:
        figures = json.dumps(document.data(), separators=(",", ":"), ensure_ascii=True).replace("<", "\\u003c")
        whole = frame["page.html"].replace("{{title}}", html.escape(f"stakeplay: blocks {run.first_height} to {run.height}"))
        for mark, text in (("{{style}}", frame["page.css"]), ("{{script}}", frame["page.js"] + "\n" + frame["page_parts.js"]), ("{{figures}}", figures)):
            before, after = whole.split(mark)
            whole = before + text + after
        if len(whole.encode()) <= most or run.steps.width >= len(run.moments):
            return whole
        run.steps.double()
