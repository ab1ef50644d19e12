"""Adds up an output of stakeplay: recomputes what its lines say of each other, and ends with 0 where all of it agrees.

Who wants it: an auditor, who trusts no code of the program; this page shares none with it, and reads the lines alone.
One command:  python3 audit.py run.out             (`-` for standard input)
              python3 audit.py run.out run.jsonl   (and the first line of the input: what each user began with)
              python3 audit.py day.out day.jsonl --before night.out  (what was resumed, behind an earlier report)
What comes out: `WRONG line N: ..` for each disagreement, then one line, which for the example `life.out` is
    99 lines, 5 blocks, 19 transfers, 2 burns, 6 withdrawals (4 rewards recomputed), 1 slashes: all adds up
Status: 0 all adds up, 1 something does not, 2 the output is cut or of another program.

It follows balances, burns, the pool, what is outstanding of each validator, and each reward by the ratios, stakes and
slashes that were told. At a report it compares, sums shares, and asks that the module accounts hold just what the
records owe. The facts of a genesis are not written: without the input a transfer between users is only asked to be
one that they could pay, and a user's first stake to be a whole number.
"""
import argparse
import json
import os
import sys
from collections import Counter, defaultdict

ONE = 10 ** 18
FEES, BONDED, UNBONDED, OWING = "fee_collector", "bonded_tokens_pool", "not_bonded_tokens_pool", "distribution"
ALL = "all"
GROUPS = "supply account validator delegation pending unbonding redelegation signing pool".split()
LETTERS = "qpzry9x8gf2tvdw0s3jn54khce6mua7l"  # of the spellings of BIP 173, by their values
STEPS = {("unbonded", "bonded"), ("unbonding", "bonded"), ("bonded", "unbonding"), ("unbonding", "unbonded")}


FAULTS = ValueError, KeyError, TypeError, AttributeError, ArithmeticError, RecursionError


def listed(coins, number):  # by denomination, each once, in order and without zeros
    amounts = {c["denom"]: number(c["amount"]) for c in coins}
    if len(amounts) != len(coins) or not all(a > 0 for a in amounts.values()) or list(amounts) != sorted(amounts):
        raise ValueError(coins)
    return amounts


def whole(coins):
    return listed(coins, int)


def raw(text):  # a decimal in units of 10^-18
    before, after = text.split(".")
    if len(after) != 18:
        raise ValueError(text)
    return int(before + after)


def units(coins):
    return listed(coins, raw)


def order(address):  # hexadecimal digits, or the values of a spelling's letters behind its prefix
    prefix, _, letters = address.rpartition("1")
    return [LETTERS.index(letter) for letter in letters] if prefix.startswith("cosmos") else address


def stop(text):
    print(f"{os.path.basename(sys.argv[0])}: {text}", file=sys.stderr)
    sys.exit(2)


class Parser(argparse.ArgumentParser):
    def error(self, message):
        stop(f"{message} (--help says what it takes)")


class Audit:
    def __init__(self):
        self.place = self.bad = 0
        self.kinds, self.rows, self.part = Counter(), defaultdict(list), ""
        self.height, self.time, self.tx, self.told = None, "", 0, None
        # what the lines before leave to be told
        self.due = self.out = self.loose = self.after = self.burning = self.parts = self.before = None
        self.known, self.from_start = set(), False  # whose balance at the beginning is known (ALL: of all users)
        self.begin, self.net, self.least = Counter(), defaultdict(int), defaultdict(int)
        self.supply, self.burned = None, Counter()
        # by a validator and a denomination; by None what the pool has
        self.owes, self.owed, self.total = False, defaultdict(int), defaultdict(int)
        self.period, self.ratio, self.starts, self.taken = {}, {}, defaultdict(dict), Counter()
        self.first = None   # height and time of the first block of an input of `resume`, until that block was read
        self.alive, self.slashed, self.dead, self.status, self.jail, self.gone = set(), set(), set(), {}, {}, 0

    def ask(self, holds, text):
        if not holds:
            self.bad += 1
            print(f"WRONG line {self.place}: {text}")

    # ---- the order of lines

    def take(self, line):
        kind = line["kind"]
        self.kinds[kind] += 1
        if kind in GROUPS:
            self.follow(kind, line)
            return self.reported(kind, line)
        if kind not in ("genesis", "block"):
            if self.part != "block":
                stop(f"line {self.place}: the output is cut before this line")
            self.ask(line["height"] == self.height, "a height that is not its block's")
        self.follow(kind, line)
        getattr(self, "on_" + kind)(line)
        if self.told is not None and kind not in ("accepted", "refused"):
            self.told.append(line)

    def follow(self, kind, line):
        """What the lines before this one left to be told is told by now."""
        if self.parts:
            self.ask(kind == "burn" or self.parts[1], "a stake that is not whole, where nothing was slashed")
            self.slashed.add(self.parts[0])
            self.parts = None
        if self.due and kind not in ("pooled", "allocated"):
            self.ask(False, "coins came to distribution, and nothing tells that they join the pool")
            self.due = None
        if self.burning and kind != "burn":
            self.ask(False, f"the burn of {self.burning} is not told")
            self.burning = None
        explained = kind in ("pooled", "paid") if self.after else kind == "commission" and line["coins"]
        if self.out and not explained:
            self.ask(not self.after, "a reward was moved that nobody was paid")
            self.owe(None, {n: -a * ONE for n, a in self.out[1].items()})
            self.out = None
        if self.loose and kind not in ("paid", "period", "removed"):
            self.ask(False, "coins joined the pool that nobody gave")
            self.loose = None
        if kind not in ("transfer", "pooled", "paid", "slashed"):
            self.after = None
        if self.owes and kind in ("block", "accepted", "refused", "supply"):
            for n, owed in self.total.items():
                self.ask(owed == ONE * (self.begin[OWING, n] + self.net[OWING, n]),
                         f"distribution does not hold what is outstanding and the pool, of {n}")

    def on_genesis(self, line):
        if self.part not in ("", "answer"):
            stop(f"line {self.place}: another run begins here")
        self.part, self.height, self.supply, self.owes, self.from_start = "block", 0, whole(line["supply"]), True, True
        self.known |= {FEES, OWING}

    def on_block(self, line):
        if self.part == "report" or self.height is not None and line["height"] != self.height + 1:
            stop(f"line {self.place}: the output is cut before this block")
        self.ask(line["time"].rstrip("Z") >= self.time, "time goes back")
        self.part, self.height, self.time = "block", line["height"], line["time"].rstrip("Z")
        if self.first == (self.height, plain(line["time"])):
            self.first = None
        self.tx, self.told = 0, None

    def on_accepted(self, line):
        self.ask(line["tx"] == self.tx, f"the outcome of transaction {self.tx} is missing")
        self.tx, self.told = line["tx"] + 1, []

    def on_refused(self, line):
        kept = self.told or []
        self.ask(len(kept) <= (line["number"] != 40) and all(f["kind"] == "transfer" and f["to"] == FEES for f in kept),
                 "a refused transaction has more than its fee")
        self.on_accepted(line)

    # ---- coins

    def move(self, account, coins, sign):
        for n, a in coins.items():
            self.net[account, n] += sign * a
            self.least[account, n] = min(self.least[account, n], self.net[account, n])

    def owe(self, who, coins):
        for n, a in coins.items():
            self.owed[who, n] += a
            self.total[n] += a
            self.ask(not self.owes or self.owed[who, n] >= 0, f"{who or 'the pool'} gives more {n} than it has")

    def on_transfer(self, line):
        coins, to = whole(line["coins"]), line["to"]
        self.ask(coins, "a transfer of nothing")
        self.move(line["from"], coins, -1)
        self.move(to, coins, 1)
        if to == FEES and self.told is None:
            self.told = []  # the beginning of the block is over
        if to == OWING:
            self.due = {n: a * ONE for n, a in coins.items()}
            if line["from"] == FEES and FEES in self.known:
                self.ask(not any(self.begin[k] + a for k, a in self.net.items() if k[0] == FEES), "fees are left over")
        if line["from"] == OWING:
            self.out = (to, coins)
        else:
            self.after = None

    def on_burn(self, line):
        amount = int(line["amount"])
        self.ask(line["from"] in (BONDED, UNBONDED), "a burn of coins that are not staked")
        self.ask(self.burning in (None, amount), f"{amount} is burned, and {self.burning} was told")
        self.burning = None
        self.move(line["from"], {line["denom"]: amount}, -1)
        self.burned[line["denom"]] += amount

    def on_allocated(self, line):
        coins, due = units(line["coins"]), self.due or {}
        self.ask(coins and all(due.get(n, 0) >= a > 0 for n, a in coins.items()), "a share of more than the fees")
        self.due = {n: a - coins.get(n, 0) for n, a in due.items() if a > coins.get(n, 0)}
        self.owe(line["validator"], coins)
        self.alive.add(line["validator"])

    def on_pooled(self, line):
        coins = units(line["coins"])
        self.owe(None, coins)
        if self.due:
            self.ask(coins == self.due, "what joins the pool is not what is left")
            self.due = None
        else:
            self.loose = coins

    def from_validator(self, v):
        self.owe(v, {n: -a for n, a in (self.loose or {}).items()})
        self.loose = None

    # ---- periods and rewards

    def on_period(self, line):
        v, ratio = line["validator"], units(line["ratio"])
        self.from_validator(v)
        before = self.ratio.get(v, {})
        self.ask(line["period"] == self.period.get(v, line["period"] - 1) + 1, "a period is missing")
        self.ask(all(ratio.get(n, 0) >= a for n, a in before.items()), "a ratio falls")
        self.period[v], self.ratio[v], self.after, self.before = line["period"], ratio, v, 0
        self.alive.add(v)

    def on_started(self, line):
        d, v = line["delegator"], line["validator"]
        self.ask(line["period"] == self.period.get(v), "a start that is not at the last period")
        stake = raw(line["stake"])
        if stake % ONE and self.from_start and v not in self.slashed:
            # at one share a token; only a slash that follows a redelegation to here may take parts, as a block begins
            part = 0 < self.before - stake < ONE if self.before else self.before is None
            self.ask(self.told is None, "a stake that is not whole, where nothing was slashed")
            self.parts = (v, part)
        self.starts[v][d] = [self.ratio.get(v, {}), stake, {}, self.height, self.taken[v], 0]

    def on_slashed(self, line):
        v, f, burned = line["validator"], raw(line["fraction"]), int(line["burned"])
        tokens = -(-burned * ONE // f) if f else 0
        parts = [min(ONE, -(-(burned * ONE * ONE // t) // ONE)) for t in (tokens, tokens - 1) if t > 0]
        self.ask(self.after == v, "a slash that ends no period")
        is_part = burned <= tokens and f in parts if burned else f == 0
        self.ask(is_part, "the fraction is not what was burned of any tokens")
        self.burning, now = burned or None, self.ratio.get(v, {})
        self.slashed.add(v)
        for start in self.starts[v].values():
            start[2] = self.earned(start, now, start[1])
            start[0], start[1], start[5] = now, start[1] * (ONE - f) // ONE, start[5] + 1

    @staticmethod
    def earned(start, now, stake):
        names = start[2].keys() | now.keys()
        return {n: start[2].get(n, 0) + (now.get(n, 0) - start[0].get(n, 0)) * stake // ONE for n in names}

    def slack(self, start, v):
        """By how many units the stake may be above the value of the shares: each removal may take half a unit more."""
        changes = self.taken[v] - start[4] + start[5]
        return changes and changes + 1

    def on_paid(self, line):
        d, v, reward, coins = line["delegator"], line["validator"], units(line["reward"]), whole(line["coins"])
        self.ask(self.after == v, "a withdrawal that ends no period")
        whole_coins = {n: a // ONE for n, a in reward.items() if a >= ONE}
        self.ask(coins == whole_coins, "not the whole coins of the reward are paid")
        self.ask((self.out or (line["to"], {})) == (line["to"], coins), "what was moved is not what is paid")
        fractions = {n: a % ONE for n, a in reward.items() if a % ONE}
        self.ask((self.loose or {}) == fractions, "the fractions do not join the pool")
        start, now = self.starts[v].pop(d, None), self.ratio.get(v, {})
        self.before = start[1] if start else None  # the stake until here, where a line told it
        if start:
            self.kinds["reward"] += 1
            most = {} if start[3] == self.height else self.earned(start, now, start[1])
            least = self.earned(start, now, max(0, start[1] - self.slack(start, v))) if most else {}
            for n in most.keys() | reward.keys():
                left = self.owed[v, n] if self.owes else 10 ** 57
                self.ask(min(least.get(n, 0), left) <= reward.get(n, 0) <= min(most.get(n, 0), left),
                         f"the reward is not what the ratios give, of {n}")
        elif self.from_start and v not in self.slashed:  # a stake of the genesis, whose start has no line
            stakes = {n: divmod(reward.get(n, 0), a) for n, a in now.items() if reward.get(n, 0) < self.owed[v, n]}
            self.ask(len(set(stakes.values())) <= 1 and all(r == 0 and s for s, r in stakes.values()),
                     "the reward is of no whole stake")
        self.owe(v, {n: -a for n, a in reward.items()})
        self.taken[v] += 1
        self.out = self.loose = self.after = None

    def on_commission(self, line):
        coins = whole(line["coins"])
        self.ask((self.out or (line["to"], {})) == (line["to"], coins), "what was moved is not the commission")
        self.owe(line["validator"], {n: -a * ONE for n, a in coins.items()})
        self.out = None

    # ---- validators

    def on_status(self, line):
        v, status = line["validator"], line["status"]
        may_be_first = status != "unbonded" or not self.from_start
        self.ask((self.status[v], status) in STEPS if v in self.status else may_be_first, "no such step")
        self.status[v] = status
        self.alive.add(v)

    def on_jailed(self, line):
        v, to = line["validator"], line["kind"] == "jailed"
        self.ask(self.jail.get(v, not to and not self.from_start) != to, "it was so before")
        self.jail[v] = to
        self.alive.add(v)

    on_unjailed = on_jailed

    def on_params(self, line):  # no number that is followed here depends on a parameter
        order(line["authority"])

    def on_tombstoned(self, line):
        self.ask(line["validator"] not in self.dead, "tombstoned twice")
        self.ask(self.jail.get(line["validator"], not self.from_start), "tombstoned, and not jailed")
        self.dead.add(line["validator"])

    def on_removed(self, line):
        v = line["validator"]
        self.from_validator(v)
        self.ask(self.status.get(v, "unbonded") == "unbonded", "removed, and not unbonded")
        owed = any(a for (w, n), a in self.owed.items() if w == v)
        self.ask(not self.owes or not owed, "something stays outstanding")
        self.ask(not self.starts.pop(v, None) or not self.kinds["period"], "a delegation is left")
        for kept in (self.period, self.ratio, self.status, self.jail):
            kept.pop(v, None)
        self.gone += 1
        for kept in (self.alive, self.dead, self.slashed):
            kept.discard(v)

    # ---- the report

    def reported(self, kind, line):
        if self.part in ("", "answer") and kind != "supply":
            self.part = "answer"  # lines of one kind, in which nothing can be recomputed
            return
        if self.part != "report" and kind == "supply":
            self.part, self.rows = "report", defaultdict(list)
        elif self.part != "report" or GROUPS.index(kind) < GROUPS.index(self.group):
            stop(f"line {self.place}: the report is cut before this line")
        self.group = kind
        self.rows[kind].append(line)
        if kind == "pool":
            self.compare(self.rows)
            self.part = "end"

    def compare(self, rows):
        supply, held = whole(rows["supply"][0]["coins"]), Counter()
        for line in rows["account"]:
            held.update({(line["address"], n): a for n, a in whole(line["coins"]).items()})
        for n in supply.keys() | {n for a, n in held}:
            total = sum(a for k, a in held.items() if k[1] == n)
            self.ask(total == supply.get(n, 0), f"the accounts do not hold the supply of {n}")
        if self.supply is not None:
            for n in supply.keys() | self.supply.keys():
                left = self.supply.get(n, 0) - self.burned[n]
                self.ask(left == supply.get(n, 0), f"the supply of {n} did not fall by the burns")
        if not self.kinds["status"] and all(line["status"] == "unbonded" for line in rows["validator"]):
            for n in [n for account, n in self.begin if account == BONDED]:  # no validator ever was bonded
                self.begin[UNBONDED, n] += self.begin.pop((BONDED, n))
        for account, n in sorted(held.keys() | self.net.keys() | self.begin.keys()):
            begin = held[account, n] - self.net[account, n]
            if account in self.known or ALL in self.known:
                told = self.begin[account, n]
                self.ask(begin == told, f"{account} began with {begin} {n} by its transfers, not {told}")
            self.ask(begin + self.least[account, n] >= 0, f"{account} gave more {n} than it had")
        self.compare_validators(rows, held)
        self.begin, self.supply, self.known = held, supply, {ALL, FEES}
        self.net.clear(), self.least.clear(), self.burned.clear()
        self.owes = True

    def compare_validators(self, rows, held):
        owed = {(None, n): a for n, a in units(rows["pool"][0]["coins"]).items()}
        shares, tokens, validators = Counter(), Counter(), {}
        for line in rows["validator"]:
            v = line["operator"]
            validators[v] = line
            owed.update({(v, n): a for n, a in units(line["outstanding"]).items()})
            tokens[BONDED if line["status"] == "bonded" else UNBONDED] += int(line["tokens"])
            status, jailed = line["status"], line["jailed"]
            self.ask(self.status.setdefault(v, status) == status, f"{v} was told to be {self.status[v]}")
            self.ask(self.jail.setdefault(v, jailed) == jailed, f"{v} is jailed, or not, as no line told")
        self.ask(self.alive <= validators.keys(), "a validator of a line is neither reported nor removed")
        for line in rows["unbonding"]:
            tokens[UNBONDED] += int(line["balance"])
            self.ask(int(line["balance"]) <= int(line["initial"]), "an entry above its initial amount")
        for account in (BONDED, UNBONDED):
            has = [a for k, a in held.items() if k[0] == account]
            owes = tokens[account]
            self.ask(has == [a for a in [owes] if a], f"{account} does not hold the {owes} that it owes")
        sums = Counter()
        for (v, n), a in owed.items():
            sums[n] += a
        for n in sums.keys() | {n for a, n in held if a == OWING}:
            holds = ONE * held[OWING, n]
            self.ask(sums[n] == holds, f"distribution does not hold what is outstanding and the pool, of {n}")
        for who, n in (owed.keys() | self.owed.keys()) if self.owes else ():
            self.ask(owed.get((who, n), 0) == self.owed[who, n], f"{who or 'the pool'} has not what lines left of {n}")
        self.owed, self.total = defaultdict(int, owed), defaultdict(int, sums)
        for line in rows["delegation"]:
            v, d, s = line["validator"], line["delegator"], raw(line["shares"])
            shares[v] += s
            start = self.starts[v].get(d)
            if start and rows["pending"] and v in validators:
                all_shares, value = raw(validators[v]["shares"]), s * int(validators[v]["tokens"]) * ONE
                most = -(-value // all_shares) + self.slack(start, v)
                self.ask(start[1] <= most, f"the stake of {d} at {v} is above its shares")
                may_differ = v in self.slashed or not self.from_start
                self.ask(start[1] == s or may_differ, f"the stake of {d} at {v} is not its shares")
        for v in shares.keys() | validators.keys():
            line = validators.get(v, {"shares": "0.000000000000000000", "tokens": "0"})
            self.ask(shares[v] == raw(line["shares"]), f"the delegations to {v} are not its shares")
            self.ask(shares[v] or line["tokens"] == "0", f"{v} has tokens without shares")
        marks = {line["cons"]: line["tombstoned"] for line in rows["signing"]}
        for v, line in validators.items():
            marked = bool(marks.get(line["cons"]))
            self.ask(marked >= (v in self.dead), f"{v} was tombstoned, and is not")
            was_before = self.gone or not self.from_start
            self.ask(marked <= (v in self.dead) or was_before, f"{v} is tombstoned as no line told")
        self.compare_pending(rows["pending"], validators)

    def compare_pending(self, pending, validators):
        """All that is pending at a validator is of one last ratio, which is not below the one that was told."""
        low, high, spent = {}, {}, set()
        for line in pending:
            v, start = line["validator"], self.starts[line["validator"]].get(line["delegator"])
            if "limit" in line or not start or v not in validators:
                continue
            coins, tokens = units(line["coins"]), int(validators[v]["tokens"])
            if start[3] == self.height:
                self.ask(not coins, "something is pending in the block of its start")
                continue
            self.kinds["pending reward"] += 1
            ratio = self.ratio.get(v, {})
            names = coins.keys() | ratio.keys() | {n for w, n in self.owed if w == v and n}
            for n in names:
                left, base = self.owed[v, n], start[0].get(n, 0)
                last, more = ratio.get(n, 0), coins.get(n, 0) - start[2].get(n, 0)
                key, stake = (v, n), start[1] - self.slack(start, v)
                low[key] = max(low.get(key, last), base - (-more * ONE // start[1]) if start[1] else 0)
                high.setdefault(key, last + left // tokens + 1 if tokens else last)
                if coins.get(n, 0) == left > 0:
                    spent.add(key)  # all that is outstanding, which says little of the ratio
                elif stake > 0 and tokens:
                    high[key] = min(high[key], base + ((more + 1) * ONE - 1) // stake)
        for v, n in low.keys() - spent:
            self.ask(low[v, n] <= high[v, n], f"what is pending at {v} is of no one ratio, of {n}")

    def begin_with(self, line):
        """What the first line of the input gives to accounts and delegations."""
        for account in line["accounts"]:
            for coin in account["coins"]:
                self.begin[account["address"], coin["denom"]] += int(coin["amount"])
        self.known.add(ALL)
        tokens = Counter()
        for d in line["delegations"]:
            v = d["validator"]
            self.ratio[v], self.period[v] = {}, self.period.get(v, 0) + 1
            self.starts[v][d["delegator"]] = [{}, int(d["amount"]) * ONE, {}, 0, 0, 0]
            self.alive.add(v)
            tokens[v] += int(d["amount"])
        unit = line["params"]["power_reduction"]
        by_power = sorted((-(t // unit), order(v), t) for v, t in tokens.items())
        bond, places = line["params"]["bond_denom"], line["params"]["max_validators"]
        bonded = sum(t for p, v, t in by_power[:places] if p)
        self.begin[BONDED, bond], self.begin[UNBONDED, bond] = bonded, tokens.total() - bonded


    def begin_at(self, line):
        """What the first line of an input of `resume` gives: a height, and its time."""
        self.first = line["height"], plain(line["time"])
        if type(line["height"]) is not int or type(line["votes"]) is not list or type(line["txs"]) is not list:
            raise ValueError(line)

    def begin_behind(self, name):
        """What the report at the end of an output before tells."""
        with open(name, "rb") as file:
            texts = file.read().splitlines(keepends=True)
        first = max((place for place, text in enumerate(texts) if b'"kind":"supply"' in text), default=len(texts))
        try:
            for self.place, text in enumerate(texts[first:], first + 1):
                line = json.loads(text.decode())
                if line["kind"] not in GROUPS or not text.endswith(b"\n"):
                    raise ValueError(line)
                self.take(line)
        except FAULTS:
            stop(f"{name}: line {self.place}: this is no line of a report")
        if self.part != "end":
            stop(f"{name}: it does not end with a report")
        self.place = 0


def plain(moment):  # without zeros at the end of its part of a second
    before, point, part = moment.rstrip("Z").partition(".")
    return (before + point + part.rstrip("0")).rstrip(".")


def main(output, first=None, before=None):
    audit = Audit()
    try:
        if before is not None:
            audit.begin_behind(before)
        if first is not None:
            with open(first, "rb") as file:
                line = json.loads(file.readline().decode())
            (audit.begin_at if line.get("kind") == "block" else audit.begin_with)(line)
        for audit.place, text in enumerate(sys.stdin.buffer if output == "-" else open(output, "rb"), 1):
            if not text.endswith(b"\n"):
                stop(f"line {audit.place}: the output is cut in this line")
            audit.take(json.loads(text.decode()))
    except BrokenPipeError:
        raise
    except OSError as fault:
        stop(f"{fault.filename or output}: {fault.strerror}")
    except FAULTS:
        stop(f"line {audit.place}: this is no line of stakeplay's output" if audit.place else f"{first}: no genesis and no block")
    is_report = audit.part == "report" and (audit.height is not None or audit.group != "supply")
    if not audit.place or audit.part in ("", "block") or is_report:
        stop(f"the output is cut after line {audit.place}: the end of its report is missing")
    if audit.first is not None:
        stop(f"{first}: this is not the input of that output")
    seen = audit.kinds
    print(f"{audit.place} lines, {seen['block']} blocks, {seen['transfer']} transfers, {seen['burn']} burns, "
          f"{seen['paid']} withdrawals ({seen['reward']} rewards recomputed), {seen['slashed']} slashes: "
          + (f"{audit.bad} DISAGREE" if audit.bad else "all adds up"))
    return 1 if audit.bad else 0


def command():
    parser = Parser(description=__doc__, formatter_class=argparse.RawDescriptionHelpFormatter, allow_abbrev=False)
    parser.add_argument("output", metavar="OUTPUT", help="what the program wrote; - for standard input")
    parser.add_argument("input", metavar="INPUT", nargs="?", help="the input of `replay` or `resume`, of which the first line is read")
    parser.add_argument("--before", metavar="FILE", help="an output before, whose report tells what stood then")
    words = parser.parse_args()
    try:
        status = main(words.output, words.input, words.before)
        sys.stdout.flush()
    except BrokenPipeError:
        os.dup2(os.open(os.devnull, os.O_WRONLY), 1)
        status = 2
    sys.exit(status)
