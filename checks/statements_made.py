"""What `checks/statements.sh` runs last: the statements that the program makes of the payments of each case, beside the
lines of its replay, and as the recipe's checker answers them. An input at fault ends as its replay does, and nothing is
written; nor is anything where a statement has no bounds.

The lines of a replay tell the ends of periods, allocations, slashes and starts; so they tell the entries of a statement
but for what a genesis told, which no line does. That shares were about to change is told by a payment that no message
to withdraw a reward asked for: which one did is found by the messages of the input beside the payments of their
transaction."""
import importlib.util, json, pathlib, subprocess, sys

PROGRAM = sys.argv[1]
spec = importlib.util.spec_from_file_location("check_statement", "python/src/stakeplay/statements/check_statement.py")
recipe = importlib.util.module_from_spec(spec)
spec.loader.exec_module(recipe)
units = recipe.units

# by the form of addresses: a user and an operator of no case
NOBODY = {
    "": ("9" * 39 + "8", "9" * 39 + "9"),
    "bech32": ("cosmos1gqqqqqqqqqqqqqqqqqqqqqqqqqqqqqqtdvv75w", "cosmosvaloper1gqqqqqqqqqqqqqqqqqqqqqqqqqqqqqqp9fay4d"),
}


def ran(words, given):
    done = subprocess.run([PROGRAM, "-", *words], input=given, capture_output=True)
    return done.returncode, done.stdout.decode(), done.stderr.decode().strip()


# ---- which payments shares that were about to change made


def asked(msg):
    """The pairs whose rewards a message moves, as (delegator, validator), each with whether it has to stand, and whether its
    shares are about to change. A new validator's first delegation is its operator's, whose spelling the facts have."""
    kind, who = msg["kind"], msg.get("delegator")
    if kind == "withdraw_reward":
        return [(who, msg["validator"], True, False)]
    if kind == "begin_redelegate":
        return [(who, msg["source"], True, True), (who, msg["target"], False, True)]
    if kind in ("undelegate", "delegate", "cancel_unbonding"):
        return [(who, msg["validator"], kind == "undelegate", True)]
    return [(None, msg["validator"], False, True)] if kind == "create_validator" else []


def led(facts, standing):
    """The pairs whose rewards run behind facts: they end at a payment, and begin at a start."""
    for fact in facts:
        if fact["kind"] in ("started", "paid"):
            pair = fact["delegator"], fact["validator"]
            standing = standing | {pair} if fact["kind"] == "started" else standing - {pair}
    return standing


def is_restarted(facts, pair):
    """Whether the rewards of a pair that was just paid begin anew: before another period of the validator ends."""
    for fact in facts:
        if fact.get("validator") == pair[1] and fact["kind"] in ("period", "started"):
            return fact["kind"] == "started"
    return False


def walked(msgs, facts, standing):
    """The places of the payments among the facts of messages at which shares were about to change; None where the facts are
    those of other messages."""
    touches, place = set(), 0
    for who, operator, stands, touched in (pair for msg in msgs for pair in asked(msg)):
        starts = (fact["delegator"] for fact in facts[place:] if fact["kind"] == "started" and fact["validator"] == operator)
        pair = who or next(starts, None), operator
        if not stands and pair not in standing:
            standing = standing | {pair}
            continue
        paid = next((n for n in range(place, len(facts)) if facts[n]["kind"] == "paid"), None)
        if paid is None or (facts[paid]["delegator"], facts[paid]["validator"]) != pair:
            return None
        place = paid + 1
        standing = standing if not stands or is_restarted(facts[place:], pair) else standing - {pair}
        touches |= {paid} if touched else set()
    return None if any(fact["kind"] == "paid" for fact in facts[place:]) else touches


def block_touches(block, lines, standing):
    """The places among a block's lines of the payments at which shares were about to change. The first transaction's facts stand
    behind those of the block's beginning without a mark between them."""
    touches, first = set(), 0
    for tx, place in enumerate(n for n, line in enumerate(lines) if line["kind"] in ("accepted", "refused")):
        msgs = block["txs"][tx]["msgs"] if lines[place]["kind"] == "accepted" else []
        for begin in range(first, place + 1) if tx == 0 else [first]:
            found = walked(msgs, lines[begin:place], led(lines[first:begin], standing))
            if found is not None:
                break
        touches |= {n for n in range(first, begin) if lines[n]["kind"] == "paid"} | {begin + n for n in found}
        standing, first = led(lines[first:place], standing), place + 1
    return touches | {n for n in range(first, len(lines)) if lines[n]["kind"] == "paid"}


def told_touches(given, lines):
    """Marks each payment by which shares were about to change."""
    genesis, *blocks = map(json.loads, given.splitlines())
    standing = {(each["delegator"], each["validator"]) for each in genesis["delegations"]}
    starts = [n for n, line in enumerate(lines) if line["kind"] == "block"]
    for block, first, end in zip(blocks, starts, starts[1:] + [len(lines)]):
        told = [line for line in lines[first + 1:end] if "height" in line]
        for place in block_touches(block, told, standing):
            told[place]["touched"] = True
        standing = led(told, standing)


# ---- what the lines of a replay tell


def entry_of(line):
    """The entry that a line of the validator tells, as (kind, what it tells)."""
    if line["kind"] == "period":
        return "ended", None
    if line["kind"] == "allocated":
        return "allocated", line["coins"]
    if line["kind"] == "slashed":
        return "slashed", line["burned"]
    return None


def payments(lines, delegator, operator):
    """Of each payment of the pair: its line, the line of its delegation's last start (None where no line tells one), the
    entries that lines tell since, the validator's last ratio, and how often shares were about to change since it was made."""
    start, entries, ratio, removals = None, [], [], 0
    for line in lines:
        if line.get("validator") != operator:
            continue
        if entry := entry_of(line):
            entries.append(entry)
            ratio = line.get("ratio", ratio)
        elif line["kind"] == "paid":
            if line["delegator"] == delegator:
                yield line, start, entries[:], ratio, removals
            if line.get("touched"):
                entries.append(("touched", None))
                removals += 1
        elif line["kind"] == "removed":
            ratio, removals = [], 0
        elif line["kind"] == "started" and line["delegator"] == delegator:
            start, entries = line, []


def is_started_so(entry, start):
    """Whether the stake of a start is what its shares are worth, as the line of the start tells it."""
    worth = units(entry["shares"]) * int(entry["tokens"]) * recipe.ONE // units(entry["total"])
    return start is None or abs(worth - units(start["stake"])) <= 1


def is_part(coins, share):
    """Whether coins are a part of a share, in the same denominations or fewer."""
    most = {coin["denom"]: units(coin["amount"]) for coin in share}
    return all(units(coin["amount"]) <= most.get(coin["denom"], 0) for coin in coins)


def is_told(entry, told):
    kind, what = told
    if entry["kind"] != kind:
        return False
    return is_part(entry["coins"], what) if kind == "allocated" else kind != "slashed" or entry["burned"] == what


def faults(statement, text, payment):
    """What of a statement is not as the lines of the replay tell it."""
    paid, start, told, ratio, removals = payment
    first, *rest = statement["entries"]
    unshown = rest[:len(rest) - len(told)] if start is None else []
    asks = {
        "its members are in order": text == json.dumps(statement, sort_keys=True, separators=(",", ":")),
        "its payment": all(statement[name] == paid[name] for name in ("delegator", "validator", "height", "reward")),
        "its ratio": statement["ratio"] == ratio,
        "its start": first["kind"] == "started" and is_started_so(first, start),
        "its entries": len(rest) == len(unshown) + len(told) and all(map(is_told, rest[len(unshown):], told)),
        "what the genesis told": all(entry["kind"] == "ended" for entry in unshown),
        "its removals": statement["removals"] == removals,
    }
    return [what for what, holds in asks.items() if not holds]


# ---- the cases


def is_right(line):
    """Whether the recipe finds a statement right."""
    made = json.loads(line)
    amounts = {name: recipe.coins(made[name]) for name in ("reward", "low", "high", "slack", "ratio")}
    return recipe.is_right(amounts | {"removals": made["removals"], "entries": recipe.entries(made["entries"])})


def are_right(text, form):
    """Whether the program finds each statement right, and the recipe too."""
    lines = text.splitlines()
    answers = "".join(f'{{"kind":"checked","line":{place},"yes":true}}\n' for place, _ in enumerate(lines, 1))
    return all(map(is_right, lines)) and ran([*form, "check"], text.encode()) == (0, answers, "")


def whole(name, form, given, out, most=None):
    """How many statements of an input that is applied whole were compared with payments, and what was wrong."""
    lines = [json.loads(line) for line in out.splitlines()]
    told_touches(given, lines)
    pairs = sorted({(line["delegator"], line["validator"]) for line in lines if line["kind"] == "paid"})[:most]
    bad, count = [], 0
    for pair in pairs:
        wanted = list(payments(lines, *pair))
        status, text, said = ran([*form, "statement", *pair], given)
        made = text.splitlines()
        if (status, said, len(made)) != (0, "", len(wanted)):
            bad.append(f"{name}: {pair} ended with {status} {said}, {len(made)} statements of {len(wanted)} payments")
            continue
        count += len(made)
        bad += [f"{name}: {pair}: {what}: {line}" for line, payment in zip(made, wanted)
                for what in faults(json.loads(line), line, payment)]
        if not are_right(text, form):
            bad.append(f"{name}: {pair}: a statement is not found right")
    if ran([*form, "statement", *NOBODY["".join(form)]], given) != (10, "", "stakeplay: not found"):
        bad.append(f"{name}: a pair that was never paid is not told so")
    return count, bad + [fault for pair in pairs[:1] for fault in cut(f"{name}, cut", form, given.rstrip()[:-1], pair)]


def cut(name, form, given, pair):
    """What was wrong of an input that is at fault: its statements end as its replay does, and nothing is written."""
    end, (status, text, said) = ran([*form, "replay"], given), ran([*form, "statement", *pair], given)
    if (status, said, text) == (end[0], end[2], ""):
        return []
    return [f"{name}: ended with {status} {said}, and wrote {text[:200]!r}; its replay ended with {end[0]} {end[2]}"]


def slashed_to_one():
    """An input that is applied whole, whose one payment has bounds of 10^38 units: of a stake of 1,000,000 tokens a slash leaves
    one, to which fees of 10^17 are given; the slack has the product of the two."""
    payer, operator, cons = (f"{number:040x}" for number in (7, 8, 9))
    genesis = json.loads(pathlib.Path("examples/life.jsonl").read_text().splitlines()[0])
    fee = [{"denom": "uatom", "amount": str(10**17)}]
    genesis["params"] |= {"power_reduction": 1, "slash_fraction_double_sign": "0.999999", "min_commission_rate": "0"}
    genesis["accounts"] = [{"address": payer, "coins": fee}]
    genesis["validators"] = [{"operator": operator, "cons": cons, "rate": "0", "max_rate": "1", "max_change_rate": "1",
                              "min_self_delegation": "1"}]
    genesis["delegations"] = [{"delegator": operator, "validator": operator, "amount": "1000000"}]
    times = [f"2024-01-01T00:00:{5 * height:02}Z" for height in range(4)]
    withdrawal = {"kind": "withdraw_reward", "delegator": operator, "validator": operator}
    parts = {
        2: {"evidence": [{"cons": cons, "height": 1, "time": times[1], "power": 1000000}],
            "txs": [{"payer": payer, "fee": fee, "msgs": []}]},
        3: {"votes": [{"cons": cons, "power": 1, "signed": True}], "txs": [{"payer": operator, "fee": [], "msgs": [withdrawal]}]},
    }
    blocks = [{"kind": "block", "height": height, "time": times[height], "votes": [], "evidence": [], "txs": []}
              | parts.get(height, {}) for height in (1, 2, 3)]
    return operator, "".join(json.dumps(line) + "\n" for line in [genesis, *blocks]).encode()


def past_bounds():
    """What was wrong of an input whose replay goes on where the statement of a payment has no bounds."""
    operator, given = slashed_to_one()
    end, made = ran(["replay"], given)[0], ran(["statement", operator, operator], given)
    return [] if (end, made) == (0, (3, "", "stakeplay: line 4: limit bound")) else [f"past bounds: {end}, {made}"]


def main():
    count, inputs, stopped, bad = 0, 0, 0, past_bounds()
    for folder, form in (("examples", []), ("cases", []), ("cases/bech32", ["bech32"])):
        for path in sorted(pathlib.Path(folder).glob("*.jsonl")):
            given, end = path.read_bytes(), path.with_suffix(".end").read_text().strip()
            if end == "0":
                more, wrong = whole(str(path), form, given, path.with_suffix(".out").read_text())
                count, inputs, bad = count + more, inputs + (more > 0), bad + wrong
            else:
                stopped, bad = stopped + 1, bad + cut(str(path), form, given, NOBODY["".join(form)])
    for seed in ("1", "7"):
        given = ran(["gen", seed, "300"], b"")[1].encode()
        more, wrong = whole(f"gen {seed} 300", [], given, ran(["replay"], given)[1], 12)
        count, inputs, bad = count + more, inputs + 1, bad + wrong
    for fault in bad:
        print(f"statements: {fault}")
    print(f"statements: {count} made of the payments of {inputs} inputs, {stopped} inputs at fault, one past the limit of "
          f"bounds; {len(bad)} faults")
    sys.exit(1 if bad else 0)


if __name__ == "__main__":
    main()
