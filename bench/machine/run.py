#!/usr/bin/env python3
"""Times the whole machine: bench/machine/run.py [--runs N] [--scale N] [--write FOLDER] [PART..]

Parts, each with inputs of its own, which `stakeplay - replay` goes over; without a name all are timed:

  state     the same blocks over 4,000 validators with 50,000 delegations and over 50 with 500: blocks of nothing, and
            blocks with twenty messages each
  entries   blocks of nothing where 10,000 unbonding entries stand, none of them mature, and where none stands
  fees      blocks with 100 votes and fees in one and in five denominations, beside a program of stock Rust that reads
            the same lines with `serde_json`, does the same sums on `BTreeMap`, and writes the lines of the allocation
  window    blocks with 100 votes where the last 100,000 of a validator are kept, and where the last 100 are

The program is the one that `.ci/run` built. Processor time counts, the least of N runs (5); the runs of a part go
alternately. What stands before the blocks that count is made by blocks before them, and the time of a replay of these
alone is taken off; it writes the same report, but for what the blocks that count changed.

`--scale N` divides the sizes by N, and `--write FOLDER` writes the inputs there and times nothing, to look at them.
`fees` wants `cargo` and Debian's librust-serde-json-dev."""
import argparse, hashlib, json, os, pathlib, shutil, subprocess, sys, tempfile

TOP = pathlib.Path(__file__).resolve().parents[2]
PROGRAM = TOP / "crates/stakeplay/out/stakeplay"
MESSAGES = 20
VOTERS = 100
DENOMS = ("uatom", "uosmo", "ibc/27394FB092D2ECCD56123C74F36E4C1F", "stake", "factory/juno1/token")

STOCK = """
use serde_json::{json, Value};
use std::collections::BTreeMap;
use std::io::{self, BufRead, BufReader, BufWriter, Write};

const ONE: u128 = 10u128.pow(18);

type Coins = BTreeMap<String, u128>;

#[derive(Default)]
struct Purse {
    outstanding: Coins,
    commission: Coins,
    current: Coins,
}

struct Validator {
    operator: String,
    rate: u128,
    purse: Purse,
    counted: u64,
    missed: u64,
}

fn add(to: &mut Coins, denom: &str, amount: u128) {
    if amount != 0 {
        *to.entry(denom.to_string()).or_insert(0) += amount;
    }
}

fn coins_of(value: &Value) -> Coins {
    let mut coins = Coins::new();
    for coin in value.as_array().expect("a list of coins") {
        let amount = coin["amount"].as_str().expect("an amount").parse().expect("digits");
        add(&mut coins, coin["denom"].as_str().expect("a denomination"), amount);
    }
    coins
}

fn decimal(text: &str) -> u128 {
    let (whole, part) = text.split_once('.').unwrap_or((text, ""));
    whole.parse::<u128>().expect("digits") * ONE + format!("{part:0<18}").parse::<u128>().expect("digits")
}

// The products fit in 128 bits, since the fees are small.
fn mul_cut(a: u128, b: u128) -> u128 {
    a * b / ONE
}

fn mul_even(a: u128, b: u128) -> u128 {
    let (q, r) = (a * b / ONE, a * b % ONE);
    q + u128::from(2 * r > ONE || (2 * r == ONE && q % 2 == 1))
}

fn told(coins: &Coins) -> Value {
    coins.iter().map(|(denom, raw)| json!({"amount": format!("{}.{:018}", raw / ONE, raw % ONE), "denom": denom})).collect()
}

fn main() -> io::Result<()> {
    let mut input = BufReader::new(io::stdin());
    let mut output = BufWriter::new(io::stdout());
    let mut line = Vec::new();
    input.read_until(b'\\n', &mut line)?;
    let genesis: Value = serde_json::from_slice(&line).expect("a genesis");
    let tax = decimal(genesis["params"]["community_tax"].as_str().expect("a decimal"));
    let mut validators: BTreeMap<String, Validator> = BTreeMap::new();
    for v in genesis["validators"].as_array().expect("validators") {
        let text = |name: &str| v[name].as_str().expect("a text").to_string();
        let validator = Validator { operator: text("operator"), rate: decimal(&text("rate")), purse: Purse::default(), counted: 0, missed: 0 };
        validators.insert(text("cons"), validator);
    }
    let (mut fees, mut pool) = (Coins::new(), Coins::new());
    loop {
        line.clear();
        if input.read_until(b'\\n', &mut line)? == 0 {
            return output.flush();
        }
        let block: Value = serde_json::from_slice(&line).expect("a block");
        let height = block["height"].as_u64().expect("a height");
        let votes = block["votes"].as_array().expect("votes");
        let total: u128 = votes.iter().map(|vote| u128::from(vote["power"].as_u64().expect("a power"))).sum();
        let mut left: Coins = fees.iter().map(|(denom, amount)| (denom.clone(), amount * ONE)).collect();
        let base: Coins = fees.iter().map(|(denom, amount)| (denom.clone(), amount * (ONE - tax))).collect();
        for vote in votes {
            let fraction = u128::from(vote["power"].as_u64().expect("a power")) * ONE / total;
            let validator = validators.get_mut(vote["cons"].as_str().expect("an address")).expect("a validator");
            let mut share = Coins::new();
            for (denom, raw) in &base {
                add(&mut share, denom, mul_cut(*raw, fraction));
            }
            for (denom, raw) in &share {
                let commission = mul_even(*raw, validator.rate);
                add(&mut validator.purse.commission, denom, commission);
                add(&mut validator.purse.current, denom, raw - commission);
                add(&mut validator.purse.outstanding, denom, *raw);
                *left.get_mut(denom).expect("a fee") -= raw;
            }
            validator.counted += 1;
            validator.missed += u64::from(vote["signed"] == false);
            if !share.is_empty() {
                serde_json::to_writer(&mut output, &json!({"coins": told(&share), "height": height, "kind": "allocated", "validator": validator.operator}))?;
                output.write_all(b"\\n")?;
            }
        }
        left.retain(|_, raw| *raw != 0);
        if !left.is_empty() {
            for (denom, raw) in &left {
                add(&mut pool, denom, *raw);
            }
            serde_json::to_writer(&mut output, &json!({"coins": told(&left), "height": height, "kind": "pooled"}))?;
            output.write_all(b"\\n")?;
        }
        fees.clear();
        for tx in block["txs"].as_array().expect("transactions") {
            for (denom, amount) in coins_of(&tx["fee"]) {
                add(&mut fees, &denom, amount);
            }
        }
    }
}
"""


def address(number):
    """Twenty bytes of a hash, as addresses of users are."""
    return hashlib.sha256(str(number).encode()).hexdigest()[:40]


def coin(amount, denom="uatom"):
    return f'{{"denom":"{denom}","amount":"{amount}"}}'


def genesis(accounts, validators, delegations, **changed):
    params = {
        "bond_denom": "uatom",
        "power_reduction": 1_000_000,
        "unbonding_time": 1_814_400,
        "max_validators": 100,
        "max_entries": 100,
        "min_commission_rate": "0",
        "community_tax": "0.02",
        "withdraw_addr_enabled": True,
        "signed_blocks_window": 10_000,
        "min_signed_per_window": "0.05",
        "downtime_jail_duration": 600,
        "slash_fraction_double_sign": "0.05",
        "slash_fraction_downtime": "0.0001",
        "max_age_duration": 172_800,
        "max_age_num_blocks": 100_000,
        "authority": "9" * 40,
    }
    params.update(changed)
    held = ",".join(f'{{"address":"{who}","coins":[{",".join(coins)}]}}' for who, coins in accounts)
    made = ",".join(
        f'{{"operator":"{operator}","cons":"{cons}","rate":"0.1","max_rate":"0.2","max_change_rate":"0.01","min_self_delegation":"1"}}'
        for operator, cons in validators
    )
    given = ",".join(
        f'{{"delegator":"{who}","validator":"{to}","amount":"{amount}"}}' for who, to, amount in delegations
    )
    return (
        f'{{"kind":"genesis","time":"2024-01-01T00:00:00Z","params":{json.dumps(params)},"accounts":[{held}],'
        f'"validators":[{made}],"delegations":[{given}]}}\n'
    )


def moment(height):
    """Five seconds for each block."""
    seconds = 5 * height
    return f"2024-01-{1 + seconds // 86400:02}T{seconds // 3600 % 24:02}:{seconds // 60 % 60:02}:{seconds % 60:02}Z"


def block(height, votes=(), txs=()):
    return (
        f'{{"kind":"block","height":{height},"time":"{moment(height)}","votes":[{",".join(votes)}],"evidence":[],'
        f'"txs":[{",".join(txs)}]}}\n'
    )


def tx(payer, fee, *messages):
    return f'{{"payer":"{payer}","fee":[{",".join(fee)}],"msgs":[{",".join(messages)}]}}'


def of_pair(kind, who, to, amount=None):
    given = f',"amount":{coin(amount)}' if amount is not None else ""
    return f'{{"kind":"{kind}","delegator":"{who}","validator":"{to}"{given}}}'


def vote(number, signed):
    return f'{{"cons":"{address(-1 - number)}","power":10,"signed":{str(signed).lower()}}}'


# ---- the same blocks over a large state and over a small one

FIRST = 50  # validators that the messages name, in both states; each has ten delegators that are there in both


def delegator(place, to):
    return address(1_000_000 + 10_000 * place + to)


def beginning(validators, delegations):
    """A genesis with as many delegations as a line holds, and blocks that make the others; and the next height."""
    rest = [(delegator(n // validators, n % validators), n % validators) for n in range(delegations - validators)]
    in_line, later = rest[: 18_000 - validators], rest[18_000 - validators :]
    # of equal power but for the first hundred, so that the bonded set is the same in both states
    own = [(address(n), address(n), 20_000_000 if n < FIRST else 10_000_000) for n in range(validators)]
    lines = [
        genesis(
            [(address(9_999_999), [coin(10**15)])],
            [(address(n), address(-1 - n)) for n in range(validators)],
            own + [(who, address(to), 100_000) for who, to in in_line],
            max_validators=FIRST,
        )
    ]
    rich = address(9_999_999)
    for start in range(0, len(later), 500):
        txs = []
        for who, to in later[start : start + 500]:
            sent = f'{{"kind":"send","from":"{rich}","to":"{who}","coins":[{coin(100_000)}]}}'
            txs += [tx(rich, [], sent), tx(who, [], of_pair("delegate", who, address(to), 100_000))]
        lines.append(block(len(lines), (), txs))
    return lines


def messages(height):
    """Twenty messages of delegators and validators that are there in both states."""
    txs = []
    for n in range(MESSAGES):
        to = (height * 7 + n) % FIRST
        place = (height + n) % 9
        who = delegator(place, to)
        if n % 4 == 0:
            txs.append(tx(who, [], of_pair("withdraw_reward", who, address(to))))
        elif n % 4 == 1:
            txs.append(tx(who, [], of_pair("undelegate", who, address(to), 1)))
        elif n % 4 == 2:
            moved = f'{{"kind":"begin_redelegate","delegator":"{who}","source":"{address(to)}","target":"{address((to + 1) % FIRST)}","amount":{coin(1)}}}'
            txs.append(tx(who, [], moved))
        else:
            rich = address(9_999_999)
            txs.append(tx(rich, [coin(1000)], of_pair("delegate", rich, address(to), 1)))
    return txs


def state_inputs(scale):
    inputs = {}
    for name, validators, delegations in (
        ("small", 50, 500),
        ("large", max(60, 4_000 // scale), max(600, 50_000 // scale)),
    ):
        lines = beginning(validators, delegations)
        inputs[name] = lines
        first, votes = len(lines), [vote(n, True) for n in range(FIRST)]
        inputs[name + "-nothing"] = lines + [block(first + n) for n in range(10_000 // scale)]
        inputs[name + "-messages"] = lines + [
            block(first + n, votes, messages(first + n)) for n in range(1_000 // scale)
        ]
    return inputs


def state(timed):
    seconds = timed(state_inputs)
    for what in ("nothing", "messages"):
        small = seconds[f"small-{what}"] - seconds["small"]
        large = seconds[f"large-{what}"] - seconds["large"]
        print(
            f"state: blocks of {what}: {small:.3f} s over the small state, {large:.3f} s over the large one: {large / small:.2f} (aim: below 1.5)"
        )


# ---- entries that are not mature


def entries_inputs(scale):
    inputs = {}
    for name, entries in (("none", 0), ("many", 10_000 // scale)):
        users = [address(n) for n in range(1, 101)]
        lines = [
            genesis(
                [],
                [(address(0), address(-1))],
                [(address(0), address(0), 10**8)] + [(who, address(0), 10**6) for who in users],
            )
        ]
        for start in range(0, 10_000 // scale, 100):
            txs = [tx(who, [], of_pair("undelegate", who, address(0), 1)) for who in users] if start < entries else []
            lines.append(block(len(lines), (), txs))
        inputs[name] = lines
        inputs[name + "-nothing"] = lines + [block(len(lines) + n) for n in range(20_000 // scale)]
    return inputs


def entries(timed):
    seconds = timed(entries_inputs)
    none, many = seconds["none-nothing"] - seconds["none"], seconds["many-nothing"] - seconds["many"]
    print(
        f"entries: blocks of nothing: {none:.3f} s without entries, {many:.3f} s with 10,000: {many / none:.2f} (aim: no walk, so near 1)"
    )


# ---- fees in one denomination and in five


def fees_inputs(scale):
    inputs = {}
    for name, denoms in (("one", DENOMS[:1]), ("five", DENOMS)):
        payer = address(5_000)
        lines = [
            genesis(
                [(payer, [coin(10**12, denom) for denom in denoms])],
                [(address(n), address(-1 - n)) for n in range(VOTERS)],
                [(address(n), address(n), 10_000_000) for n in range(VOTERS)],
            )
        ]
        fee = [coin(5_000 + place, denom) for place, denom in enumerate(denoms)]
        votes = [vote(n, True) for n in range(VOTERS)]
        for height in range(1, 10_000 // scale + 1):
            lines.append(block(height, votes if height > 1 else (), [tx(payer, fee)]))
        inputs[name] = lines
    return inputs


def build_stock(work):
    folder = work / "stock"
    (folder / "src").mkdir(parents=True)
    (folder / "src/main.rs").write_text(STOCK.lstrip())
    (folder / "Cargo.toml").write_text(
        '[package]\nname = "stock"\nversion = "0.1.0"\nedition = "2021"\n[dependencies]\nserde_json = "1"\n'
    )
    (folder / ".cargo").mkdir()
    (folder / ".cargo/config.toml").write_text(
        '[source.crates-io]\nreplace-with = "debian"\n[source.debian]\ndirectory = "/usr/share/cargo/registry"\n'
    )
    subprocess.run(["cargo", "build", "--release", "--offline", "--quiet"], cwd=folder, check=True)
    return folder / "target/release/stock"


def fees(timed):
    with tempfile.TemporaryDirectory(prefix="fees-") as work:
        stock = build_stock(pathlib.Path(work))
        told = timed(fees_inputs, {"replay": [PROGRAM, "-", "replay"], "stock": [stock]}, ("allocated", "pooled"))
    for name in ("one", "five"):
        mine, other = told["replay", name], told["stock", name]
        print(f"fees in {name}: {mine:.3f} s, stock Rust {other:.3f} s: {mine / other:.2f} (aim: 2)")


# ---- a long window and a short one


def window_inputs(scale):
    inputs = {}
    for name, window in (("short", 100), ("long", 100_000)):
        lines = [
            genesis(
                [],
                [(address(n), address(-1 - n)) for n in range(VOTERS)],
                [(address(n), address(n), 10_000_000) for n in range(VOTERS)],
                signed_blocks_window=window,
            )
        ]
        for height in range(1, 10_000 // scale + 1):
            lines.append(block(height, [vote(n, (height + n) % 10 != 0) for n in range(VOTERS)]))
        inputs[name] = lines
    return inputs


def window(timed):
    seconds = timed(window_inputs)
    short, long = seconds["short"], seconds["long"]
    print(f"window: {short:.3f} s with 100 votes kept, {long:.3f} s with 100,000: {long / short:.2f} (aim: below 1.2)")


# ---- timing


def once(command, path, lines_of):
    """Processor seconds of one run over the file, and of what it writes the lines of these kinds."""
    with open(path, "rb") as source, tempfile.TemporaryFile() as sink:
        process = subprocess.Popen([str(word) for word in command], stdin=source, stdout=sink)
        _, status, used = os.wait4(process.pid, 0)
        process.returncode = os.waitstatus_to_exitcode(status)
        if process.returncode:
            sys.exit(f"{command[0]} ended with status {process.returncode} over {path}")
        sink.seek(0)
        kinds = [f'"kind":"{kind}"'.encode() for kind in lines_of]
        # a line of the report has no height
        told = hashlib.sha256(
            b"".join(line for line in sink if b'"height":' in line and any(kind in line for kind in kinds))
        )
    return used.ru_utime + used.ru_stime, told.hexdigest() if lines_of else None


def timer(work, runs, scale):
    def timed(inputs_of, programs=None, lines_of=()):
        inputs = {}
        for name, lines in inputs_of(scale).items():
            inputs[name] = work / f"{name}.jsonl"
            inputs[name].write_text("".join(lines))
        commands = programs or {"replay": [PROGRAM, "-", "replay"]}
        least = {}
        for _ in range(runs):
            for name, path in inputs.items():
                told = set()
                for program, command in commands.items():
                    seconds, lines = once(command, path, lines_of)
                    told.add(lines)
                    key = (program, name) if programs else name
                    least[key] = min(least.get(key, float("inf")), seconds)
                if len(told) > 1:
                    sys.exit(f"the programs write other lines over {path}")
        return least

    return timed


PARTS = {
    "state": (state, state_inputs),
    "entries": (entries, entries_inputs),
    "fees": (fees, fees_inputs),
    "window": (window, window_inputs),
}


def main():
    words = argparse.ArgumentParser()
    words.add_argument("--runs", type=int, default=5)
    words.add_argument("--scale", type=int, default=1)
    words.add_argument("--write", type=pathlib.Path)
    words.add_argument("parts", nargs="*", choices=[[], *PARTS])
    given = words.parse_args()
    for part in given.parts or PARTS:
        run, inputs_of = PARTS[part]
        if given.write:
            given.write.mkdir(parents=True, exist_ok=True)
            for name, lines in inputs_of(given.scale).items():
                (given.write / f"{part}-{name}.jsonl").write_text("".join(lines))
            continue
        if not PROGRAM.exists():
            sys.exit("run .ci/run first: it builds the program")
        work = pathlib.Path(tempfile.mkdtemp(prefix="machine-"))
        try:
            run(timer(work, given.runs, given.scale))
        finally:
            shutil.rmtree(work, ignore_errors=True)


main()
