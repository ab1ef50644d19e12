#!/usr/bin/env python3
"""Times periods and starts of `mod_periods` beside the same on a BTreeMap of stock Rust: bench/periods/run.py [RUNS]

Over 180 validators a million periods end, with a ratio of one denomination; apart from that a million rewards start and stop.
Each call looks first whether its condition holds, in both programs. Behind each round over all validators the tables of
`mod_periods` are settled, as behind a block; stock Rust keeps no marks and no list of what was touched. In both programs the
period of the first validator and how many refer to its last ended one are looked at in the end. The least time of RUNS runs (5)
counts; of the Rattle program the time of a run that only begins is taken off.

Wants `rt` and `rustc`, and works in a temporary folder. The program in Rattle is `loops.txt`, the tests of a crate that
stands on `mod_periods`, which `rt test` proves and builds."""
import pathlib, shutil, subprocess, sys, tempfile, time

RUNS = int(sys.argv[1]) if len(sys.argv) > 1 else 5
HERE = pathlib.Path(__file__).resolve().parent
TOP = HERE.parents[1]
WORK = pathlib.Path(tempfile.mkdtemp(prefix="periods-"))
CRATES = (
    "base_decimals",
    "base_types",
    "base_coins",
    "base_shares",
    "base_table",
    "base_roles",
    "base_records",
    "rule_modules",
    "mod_sums",
    "mod_periods",
)

INVARIANT = """
use Rattle.std.proofs.Common.{◌≡◌, []}
use Rattle.std.specs.Prelude.{◌×◌}
use Rattle.mod_periods.specs.Stands.{IsKept}
use Rattle.period_bench.proofs.NAME.Given as goal

abbrev pub invariant-loop-VAR : goal.invariant-loop-VAR
invariant-loop-VAR g l = IsKept l.f.kept × (l.f.marks ≡ [])
"""

# loops keep what the tables stand for
LOOPS = {
    "begun": "operator",
    "end_round": "operator",
    "end_rounds": "round",
    "turn_round": "operator",
    "turn_rounds": "round",
}

GHOSTS = """
use Rattle.period_bench.proofs.NAME.Given as goal

abbrev pub ghosts-CALL : goal.ghosts-CALL
ghosts-CALL g a = record { name = a.blank.name; parts = a.blank.parts }
"""

FRESH = """
use Rattle.mod_periods.specs.Stands.{no_rewards}
use Rattle.period_bench.proofs.fresh.Goals as goal

pub returns-clause-kept : goal.returns-clause-kept
returns-clause-kept g c = (no_rewards, c.new.ensures.kept)
"""

# each test calls one function with a ledger of its own
TESTS = {"begins": "only_begun", "ends": "all_ended", "turns": "all_turned"}

STOCK = """
#![allow(dead_code)]

use std::collections::BTreeMap;
use std::time::Instant;

const VALIDATORS: u8 = 180;
const ROUNDS: u64 = 5556;
const LIMIT: u128 = 10u128.pow(38);
const ONE: u128 = 10u128.pow(18);

type Addr = [u8; 20];

// As the program in Rattle keeps it: in place, with its length.
#[derive(Clone, Copy)]
struct Denom {
    bytes: [u8; 128],
    len: usize,
}

impl Denom {
    fn text(&self) -> &[u8] {
        &self.bytes[..self.len]
    }
}

#[derive(Clone, Copy)]
struct Coin {
    denom: Denom,
    amount: u128,
}

struct Historical {
    ratio: Vec<Coin>,
    count: u128,
}

#[derive(Clone, Copy)]
struct StartingInfo {
    period: u64,
    stake: u128,
    height: u64,
}

enum Fact {
    Period(Addr, u64, Vec<Coin>),
    Started(Addr, Addr, u64, u128),
}

#[derive(Default)]
struct F1 {
    current: BTreeMap<Addr, u64>,
    historical: BTreeMap<(Addr, u64), Historical>,
    starts: BTreeMap<(Addr, Addr), StartingInfo>,
}

// The sum of two lists in the order of their denominations.
fn sum(x: &[Coin], y: &[Coin]) -> Option<Vec<Coin>> {
    let mut out = Vec::with_capacity(x.len() + y.len());
    let (mut i, mut j) = (0, 0);
    while i < x.len() && j < y.len() {
        match x[i].denom.text().cmp(y[j].denom.text()) {
            std::cmp::Ordering::Less => {
                out.push(x[i]);
                i += 1;
            }
            std::cmp::Ordering::Greater => {
                out.push(y[j]);
                j += 1;
            }
            std::cmp::Ordering::Equal => {
                let amount = x[i].amount + y[j].amount;
                if amount >= LIMIT {
                    return None;
                }
                out.push(Coin { amount, ..x[i] });
                i += 1;
                j += 1;
            }
        }
    }
    out.extend_from_slice(&x[i..]);
    out.extend_from_slice(&y[j..]);
    Some(out)
}

impl F1 {
    fn init(&mut self, operator: Addr) {
        self.historical.insert((operator, 0), Historical { ratio: Vec::new(), count: 1 });
        self.current.insert(operator, 1);
    }

    fn release(&mut self, operator: Addr, period: u64) {
        if let Some(history) = self.historical.get_mut(&(operator, period)) {
            history.count -= 1;
            if history.count == 0 {
                self.historical.remove(&(operator, period));
            }
        }
    }

    fn end_period(&mut self, facts: &mut Vec<Fact>, operator: Addr, increment: &[Coin]) -> Option<u64> {
        let period = *self.current.get(&operator)?;
        let ratio = sum(&self.historical.get(&(operator, period - 1))?.ratio, increment)?;
        if period == ONE as u64 {
            return None;
        }
        let told = ratio.clone();
        self.historical.insert((operator, period), Historical { ratio, count: 1 });
        self.release(operator, period - 1);
        self.current.insert(operator, period + 1);
        facts.push(Fact::Period(operator, period, told));
        Some(period)
    }

    fn start(&mut self, facts: &mut Vec<Fact>, who: Addr, operator: Addr, stake: u128, height: u64) -> Option<()> {
        let period = *self.current.get(&operator)? - 1;
        self.starts.insert((operator, who), StartingInfo { period, stake, height });
        self.historical.get_mut(&(operator, period))?.count += 1;
        facts.push(Fact::Started(who, operator, period, stake));
        Some(())
    }

    fn stop(&mut self, who: Addr, operator: Addr) -> Option<()> {
        let info = self.starts.remove(&(operator, who))?;
        self.release(operator, info.period);
        Some(())
    }
}

fn atoms(amount: u128) -> Vec<Coin> {
    let mut bytes = [0; 128];
    bytes[..5].copy_from_slice(b"uatom");
    vec![Coin { denom: Denom { bytes, len: 5 }, amount }]
}

// The calls of the program in Rattle, each with its condition.
fn end(f: &mut F1, operator: Addr, increment: u128) -> bool {
    let increment = atoms(increment);
    let mut facts = Vec::new();
    f.current.contains_key(&operator) && f.end_period(&mut facts, operator, &increment).is_some()
}

fn start(f: &mut F1, who: Addr, operator: Addr, stake: u128, height: u64) -> bool {
    let mut facts = Vec::new();
    f.current.contains_key(&operator)
        && !f.starts.contains_key(&(operator, who))
        && f.start(&mut facts, who, operator, stake, height).is_some()
}

fn stop(f: &mut F1, who: Addr, operator: Addr) -> bool {
    f.starts.contains_key(&(operator, who)) && f.stop(who, operator).is_some()
}

fn told(name: &str, start: Instant, f: &F1, operator: Addr) {
    let period = f.current[&operator];
    let count = f.historical[&(operator, period - 1)].count;
    println!("{name} {} {period}/{count}", start.elapsed().as_nanos());
}

fn main() {
    let operators: Vec<Addr> = (1..=VALIDATORS).map(|byte| [byte; 20]).collect();
    let who = [200; 20];
    let mut f = F1::default();
    for operator in &operators {
        f.init(*operator);
    }
    let begin = Instant::now();
    for round in 0..ROUNDS {
        for operator in &operators {
            end(&mut f, *operator, round as u128);
        }
    }
    told("end_period", begin, &f, operators[0]);
    let begin = Instant::now();
    for round in 0..ROUNDS {
        for operator in &operators {
            start(&mut f, who, *operator, ONE, round);
            stop(&mut f, who, *operator);
        }
    }
    told("start_and_stop", begin, &f, operators[0]);
}
"""


def build_rattle():
    top = WORK / "rattle"
    for name in CRATES:
        shutil.copytree(TOP / "crates" / name, top / "crates" / name, ignore=shutil.ignore_patterns("must-fail", "out"))
    bench = top / "crates/period_bench"
    proofs = {"fresh/Answers.antt": FRESH}
    proofs |= {
        f"{name}/Invariants.antt": INVARIANT.replace("NAME", name).replace("VAR", var) for name, var in LOOPS.items()
    }
    proofs |= {
        f"{test}/Invariants.antt": GHOSTS.replace("NAME", test).replace("CALL", call) for test, call in TESTS.items()
    }
    for path, text in proofs.items():
        (bench / "proofs" / path).parent.mkdir(parents=True, exist_ok=True)
        (bench / "proofs" / path).write_text(text.lstrip())
    (bench / "src").mkdir()
    (bench / "src/lib.rt").write_text((HERE / "loops.txt").read_text())
    lines = [line for line in (TOP / "crates.txt").read_text().splitlines() if line.split(":")[0] in CRATES]
    lines.append("period_bench: base_decimals base_types base_coins base_roles mod_periods")
    (top / "crates.txt").write_text("\n".join(lines) + "\n")
    ran = subprocess.run(["rt", "test"], cwd=bench, stdin=subprocess.DEVNULL, capture_output=True, text=True)
    program = bench / "out/period_bench_tests"
    if not program.is_file():
        sys.exit(ran.stdout + ran.stderr)
    return str(program)


def build_stock():
    (WORK / "stock.rs").write_text(STOCK.lstrip())
    subprocess.run(
        ["rustc", "-O", "-C", "target-cpu=x86-64-v2", "-o", str(WORK / "stock"), str(WORK / "stock.rs")], check=True
    )
    return str(WORK / "stock")


def seconds(program, test):
    start = time.perf_counter()
    subprocess.run([program, test], capture_output=True, check=True)
    return time.perf_counter() - start


def main():
    rattle, stock = build_rattle(), build_stock()
    least = {}

    def note(name, call, nanos):
        least[name, call] = min(least.get((name, call), 10**18), nanos)

    for _ in range(RUNS):
        begins = seconds(rattle, "begins")
        note("Rattle", "end_period", (seconds(rattle, "ends") - begins) * 10**9)
        note("Rattle", "start_and_stop", (seconds(rattle, "turns") - begins) * 10**9)
        for line in subprocess.run([stock], capture_output=True, text=True, check=True).stdout.splitlines():
            call, nanos, _ = line.split()
            note("stock", call, int(nanos))
    pairs = 180 * 5556
    for call in ("end_period", "start_and_stop"):
        mine, other = least["Rattle", call], least["stock", call]
        print(f"{call}: {mine / pairs:.0f} ns, stock Rust {other / pairs:.0f} ns, ratio {mine / other:.2f}")


try:
    main()
finally:
    shutil.rmtree(WORK, ignore_errors=True)
