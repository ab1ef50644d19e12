#!/usr/bin/env python3
"""Times the table of balances before and after a change, beside stock Rust: bench/tables/run.py REVISION [RUNS]

One program in Rattle is built twice, over `base_table` as it stands in REVISION and as it stands here, and one in stock
Rust, whose map has a stamp at each place. All go over 1,000 and over 30,000 balances by account and denomination:

  looks    ten look-ups
  puts     a mark, ten puts of balances that exist, forgotten and settled
  again    a mark, ten puts of one balance, forgotten and settled
  comes    a mark, a balance is taken out and put again, forgotten and settled
  back     a mark, ten puts, gone back and settled

They run alternately, and the least processor time of RUNS runs (9) counts, in nanoseconds for a round. Wants `rt`, which
proves the crates where that was not done before, and `rustc`, and works in a temporary folder."""
import pathlib, re, shutil, subprocess, sys, tempfile

REVISION = sys.argv[1]
RUNS = int(sys.argv[2]) if len(sys.argv) > 2 else 9
TOP = pathlib.Path(__file__).resolve().parents[2]
WORK = pathlib.Path(tempfile.mkdtemp(prefix="tables-"))

PROGRAM = """#![tactic(auto)]

ghost use Rattle.std.specs.Prelude.{◌≡◌, ◌<◌, [], IfOk};

use base_table::Table;
use base_types::{Account, Denom, Steps, TableFault};
use std::alloc::Global;
use std::io;
use std::marker::Brand;
use std::sync::ledger::{Blank, Ledger};
use std::time::CpuClock;

const ROUNDS: u32 = 20_000;

type Key = (Account, Denom);
type Balances = Table<Key, u128>;

#[derive(Drop)]
struct Random {
    state: u64,
}

impl Random {
    fn next(&mut self) -> u64 {
        let mut x = self.state;
        x ^= x.wrapping_shl(13);
        x ^= x >> 7;
        x ^= x.wrapping_shl(17);
        self.state = x;
        x
    }

    fn account(&mut self) -> Account {
        let mut bytes = [0u8; 20];
        for byte in bytes.iter_mut() {
            *byte = (self.next() % 256) as u8;
        }
        Account::of(bytes)
    }

    fn of<'a>(&mut self, keys: &'a [Key]) -> Option<&'a Key> {
        let count = keys.len() as u64;
        let place = if count == 0 { 0 } else { self.next() % count };
        keys.get(place as usize)
    }
}

fn keys(alloc: Global, denom: &Denom, count: u32) -> io::Result<Vec<Key>> {
    let mut random = Random { state: 123_456_789_123 };
    let mut keys = Vec::new(alloc);
    for _ in 0..count {
        keys.push((random.account(), *denom))?;
    }
    Ok(keys)
}

fn filled<L: Ledger>(
    alloc: Global,
    keys: &[Key],
    steps: &mut Steps<L>,
) -> Result<Balances, TableFault>
    ensures { IfOk result (λ table. table.marks ≡ []) }
{
    let mut table: Balances = Table::new(alloc);
    for key in keys {
        table.put(key, 1_000_000, steps)?;
    }
    table.settle();
    Ok(table)
}

fn looks<L: Ledger>(
    table: &Balances,
    keys: &[Key],
    random: &mut Random,
    steps: &mut Steps<L>,
) -> u128 {
    let mut sum: u128 = 0;
    for _ in 0..10u8 {
        if let Some(key) = random.of(keys) {
            if let Some(amount) = table.get(key, steps) {
                sum = sum.wrapping_add(*amount);
            }
        }
    }
    sum
}

fn puts<L: Ledger>(
    table: &mut Balances,
    keys: &[Key],
    random: &mut Random,
    steps: &mut Steps<L>,
) -> Result<(), TableFault>
    ensures { table.new.marks ≡ table.old.marks }
{
    for _ in 0..10u8 {
        if let Some(key) = random.of(keys) {
            let value = u128::from(random.next());
            table.put(key, value, steps)?;
        }
    }
    Ok(())
}

fn again<L: Ledger>(
    table: &mut Balances,
    key: &Key,
    steps: &mut Steps<L>,
) -> Result<(), TableFault>
    ensures { table.new.marks ≡ table.old.marks }
{
    for value in 0..10u128 {
        table.put(key, value, steps)?;
    }
    Ok(())
}

fn comes<L: Ledger>(
    table: &mut Balances,
    key: &Key,
    steps: &mut Steps<L>,
) -> Result<(), TableFault>
    ensures { table.new.marks ≡ table.old.marks }
{
    table.remove(key, steps)?;
    table.put(key, 7, steps)
}

fn round<L: Ledger>(
    kind: u8,
    table: &mut Balances,
    keys: &[Key],
    random: &mut Random,
    steps: &mut Steps<L>,
) -> Result<(), TableFault>
    requires { table.old.marks ≡ [] }
    ensures { table.new.marks ≡ [] }
{
    table.mark()?;
    let one = random.of(keys);
    let done = match (kind, one) {
        (1, Some(key)) => again(table, key, steps),
        (2, Some(key)) => comes(table, key, steps),
        _ => puts(table, keys, random, steps),
    };
    if kind == 3 { table.back() } else { table.forget() }
    table.settle();
    done
}

fn rounds<L: Ledger>(
    kind: u8,
    table: &mut Balances,
    keys: &[Key],
    steps: &mut Steps<L>,
) -> Result<(), TableFault>
    requires { table.old.marks ≡ [] }
    ensures { table.new.marks ≡ [] }
{
    let mut random = Random { state: 88_172_645_463_325_252 };
    for _ in 0..ROUNDS {
        round(kind, table, keys, &mut random, steps)?;
    }
    Ok(())
}

fn only_looks<L: Ledger>(table: &Balances, keys: &[Key], steps: &mut Steps<L>) -> u128 {
    let mut random = Random { state: 88_172_645_463_325_252 };
    let mut sum: u128 = 0;
    for _ in 0..ROUNDS {
        sum = sum.wrapping_add(looks(table, keys, &mut random, steps));
    }
    sum
}

fn timed<L: Ledger>(rt: &HostRuntime, denom: &Denom, steps: &mut Steps<L>, count: u32) -> io::Result<()> {
    let keys = keys(rt.alloc(), denom, count)?;
    let Ok(mut table) = filled(rt.alloc(), &keys, steps) else {
        return Ok(());
    };
    let mut last = rt.thread_cpu_time()?.as_nanos();
    let mut sum = only_looks(&table, &keys, steps);
    for kind in 0..5u8 {
        let now = rt.thread_cpu_time()?.as_nanos();
        let each = now.saturating_sub(last) / u128::from(ROUNDS);
        println!(rt; "{count} {kind} {each} {sum}")?;
        if kind < 4 && rounds(kind, &mut table, &keys, steps).is_err() {
            return Ok(());
        }
        sum = only_sum(&table, &keys, steps);
        last = now;
    }
    Ok(())
}

fn only_sum<L: Ledger>(table: &Balances, keys: &[Key], steps: &mut Steps<L>) -> u128 {
    let mut random = Random { state: 1 };
    looks(table, keys, &mut random, steps)
}

fn run<L: Ledger>(rt: &HostRuntime, blank: Blank) -> io::Result<()>
    requires name { blank.name ≡ L.name }
    requires parts { blank.parts ≡ L.parts }
    requires some { 0 < L.parts }
{
    let mut steps: Steps<L> = Steps::new(blank);
    if let Some(denom) = Denom::of(b"uatom") {
        timed(rt, &denom, &mut steps, 1_000)?;
        timed(rt, &denom, &mut steps, 30_000)?;
    }
    Ok(())
}

fn main(rt: HostRuntime) -> io::Result<()> {
    run::<Brand>(&rt, Blank::new(1))
}
"""

LOOPS = {
    "filled/Invariants.antt": ("filled", "invariant-loop-key", "l.table.marks ≡ []"),
    "puts/Invariants.antt": ("puts", "invariant-loop", "l.table.marks ≡ l.fn.table.marks"),
    "again/Invariants.antt": ("again", "invariant-loop-value", "l.table.marks ≡ l.fn.table.marks"),
    "rounds/Invariants.antt": ("rounds", "invariant-loop", "l.table.marks ≡ []"),
    "timed/Invariants.antt": ("timed", "invariant-loop-kind", "l.table.marks ≡ []"),
}

KINDS = ["looks", "puts", "again", "comes", "back"]


def crate(name, revision):
    """The program over `base_table` of a revision, or of this tree for None."""
    top = WORK / name
    crates = top / "crates"
    crates.mkdir(parents=True)
    if revision:
        archive = subprocess.run(["git", "-C", TOP, "archive", revision, "crates.txt", "crates/base_table", "crates/base_types"],
                                 check=True, capture_output=True).stdout
        subprocess.run(["tar", "-x", "-C", top], input=archive, check=True)
    else:
        for it in ("base_table", "base_types"):
            shutil.copytree(TOP / "crates" / it, crates / it, ignore=shutil.ignore_patterns("out", "must-fail"))
        shutil.copy(TOP / "crates.txt", top)
    lines = [l for l in (top / "crates.txt").read_text().splitlines() if re.match(r"base_(table|types):", l)]
    (top / "crates.txt").write_text("\n".join(lines + ["table_bench: base_table base_types"]) + "\n")
    bench = crates / "table_bench"
    (bench / "src").mkdir(parents=True)
    (bench / "src" / "main.rt").write_text(PROGRAM)
    for path, (function, loop, fact) in LOOPS.items():
        (bench / "proofs" / path).parent.mkdir(parents=True)
        (bench / "proofs" / path).write_text(
            f"use Rattle.std.proofs.Common.{{◌≡◌, []}}\nuse Rattle.table_bench.proofs.{function}.Given as goal\n\n"
            f"abbrev pub {loop} : goal.{loop}\n{loop} g l = {fact}\n")
    subprocess.run(["rt", "run"], cwd=bench, check=True, stdout=subprocess.DEVNULL)
    return next(p for p in (bench / "out").rglob("table_bench*") if p.is_file() and p.stat().st_mode & 0o111)


STOCK = """
use std::collections::BTreeMap;
use std::mem;

const ROUNDS: u32 = 20_000;

#[derive(Clone, Copy, PartialEq, Eq, PartialOrd, Ord)]
struct Key([u8; 21], [u8; 128], u8);

struct Place { value: Option<u128>, stamp: u64 }

#[derive(Default)]
struct Table {
    tree: BTreeMap<Key, Place>,
    log: Vec<(Key, Option<u128>)>,
    touched: Vec<(Key, Option<u128>)>,
    now: u64,
}

impl Table {
    fn get(&self, key: &Key) -> Option<&u128> {
        self.tree.get(key).and_then(|place| place.value.as_ref())
    }

    fn change(&mut self, key: &Key, value: Option<u128>) -> Option<u128> {
        let place = self.tree.entry(*key).or_insert(Place { value: None, stamp: 0 });
        let before = mem::replace(&mut place.value, value);
        if place.stamp != self.now {
            place.stamp = self.now;
            self.touched.push((*key, before));
        }
        self.log.push((*key, before));
        before
    }

    fn close(&mut self, back: bool) {
        while let Some((key, before)) = self.log.pop() {
            if back && let Some(place) = self.tree.get_mut(&key) {
                place.value = before;
            }
        }
        for (key, _) in self.touched.drain(..) {
            if self.tree.get(&key).is_some_and(|place| place.value.is_none()) {
                self.tree.remove(&key);
            }
        }
        self.now += 1;
    }
}

struct Random(u64);

impl Random {
    fn next(&mut self) -> u64 {
        self.0 ^= self.0 << 13;
        self.0 ^= self.0 >> 7;
        self.0 ^= self.0 << 17;
        self.0
    }

    fn of<'a>(&mut self, keys: &'a [Key]) -> &'a Key {
        &keys[(self.next() % keys.len() as u64) as usize]
    }
}

fn nanos() -> u128 {
    let mut time = Timespec { sec: 0, nsec: 0 };
    unsafe { clock_gettime(3, &mut time) };
    time.sec as u128 * 1_000_000_000 + time.nsec as u128
}

#[repr(C)]
struct Timespec { sec: i64, nsec: i64 }

unsafe extern "C" { fn clock_gettime(clock: i32, time: *mut Timespec) -> i32; }

fn looks(table: &Table, keys: &[Key], random: &mut Random) -> u128 {
    (0..10).map(|_| table.get(random.of(keys)).copied().unwrap_or(0)).fold(0, u128::wrapping_add)
}

fn main() {
    for count in [1_000, 30_000] {
        let mut random = Random(123_456_789_123);
        let mut denom = [0; 128];
        denom[..5].copy_from_slice(b"uatom");
        let keys: Vec<Key> = (0..count).map(|_| {
            let mut bytes = [0; 21];
            for byte in &mut bytes[..20] { *byte = (random.next() % 256) as u8; }
            Key(bytes, denom, 5)
        }).collect();
        let mut table = Table { now: 1, ..Table::default() };
        for key in &keys { table.change(key, Some(1_000_000)); }
        table.close(false);
        let mut last = nanos();
        let mut random = Random(88_172_645_463_325_252);
        let mut sum = (0..ROUNDS).map(|_| looks(&table, &keys, &mut random)).fold(0, u128::wrapping_add);
        for kind in 0..5 {
            let now = nanos();
            println!("{count} {kind} {} {sum}", (now - last) / ROUNDS as u128);
            if kind < 4 {
                let mut random = Random(88_172_645_463_325_252);
                for _ in 0..ROUNDS {
                    let key = random.of(&keys);
                    match kind {
                        1 => for value in 0..10 { table.change(key, Some(value)); },
                        2 => { table.change(key, None); table.change(key, Some(7)); }
                        _ => for _ in 0..10 {
                            let key = random.of(&keys);
                            let value = random.next() as u128;
                            table.change(key, Some(value));
                        },
                    }
                    table.close(kind == 3);
                }
            }
            sum = looks(&table, &keys, &mut Random(1));
            last = now;
        }
    }
}
"""


def rows(program):
    text = subprocess.run([program], check=True, capture_output=True, text=True).stdout
    return [line.split() for line in text.splitlines()]


def main():
    (WORK / "stock.rs").write_text(STOCK)
    subprocess.run(["rustc", "--edition", "2024", "-O", "-C", "target-cpu=x86-64-v2", "-o", WORK / "stock", WORK / "stock.rs"], check=True)
    programs = {"before": crate("before", REVISION), "now": crate("now", None), "stock": WORK / "stock"}
    least, sums = {}, {}
    for _ in range(RUNS):
        for name, program in programs.items():
            for count, kind, nanos, total in rows(program):
                key = (count, kind, name)
                least[key] = min(least.get(key, 1 << 60), int(nanos))
                if sums.setdefault((count, kind), total) != total:
                    sys.exit(f"the sums of {count} {KINDS[int(kind)]} differ: {name} has {total}")
    print("balances  round  before  now  stock  now/before  now/stock")
    for count in ("1000", "30000"):
        for kind, what in enumerate(KINDS):
            before, now, stock = (least[count, str(kind), name] for name in programs)
            print(f"{count:>8}  {what:5}  {before:6}  {now:5}  {stock:5}  {now / before:10.2f}  {now / stock:9.2f}")


if __name__ == "__main__":
    try:
        main()
    finally:
        shutil.rmtree(WORK)
