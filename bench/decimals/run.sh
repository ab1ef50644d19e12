#!/bin/bash
# Times calls of `base_decimals` beside the same operations in stock Rust: bench/decimals/run.sh [RUNS]
# Both programs make the same operands, of 10^12 to 10^24 units, and print for each call its nanoseconds and a
# sum of the results, which must agree. The least time of RUNS runs (7) counts. Wants `rt` and `rustc`, and works
# in a temporary folder.
set -euo pipefail
runs=${1:-7}
top=$(cd "$(dirname "$0")/../.." && pwd)
work=$(mktemp -d)
trap 'rm -rf "$work"' EXIT

mkdir -p "$work/rattle/crates/dec_bench/src"
cp -r "$top/crates/base_decimals" "$work/rattle/crates/base_decimals"
rm -rf "$work/rattle/crates/base_decimals/must-fail"
printf 'base_decimals:\ndec_bench: base_decimals anyhow\n' > "$work/rattle/crates.txt"
cat > "$work/rattle/crates/dec_bench/src/main.rt" <<'RATTLE'
#![tactic(auto)]

use anyhow::Result;
use std::alloc::{AllocError, Global};
use std::time::Instant;
use base_decimals::Dec;

const ROUNDS: u32 = 400;
const PAIRS: u32 = 4096;

#[derive(Drop)]
struct Random {
    state: u64,
}

impl Random {
    fn next(&mut self) -> u64 {
        let mut x = self.state;
        x ^= x.wrapping_shl(13);
        x ^= x >> 7;
        x ^= x.wrapping_shl(17);
        self.state = x;
        x
    }

    // A number of 13 to 24 digits, each length as likely as another.
    fn raw(&mut self) -> u128 {
        let mut least: u128 = 1_000_000_000_000;
        for _ in 0..self.next() % 12 {
            least = least.wrapping_mul(10);
        }
        let value = u128::from(self.next()).wrapping_shl(64) | u128::from(self.next());
        if least == 0 { 0 } else { least.wrapping_add(value % least) }
    }
}

fn operands(alloc: Global) -> Result<Vec<(Dec, Dec)>, AllocError> {
    let mut random = Random { state: 88_172_645_463_325_252 };
    let mut pairs = Vec::new(alloc);
    for _ in 0..PAIRS {
        let (a, b) = (random.raw(), random.raw());
        if let Some(a) = Dec::from_raw(a) && let Some(b) = Dec::from_raw(b) {
            pairs.push((a, b))?;
        }
    }
    Ok(pairs)
}

fn sum_mul_cut(pairs: &[(Dec, Dec)]) -> u128 {
    let mut sum: u128 = 0;
    for (a, b) in pairs {
        if let Ok(d) = a.mul_cut(*b) {
            sum = sum.wrapping_add(d.raw());
        }
    }
    sum
}

fn sum_mul_even(pairs: &[(Dec, Dec)]) -> u128 {
    let mut sum: u128 = 0;
    for (a, b) in pairs {
        if let Ok(d) = a.mul_even(*b) {
            sum = sum.wrapping_add(d.raw());
        }
    }
    sum
}

fn sum_quo_cut(pairs: &[(Dec, Dec)]) -> u128 {
    let mut sum: u128 = 0;
    for (a, b) in pairs {
        if b.raw() > 0 && let Ok(d) = a.quo_cut(*b) {
            sum = sum.wrapping_add(d.raw());
        }
    }
    sum
}

fn sum_quo_even(pairs: &[(Dec, Dec)]) -> u128 {
    let mut sum: u128 = 0;
    for (a, b) in pairs {
        if b.raw() > 0 && let Ok(d) = a.quo_even(*b) {
            sum = sum.wrapping_add(d.raw());
        }
    }
    sum
}

fn main(rt: HostRuntime) -> Result<()> {
    let pairs = operands(rt.alloc())?;
    let start = Instant::now(&rt)?;
    let mut sum: u128 = 0;
    for _ in 0..ROUNDS {
        sum = sum.wrapping_add(sum_mul_cut(&pairs));
    }
    println!(rt; "mul_cut {} {sum}", start.elapsed(&rt)?.as_nanos())?;
    let start = Instant::now(&rt)?;
    for _ in 0..ROUNDS {
        sum = sum.wrapping_add(sum_mul_even(&pairs));
    }
    println!(rt; "mul_even {} {sum}", start.elapsed(&rt)?.as_nanos())?;
    let start = Instant::now(&rt)?;
    for _ in 0..ROUNDS {
        sum = sum.wrapping_add(sum_quo_cut(&pairs));
    }
    println!(rt; "quo_cut {} {sum}", start.elapsed(&rt)?.as_nanos())?;
    let start = Instant::now(&rt)?;
    for _ in 0..ROUNDS {
        sum = sum.wrapping_add(sum_quo_even(&pairs));
    }
    println!(rt; "quo_even {} {sum}", start.elapsed(&rt)?.as_nanos())?;
    Ok(())
}
RATTLE

cat > "$work/stock.rs" <<'RUST'
use std::hint::black_box;
use std::time::Instant;

const ROUNDS: u32 = 400;
const PAIRS: u32 = 4096;
const LIMIT: u128 = 10u128.pow(38);
const ONE: u128 = 10u128.pow(18);
const BASE: u128 = 1 << 64;

// The product of two numbers as two halves, the low one first.
fn wide(a: u128, b: u128) -> (u128, u128) {
    let (a1, a0, b1, b0) = (a / BASE, a % BASE, b / BASE, b % BASE);
    let low = a0 * b0;
    let first = a0 * b1 + low / BASE;
    let second = a1 * b0 + first % BASE;
    (second % BASE * BASE + low % BASE, a1 * b1 + first / BASE + second / BASE)
}

// One digit of a long division, as Knuth has it.
fn digit(rest: u128, next: u128, divisor: u128) -> (u128, u128) {
    let (upper, lower) = (divisor / BASE, divisor % BASE);
    let mut quotient = rest / upper;
    let mut left = rest - quotient * upper;
    while quotient >= BASE || quotient * lower > left * BASE + next {
        quotient -= 1;
        left += upper;
        if left >= BASE {
            break;
        }
    }
    let value = rest.wrapping_mul(BASE).wrapping_add(next).wrapping_sub(quotient.wrapping_mul(divisor));
    (quotient, value)
}

fn mul_div(a: u128, b: u128, c: u128) -> Option<(u128, u128)> {
    let (quotient, rest) = match a.checked_mul(b) {
        Some(product) => (product / c, product % c),
        None => {
            let (low, high) = wide(a, b);
            if high >= c {
                return None;
            }
            let shift = c.leading_zeros();
            let divisor = c << shift;
            let top = high << shift | low >> (128 - shift);
            let bottom = low << shift;
            let (first, rest) = digit(top, bottom / BASE, divisor);
            let (second, rest) = digit(rest, bottom % BASE, divisor);
            (first * BASE + second, rest >> shift)
        }
    };
    (quotient < LIMIT).then_some((quotient, rest))
}

fn limited(raw: u128) -> Option<u128> {
    (raw < LIMIT).then_some(raw)
}

fn nearest(whole: u128, rest: u128) -> u128 {
    match (2 * rest).cmp(&ONE) {
        std::cmp::Ordering::Less => whole,
        std::cmp::Ordering::Greater => whole + 1,
        std::cmp::Ordering::Equal => whole + whole % 2,
    }
}

fn mul_cut(a: u128, b: u128) -> Option<u128> {
    limited(mul_div(a, b, ONE)?.0)
}

fn mul_even(a: u128, b: u128) -> Option<u128> {
    let (whole, rest) = mul_div(a, b, ONE)?;
    limited(nearest(whole, rest))
}

fn quo_cut(a: u128, b: u128) -> Option<u128> {
    limited(mul_div(a, ONE, b)?.0)
}

fn quo_even(a: u128, b: u128) -> Option<u128> {
    let (whole, rest) = mul_div(a, ONE, b)?;
    let (places, _) = mul_div(rest, ONE, b)?;
    limited(nearest(whole, places))
}

struct Random(u64);

impl Random {
    fn next(&mut self) -> u64 {
        self.0 ^= self.0 << 13;
        self.0 ^= self.0 >> 7;
        self.0 ^= self.0 << 17;
        self.0
    }

    fn raw(&mut self) -> u128 {
        let least = 10u128.pow(12 + (self.next() % 12) as u32);
        let value = (self.next() as u128) << 64 | self.next() as u128;
        least + value % least
    }
}

fn timed(name: &str, pairs: &[(u128, u128)], sum: &mut u128, call: impl Fn(u128, u128) -> Option<u128>) {
    let start = Instant::now();
    for _ in 0..ROUNDS {
        for &(a, b) in black_box(pairs) {
            if let Some(raw) = call(a, b) {
                *sum = sum.wrapping_add(raw);
            }
        }
    }
    println!("{name} {} {sum}", start.elapsed().as_nanos());
}

fn main() {
    let mut random = Random(88_172_645_463_325_252);
    let pairs: Vec<_> = (0..PAIRS).map(|_| (random.raw(), random.raw())).collect();
    let mut sum = 0;
    timed("mul_cut", &pairs, &mut sum, mul_cut);
    timed("mul_even", &pairs, &mut sum, mul_even);
    timed("quo_cut", &pairs, &mut sum, quo_cut);
    timed("quo_even", &pairs, &mut sum, quo_even);
}
RUST

rustc -O -C target-cpu=x86-64-v2 -o "$work/stock" "$work/stock.rs"
(cd "$work/rattle/crates/dec_bench" && rt run > "$work/first.txt") || { cat "$work/first.txt"; exit 1; }
program=$(find "$work/rattle/crates/dec_bench/out" -type f -executable -name 'dec_bench*' | head -n 1)
for _ in $(seq "$runs"); do
    "$program" >> "$work/rattle.txt"
    "$work/stock" >> "$work/stock.txt"
done
python3 - "$work/rattle.txt" "$work/stock.txt" <<'PYTHON'
import sys
def least(name):
    times, sums = {}, {}
    for line in open(name):
        call, nanos, total = line.split()
        times[call] = min(times.get(call, 10**18), int(nanos))
        sums.setdefault(call, set()).add(total)
    return times, sums
rattle, rattle_sums = least(sys.argv[1])
stock, stock_sums = least(sys.argv[2])
assert rattle_sums == stock_sums, "the sums differ"
calls = 400 * 4096
for call in stock:
    print(f"{call}: {rattle[call] / calls:.1f} ns, stock Rust {stock[call] / calls:.1f} ns, ratio {rattle[call] / stock[call]:.2f}")
PYTHON
