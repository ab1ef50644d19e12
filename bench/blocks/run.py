#!/usr/bin/env python3
"""Times reading, writing and replaying blocks beside stock Rust: bench/blocks/run.py [RUNS] [--hexadecimal]

Makes inputs of 1,000, 10,000 and 100,000 blocks, each with a transaction of four sends and a fee. Four programs go
over them, alternately, and the least processor time of RUNS runs (3) counts, which other work on the machine changes less
than the time by the clock:

  stock    a program of stock Rust: each line is parsed to `serde_json::Value` and written back
  read     `read_block` of each line
  lines    the same, and the lines of a report of its sends, without a chain
  replay   `stakeplay - replay`

The last three go over the same input once more with addresses as explorers print them, behind the word `bech32`, but
under `--hexadecimal`.

Of a replay it also tells the most memory, and when the first line is written where the input is piped in slowly. Then
it tells what a replay takes, of sends and of blocks with 100 votes each: `read` is its reading, `lines` without `read`
its writing, and the rest is applying; and, where `perf` is there, the functions in which most time goes by.

The program is built with the others, or is the one that the variable STAKEPLAY names. Wants `rt`, `cargo` and Debian's
librust-serde-json-dev (and linux-perf), and works in a temporary folder. `rt run` proves the crates where that was not
done before; libraries that stand built beside their crates are taken along."""
import functools, hashlib, os, pathlib, re, shutil, subprocess, sys, tempfile, time

RUNS = next((int(word) for word in sys.argv[1:] if word.isdigit()), 3)
HEXADECIMAL = "--hexadecimal" in sys.argv
BUILT = os.environ.get("STAKEPLAY")
TOP = pathlib.Path(__file__).resolve().parents[2]
WORK = pathlib.Path(tempfile.mkdtemp(prefix="blocks-"))
ACCOUNTS = 1000
VOTERS = 100

PARAMS = (
    '"params":{"bond_denom":"uatom","power_reduction":1000000,"unbonding_time":1814400,"max_validators":180,'
    '"max_entries":7,"min_commission_rate":"0","community_tax":"0.02","withdraw_addr_enabled":true,'
    '"signed_blocks_window":10000,"min_signed_per_window":"0.05","downtime_jail_duration":600,'
    '"slash_fraction_double_sign":"0.05","slash_fraction_downtime":"0.0001","max_age_duration":172800,'
    '"max_age_num_blocks":100000,"authority":"9999999999999999999999999999999999999999"}'
)

STOCK = """
use std::io::{self, BufRead, BufReader, BufWriter, Write};

fn main() -> io::Result<()> {
    let mut input = BufReader::new(io::stdin());
    let mut output = BufWriter::new(io::stdout());
    let mut line = Vec::new();
    loop {
        line.clear();
        if input.read_until(b'\\n', &mut line)? == 0 {
            return output.flush();
        }
        let value: serde_json::Value = serde_json::from_slice(&line).expect("a line of JSON");
        serde_json::to_writer(&mut output, &value)?;
        output.write_all(b"\\n")?;
    }
}
"""

# The crate in which both programs in Rattle are written, but for what is done with a block.
AROUND = """
#![tactic(auto)]

use anyhow::Result;
use json::Scratch;
use memchr::memchr_iter;
use std::alloc::{AllocError, Global};
use std::io::{Read, Write};
use base_bech32::Form;
use line_json::{push_lines_of_block, read_block};
use base_roles::{Fact, Facts, Listed};
use base_messages::{Block, BlockReport, LineFault, Msg, Outcome, Tx, TxReport};
use base_types::{Account, Copied, Module};
BODY
fn main(rt: HostRuntime) -> Result<()> {
    let alloc = rt.alloc();
    let mut scratch = Scratch::new(alloc);
    let mut input = Vec::new(alloc);
    rt.stdin().read_to_end(&mut input)?;
    let mut output = rt.stdout();
    let mut text = Vec::new(alloc);
    let mut start = 0;
    for end in memchr_iter(b'\\n', &input) {
        if let Some(line) = input.get(start..end) {
            text.clear();
            if answer(alloc, &mut scratch, line, &mut text).is_ok() {
                output.write_all(&text)?;
            }
        }
        start = end.saturating_add(1);
    }
    output.flush()?;
    Ok(())
}
"""

READ = """
fn answer(
    alloc: Global,
    scratch: &mut Scratch,
    line: &[u8],
    _text: &mut Vec<u8>,
) -> Result<(), LineFault> {
    let _block = read_block(Form::FORM, alloc, scratch, line)?;
    Ok(())
}
"""

LINES = """
fn facts_of(alloc: Global, tx: &Tx) -> Result<Facts, LineFault> {
    let mut facts = Vec::new(alloc);
    facts.push(Fact::Transfer {
        from: Account::User(tx.payer),
        to: Account::Module(Module::FeeCollector),
        coins: tx.fee.copied()?,
    })?;
    for msg in tx.msgs.as_slice() {
        if let Msg::Send(send) = msg {
            facts.push(Fact::Transfer {
                from: Account::User(send.from),
                to: send.to,
                coins: send.coins.copied()?,
            })?;
        }
    }
    Ok(Facts::of(facts))
}

fn report_of(alloc: Global, block: &Block) -> Result<BlockReport, LineFault> {
    let mut txs = Vec::new(alloc);
    for tx in block.txs.as_slice() {
        txs.push(TxReport {
            facts: facts_of(alloc, tx)?,
            outcome: Outcome::Accepted,
        })?;
    }
    Ok(BlockReport {
        height: block.height,
        time: block.time,
        begun: Facts::new(alloc),
        txs: Listed::of(txs),
        ended: Facts::new(alloc),
    })
}

fn answer(
    alloc: Global,
    scratch: &mut Scratch,
    line: &[u8],
    text: &mut Vec<u8>,
) -> Result<(), LineFault> {
    let block = read_block(Form::FORM, alloc, scratch, line)?;
    let report = report_of(alloc, &block)?;
    push_lines_of_block(Form::FORM, alloc, text, &report)
}
"""


LETTERS = "qpzry9x8gf2tvdw0s3jn54khce6mua7l"
BROUGHT = 0x3B6A57B2, 0x26508E6D, 0x1EA119FA, 0x3D4233DD, 0x2A1462B3
PREFIXES = {"cons": "cosmosvalcons"} | dict.fromkeys(("operator", "validator", "source", "target"), "cosmosvaloper")


def residue(values):
    """The residue of a list of values (BIP 173)."""
    rest = 1
    for value in values:
        high, rest = rest >> 25, (rest & 0x1FFFFFF) << 5 ^ value
        for place, number in enumerate(BROUGHT):
            rest ^= number if high >> place & 1 else 0
    return rest


@functools.cache
def spelling(prefix, digits):
    """The spelling of an address of forty hexadecimal digits behind a prefix."""
    values = [int(digits, 16) >> 5 * place & 31 for place in range(31, -1, -1)]
    letters = [ord(letter) for letter in prefix]
    front = [c >> 5 for c in letters] + [0] + [c & 31 for c in letters]
    check = residue(front + values + [0] * 6) ^ 1
    return prefix + "1" + "".join(LETTERS[v] for v in values + [check >> 5 * place & 31 for place in range(5, -1, -1)])


def spelled(path):
    """A copy of an input in which each address is a spelling."""
    def spell(found):
        return f'"{found[1]}":"{spelling(PREFIXES.get(found[1], "cosmos"), found[2])}"'
    copy = path.with_suffix(".bech32")
    with open(path) as lines, open(copy, "w") as out:
        for line in lines:
            out.write(re.sub('"(\\w+)":"([0-9a-f]{40})"', spell, line))
    return copy


def address(number):
    """Twenty bytes of a hash, as addresses of users are."""
    return hashlib.sha256(str(number).encode()).hexdigest()[:40]


def genesis(validators, delegations):
    accounts = ",".join(
        f'{{"address":"{address(n)}","coins":[{{"denom":"uatom","amount":"1000000000000"}}]}}' for n in range(ACCOUNTS)
    )
    return (
        f'{{"kind":"genesis","time":"2024-01-01T00:00:00Z",{PARAMS},"accounts":[{accounts}],'
        f'"validators":[{",".join(validators)}],"delegations":[{",".join(delegations)}]}}\n'
    )


def block(height, votes, txs):
    return (
        f'{{"kind":"block","height":{height},"time":"2024-01-01T00:00:05Z","votes":[{",".join(votes)}],"evidence":[],'
        f'"txs":[{",".join(txs)}]}}\n'
    )


def make_sends(path, blocks):
    """Each block has a transaction of four sends and a fee."""
    with open(path, "w") as out:
        out.write(genesis([], []))
        draw = 1
        for height in range(1, blocks + 1):
            sends = []
            for _ in range(4):
                draw = (draw * 6364136223846793005 + 1442695040888963407) % 2**64
                source, target = draw >> 33, draw >> 17
                sends.append(
                    f'{{"kind":"send","from":"{address(source % ACCOUNTS)}","to":"{address(target % ACCOUNTS)}",'
                    f'"coins":[{{"denom":"uatom","amount":"{1 + draw % 999}"}}]}}'
                )
            payer = address(height % ACCOUNTS)
            tx = f'{{"payer":"{payer}","fee":[{{"denom":"uatom","amount":"5"}}],"msgs":[{",".join(sends)}]}}'
            out.write(block(height, [], [tx]))


def make_votes(path, blocks):
    """Each block after the first has a vote of each of 100 validators."""
    validators = [
        f'{{"operator":"{address(n)}","cons":"{address(-1 - n)}","rate":"0.1","max_rate":"0.2","max_change_rate":"0.01",'
        '"min_self_delegation":"1"}'
        for n in range(VOTERS)
    ]
    delegations = [
        f'{{"delegator":"{address(n)}","validator":"{address(n)}","amount":"10000000"}}' for n in range(VOTERS)
    ]
    votes = [f'{{"cons":"{address(-1 - n)}","power":10,"signed":true}}' for n in range(VOTERS)]
    with open(path, "w") as out:
        out.write(genesis(validators, delegations))
        for height in range(1, blocks + 1):
            out.write(block(height, votes if height > 1 else [], []))


def build_stock():
    folder = WORK / "stock"
    (folder / "src").mkdir(parents=True)
    (folder / "src/main.rs").write_text(STOCK)
    (folder / "Cargo.toml").write_text(
        '[package]\nname = "stock"\nversion = "0.1.0"\nedition = "2021"\n[dependencies]\nserde_json = "1"\n'
    )
    (folder / ".cargo").mkdir()
    (folder / ".cargo/config.toml").write_text(
        '[source.crates-io]\nreplace-with = "debian"\n[source.debian]\ndirectory = "/usr/share/cargo/registry"\n'
    )
    subprocess.run(["cargo", "build", "--release", "--offline", "--quiet"], cwd=folder, check=True)
    return [str(folder / "target/release/stock")]


def build_rattle():
    top = WORK / "rattle"
    shutil.copytree(TOP / "crates", top / "crates", symlinks=True, ignore=shutil.ignore_patterns("must-fail"))
    lines = [(TOP / "crates.txt").read_text().rstrip()]
    for name, body, form in (("read_bench", READ, "Hex"), ("line_bench", LINES, "Hex"),
                             ("spelled_read_bench", READ, "Bech32"), ("spelled_line_bench", LINES, "Bech32")):
        (top / "crates" / name / "src").mkdir(parents=True)
        (top / "crates" / name / "src/main.rt").write_text(
            AROUND.lstrip().replace("BODY\n", body).replace("FORM", form)
        )
        (top / "crates" / name / "stdin").write_text("")
        lines.append(f"{name}: base_types base_bech32 base_coins base_roles base_messages line_json json memchr anyhow")
    (top / "crates.txt").write_text("\n".join(lines) + "\n")
    programs = []
    spelled = [] if HEXADECIMAL else ["spelled_read_bench", "spelled_line_bench"]
    for name in ["read_bench", "line_bench", *spelled, *([] if BUILT else ["stakeplay"])]:
        ran = subprocess.run(
            ["rt", "run"], cwd=top / "crates" / name, stdin=subprocess.DEVNULL, capture_output=True, text=True
        )
        found = [p for p in (top / "crates" / name / "out").rglob(f"{name}*") if p.is_file() and os.access(p, os.X_OK)]
        if not found:
            sys.exit(ran.stdout + ran.stderr)
        programs.append(str(found[0]))
    program = BUILT or programs[-1]
    hexadecimal = {"read": [programs[0]], "lines": [programs[1]], "replay": [program, "-", "replay"]}
    if HEXADECIMAL:
        return hexadecimal, {}
    return hexadecimal, {"read": [programs[2]], "lines": [programs[3]], "replay": [program, "-", "bech32", "replay"]}


def timed(command, path):
    """Processor seconds of one run over the file, or None where the program refuses it."""
    with open(path, "rb") as source, open(os.devnull, "wb") as sink:
        process = subprocess.Popen(command, stdin=source, stdout=sink)
        _, status, used = os.wait4(process.pid, 0)
        process.returncode = os.waitstatus_to_exitcode(status)
    return used.ru_utime + used.ru_stime if process.returncode == 0 else None


def memory(command, path):
    """The most memory in kB of one run over the file, as the system tells it while it runs."""
    most = 0
    with open(path, "rb") as source, open(os.devnull, "wb") as sink:
        process = subprocess.Popen(command, stdin=source, stdout=sink)
        while process.poll() is None:
            try:
                lines = pathlib.Path(f"/proc/{process.pid}/status").read_text().splitlines()
            except OSError:
                break
            # Before it is the program, the process is a copy of this one.
            if lines[0].split()[1] == pathlib.Path(command[0]).name[:15]:
                most = max([most] + [int(line.split()[1]) for line in lines if line.startswith("VmHWM")])
            time.sleep(0.001)
        process.wait()
    return most


def first_line(command, path):
    """Seconds to the first written byte where the genesis and a block come first, and the rest 2 seconds later."""
    process = subprocess.Popen(command, stdin=subprocess.PIPE, stdout=subprocess.PIPE)
    with open(path, "rb") as source:
        lines = source.readlines()[:100]
    start = time.perf_counter()
    process.stdin.write(b"".join(lines[:2]))
    process.stdin.flush()
    os.read(process.stdout.fileno(), 1)
    seconds = time.perf_counter() - start
    process.stdin.write(b"".join(lines[2:]))
    process.communicate()
    return seconds


def least(programs, path):
    """The least seconds of RUNS runs of each program over the file, alternately; None where it refuses it."""
    seconds = {name: [] for name in programs}
    for _ in range(RUNS):
        for name, command in programs.items():
            seconds[name].append(timed(command, path))
    return {name: None if None in times else min(times) for name, times in seconds.items()}


def profile(what, seconds, blocks, told):
    """A row of the table of what a replay takes; `told`: the lines without a chain are those of the replay."""
    parts = {"reading": seconds["read"]}
    if seconds["replay"] is None:
        parts["applying and writing"] = None
    elif told:
        parts["applying"] = seconds["replay"] - seconds["lines"]
        parts["writing"] = seconds["lines"] - seconds["read"]
    else:
        parts["applying and writing"] = seconds["replay"] - seconds["read"]
    parts["stock"] = seconds["stock"]
    for name, part in parts.items():
        text = "   refused" if part is None else f"{part / blocks * 1e6:10.2f}"
        print(f"{what:<12} {name:<21} {text}   microseconds for each block")


def functions(command, path):
    """The functions in which most of a replay's time goes by, as `perf` samples them."""
    record = str(WORK / "perf.data")
    with open(path, "rb") as source, open(os.devnull, "wb") as sink:
        subprocess.run(
            ["perf", "record", "-q", "-e", "cpu-clock", "-F", "2000", "-o", record, "--", *command],
            stdin=source,
            stdout=sink,
            check=True,
        )
    told = subprocess.run(
        ["perf", "report", "-i", record, "--stdio", "--no-children", "-q", "-F", "overhead,sym"],
        capture_output=True,
        text=True,
    )
    print("\n".join([line.rstrip() for line in told.stdout.splitlines() if line.strip()][:20]))


def main():
    hexadecimal, in_bech32 = build_rattle()
    programs = {"stock": build_stock(), **hexadecimal}
    print("blocks      program   seconds   of stock   most memory")
    for blocks in (1000, 10000, 100000):
        path = WORK / f"{blocks}.jsonl"
        make_sends(path, blocks)
        sends = least(programs, path)
        for name, seconds in sends.items():
            most = memory(programs[name], path)
            print(f"{blocks:<11} {name:<9} {seconds:7.3f}   {seconds / sends['stock']:8.2f}   {most / 1024:8.1f} MB")
        for name, seconds in least(in_bech32, spelled(path)).items() if in_bech32 else ():
            print(f"{blocks:<11} {name:<9} {seconds:7.3f}   {seconds / sends[name]:8.2f} of the same without `bech32`")
    first = min(first_line(programs["replay"], WORK / "1000.jsonl") for _ in range(RUNS))
    print(f"first line of a piped replay after {first * 1000:.1f} ms")
    profile("sends", sends, 100000, True)
    make_votes(WORK / "votes.jsonl", 10000)
    profile("100 votes", least(programs, WORK / "votes.jsonl"), 10000, False)
    if shutil.which("perf"):
        functions(programs["replay"], WORK / "100000.jsonl")


if __name__ == "__main__":
    try:
        main()
    finally:
        shutil.rmtree(WORK, ignore_errors=True)
