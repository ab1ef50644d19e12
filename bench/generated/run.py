#!/usr/bin/env python3
"""Times the generated input, its replay and its trial: bench/generated/run.py [RUNS]

The program that `.ci/run` (or `rt run`) built, or that the variable STAKEPLAY names, runs over seed 7 with 1,000, 10,000
and 100,000 blocks, and the least processor time of RUNS runs (3) counts:

  gen        `stakeplay - gen 7 COUNT`
  replay     `stakeplay - replay` over what it writes
  trial      `stakeplay - trial 7 COUNT`
  baseline   a program of stock Rust, which parses each line of the same input to a `serde_json::Value` and writes the lines
             of the same output from values, without any accounting; making these values is not counted

Of each it also tells the most memory, but of the baseline, and the blocks a second. Wants `cargo` and Debian's
librust-serde-json-dev, and works in a temporary folder."""
import os, pathlib, subprocess, sys, tempfile, time

RUNS = int(sys.argv[1]) if len(sys.argv) > 1 else 3
TOP = pathlib.Path(__file__).resolve().parents[2]
WORK = pathlib.Path(tempfile.mkdtemp(prefix="generated-"))
PROGRAM = os.environ.get("STAKEPLAY", str(TOP / "crates/stakeplay/out/stakeplay"))
SEED = "7"

# Input and output are taken in pieces of 200 blocks, of which the output's lines become values before the time counts.
BASELINE = """
use std::fs::File;
use std::io::{self, BufRead, BufReader, BufWriter, Write};

fn nanoseconds() -> u64 {
    let told = std::fs::read_to_string("/proc/self/schedstat").expect("schedstat");
    told.split(' ').next().and_then(|it| it.parse().ok()).expect("a number")
}

fn main() -> io::Result<()> {
    let paths: Vec<String> = std::env::args().skip(1).collect();
    let mut input = BufReader::new(File::open(&paths[0])?);
    let mut output = BufReader::new(File::open(&paths[1])?).lines();
    let mut sink = BufWriter::new(File::create("/dev/null")?);
    let (mut line, mut held, mut spent, mut at_end) = (Vec::new(), None::<serde_json::Value>, 0, false);
    let mut lines = 0;
    while !at_end {
        lines += 200;
        let mut values: Vec<serde_json::Value> = held.take().into_iter().collect();
        while let Some(text) = output.next() {
            let value: serde_json::Value = serde_json::from_str(&text?).expect("a line of JSON");
            if value["height"].as_u64().map_or(true, |height| height >= lines) && value["height"].is_u64() {
                held = Some(value);
                break;
            }
            values.push(value);
        }
        let start = nanoseconds();
        for _ in 0..200 {
            line.clear();
            if input.read_until(b'\\n', &mut line)? == 0 {
                at_end = true;
                break;
            }
            let value: serde_json::Value = serde_json::from_slice(&line).expect("a line of JSON");
            std::hint::black_box(&value);
        }
        for value in &values {
            serde_json::to_writer(&mut sink, value)?;
            sink.write_all(b"\\n")?;
        }
        sink.flush()?;
        spent += nanoseconds() - start;
    }
    println!("{spent}");
    Ok(())
}
"""


def build_baseline():
    folder = WORK / "baseline"
    (folder / "src").mkdir(parents=True)
    (folder / "src/main.rs").write_text(BASELINE)
    (folder / "Cargo.toml").write_text(
        '[package]\nname = "baseline"\nversion = "0.1.0"\nedition = "2021"\n[dependencies]\nserde_json = "1"\n'
    )
    (folder / ".cargo").mkdir()
    (folder / ".cargo/config.toml").write_text(
        '[source.crates-io]\nreplace-with = "debian"\n[source.debian]\ndirectory = "/usr/share/cargo/registry"\n'
    )
    subprocess.run(["cargo", "build", "--release", "--offline", "--quiet"], cwd=folder, check=True)
    return str(folder / "target/release/baseline")


def ran(words, source, target):
    """Processor seconds and the most memory in MB of one run, as the system tells it while it runs; it ends if the program refuses."""
    most = 0
    with open(source, "rb") as given, open(target, "wb") as sink:
        process = subprocess.Popen([PROGRAM, *words], stdin=given, stdout=sink)
        while True:
            # Before it is the program, the process is a copy of this one.
            try:
                lines = pathlib.Path(f"/proc/{process.pid}/status").read_text().splitlines()
            except OSError:
                lines = []
            if lines and lines[0].split()[1] == pathlib.Path(PROGRAM).name[:15]:
                most = max([most] + [int(line.split()[1]) for line in lines if line.startswith("VmHWM")])
            done, status, used = os.wait4(process.pid, os.WNOHANG)
            if done:
                break
            time.sleep(0.0005)
    if status:
        sys.exit(f"{' '.join(words)} ended with {os.waitstatus_to_exitcode(status)}")
    return used.ru_utime + used.ru_stime, most / 1024


def main():
    baseline = build_baseline()
    print("blocks   program    seconds   blocks a second   of it              most memory")
    for count in (1000, 10000, 100000):
        lines, answers = WORK / f"{count}.jsonl", WORK / f"{count}.out"
        seconds, memory = {}, {}
        for _ in range(RUNS):
            tries = {
                "gen": ran(["-", "gen", SEED, str(count)], "/dev/null", lines),
                "replay": ran(["-", "replay"], lines, answers),
                "trial": ran(["-", "trial", SEED, str(count)], "/dev/null", WORK / "trial"),
                "baseline": (
                    int(subprocess.run([baseline, lines, answers], capture_output=True, check=True).stdout) / 1e9,
                    0,
                ),
            }
            for name, (took, most) in tries.items():
                seconds[name] = min(took, seconds.get(name, took))
                memory[name] = max(most, memory.get(name, 0))
        beside = {
            "gen": f"{seconds['gen'] / seconds['replay']:.2f} of replay",
            "replay": f"{seconds['replay'] / seconds['baseline']:.2f} of baseline",
            "trial": f"{seconds['trial'] / seconds['replay']:.2f} of replay",
            "baseline": "",
        }
        for name, took in seconds.items():
            most = f"{memory[name]:8.1f} MB" if memory[name] else ""
            print(f"{count:<8} {name:<9} {took:8.3f}   {count / took:15,.0f}   {beside[name]:<17} {most}", flush=True)


main()
