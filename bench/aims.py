#!/usr/bin/env python3
"""Measures what the aims of bench/README.md speak of, and prints their table: bench/aims.py [--runs N] [PROGRAM]

It carries out `blocks/run.py`, `generated/run.py` and `store/run.py` for commits and reads, alternately and by processor
time as they do, and writes what they print to standard error. Of each aim it prints what was measured, the aim and whether
it is met. The program is the one that is named, else the released one (release/). N is 3; then it takes some ten minutes
with nothing else on the machine. Stores stand in /dev/shm where that is there, since processor time counts.

Wants what the scripts want: `rt`, `cargo`, a C compiler, and Debian's librust-serde-json-dev and libsqlite3-dev. Where `rt`
refuses the programs that read and write lines, that aim is told as not measured."""
import argparse, os, pathlib, re, subprocess, sys

TOP = pathlib.Path(__file__).resolve().parents[1]

# What is measured, the script that prints it, where its figures stand in what the script prints, and the most that is aimed at.
AIMS = [
    ("a replay of sends, of stock Rust", "blocks", r"100000 +replay +\S+ +(\S+)", 1.2),
    ("reading and writing, of stock Rust", "blocks", r"100000 +lines +\S+ +(\S+)", 0.7),
    ("a replay of the generated input, of stock Rust", "generated", r"100000 +replay .* (\S+) of baseline", 2.0),
    ("`trial`, of `replay`", "generated", r"100000 +trial .* (\S+) of replay", 0.55),
    ("`gen`, of `replay`", "generated", r"100000 +gen .* (\S+) of replay", 0.25),
    ("commits, of C SQLite", "commits", r"commits: .* of a processor\), .*: \S+ \((\S+)\)", 2.0),
    ("`resume`, of C SQLite", "reads", r"resume without lines: .*: \S+ \((\S+)\)", 7.0),
    ("`query supply`, of C SQLite", "reads", r"query supply: .*: \S+ \((\S+)\)", 7.0),
    ("the first line, in milliseconds", "blocks", r"first line of a piped replay after (\S+) ms", 10.0),
]

# The most memory of 100,000 blocks, over that of 1,000.
MEMORY = [
    ("sends", "blocks", r"{} +replay .* (\S+) MB"),
    ("generated blocks", "generated", r"{} +replay .* (\S+) MB"),
    ("`trial`", "generated", r"{} +trial .* (\S+) MB"),
]


def said(words, program):
    """What a script prints, which goes to standard error too; nothing where it fails."""
    more = {"STAKEPLAY": program} | ({"TMPDIR": "/dev/shm"} if os.path.isdir("/dev/shm") else {})
    done = subprocess.run(
        [sys.executable, *words], cwd=TOP, env=os.environ | more, stdout=subprocess.PIPE, stderr=subprocess.STDOUT, text=True
    )
    print(f"== {' '.join(map(str, words))}\n{done.stdout}", file=sys.stderr, flush=True)
    return done.stdout


def released():
    """The path of the released program, unpacked."""
    words = 'here="$PWD"; . release/release.bash && released_program "$here"'
    done = subprocess.run(["bash", "-c", words], cwd=TOP, capture_output=True, text=True)
    return done.stdout.strip() or sys.exit("aims: the release is of other sources: name a program")


def found(pattern, text):
    figure = re.search(pattern, text)
    return float(figure[1]) if figure else None


def main():
    words = argparse.ArgumentParser()
    words.add_argument("--runs", type=int, default=3)
    words.add_argument("program", nargs="?")
    given = words.parse_args()
    program = str(pathlib.Path(given.program).resolve()) if given.program else released()
    runs = str(given.runs)
    texts = {
        "generated": said(["bench/generated/run.py", runs], program),
        "commits": said(["bench/store/run.py", "--runs", runs, "commits"], program),
        "reads": said(["bench/store/run.py", "--runs", runs, "reads"], program),
        "blocks": said(["bench/blocks/run.py", runs, "--hexadecimal"], program),
    }
    print("| aim | at most | now | |\n|---|---|---|---|")
    for name, script, pattern, most in AIMS:
        now = found(pattern, texts[script])
        word = "not measured" if now is None else "met" if now <= most else f"missed, by a factor of {now / most:.2f}"
        print(f"| {name} | {most:g} | {'' if now is None else now} | {word} |")
    for name, script, pattern in MEMORY:
        few, many = (found(pattern.format(count), texts[script]) for count in (1000, 100000))
        if few and many:
            word = "met" if many < 1.1 * few else "missed"
            print(f"| memory of 1,000 and 100,000 blocks: {name} | the same | {few} and {many} MB | {word} |")


if __name__ == "__main__":
    main()
