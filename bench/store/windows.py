#!/usr/bin/env python3
"""Counts what a store is given for signing records: bench/store/windows.py [--window N] [--blocks N] [--missed N..] [--first PROGRAM]

A chain of 100 validators whose votes are kept for a window of 10,000 blocks, of which each misses one vote in N (10,000,
1,000 and 100). Once the window is full, `resume` takes 100 blocks more, of votes alone. Told are, for each of these blocks:

  rows     the bytes of the rows that it changed, names and bodies, in the second format and, of the same rows, in the first.
           Aim: at most a tenth
  store    the bytes that the program handed to the system for its two files, and the number of its syncs, one or two a commit;
           beside those of a program that writes the first format, where `--first` names one (a release before that change)

`/proc/PID/io` has the bytes, what was printed taken off, and `strace` counts the syncs, where there is one. Linux alone.
The program is the one that `.ci/run` built, or that the variable STAKEPLAY names."""
import argparse, pathlib, random, re, shutil, subprocess, sys, tempfile

TOP = pathlib.Path(__file__).resolve().parents[2]
sys.path[:0] = [str(TOP / "bench/outside"), str(TOP / "python/src")]
from stakeplay.stores.first_format import first_format
from runs import PROGRAM, rows_of

VALIDATORS = 100
GENESIS = (
    '{"kind":"genesis","time":"2024-01-01T00:00:00Z","params":{"bond_denom":"uatom","power_reduction":1000000,'
    '"unbonding_time":1814400,"max_validators":100,"max_entries":7,"min_commission_rate":"0","community_tax":"0.02",'
    '"withdraw_addr_enabled":true,"signed_blocks_window":%d,"min_signed_per_window":"0.05","downtime_jail_duration":600,'
    '"slash_fraction_double_sign":"0.05","slash_fraction_downtime":"0.0001","max_age_duration":172800,'
    '"max_age_num_blocks":100000,"authority":"%s"},"accounts":[],"validators":[%s],"delegations":[%s]}\n'
)


def operator(number):
    return f"{0x40 << 152 | number:040x}"


def consensus(number):
    return f"{0x50 << 152 | number:040x}"


def genesis(window):
    validators = ",".join(
        f'{{"operator":"{operator(n)}","cons":"{consensus(n)}","rate":"0.1","max_rate":"0.2","max_change_rate":"0.01",'
        f'"min_self_delegation":"1"}}'
        for n in range(VALIDATORS)
    )
    delegations = ",".join(
        f'{{"delegator":"{operator(n)}","validator":"{operator(n)}","amount":"10000000"}}' for n in range(VALIDATORS)
    )
    return GENESIS % (window, "9" * 40, validators, delegations)


def moment(height):
    """Five seconds for each block."""
    seconds = 5 * height
    return f"2024-01-{1 + seconds // 86400:02}T{seconds // 3600 % 24:02}:{seconds // 60 % 60:02}:{seconds % 60:02}Z"


def block(height, missed, draw):
    votes = ",".join(
        f'{{"cons":"{consensus(n)}","power":10,"signed":{"false" if draw.randrange(missed) == 0 else "true"}}}'
        for n in range(VALIDATORS)
    )
    return f'{{"kind":"block","height":{height},"time":"{moment(height)}","votes":[{votes}],"evidence":[],"txs":[]}}\n'


def taken(program, store, word, path):
    """The bytes that a run handed to the system, but for what it printed."""
    with open(path, "rb") as source:
        process = subprocess.Popen([str(program), str(store), word], stdin=source, stdout=subprocess.PIPE)
        printed = sum(map(len, iter(lambda: process.stdout.read(1 << 20), b"")))
        told = pathlib.Path(f"/proc/{process.pid}/io").read_text()
        if process.wait():
            sys.exit(f"{program} {word} ended with {process.returncode}")
    return int(re.search(r"wchar: (\d+)", told)[1]) - printed


def syncs(program, store, word, path):
    """How often a run synced a file."""
    if not shutil.which("strace"):
        return None
    with open(path, "rb") as source:
        done = subprocess.run(
            ["strace", "-f", "-c", "-e", "trace=fsync,fdatasync", str(program), str(store), word],
            stdin=source, stdout=subprocess.DEVNULL, stderr=subprocess.PIPE, text=True, check=True,
        )
    return sum(int(line.split()[3]) for line in done.stderr.splitlines() if re.search(r"\bf(data)?sync$", line))


def copied(store, copy):
    for end in ("", "-wal"):
        if pathlib.Path(f"{store}{end}").exists():
            shutil.copyfile(f"{store}{end}", f"{copy}{end}")
    return copy


def changed_bytes(work, store, lines):
    """The bytes of the rows that each line changes, in the first format and in the second."""
    first = second = 0
    before, path = dict(rows_of(store)), work / "line"
    for line in lines:
        path.write_text(line)
        taken(PROGRAM, store, "resume", path)
        now = dict(rows_of(store))
        put = [(name, body) for name, body in now.items() if before.get(name) != body]
        second += sum(len(name) + len(body) for name, body in put)
        first += sum(len(name) + len(first_format(name, body)) for name, body in put)
        before = now
    return first / len(lines), second / len(lines)


def tell(work, given, missed):
    draw = random.Random(missed)
    lines = [block(height, missed, draw) for height in range(1, given.window + given.blocks + 1)]
    (work / "begin").write_text(genesis(given.window) + "".join(lines[: given.window]))
    (work / "more").write_text("".join(lines[given.window :]))
    taken(PROGRAM, work / "store", "replay", work / "begin")
    first, second = changed_bytes(work, copied(work / "store", work / "watched"), lines[given.window :][:10])
    print(f"rows: {second:.0f} bytes a block, {first:.0f} in the first format: {second / first:.3f} (aim: 0.1)", flush=True)
    count = syncs(PROGRAM, copied(work / "store", work / "counted"), "resume", work / "more")
    mine = taken(PROGRAM, work / "store", "resume", work / "more") / given.blocks
    print(f"store: {mine:.0f} bytes a block, {count} syncs of {given.blocks} blocks", flush=True)
    if given.first:
        taken(given.first, work / "old", "replay", work / "begin")
        other = taken(given.first, work / "old", "resume", work / "more") / given.blocks
        print(f"store, in the first format: {other:.0f} bytes a block: {mine / other:.3f}", flush=True)


def main():
    words = argparse.ArgumentParser()
    words.add_argument("--window", type=int, default=10_000)
    words.add_argument("--blocks", type=int, default=100)
    words.add_argument("--missed", type=int, nargs="*", default=[10_000, 1_000, 100])
    words.add_argument("--first", type=pathlib.Path)
    given = words.parse_args()
    for missed in given.missed:
        with tempfile.TemporaryDirectory(prefix="windows-") as name:
            print(f"one vote in {missed} missed:", flush=True)
            tell(pathlib.Path(name), given, missed)


main()
