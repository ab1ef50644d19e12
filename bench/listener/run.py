#!/usr/bin/env python3
"""Tells what it costs that a chain can be listened to, and what a listener costs: bench/listener/run.py BEFORE [--runs N]
[--blocks N] [--seconds]

BEFORE is a program, or a revision of the repository whose released program is taken. It and the one that `.ci/run` (or
`rt run`) built, or that the variable STAKEPLAY names, replay the same inputs, which nobody listens to: blocks of sends and
blocks of votes, as bench/blocks/run.py makes them, and the generated input of seed 7. Of each input it prints the
instructions that `valgrind` counts, where that is there, and of N runs (15), alternately, the least processor time; and
beside them those of `statement` over the generated input, whose chain has a listener. Both programs must write the same.

The aim: without a listener at most 1.02 of what it was before. Instructions tell that better than times, which other work
on the machine changes by more."""
import argparse, importlib.util, json, os, pathlib, re, shutil, subprocess, sys

AIM = 1.02
spec = importlib.util.spec_from_file_location("blocks", pathlib.Path(__file__).parents[1] / "blocks/run.py")
blocks = importlib.util.module_from_spec(spec)
spec.loader.exec_module(blocks)


def by_revision(revision, path):
    """The released program of a revision, unpacked."""
    packed = subprocess.run(["git", "show", f"{revision}:release/stakeplay.gz"], cwd=blocks.TOP, capture_output=True)
    if packed.returncode:
        sys.exit(f"listener: {revision} is no program, and no revision that has a release")
    path.write_bytes(subprocess.run(["gzip", "-dc"], input=packed.stdout, capture_output=True, check=True).stdout)
    path.chmod(0o755)
    return str(path)


def written(words, path):
    with open(path, "rb") as source:
        done = subprocess.run(words, stdin=source, capture_output=True)
    if done.returncode:
        sys.exit(f"listener: {' '.join(words)} ended with {done.returncode}: {done.stderr.decode().strip()}")
    return done.stdout


def instructions(words, path):
    """How many instructions of a processor a run takes."""
    counting = ["valgrind", "--tool=cachegrind", "--cache-sim=no", "--cachegrind-out-file=/dev/null", *words]
    with open(path, "rb") as source, open(os.devnull, "wb") as sink:
        told = subprocess.run(counting, stdin=source, stdout=sink, stderr=subprocess.PIPE, text=True).stderr
    found = re.search(r"I\s+refs:\s+([\d,]+)", told)
    return int(found[1].replace(",", "")) if found else sys.exit(f"listener: valgrind told no instructions:\n{told}")


def least(commands, path, runs):
    """The least processor seconds of each command, alternately."""
    seconds = {name: [] for name in commands}
    for _ in range(runs):
        for name, words in commands.items():
            seconds[name].append(blocks.timed(words, path))
    return {name: min(times) for name, times in seconds.items()}


def paid_pair(text):
    """A pair that was paid, as lines of a replay tell it."""
    for line in text.splitlines():
        if b'"kind":"paid"' in line:
            told = json.loads(line)
            return told["delegator"], told["validator"]
    sys.exit("listener: nobody is paid in the generated input; take more blocks")


def row(what, measured, unit):
    """A row of the table: before, now, their ratio, and the listener's beside the replay without one."""
    before, now, heard = measured["before"], measured["now"], measured.get("statement")
    ratio = now / before
    word = "met" if ratio <= AIM else f"missed, by a factor of {ratio / AIM:.3f}"
    beside = f"{heard:.3f}{unit}, {heard / now:.2f} of the replay" if heard else ""
    print(f"| {what} | {before:.3f}{unit} | {now:.3f}{unit} | {ratio:.3f} | {word} | {beside} |", flush=True)


def main():
    words = argparse.ArgumentParser()
    words.add_argument("before")
    words.add_argument("--runs", type=int, default=15)
    words.add_argument("--blocks", type=int, default=2000)
    words.add_argument("--seconds", action="store_true", help="times alone, without valgrind")
    given = words.parse_args()
    room = blocks.WORK
    now = blocks.BUILT or str(blocks.TOP / "crates/stakeplay/out/stakeplay")
    is_program = os.path.isfile(given.before)
    before = os.path.realpath(given.before) if is_program else by_revision(given.before, room / "before")
    blocks.make_sends(room / "sends", given.blocks)
    blocks.make_votes(room / "votes", given.blocks)
    (room / "generated").write_bytes(written([now, "-", "gen", "7", str(given.blocks)], os.devnull))
    counts = bool(shutil.which("valgrind")) and not given.seconds
    print(f"| {given.blocks} blocks | before | now | ratio | at most {AIM} | with a listener |\n|---|---|---|---|---|---|")
    for name in ("sends", "votes", "generated"):
        path = room / name
        commands = {"before": [before, "-", "replay"], "now": [now, "-", "replay"]}
        texts = [written(command, path) for command in commands.values()]
        if texts[0] != texts[1]:
            sys.exit(f"listener: the two programs write other lines of {name}")
        if name == "generated":
            commands["statement"] = [now, "-", "statement", *paid_pair(texts[1])]
            written(commands["statement"], path)
        if counts:
            told = {key: instructions(command, path) / 1e6 for key, command in commands.items()}
            row(f"{name}, millions of instructions", told, "")
        row(f"{name}, processor seconds", least(commands, path, given.runs), " s")


if __name__ == "__main__":
    try:
        main()
    finally:
        shutil.rmtree(blocks.WORK, ignore_errors=True)
