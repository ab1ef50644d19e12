#!/usr/bin/env python3
"""Lets the reader of a replay over a store go, as `head -c` does, and shows that nothing is lost:
bench/outside/closed_pipe.py [--blocks 600] [--seed 7] [--every N]

The input is `gen SEED BLOCKS`, and a whole run tells the rows after each line. For each of some lengths the reader takes
so many bytes of a replay and goes. The run ends with 5
and `write fault`, by no signal; the rows are those after a front of the lines that holds each line of whose text a byte
was taken; and `resume` with the lines behind it prints the rest and leaves the rows of the whole run. The output has to be
longer than what a pipe holds, 64 KiB, beyond each length. With `--every N` each replay and resume commits N blocks at
once, and the rows are those of such a front. Ends with 0 where all of this held, else with 1."""
import argparse, random, subprocess

from runs import PROGRAM, Whole, add_every, ask, begin_words, carry_out, folder, generated, rows_of, take_every, tell

FAULT = (5, "stakeplay: write fault")


def try_reader(whole, length):
    """A replay whose reader goes after so many bytes; how many lines' rows stand then."""
    with folder() as room:
        store, given = room / "store", room / "given"
        given.write_bytes(b"".join(whole.lines))
        with given.open("rb") as lines:
            process = subprocess.Popen([PROGRAM, str(store), *begin_words(0)], stdin=lines, stdout=-1, stderr=-1)
        got = process.stdout.read(length)
        process.stdout.close()
        said = process.stderr.read().decode().strip()
        ask((process.wait(), said) == FAULT, f"behind {length} bytes it ended with {process.returncode}, {said}")
        kept = whole.judge(got, rows_of(store), is_all=False)
        ask(kept > 0, "no rows stand, though the genesis is kept before it is told")
        whole.go_on(store, kept)
        return kept


def main():
    words = argparse.ArgumentParser()
    words.add_argument("--blocks", type=int, default=600)
    words.add_argument("--seed", type=int, default=7)
    add_every(words)
    given = words.parse_args()
    take_every(given.every)
    whole = Whole(generated(given.seed, given.blocks))
    longest = len(whole.output) - (1 << 17)
    ask(longest > 1 << 16, "the output is too short, take more blocks")
    draw = random.Random(given.seed)
    for length in [0, 1, 73, 74, 75, 4096, 65536, *(draw.randrange(longest) for _ in range(20))]:
        print(f"{length:8} bytes taken: the rows are those of {try_reader(whole, length)} lines", flush=True)
    tell({}, "taken")


if __name__ == "__main__":
    carry_out("closed pipe", main)
