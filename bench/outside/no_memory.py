#!/usr/bin/env python3
"""Lets a replay over a store want memory, and shows that nothing is lost:
bench/outside/no_memory.py [--blocks 100] [--seed 7] [--tries 60] [--every N]

The input is `gen SEED BLOCKS`, and a whole run tells the rows after each line. Then the addresses that a process may have
(`ulimit -v`) are limited, in TRIES steps from the least with which the program begins at all to what a whole run takes,
and page by page in the last TRIES pages below that. A run ends with 7 and `no memory`, or comes to its end; where the
system gives a stack no more room, a signal ends it, which is counted apart. What it printed is a front of the whole
output; the rows are none, or those after a front of the lines that holds each line of whose text a byte was printed; and
without the limit, `resume` (`replay` of all where there are no rows) prints the rest and leaves the rows of the whole
run. With `--every N` each replay and resume commits N blocks at once, and the rows are those of such a front. One
refused allocation at a time is tried by `rt try --fail-alloc 1.. -- - replay` in crates/stakeplay.
Ends with 0 where all of this held, with 1 at the first where it did not; its files stay."""
import argparse, collections, subprocess

from runs import PROGRAM, Whole, add_every, ask, begin_words, carry_out, folder, generated, rows_of, take_every, tell

FAULT = (7, "stakeplay: no memory")
STEP = 4096


def limited(store, words, given, size):
    """A run that may have so many bytes of addresses. The shell sets the limit and then becomes the program."""
    shell = ["sh", "-c", f'ulimit -v {size // 1024}; exec "$0" "$@"', PROGRAM, str(store), *words]
    done = subprocess.run(shell, input=given, capture_output=True)
    return done.returncode, done.stdout, done.stderr.decode("utf-8", "replace").strip()


def least(holds, low, high):
    """The least number of steps, above one that is too few and up to one that suffices, with which something holds."""
    while high - low > 1:
        middle = (low + high) // 2
        low, high = (low, middle) if holds(middle) else (middle, high)
    return high


def suffices(lines, size):
    """Whether a replay of these lines into a new store comes to its end."""
    with folder() as room:
        return limited(room / "store", begin_words(0), lines, size)[0] == 0


def try_size(whole, size, seen):
    with folder() as room:
        store = room / "store"
        status, printed, said = limited(store, begin_words(0), b"".join(whole.lines), size)
        kept = whole.judge(printed, rows_of(store))
        if status == 0:
            ask(printed == whole.output, "it ended with 0, and did not print all")
        elif status > 0:
            ask((status, said) == FAULT, f"with {size} bytes it ended with {status}, {said}")
        name = "came to its end" if status == 0 else f"ended by signal {-status}" if status < 0 else "no memory"
        seen[name if kept or status == 0 else f"{name}, no rows"] += 1
        whole.go_on(store, kept)


def main():
    words = argparse.ArgumentParser()
    for name, number in (("blocks", 100), ("seed", 7), ("tries", 60)):
        words.add_argument(f"--{name}", type=int, default=number)
    add_every(words)
    given = words.parse_args()
    take_every(given.every)
    whole = Whole(generated(given.seed, given.blocks))
    all_lines, most = b"".join(whole.lines), (1 << 32) // STEP
    # A program that begins says that its words are none.
    begins = least(lambda steps: limited("-", ["no", "words"], b"", steps * STEP)[0] in (1, 7), 0, most)
    ends = least(lambda steps: suffices(all_lines, steps * STEP), begins, most)
    high = ends + max(1, (ends - begins) // 20)
    print(
        f"seed {given.seed}, {given.blocks} blocks; it begins with {begins * STEP} bytes, and ends with {ends * STEP}",
        flush=True,
    )
    seen = collections.Counter()
    steps = [begins + (high - begins) * place // (given.tries - 1) for place in range(given.tries)]
    # What a run takes beyond what it opens a store with is little, so the last steps are tried one by one.
    for place in [*steps, *range(ends - given.tries, ends)]:
        try_size(whole, place * STEP, seen)
    tell(seen)


if __name__ == "__main__":
    carry_out("no memory", main)
