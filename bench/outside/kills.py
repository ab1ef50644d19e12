#!/usr/bin/env python3
"""Kills a replay over a store by signal 9 at random moments, and shows that nothing is lost:
bench/outside/kills.py [--kills 500] [--blocks 100] [--seed 7] [--only NUMBER] [--keep | --every N]

The input is `gen SEED BLOCKS`. A whole run tells the rows after each line: it is given a line once it has answered the
one before, and in between the store is read. Each kill then has a store of its own, a moment drawn from the time that a
replay takes, and, every second time, a reader of its output that stops somewhere, so that the program stands in a write.
After each kill

  - what was printed is a front of the whole output;
  - the rows, read by Python's sqlite3 from a copy of the files, are none, or those after a front of the lines that holds
    each line of whose text a byte was printed, and at most one line more;
  - `resume` with the lines behind that front (`replay` of all where there are no rows) prints the rest of the whole
    output, and leaves the rows of the whole run. One in three of these is killed too, and judged the same way.

With `--keep` each of these commands is given the word `keep` before it, and the rows of the history are judged with the
others. With `--every N` each of these commands is given the words `every N`: the rows are then those after a front of
which each part is one commit, and at most N lines more are kept than were printed.

A run that ends before its moment counts as no kill. Kill NUMBER draws from `SEED NUMBER`, so `--only` draws the same
moment again. Ends with 0 where all of this held at each kill, with 1 at the first where it did not; its files stay."""
import argparse, collections, os, random, select, subprocess, sys, time

from runs import (
    KEPT, PROGRAM, Whole, Wrong, add_every, begin_words, carry_out, folder, generated, ran, rows_of, take_every, tell,
)

ALL = 1 << 62


def printed_until(process, moment, most):
    """What the process printed when it is killed at a moment; up to then at most so many bytes of that are taken from it."""
    end, got, out = time.monotonic() + moment, b"", process.stdout.fileno()
    while (left := end - time.monotonic()) > 0:
        if len(got) == most:
            time.sleep(left)
        elif select.select([out], [], [], left)[0]:
            piece = os.read(out, min(4096, most - len(got)))
            if not piece:
                break
            got += piece
    process.kill()
    return got + process.stdout.read()


class Kills:
    """Kills, and how often each kind of end was met."""

    def __init__(self, whole, span):
        self.whole, self.span, self.seen = whole, span, collections.Counter()

    def stopped(self, store, first, draw):
        """Runs behind the first lines and kills that; how many lines' rows stand then, and whether it was killed."""
        share = (len(self.whole.lines) - first) / len(self.whole.lines)
        moment = draw.uniform(0, self.span * share)
        most = draw.choice([ALL, draw.randrange(len(self.whole.output))])
        given = store.parent / "given"
        given.write_bytes(b"".join(self.whole.lines[first:]))
        with given.open("rb") as lines:
            words = [PROGRAM, str(store), *begin_words(first)]
            process = subprocess.Popen(words, stdin=lines, stdout=-1, stderr=-1)
            printed = printed_until(process, moment, most)
        said = process.stderr.read()
        if process.wait() not in (0, -9) or said:
            raise Wrong(f"it ended with {process.returncode}, {said.decode()}")
        kept = self.whole.judge(printed, rows_of(store), first)
        if process.returncode == 0:
            self.seen["ended before its moment"] += 1
            return kept, False
        self.note(printed, first, kept)
        return kept, True

    def note(self, printed, first, kept):
        """Counts a kill by what it left."""
        ends = [len(b"".join(self.whole.texts[first:place])) for place in range(first, len(self.whole.texts) + 1)]
        ahead = kept - self.whole.begun(printed, first)
        self.seen["resumes killed" if first else "replays killed"] += 1
        self.seen["with no rows"] += kept == 0
        self.seen["with a line kept of which nothing was printed"] += ahead > 0
        self.seen["with more than one such line"] += ahead > 1
        self.seen["within a text"] += len(printed) not in ends
        self.seen["within the report, or behind it"] += len(printed) > ends[-2]

    def kill(self, draw):
        """One kill of a replay, and what follows; whether it was killed."""
        with folder() as room:
            store = room / "store"
            kept, was_killed = self.stopped(store, 0, draw)
            again = was_killed
            while again and kept and self.whole.resumes and draw.random() < 1 / 3:
                kept, again = self.stopped(store, kept, draw)
            self.whole.go_on(store, kept)
        return was_killed


def span_of(whole):
    """How long a whole replay over a store takes."""
    with folder() as room:
        begin = time.monotonic()
        ran(room / "store", begin_words(0), b"".join(whole.lines))
        return time.monotonic() - begin


def main():
    words = argparse.ArgumentParser()
    for name, number in (("kills", 500), ("blocks", 100), ("seed", 7), ("only", None)):
        words.add_argument(f"--{name}", type=int, default=number)
    ways = words.add_mutually_exclusive_group()
    ways.add_argument("--keep", action="store_true")
    add_every(ways)
    given = words.parse_args()
    KEPT.extend(["keep"] * given.keep)
    take_every(given.every)
    whole = Whole(generated(given.seed, given.blocks))
    span = sorted(span_of(whole) for _ in range(3))[1]
    print(f"seed {given.seed}, {given.blocks} blocks; a replay over a store takes {span:.3f} s", flush=True)
    kills, number = Kills(whole, span), given.only or 0
    while kills.seen["replays killed"] < (1 if given.only else given.kills):
        try:
            kills.kill(random.Random(f"{given.seed} {number}"))
        except Wrong as fault:
            sys.exit(f"kill {number} of seed {given.seed}: {fault}")
        number += 1
        if number % 50 == 0:
            print(f"{number} tried, {kills.seen['replays killed']} killed", flush=True)
    tell(kills.seen)


if __name__ == "__main__":
    carry_out("the whole run", main)
