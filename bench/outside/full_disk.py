#!/usr/bin/env python3
"""Lets a replay over a store meet a full disk, and shows that nothing is lost:
bench/outside/full_disk.py [--blocks 100] [--seed 7] [--tries 40] [--every N]

The input is `gen SEED BLOCKS`, and a whole run tells the rows after each line and how large the store's files grow. Then
the room is made short, in TRIES steps from none to what a whole run takes and a little more, in three ways:

  limit     no file may grow past a size (`ulimit -f`), and the signal that would say so is ignored, so writes fail
  signal    the same, and the signal ends a program that does not ignore it
  mount     a file system in memory of that size; passed over where it may not be mounted

A run that meets the end of its room ends with 6 and `store fault` (in the second way, or by that signal). What it printed
is a front of the whole output; the rows are none, or those after a front of the lines that holds each line of whose text
a byte was printed; and once there is room, `resume` (`replay` of all where there are no rows) prints the rest and leaves
the rows of the whole run. A query while the room is short answers, or ends with 6 or 9, and changes no rows.
With `--every N` each replay and resume commits N blocks at once, and the rows are those of such a front.
Ends with 0 where all of this held, with 1 at the first where it did not; its files stay."""
import argparse, collections, os, resource, signal, subprocess

from runs import PROGRAM, Whole, add_every, ask, begin_words, carry_out, folder, generated, rows_of, take_every, tell

FAULT = (6, "stakeplay: store fault")
PAGE = 4096


def short(store, words, given, size, is_ignored):
    """A run whose files may not grow past a size."""
    limit = lambda: resource.setrlimit(resource.RLIMIT_FSIZE, (size, resource.RLIM_INFINITY))
    done = subprocess.run(
        [PROGRAM, str(store), *words],
        input=given,
        capture_output=True,
        preexec_fn=limit,
        restore_signals=not is_ignored,
    )
    return done.returncode, done.stdout, done.stderr.decode().strip()


def mounted(room, size, *more):
    """Mounts a file system in memory of a size at a folder, or gives it another size; whether that was done."""
    options = ",".join([f"size={size}", *more])
    return (
        subprocess.run(["mount", "-t", "tmpfs", "-o", options, "outside", str(room)], capture_output=True).returncode
        == 0
    )


def judged(whole, store, ended, seen, signals=()):
    """Judges a run that was short of room, and counts it; how many lines' rows stand."""
    status, printed, said = ended
    kept = whole.judge(printed, rows_of(store))
    if status == 0:
        ask(printed == whole.output, "it ended with 0, and did not print all")
        seen["came to its end"] += 1
    elif status in signals:
        seen["ended by the signal"] += 1
    else:
        ask((status, said) == FAULT, f"it ended with {status}, {said}")
        seen["store fault, no rows" if kept == 0 else "store fault, with rows"] += 1
    return kept


def ask_query(whole, kept, ended):
    """A query where there is no room."""
    status, printed, said = ended
    known = (0, 6, 9, -signal.SIGXFSZ) if whole.resumes else (1, 6, -signal.SIGXFSZ)
    ask(status in known, f"a query ended with {status}, {said}")
    ask(status == 0 or not printed, "a query that failed printed something")
    ask(status != 9 or kept == 0, "a query finds no rows where there are some")


def limited(whole, sizes, is_ignored):
    seen = collections.Counter()
    for size in sizes:
        with folder() as room:
            store = room / "store"
            ended = short(store, begin_words(0), b"".join(whole.lines), size, is_ignored)
            kept = judged(whole, store, ended, seen, () if is_ignored else (-signal.SIGXFSZ,))
            ask_query(whole, kept, short(store, ["query", "supply"], b"", size, is_ignored))
            whole.go_on(store, kept)
    return seen


def in_mounts(whole, sizes):
    seen = collections.Counter()
    for size in sizes:
        with folder() as room:
            disk = room / "disk"
            disk.mkdir()
            if not mounted(disk, size):
                return None
            try:
                store = disk / "store"
                words = dict(capture_output=True)
                done = subprocess.run([PROGRAM, str(store), *begin_words(0)], input=b"".join(whole.lines), **words)
                kept = judged(whole, store, (done.returncode, done.stdout, done.stderr.decode().strip()), seen)
                done = subprocess.run([PROGRAM, str(store), "query", "supply"], input=b"", **words)
                ask_query(whole, kept, (done.returncode, done.stdout, done.stderr.decode().strip()))
                ask(mounted(disk, 1 << 30, "remount"), "the mount does not take another size")
                whole.go_on(store, kept)
            finally:
                subprocess.run(["umount", str(disk)], check=True)
    return seen


def main():
    words = argparse.ArgumentParser()
    for name, number in (("blocks", 100), ("seed", 7), ("tries", 40)):
        words.add_argument(f"--{name}", type=int, default=number)
    add_every(words)
    given = words.parse_args()
    take_every(given.every)
    whole = Whole(generated(given.seed, given.blocks))
    print(
        f"seed {given.seed}, {given.blocks} blocks; largest file {whole.largest}, all files {whole.all_files} bytes",
        flush=True,
    )
    steps = range(given.tries + 1)
    files = [whole.largest * step // (given.tries - 1) for step in steps]
    disks = [PAGE + (whole.all_files + 8 * PAGE) * step // (given.tries - 1) // PAGE * PAGE for step in steps]
    ways = {
        "limit": lambda: limited(whole, files, True),
        "signal": lambda: limited(whole, files, False),
        "mount": lambda: in_mounts(whole, disks) if os.geteuid() == 0 else None,
    }
    for way, tries in ways.items():
        seen = tries()
        if seen is None:
            print(f"{way}: passed over, since nothing may be mounted here")
            continue
        ask(
            seen["came to its end"] > 0 and seen["store fault, with rows"] + seen["ended by the signal"] > 0,
            f"{way}: no size shows both ends",
        )
        print(f"{way}: " + "; ".join(f"{count} {name}" for name, count in sorted(seen.items())), flush=True)
    tell({})


if __name__ == "__main__":
    carry_out("full disk", main)
