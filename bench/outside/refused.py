#!/usr/bin/env python3
"""Refuses a program each of its allocations in turn, and shows that nothing is lost:
bench/outside/refused.py [--blocks 3] [--seed 7] [--step 1] [--every N]

The input is `gen SEED BLOCKS`, and a whole run tells the rows after each line. A small C library, loaded before the
program, counts its calls of `malloc` and `realloc` and refuses one of them. For each number of a call (each STEP-th) a
replay over a store, a resume behind the genesis and a query are run. A run that is refused memory ends with 7 and `no
memory`; what it printed is a front of the whole output; the rows are as before, or those after a front of the lines that
holds each line of whose text a byte was printed, and `resume` (`replay` of all where there are no rows) goes on to the end
of the whole run. A query that is refused memory prints nothing, or a front of its answer, and changes no rows. With
`--every N` each replay and resume commits N blocks at once, and the rows are those of such a front.
Ends with 0 where all of this held, with 1 at the first where it did not; its files stay. Wants a C compiler."""
import argparse, collections, os, pathlib, shutil, subprocess, tempfile

from runs import PROGRAM, Whole, add_every, ask, begin_words, carry_out, folder, generated, rows_of, take_every, tell

FAULT = (7, "stakeplay: no memory")
SHIM = r"""
#define _GNU_SOURCE
#include <dlfcn.h>
#include <errno.h>
#include <stdio.h>
#include <stdlib.h>
static long calls, refused;
static void *(*real_malloc)(size_t), *(*real_realloc)(void *, size_t);
__attribute__((constructor)) static void begin(void) {
    real_malloc = dlsym(RTLD_NEXT, "malloc");
    real_realloc = dlsym(RTLD_NEXT, "realloc");
    calls = 0;
    refused = atol(getenv("REFUSED"));
}
static int is_refused(void) { return ++calls == refused ? (errno = ENOMEM, 1) : 0; }
void *malloc(size_t size) {
    if (!real_malloc) real_malloc = dlsym(RTLD_NEXT, "malloc");
    return is_refused() ? NULL : real_malloc(size);
}
void *realloc(void *old, size_t size) {
    if (!real_realloc) real_realloc = dlsym(RTLD_NEXT, "realloc");
    return is_refused() ? NULL : real_realloc(old, size);
}
__attribute__((destructor)) static void end(void) {
    char *path = getenv("COUNTED");
    FILE *file = path ? fopen(path, "w") : NULL;
    long counted = calls;
    if (file) fprintf(file, "%ld", counted), fclose(file);
}
"""


class Refusals:
    """A program of which one allocation is refused."""

    def __init__(self, work):
        source, self.library, self.counted = work / "shim.c", work / "shim.so", work / "counted"
        source.write_text(SHIM)
        subprocess.run(["cc", "-O2", "-shared", "-fPIC", "-o", self.library, source, "-ldl"], check=True)

    def ran(self, store, words, given, call):
        """A run of which the call of this number is refused: how it ends, and what it prints."""
        more = {"LD_PRELOAD": str(self.library), "REFUSED": str(call)} | (
            {} if call else {"COUNTED": str(self.counted)}
        )
        done = subprocess.run([PROGRAM, str(store), *words], input=given, capture_output=True, env=os.environ | more)
        return done.returncode, done.stdout, done.stderr.decode("utf-8", "replace").strip()

    def calls(self, store, words, given):
        """How many calls a run makes of which none is refused."""
        status, _, said = self.ran(store, words, given, 0)
        ask(status == 0, f"{words} ended with {status}, {said}, though nothing was refused")
        return int(self.counted.read_text())


def copied(store, room):
    for end in ("", "-wal"):
        if os.path.exists(f"{store}{end}"):
            shutil.copyfile(f"{store}{end}", room / f"store{end}")
    return room / "store"


def try_call(whole, refusals, begun, first, words, call, seen):
    """One run over a copy of a store, and what follows; counts how it ended."""
    with folder() as room:
        store = copied(begun, room)
        is_query = words[0] == "query"
        given = b"" if is_query else b"".join(whole.lines[first:])
        status, printed, said = refusals.ran(store, words, given, call)
        ask((status, said) in (FAULT, (0, "")), f"{words} whose call {call} is refused ended with {status}, {said}")
        if is_query:
            ask(rows_of(store) == whole.rows[first - 1], f"a query whose call {call} is refused changed the rows")
        else:
            kept = whole.judge(printed, rows_of(store), first)
            ask(
                status == 7 or printed == b"".join(whole.texts[first:]),
                f"call {call}: it ended with 0, and did not print all",
            )
            whole.go_on(store, kept)
        command = words[0] if is_query else words[-1]
        seen[f"{command}: " + ("no memory" if status == 7 else "came to its end")] += 1


def main():
    words = argparse.ArgumentParser()
    for name, number in (("blocks", 3), ("seed", 7), ("step", 1)):
        words.add_argument(f"--{name}", type=int, default=number)
    add_every(words)
    given = words.parse_args()
    take_every(given.every)
    whole, seen = Whole(generated(given.seed, given.blocks)), collections.Counter()
    with tempfile.TemporaryDirectory() as name:
        work = pathlib.Path(name)
        refusals = Refusals(work)
        subprocess.run(
            [PROGRAM, work / "genesis", "replay"], input=whole.lines[0], stdout=subprocess.DEVNULL, check=True
        )
        account = "40" + "00" * 19
        for begun, first, run in (
            (work / "none", 0, begin_words(0)),
            (work / "genesis", 1, begin_words(1)),
            (work / "genesis", 1, ["query", "account", account]),
        ):
            (work / "count").mkdir()
            lines = b"" if run[0] == "query" else b"".join(whole.lines[first:])
            count = refusals.calls(copied(begun, work / "count"), run, lines)
            shutil.rmtree(work / "count")
            print(f"{' '.join(run)}: {count} allocations", flush=True)
            for call in range(1, count + 1, given.step):
                try_call(whole, refusals, begun, first, run, call, seen)
    tell(seen)


if __name__ == "__main__":
    carry_out("refused", main)
