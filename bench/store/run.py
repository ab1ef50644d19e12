#!/usr/bin/env python3
"""Times stores beside C SQLite: bench/store/run.py [--runs N] [--blocks N] [--scale N] [PART..]

  commits   `stakeplay FILE replay` of a generated input of 2,000 blocks into a new store, beside a C program that makes the
            same changes of rows in a new database: the same table, a transaction for each line, prepared statements, a
            write-ahead log and a sync at each commit (`journal_mode=WAL`, `synchronous=FULL`). The same replay without a
            store (`-`) is timed too, since the C program neither reads lines nor writes any. Aim: at most 1.0
  reads     `stakeplay FILE resume` without lines, and `stakeplay FILE query supply`, over a store of 4,000 validators
            and 50,000 delegations, beside a C program that reads the same rows in their order into memory

  history   `stakeplay FILE keep replay` of 10,000 blocks into a new store beside `replay`, by the clock and by processor time
            (aim: at most 1.6), and `past 0 query supply` beside `past 10000 query supply` over what it left, and beside
            `query supply` over the store without a history (aim: at most 1.5); and the bytes of the history a block

What a line changes is found out before: a replay is given each line once it has answered the one before, and in between
the rows are read by Python's sqlite3. At the end the C program's rows have to be those of the store.

The runs of a part go alternately, and the least of N runs (5) counts, by the clock and by processor time: a commit waits
for the disk, so the clock tells most. `--blocks N` takes another length, and `--scale N` divides the sizes of `reads`.
The program is the one that `.ci/run` built, or that the variable STAKEPLAY names. Wants a C compiler and Debian's
libsqlite3-dev."""
import argparse, os, pathlib, shutil, struct, subprocess, sys, tempfile, time

TOP = pathlib.Path(__file__).resolve().parents[2]
sys.path.insert(0, str(TOP / "bench/outside"))
from runs import PROGRAM, fed, generated, ran, rows_of, texts_of

STOCK = r"""
#include <sqlite3.h>
#include <stdio.h>
#include <stdlib.h>
#include <string.h>

static sqlite3 *base;

static void must(int answer, int wanted) {
    if (answer != wanted) {
        fprintf(stderr, "stock: %s\n", sqlite3_errmsg(base));
        exit(1);
    }
}

static void run(const char *text) { must(sqlite3_exec(base, text, 0, 0, 0), SQLITE_OK); }

static sqlite3_stmt *prepared(const char *text) {
    sqlite3_stmt *made;
    must(sqlite3_prepare_v2(base, text, -1, &made, 0), SQLITE_OK);
    return made;
}

static void make(sqlite3_stmt *made) {
    must(sqlite3_step(made), SQLITE_DONE);
    must(sqlite3_reset(made), SQLITE_OK);
}

static unsigned number(const unsigned char **at) {
    unsigned n;
    memcpy(&n, *at, 4);
    *at += 4;
    return n;
}

static void bind(sqlite3_stmt *made, int place, const unsigned char **at) {
    unsigned length = number(at);
    must(sqlite3_bind_blob(made, place, *at, (int)length, SQLITE_STATIC), SQLITE_OK);
    *at += length;
}

/* A file of changes: for each transaction their number, and for each change 1 with name and body, or 0 with the name. */
static void apply(const char *path, const char *put_text) {
    FILE *file = fopen(path, "rb");
    fseek(file, 0, SEEK_END);
    long size = ftell(file);
    rewind(file);
    unsigned char *bytes = malloc((size_t)size + 1);
    if (fread(bytes, 1, (size_t)size, file) != (size_t)size) exit(1);
    fclose(file);
    run("PRAGMA journal_mode=WAL");
    run("PRAGMA synchronous=FULL");
    run("CREATE TABLE IF NOT EXISTS kept (name BLOB NOT NULL PRIMARY KEY, body BLOB NOT NULL) STRICT");
    sqlite3_stmt *begin = prepared("BEGIN IMMEDIATE"), *commit = prepared("COMMIT");
    sqlite3_stmt *put = prepared(put_text);
    sqlite3_stmt *removal = prepared("DELETE FROM kept WHERE name = ?1");
    const unsigned char *at = bytes, *end = bytes + size;
    while (at < end) {
        unsigned changes = number(&at);
        make(begin);
        for (unsigned n = 0; n < changes; n++) {
            unsigned is_put = number(&at);
            sqlite3_stmt *made = is_put ? put : removal;
            bind(made, 1, &at);
            if (is_put) bind(made, 2, &at);
            make(made);
        }
        make(commit);
    }
    sqlite3_finalize(begin), sqlite3_finalize(commit), sqlite3_finalize(put), sqlite3_finalize(removal);
}

static void *copied(sqlite3_stmt *made, int place) {
    int length = sqlite3_column_bytes(made, place);
    void *copy = malloc((size_t)length + 1);
    memcpy(copy, sqlite3_column_blob(made, place), (size_t)length);
    return copy;
}

static void read_all(const char *text) {
    sqlite3_stmt *rows = prepared(text);
    void **all = 0;
    size_t count = 0, room = 0;
    int answer;
    while ((answer = sqlite3_step(rows)) == SQLITE_ROW) {
        if (count + 2 > room) all = realloc(all, (room = room * 2 + 64) * sizeof *all);
        all[count++] = copied(rows, 0);
        all[count++] = copied(rows, 1);
    }
    must(answer, SQLITE_DONE);
    printf("%zu\n", count / 2);
    sqlite3_finalize(rows);
}

int main(int count, char **words) {
    must(sqlite3_open(words[2], &base), SQLITE_OK);
    if (!strcmp(words[1], "apply")) apply(words[3], "INSERT OR REPLACE INTO kept (name, body) VALUES (?1, ?2)");
    else if (!strcmp(words[1], "upsert"))
        apply(words[3], "INSERT INTO kept (name, body) VALUES (?1, ?2) ON CONFLICT (name) DO UPDATE SET body = excluded.body");
    else if (!strcmp(words[1], "read")) read_all("SELECT name, body FROM kept ORDER BY name");
    else read_all("SELECT name, body FROM kept");
    must(sqlite3_close(base), SQLITE_OK);
    return count < 3;
}
"""


def build_stock(work):
    source, program = work / "stock.c", work / "stock"
    source.write_text(STOCK)
    subprocess.run(["cc", "-O2", "-o", program, source, "-lsqlite3"], check=True)
    return str(program)


def timed(words, given="/dev/null"):
    """Seconds by the clock and of a processor that a run takes, and its most memory in kB."""
    with open(given, "rb") as source, open("/dev/null", "wb") as sink:
        begin = time.monotonic()
        process = subprocess.Popen([str(word) for word in words], stdin=source, stdout=sink)
        _, status, used = os.wait4(process.pid, 0)
        took = time.monotonic() - begin
    process.returncode = os.waitstatus_to_exitcode(status)
    if process.returncode:
        sys.exit(f"{' '.join(map(str, words))} ended with {process.returncode}")
    return took, used.ru_utime + used.ru_stime, used.ru_maxrss


def least(runs, tries):
    """The least of what some runs take, which go alternately; each is a call that makes ready and answers what to run."""
    best = {name: (float("inf"),) * 3 for name in tries}
    for _ in range(runs):
        for name, ready in tries.items():
            best[name] = tuple(map(min, best[name], timed(*ready())))
    return best


def tell(part, mine, other, aim=""):
    ratios = [a / b for a, b in zip(mine, other)]
    print(
        f"{part}: {mine[0]:.3f} s by the clock ({mine[1]:.3f} of a processor), C SQLite {other[0]:.3f} s ({other[1]:.3f}): "
        f"{ratios[0]:.2f} ({ratios[1]:.2f}){aim}",
        flush=True,
    )


def tell_ratio(part, mine, name, other, aim=""):
    ratios = [a / b for a, b in zip(mine, other)]
    print(
        f"{part}: {mine[0]:.3f} s by the clock ({mine[1]:.3f} of a processor), {name} {other[0]:.3f} s ({other[1]:.3f}): "
        f"{ratios[0]:.2f} ({ratios[1]:.2f}){aim}",
        flush=True,
    )


def sized(blob):
    return struct.pack("=I", len(blob)) + blob


def changes_between(before, now):
    """What changes rows into others: each name with its new body, or with none where its row is gone."""
    changes = {name: body for name, body in now.items() if before.get(name) != body}
    return changes | {name: None for name in before if name not in now}


def packed(changes):
    """The changes of a transaction, as the C program reads them."""
    each = [
        struct.pack("=I", 0) + sized(name) if body is None else struct.pack("=I", 1) + sized(name) + sized(body)
        for name, body in changes.items()
    ]
    return struct.pack("=I", len(each)) + b"".join(each)


def write_changes(work, lines, path):
    """What each line changes, as the C program reads it; the rows at the end."""
    status, output, _ = ran("-", ["replay"], b"".join(lines))
    if status:
        sys.exit(f"a replay in memory ended with {status}")
    before, count = {}, 0
    with path.open("wb") as file:
        for rows in fed(work / "watched", lines, texts_of(output)):
            changes = changes_between(before, dict(rows))
            file.write(packed(changes))
            before, count = dict(rows), count + len(changes)
    print(f"commits: {len(lines)} lines change {count} rows", flush=True)
    return rows


def renewed(path):
    for end in ("", "-wal", "-shm"):
        pathlib.Path(f"{path}{end}").unlink(missing_ok=True)
    return path


def commits(work, stock, given):
    lines = generated(7, given.blocks)
    (work / "lines").write_bytes(b"".join(lines))
    rows = write_changes(work, lines, work / "changes")
    tries = {
        "store": lambda: ([PROGRAM, renewed(work / "store"), "replay"], work / "lines"),
        "memory": lambda: ([PROGRAM, "-", "replay"], work / "lines"),
        "stock": lambda: ([stock, "apply", renewed(work / "stock.db"), work / "changes"],),
    }
    best = least(given.runs, tries)
    if not rows_of(work / "store") == rows_of(work / "stock.db") == rows:
        sys.exit("commits: the two stores do not have the same rows")
    tell("commits", best["store"], best["stock"], " (aim: at most 1.0)")
    tell(
        "commits, without the replay itself", tuple(a - b for a, b in zip(best["store"], best["memory"])), best["stock"]
    )


def reads(work, stock, given):
    subprocess.run(
        [sys.executable, TOP / "bench/machine/run.py", "--scale", str(given.scale), "--write", work, "state"],
        check=True,
    )
    with (work / "state-large.jsonl").open("rb") as lines:
        subprocess.run([PROGRAM, work / "large", "replay"], stdin=lines, stdout=subprocess.DEVNULL, check=True)
    print(f"reads: {len(rows_of(work / 'large'))} rows", flush=True)
    for end in ("", "-wal"):
        if os.path.exists(f"{work / 'large'}{end}"):
            shutil.copyfile(f"{work / 'large'}{end}", f"{work / 'stock-large'}{end}")
    tries = {
        "resume": lambda: ([PROGRAM, work / "large", "resume"],),
        "query": lambda: ([PROGRAM, work / "large", "query", "supply"],),
        "stock": lambda: ([stock, "read", work / "stock-large"],),
    }
    best = least(given.runs, tries)
    tell("resume without lines", best["resume"], best["stock"])
    tell("query supply", best["query"], best["stock"])


def history(work, stock, given):
    blocks = max(given.blocks, 10000) if given.scale == 1 else given.blocks
    lines = generated(7, blocks)
    (work / "lines").write_bytes(b"".join(lines))
    tries = {
        "keep": lambda: ([PROGRAM, renewed(work / "kept"), "keep", "replay"], work / "lines"),
        "plain": lambda: ([PROGRAM, renewed(work / "plain"), "replay"], work / "lines"),
    }
    best = least(given.runs, tries)
    kept, plain = dict(rows_of(work / "kept")), dict(rows_of(work / "plain"))
    past = {name: body for name, body in kept.items() if name[:1] in (b"\x60", b"\x61")}
    if {name: body for name, body in kept.items() if name not in past} != plain:
        sys.exit("history: the visible rows are not those of a run without one")
    size = sum(len(name) + len(body) for name, body in past.items())
    print(f"history: {len(past)} rows, {size / blocks:.0f} bytes of names and bodies a block", flush=True)
    tell_ratio(f"keep replay of {blocks} blocks", best["keep"], "replay", best["plain"], " (aim: at most 1.6)")
    tries = {
        "oldest": lambda: ([PROGRAM, work / "kept", "past", "0", "query", "supply"],),
        "last": lambda: ([PROGRAM, work / "kept", "past", str(blocks), "query", "supply"],),
        "present": lambda: ([PROGRAM, work / "plain", "query", "supply"],),
    }
    best = least(given.runs, tries)
    tell_ratio("a question of the oldest height", best["oldest"], "of the last", best["last"], " (aim: at most 1.5)")
    tell_ratio("a question of the oldest height", best["oldest"], "without a history", best["present"])


def main():
    words = argparse.ArgumentParser()
    for name, number in (("runs", 5), ("blocks", 2000), ("scale", 1)):
        words.add_argument(f"--{name}", type=int, default=number)
    words.add_argument("parts", nargs="*", choices=[[], "commits", "reads", "history"])
    given = words.parse_args()
    for part in given.parts or ("commits", "reads", "history"):
        with tempfile.TemporaryDirectory(prefix="store-") as name:
            work = pathlib.Path(name)
            {"commits": commits, "reads": reads, "history": history}[part](work, build_stock(work), given)


if __name__ == "__main__":
    main()
