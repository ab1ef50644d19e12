"""Copies a store, and writes the rows of the copy in the first format of rows, as earlier programs left them.

Who wants it: whoever has stores of an earlier program, and tries what becomes of one before it is brought to the second format.
One command:  python3 first_format.py STORE COPY
What comes out: nothing; COPY is a store in the first format, which `query` answers from and `resume` brings to the second.
`crates/store_rows/README.md` says how the two formats differ. It wants a store of the second format, over which no run is
going on."""
from __future__ import annotations

import contextlib
import os
import shutil
import sqlite3

from stakeplay.calling import Parser, run, stop

HEAD, SIGNING = b"\x01", b"\x30"
# Where the ring begins in the value of a signing record, and the list of missed places behind its length.
RING, MISSED = 41, 45


def first_signing(value):
    """The value of a signing record in the first format: eight places of the ring in a byte, the first in the lowest bit."""
    numbers = [int.from_bytes(value[at:at + 4], "big") for at in range(RING, len(value), 4)]
    packed = bytearray((numbers[0] + 7) // 8)
    for place in numbers[2:]:
        packed[place // 8] |= 1 << place % 8
    return value[:MISSED] + bytes(packed)


def first_format(name, body):
    """The body of a row in the first format."""
    if name == HEAD:
        return b"\x01" + body[1:]
    return first_signing(body) if name[:1] == SIGNING else body


def rows_of(base: sqlite3.Connection) -> list[tuple[bytes, bytes]]:
    """The rows of a store of the second format."""
    rows = base.execute("SELECT name, body FROM kept").fetchall()
    head = dict(rows).get(HEAD, b"")
    if head[:1] != b"\x02":
        stop("the store is of the first format already" if head[:1] == b"\x01" else "the store has no row of a last height")
    if any(name[:1] in (b"\x60", b"\x61") for name, _ in rows):
        stop("the store has a history, which no store of the first format has")
    return rows


def copied(store: str, copy: str) -> None:
    """Copies the files of a store, and writes the rows of the copy."""
    for end in ("", "-wal"):
        if os.path.exists(store + end):
            shutil.copyfile(store + end, copy + end)
    with contextlib.closing(sqlite3.connect(copy, isolation_level=None)) as base:
        rows = rows_of(base)
        base.execute("BEGIN")
        base.executemany("UPDATE kept SET body = ? WHERE name = ?", [(first_format(*row), row[0]) for row in rows])
        base.execute("COMMIT")
        base.execute("PRAGMA wal_checkpoint(TRUNCATE)")


def main() -> None:
    """Makes the copy; none is left where it can't be made."""
    parser = Parser(__doc__)
    parser.add_argument("store", metavar="STORE", help="the file of a store")
    parser.add_argument("copy", metavar="COPY", help="where its copy goes, which may not be there yet")
    words = parser.words()
    for end in ("", "-wal"):
        if os.path.exists(words.copy + end):
            stop(f"{words.copy}{end} is there already")
    with open(words.store, "rb"):
        pass
    try:
        copied(words.store, words.copy)
    except BaseException as fault:
        for end in ("", "-wal", "-shm"):
            with contextlib.suppress(OSError):
                os.remove(words.copy + end)
        if isinstance(fault, (sqlite3.Error, IndexError, TypeError, ValueError)):
            stop(f"{words.store} is no store of a chain: {fault}")
        raise


def command() -> None:
    """Runs the recipe."""
    run(main)
