"""A range of blocks in parts that are converted beside each other, for `from_blocks.py --jobs N`.

Each part is a range of its own, in a process of its own: its lines, its hashes and what it tells are kept in files until
its turn comes, so that all is written as one process writes it. Memory does not grow with the range.
"""
from __future__ import annotations

import contextlib
import io
import multiprocessing
import os
import tempfile
from collections import Counter
from dataclasses import dataclass
from typing import Callable, Iterator, TextIO

from stakeplay.node import data
from stakeplay.node.data import Stop
from stakeplay.node.denominations import TAKEN

MOST_BLOCKS = 500   # of a part

Convert = Callable[[int, int, TextIO | None], Iterator[str]]    # the lines of a range, whose hashes go to a file


@dataclass
class Part:
    """What became of a part: where its lines and hashes are, and what it told."""
    lines: str
    hashes: str
    told: str
    notes: Counter[tuple[str, str]]
    sums: Counter[str]
    fault: tuple[str, str] | None   # the code and the text of a `stop`


def ranges(first: int, last: int, jobs: int) -> list[tuple[int, int]]:
    """The range in parts, several for each process."""
    size = max(1, min(MOST_BLOCKS, -(-(last - first + 1) // (4 * jobs))))
    return [(begin, min(begin + size - 1, last)) for begin in range(first, last + 1, size)]


def convert_part(convert: Convert, room: str, first: int, last: int, has_hashes: bool) -> Part:
    """Converts a part, up to its first fault."""
    data.begin_told()
    TAKEN.sums.clear()
    said, fault, paths = io.StringIO(), None, [f"{room}/{name}_{first}" for name in ("lines", "hashes")]
    with contextlib.redirect_stderr(said), open(paths[0], "w") as lines, open(paths[1], "w", encoding="ascii") as hashes:
        try:
            lines.writelines(convert(first, last, hashes if has_hashes else None))
        except Stop as stopped:
            fault = stopped.code, stopped.text
    return Part(*paths, said.getvalue(), data.told.copy(), TAKEN.sums.copy(), fault)


def _work(task: tuple[Convert, str, int, int, bool]) -> Part:
    return convert_part(*task)


def taken_over(part: Part, hashes: TextIO | None) -> Iterator[str]:
    """The lines of a part whose turn has come, after what it told."""
    data.tell_again(part.told, part.notes)
    TAKEN.sums.update(part.sums)
    with open(part.lines) as lines:
        yield from lines
    with open(part.hashes, encoding="ascii") as rows:
        if hashes:
            hashes.writelines(rows)
    for path in (part.lines, part.hashes):
        os.remove(path)
    if part.fault:
        raise Stop(*part.fault)


def beside_each_other(convert: Convert, first: int, last: int, jobs: int, hashes: TextIO | None) -> Iterator[str]:
    """The lines of a range, by so many processes."""
    ways = multiprocessing.get_all_start_methods()
    context = multiprocessing.get_context("fork" if "fork" in ways else None)
    only, without = TAKEN.only, TAKEN.without
    with tempfile.TemporaryDirectory() as room, context.Pool(jobs, TAKEN.begin, (only, without)) as pool:
        tasks = ((convert, room, begin, end, hashes is not None) for begin, end in ranges(first, last, jobs))
        for part in pool.imap(_work, tasks):
            yield from taken_over(part, hashes)
