"""The shares of the fees that the validators of each block are given: most lines of a run, read together by their form.

They stand one after the other in a block, one for each validator. What a page keeps of them (of each step of blocks the
least, the greatest, the last, and the sum) joins exactly, so parts of a long file are read beside each other by other
processes, each for the lines of its part alone; what the shares belong to is judged where the lines are read in order.
"""
from __future__ import annotations

import os
import re
import signal
from collections import deque
from concurrent.futures import BrokenExecutor, Future, ProcessPoolExecutor
from dataclasses import dataclass
from multiprocessing import get_all_start_methods, get_context
from typing import BinaryIO, Iterator, NamedTuple

from stakeplay.pages.series import Steps

PART = 1 << 22      # bytes of a file that are read at once
FEW = 16 * PART     # of a file that is not worth other processes
HEAD, MIDDLE = b'{"coins":[{"amount":"', b'","denom":"%s"}],"height":%d,"kind":"allocated","validator":"'
BETWEEN = b'"}\n' + HEAD
AMOUNTS = re.compile(rb"\d+\.\d{18}(?: \d+\.\d{18})*")
KIND = b',"kind":"allocated",'
OF_HEIGHT = re.compile(rb'\{"coins":\[\{"amount":"[0-9.]+","denom":"([^"\\]*)"\}\],"height":([1-9][0-9]{0,17}),"kind":"allocated"')


class Shares(NamedTuple):
    """Shares that stand one after the other."""
    names: list[bytes]
    values: list[int]   # in units of 10^-18
    end: int            # the place behind the last one


class Reader:
    """Reads the shares of a page's denomination."""

    def __init__(self) -> None:
        self.guess = 1 << 14    # how long the shares of a block may be

    def at(self, text: bytes, place: int, middle: bytes) -> Shares | None:
        """The shares that stand at a place, if they are all of the denomination and the height that `middle` has. They are
        taken apart by what they have in common."""
        last = text.rfind(middle, place, place + self.guess)
        end = text.find(b"\n", last) + 1
        words = text[place + len(HEAD):end - 3].replace(middle, b" ").replace(BETWEEN, b" ").split(b" ")
        amounts, names = b" ".join(words[::2]), words[1::2]
        if last < 0 or not end or text[end - 3:end] != b'"}\n' or len(words) % 2 or not AMOUNTS.fullmatch(amounts):
            return None
        self.guess = max(1 << 14, 2 * (end - place))
        return Shares(names, list(map(int, amounts.replace(b".", b"").split(b" "))), end)


class Summed(NamedTuple):
    """Shares of a validator in some blocks: what is kept of them, and in which of the blocks they were."""
    least: int
    least_at: int
    greatest: int
    greatest_at: int
    last: int
    total: int


def summed(values: tuple[int, ...]) -> Summed:
    """What is kept of values."""
    least, greatest = min(values), max(values)
    return Summed(least, values.index(least), greatest, values.index(greatest), values[-1], sum(values))


# ---- parts of a file, beside each other

Found = tuple[int, int, int, int]   # where a block's shares begin and end in a part, its height, and what they sum to


@dataclass
class Group:
    """Shares of the same validators in blocks of one step, one after the other, of one part of a file."""
    names: list[bytes]
    found: list[Found]      # of each block
    kept: list[Summed]      # of each validator
    is_read: bool = True    # whether it is taken as it is


def of_part(name: str, start: int, end: int, denom: str, steps: tuple[int, int]) -> list[Group]:
    """The shares of a part of a file, in groups. `steps` is how many steps there are at most, and the first height."""
    with open(name, "rb") as file:
        text = os.pread(file.fileno(), end - start, start)
    grouped, reader, step = Grouped(), Reader(), Steps(steps[0])
    step.first = steps[1]
    place = text.find(KIND)
    while place >= 0:
        place = text.rfind(b"\n", 0, place) + 1
        found = OF_HEIGHT.match(text, place)
        height = int(found[2]) if found else 0
        shares = reader.at(text, place, MIDDLE % (denom.encode(), height)) if found and height >= step.first else None
        if shares:
            grouped.add(shares, (step.of(height), step.width), (place, shares.end, height, sum(shares.values)))
        else:
            grouped.close()
        place = text.find(KIND, shares.end if shares else text.find(b"\n", place) + 1 or len(text))
    grouped.close()
    return grouped.done


class Grouped:
    """Shares that come one after the other, in groups."""

    def __init__(self) -> None:
        self.done: list[Group] = []
        self.names: list[bytes] = []
        self.step: tuple[int, int] | None = None
        self.found: list[Found] = []
        self.values: list[list[int]] = []

    def add(self, shares: Shares, step: tuple[int, int], found: Found) -> None:
        """Takes those of a block."""
        if step != self.step or shares.names != self.names:
            self.close()
        self.names, self.step = shares.names, step
        self.found.append(found)
        self.values.append(shares.values)

    def close(self) -> None:
        """What comes is of another group."""
        if self.found:
            self.done.append(Group(self.names, self.found, [*map(summed, zip(*self.values))]))
            self.found, self.values = [], []


Told = dict[int, tuple[Group, Found]]   # by the place where a block's shares begin


class Parts:
    """A file in parts of whole lines. Once it is known what the shares look like, other processes read those of the parts
    that follow."""

    def __init__(self, file: BinaryIO, name: str, jobs: int | None) -> None:
        self.file, self.name = file, name
        self.size = os.fstat(file.fileno()).st_size if name != "-" and file.seekable() else 0
        self.jobs = processes(self.size) if jobs is None else jobs
        self.looks: tuple[str, tuple[int, int]] | None = None   # the denomination, and the steps, once they are known

    def __iter__(self) -> Iterator[tuple[bytes, Told]]:
        """The text of each part, and what is known of its shares."""
        others = self.others()
        if others is None:
            yield from ((text, {}) for text in chunks(self.file))
            return
        with others:
            try:
                yield from self.beside(others)
            finally:
                others.shutdown(cancel_futures=True)

    def others(self) -> ProcessPoolExecutor | None:
        """The other processes, where there are to be some and the system has what they need."""
        if self.jobs < 2 or not self.size or "fork" not in get_all_start_methods():
            return None
        try:
            return ProcessPoolExecutor(self.jobs - 1, get_context("fork"), signal.signal, (signal.SIGINT, signal.SIG_IGN))
        except (ImportError, NotImplementedError, OSError):
            return None

    def beside(self, others: ProcessPoolExecutor) -> Iterator[tuple[bytes, Told]]:
        """The same, by other processes."""
        cuts, waiting = self.cuts(), deque()    # type: Iterator[tuple[int, int]], deque[tuple[int, int, Future[list[Group]] | None]]
        is_more = True
        while is_more or waiting:
            while is_more and len(waiting) < (2 * self.jobs if self.looks else 1):
                start, end = next(cuts, (0, 0))
                is_more = end > 0
                if is_more:
                    waiting.append((start, end, self.asked(others, start, end)))
            if waiting:
                start, end, future = waiting.popleft()
                yield os.pread(self.file.fileno(), end - start, start), self.told(future)

    def asked(self, others: ProcessPoolExecutor, start: int, end: int) -> Future[list[Group]] | None:
        """Asks for the shares of a part."""
        if self.looks is None:
            return None
        try:
            return others.submit(of_part, self.name, start, end, *self.looks)
        except BrokenExecutor:
            return None

    def told(self, future: Future[list[Group]] | None) -> Told:
        """What another process found; nothing where it came to no end."""
        try:
            groups = future.result() if future else []
        except (BrokenExecutor, OSError, MemoryError):
            groups = []
        return {found[0]: (group, found) for group in groups for found in group.found}

    def cuts(self) -> Iterator[tuple[int, int]]:
        """Where the parts begin and end: behind a line, and before a block where there is one near."""
        start = 0
        while start < self.size:
            end = start + PART
            while end < self.size:
                near = os.pread(self.file.fileno(), 1 << 16, end)
                block = near.find(b',"kind":"block",')
                line = near.rfind(b"\n", 0, block) + 1 if block >= 0 else 0
                line = line or near.find(b"\n") + 1
                end += line or len(near)
                if line or not near:
                    break
            yield start, min(end, self.size)
            start = end


def processes(size: int) -> int:
    """How many processes read a file of so many bytes."""
    processors = len(os.sched_getaffinity(0)) if hasattr(os, "sched_getaffinity") else os.cpu_count() or 1
    return min(4, processors) if size > FEW else 1


def chunks(file: BinaryIO) -> Iterator[bytes]:
    """The bytes of a file in whole lines, but for a last one that is cut."""
    rest = b""
    while text := file.read(PART):
        text = rest + text
        end = text.rfind(b"\n") + 1
        rest = text[end:]
        if end:
            yield text[:end]
    if rest:
        yield rest
