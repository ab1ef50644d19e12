"""The input beside an output: its blocks in step with it, their votes in the windows of the validators; and statements.

Votes are most of an input. A block mostly has those of the block before, but for the ones that were missed, so its line
is read as text and compared with the one before; only where it differs it is read as JSON.
"""
from __future__ import annotations

import json
import re
from collections import deque
from datetime import datetime
from typing import Any, BinaryIO

from stakeplay.lines.reading import ONE, is_genesis, opened, plain_time, stop
from stakeplay.pages.books import Ends, Validator

Json = dict[str, Any]
FILES = 1 << 40     # a place is the number of a file times this, and the number of a line; the output is file 0
EPOCH = datetime(1970, 1, 1)
VOTE = re.compile(rb'"cons":"([^"]*)","power":\d+,"signed":(true|false)')


def decimal(text: str) -> int:
    """The units of 10^-18 of a decimal of the input."""
    before, _, after = text.partition(".")
    return int(before) * ONE + int(after.ljust(18, "0"))


def nanoseconds(moment: str) -> int:
    """A moment as nanoseconds since 1970."""
    since = datetime.fromisoformat(moment[:19]) - EPOCH
    return (since.days * 86400 + since.seconds) * 10 ** 9 + int(moment[20:-1].ljust(9, "0") if len(moment) > 20 else 0)


class Given:
    """The input beside the output: files that are read one after the other, in step with it; and statements."""

    def __init__(self, names: list[str]) -> None:
        self.names, self.genesis, self.place = names, None, 0   # type: list[str], Json | None, int
        self.statements: Ends[tuple[Json, int]] = Ends(1000, 1000)
        self.rest: list[tuple[int, BinaryIO]] = []
        self.text, self.parsed_block, self.is_in_step = b"", None, False    # type: bytes, Json | None, bool
        for number, name in enumerate(names, 1):
            self.open(number, name)
        self.is_there = bool(self.rest)

    def open(self, number: int, name: str) -> None:
        """Opens a file, and reads it whole if it has statements."""
        file = opened(name, 1 << 18)
        first = self.parsed(name, file.readline())
        if first.get("kind") == "statement":
            for place, line in enumerate([first, *(self.parsed(name, text) for text in file)], 1):
                self.statements.add((line, number * FILES + place))
            return
        if first.get("kind") not in ("genesis", "block"):
            stop(f"{name}: this is neither an input of `replay` or `resume` nor statements")
        file.seek(0)
        self.rest.append((number, file))
        if first["kind"] == "genesis" and not is_genesis(first):
            stop(f"{name}: this is no genesis")
        if first["kind"] == "genesis" and len(self.rest) == 1:
            self.genesis = self.parsed(name, self.next_text())

    def parsed(self, name: str, text: bytes) -> Json:
        """A line as an object."""
        try:
            line = json.loads(text.decode())
        except (ValueError, RecursionError):
            line = None
        return line if isinstance(line, dict) else stop(f"{name}: a line of it is no object of JSON")

    def next_text(self) -> bytes:
        """The next line of the files; no bytes at their end."""
        while self.rest:
            number, file = self.rest[0]
            if text := file.readline():
                self.place = (self.place if self.place // FILES == number else number * FILES) + 1
                return text
            self.rest.pop(0)
        return b""

    def at(self, height: int) -> bool:
        """Goes on to the block of a height; whether the files have it. Blocks stand one after the other, so a line that
        names the height is taken for it once the first was found."""
        self.parsed_block, self.text = None, self.next_text()
        if self.is_in_step and b'"height":%d' % height in self.text:
            return True
        while self.text:
            line = self.block()
            if line.get("kind") == "block" and line["height"] >= height:
                self.is_in_step = line["height"] == height
                return self.is_in_step
            self.parsed_block, self.text = None, self.next_text()
        return False

    def is_of(self, moment: str) -> bool:
        """Whether the block to which `at` went has the moment of the output's block."""
        if b'"time":"%s"' % moment.encode() in self.text:
            return True
        told = self.block().get("time")
        return isinstance(told, str) and plain_time(told) == moment

    def block(self) -> Json:
        """The block to which `at` went, as an object."""
        if self.parsed_block is None:
            self.parsed_block = self.parsed("the input", self.text)
        return self.parsed_block


class Window:
    """The votes of a consensus address, counted from 1 on, and which of the last ones were missed."""
    __slots__ = ("validator", "base", "stopped", "misses", "start", "before", "begun")

    def __init__(self, validator: Validator, start: int, counted: int = 0) -> None:
        self.validator, self.start = validator, start
        self.base, self.stopped = 0, counted    # of a window that counts each block: its votes less the blocks; else -1
        self.misses: deque[int] = deque()
        self.before, self.begun = 0, counted    # what was missed before the first block, and the votes then

    def counted(self, now: int) -> int:
        """How many votes were counted, at a block."""
        return self.stopped if self.stopped >= 0 else self.base + now

    def is_whole(self, now: int, size: int) -> bool:
        """Whether each miss of the window is one of a vote that was read."""
        return not self.before or self.counted(now) - self.begun >= size

    def reset(self, now: int) -> None:
        """The votes begin anew after downtime."""
        self.misses.clear()
        self.before = self.begun = 0
        if self.stopped >= 0:
            self.stopped = 0
        else:
            self.base = -now


class Votes:
    """The votes of each block, in the windows of their validators: `HandleValidatorSignature` of the SDK.

    Where the votes are those of the block before but for misses, every window that counted then counts again; a miss is
    looked at when it comes, and when it is as old as the window is long."""

    def __init__(self) -> None:
        self.windows: dict[str, Window] = {}
        self.size, self.allowed = FILES, 0      # without parameters all votes count
        self.moved: dict[Window, None] = {}     # whose misses are others than before
        self.text = b""                         # the votes of the block before, as if all were signed
        self.beside = b""                       # what the input's block has beside them, if they could be told from it
        self.counting: list[Window] = []        # whose votes counted in the block before
        self.due: dict[int, list[Window]] = {}  # which windows may lose a miss at a block
        self.now = 0                            # blocks that were read

    def parameters(self, params: Json) -> None:
        """The size of the window, and how many of it may be missed. A window keeps what both sizes hold."""
        size, least = params["signed_blocks_window"], decimal(params["min_signed_per_window"])
        part, rest = divmod(size * least, ONE)
        self.size, self.allowed = size, size - part - (2 * rest > ONE or 2 * rest == ONE and part % 2)
        self.due = {}
        for window in self.windows.values():
            self.expire(window)

    def change(self) -> None:
        """A validator joins, leaves, is jailed or not any more: the next block is looked at anew."""
        self.text = b""

    def take(self, given: Given) -> None:
        """The votes of the block at which the input stands."""
        self.now += 1
        text = given.text
        start = text.find(b'"votes":[')
        section = text[start:text.find(b"]", start)]
        is_plain = start >= 0 and text.count(b'"votes":[') == 1 and b"\\" not in text
        self.beside = text[:start] + text[start + len(section):] if is_plain else text
        missed = b"false" in section
        signed = section.replace(b"false", b"true") if missed else section
        if is_plain and signed == self.text:
            if missed:
                self.miss_of(section)
        else:
            votes = VOTE.findall(section) if is_plain else []
            is_plain = is_plain and len(votes) == section.count(b"{")
            self.text = signed if is_plain else b""
            self.look([(cons.decode(), flag == b"true") for cons, flag in votes] if is_plain
                      else [(vote["cons"], vote["signed"]) for vote in given.block()["votes"]])
        for window in self.due.pop(self.now, ()):
            self.expire(window)

    def miss_of(self, section: bytes) -> None:
        """The misses in a text of votes."""
        place = section.find(b"false")
        while place >= 0:
            start = section.rfind(b'"cons":"', 0, place) + 8
            window = self.windows.get(section[start:section.index(b'"', start)].decode())
            if window and window.stopped < 0:
                self.miss(window)
            place = section.find(b"false", place + 1)

    def look(self, votes: list[tuple[str, bool]]) -> None:
        """Votes of which others counted than in the block before: who counts now, and who missed."""
        before = dict.fromkeys(self.counting)
        self.counting = []
        for cons, is_signed in votes:
            window = self.windows.get(cons)
            if window is None or window.validator.is_jailed or not window.validator.stands:
                continue
            if window.stopped >= 0:
                window.base, window.stopped = window.stopped - self.now + 1, -1
            before.pop(window, None)
            self.counting.append(window)
            if not is_signed:
                self.miss(window)
        for window in before:
            window.stopped = window.base + self.now - 1

    def miss(self, window: Window) -> None:
        """A vote was missed."""
        window.misses.append(window.counted(self.now))
        self.moved[window] = None
        self.due.setdefault(self.now + self.size, []).append(window)

    def expire(self, window: Window) -> None:
        """Drops what is older than the window; of what is left, the oldest one is looked at when it may be."""
        last, misses = window.counted(self.now) - self.size, window.misses
        while misses and misses[0] <= last:
            misses.popleft()
            self.moved[window] = None
        if misses:
            self.due.setdefault(self.now + max(1, misses[0] - last), []).append(window)
