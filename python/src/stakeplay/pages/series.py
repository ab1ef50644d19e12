"""Values over the blocks of a run, thinned while they are read: of each step the least, the greatest and the last.

Steps have the same width in heights, a power of two, which doubles when there are more of them than wanted; then two
neighbours become one, whose least is the smaller of theirs, and so on. So memory does not grow with a run, and no value
is an average: each is that of one block, with the line that told it.
"""
from __future__ import annotations

from typing import Any, Iterator

Point = tuple[int, int, Any]    # a height, a value, and the line that told it
STEP, LEAST, GREATEST, LAST = 0, 1, 4, 7    # where a step's parts begin in its list


class Steps:
    """The steps of a group of series, from a first height on."""

    def __init__(self, most: int) -> None:
        self.most, self.width, self.first, self.members = most, 1, 0, []    # type: int, int, int, list[Any]

    def of(self, height: int) -> int:
        """The step of a height, which is the last one; there is room for it afterwards."""
        while (height - self.first) // self.width >= self.most:
            self.double()
        return (height - self.first) // self.width

    def double(self) -> None:
        """Makes one step of two neighbours, in each series."""
        self.width *= 2
        for member in self.members:
            member.fold()


class Series:
    """A value that is known after each block, or told by some: three points of each step in which it was told."""
    __slots__ = ("steps", "parts")

    def __init__(self, steps: Steps) -> None:
        self.steps, self.parts = steps, []  # type: Steps, list[list[Any]]
        steps.members.append(self)

    def add(self, step: int, value: int, height: int, line: Any) -> None:
        """Takes the value of a block."""
        part = self.parts[-1] if self.parts else None
        if part is None or part[STEP] != step:
            self.parts.append([step, value, height, line, value, height, line, value, height, line])
            return
        if value < part[LEAST]:
            part[1:4] = value, height, line
        elif value > part[GREATEST]:
            part[4:7] = value, height, line
        part[7:10] = value, height, line

    def merge(self, step: int, least: tuple[int, int, Any], greatest: tuple[int, int, Any], last: tuple[int, int, Any]) -> None:
        """Takes the values of some blocks of a step: the first least, the first greatest and the last of them, each with its
        height and line."""
        if not self.parts or self.parts[-1][STEP] != step:
            self.parts.append([step, *least, *greatest, *last])
            return
        part = self.parts[-1]
        if least[0] < part[LEAST]:
            part[1:4] = least
        if greatest[0] > part[GREATEST]:
            part[4:7] = greatest
        part[7:10] = last

    def fold(self) -> None:
        """Makes one step of two neighbours."""
        folded: list[list[Any]] = []
        for part in self.parts:
            part[STEP] //= 2
            if not folded or folded[-1][STEP] != part[STEP]:
                folded.append(part)
                continue
            kept = folded[-1]
            if part[LEAST] < kept[LEAST]:
                kept[1:4] = part[1:4]
            if part[GREATEST] > kept[GREATEST]:
                kept[4:7] = part[4:7]
            kept[7:10] = part[7:10]
        self.parts = folded

    def points(self) -> Iterator[Point]:
        """The points that are kept, by ascending heights."""
        for part in self.parts:
            told = {part[place + 1]: (part[place + 1], part[place], part[place + 2]) for place in (1, 4, 7)}
            yield from (told[height] for height in sorted(told))


class Sums:
    """What was given in each step, added up, with the first and the last line of it and the state at its end."""
    __slots__ = ("steps", "parts")

    def __init__(self, steps: Steps) -> None:
        self.steps, self.parts = steps, []  # type: Steps, list[list[Any]]
        steps.members.append(self)

    def add(self, step: int, value: int, lines: tuple[int, int], height: int, state: Any) -> None:
        """Takes what a block gave, from which line to which, and the state after it."""
        if not self.parts or self.parts[-1][STEP] != step:
            self.parts.append([step, 0, lines[0], 0, 0, None])
        part = self.parts[-1]
        part[1] += value
        part[3:6] = lines[1], height, state

    def fold(self) -> None:
        """Makes one step of two neighbours."""
        folded: list[list[Any]] = []
        for part in self.parts:
            part[STEP] //= 2
            if folded and folded[-1][STEP] == part[STEP]:
                folded[-1][1] += part[1]
                folded[-1][3:6] = part[3:6]
            else:
                folded.append(part)
        self.parts = folded
