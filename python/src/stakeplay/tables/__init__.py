"""The tables of docs/FORMATS.md that programs want, as `checks/tables.py` writes them here: refusals, and members."""
from __future__ import annotations

import csv
import functools
import pathlib
from typing import NamedTuple


class Refusal(NamedTuple):
    """Why a message is refused."""
    number: int
    name: str
    condition: str
    sdk_error: str


class Shape(NamedTuple):
    """A member of a line that is read, by its number."""
    number: int
    member: str
    of: str


def _rows(name: str) -> list[list[str]]:
    text = pathlib.Path(__file__).with_name(name).read_text(encoding="utf-8")
    return list(csv.reader(text.splitlines()))[1:]


@functools.cache
def refusals() -> dict[int, Refusal]:
    """The refusals, by their numbers."""
    return {int(number): Refusal(int(number), *others) for number, *others in _rows("refusals.csv")}


@functools.cache
def shapes() -> dict[int, Shape]:
    """The members of lines that are read, by their numbers."""
    return {int(number): Shape(int(number), *others) for number, *others in _rows("shapes.csv")}


def refusal_named(number: int) -> str:
    """The name and the condition of a refusal."""
    found = refusals().get(number)
    return f"{found.name}: {found.condition}" if found else "a refusal of a later version"
