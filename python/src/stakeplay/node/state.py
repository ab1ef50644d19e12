"""The state of a chain as a store of stakeplay keeps it: its items, their rows, and the file.

A class here has the fields of its row, in their order; their types say how each is spelled (`docs/FORMATS.md` has the
table of a store, and leads to the form of its rows). Addresses, amounts, times and coins are those of `node_data`.
"""
from __future__ import annotations

import contextlib
import os
import shutil
import sqlite3
import tempfile
from dataclasses import dataclass, field, fields
from typing import Any, Callable, Iterator

from stakeplay.node.data import SECOND, Coins, stop

Address = bytes           # 20 bytes
Denom = str               # a byte of length and its letters
Byte = int
Short = int               # 8 bytes: a height, a period, a number that is counted
Wide = int                # 16 bytes: an amount, the units of a decimal, a count of references
Moment = int              # 16 bytes: nanoseconds since 1970
Status = int              # 1 byte: the place in STATUSES
Ring = list[bool]         # a length, and a list of the missed places
Row = tuple[bytes, bytes]

STATUSES = "BOND_STATUS_BONDED", "BOND_STATUS_UNBONDING", "BOND_STATUS_UNBONDED"
BONDED_STATUS, UNBONDING_STATUS, UNBONDED_STATUS = range(3)
ROW_FORMS = (1, 2)        # the first byte of the head's row: the format of all rows; the last is written
MOST_PLACES = 100_000     # of the ring of a sound state
END_OF_TIME = 253_402_300_800 * SECOND     # the year 10000


@dataclass
class Head:
    """The last block."""
    form: Byte
    height: Short
    time: Moment


@dataclass
class Params:
    """The parameters of the modules; durations are seconds."""
    bond_denom: Denom
    power_reduction: Short
    unbonding_time: Short
    max_validators: Short
    max_entries: Short
    min_commission_rate: Wide
    community_tax: Wide
    withdraw_addr_enabled: bool
    signed_blocks_window: Short
    min_signed_per_window: Wide
    downtime_jail_duration: Short
    slash_fraction_double_sign: Wide
    slash_fraction_downtime: Wide
    max_age_duration: Short
    max_age_num_blocks: Short
    authority: Address


@dataclass
class Validator:
    """A validator of `x/staking`."""
    cons: Address
    status: Status
    jailed: bool
    tokens: Wide
    shares: Wide
    rate: Wide
    max_rate: Wide
    max_change_rate: Wide
    update_time: Moment
    min_self_delegation: Wide
    unbonding_height: Short
    unbonding_time: Moment


@dataclass
class Entry:
    """A part of an unbonding, or of a redelegation; what is left of it is a balance, or shares."""
    created: Short
    completes: Moment
    initial: Wide
    left: Wide


@dataclass
class Signing:
    """The signing record of a consensus address; its ring has a place for each vote of the window, true where missed."""
    start: Short
    counted: Short
    missed: Short
    jailed_until: Moment
    tombstoned: bool
    ring: Ring


@dataclass
class Purse:
    """What a validator has of `x/distribution`: decimal coins; None where the chain has no such record."""
    outstanding: Coins | None = None
    commission: Coins | None = None
    current: Coins | None = None


@dataclass
class Historical:
    """The ratio at the end of a period, and how many refer to it."""
    ratio: Coins
    count: Wide


@dataclass
class Start:
    """From where on a delegation's rewards are counted."""
    period: Short
    stake: Wide
    height: Short


@dataclass
class State:
    """All items of a state."""
    height: int
    time: int
    params: Params
    pool: Coins = field(default_factory=dict)
    balances: dict[tuple[bytes, str], int] = field(default_factory=dict)
    supply: dict[str, int] = field(default_factory=dict)
    validators: dict[bytes, Validator] = field(default_factory=dict)
    delegations: dict[tuple[bytes, bytes], int] = field(default_factory=dict)
    unbondings: dict[tuple[bytes, bytes], list[Entry]] = field(default_factory=dict)
    redelegations: dict[tuple[bytes, bytes, bytes], list[Entry]] = field(default_factory=dict)
    signings: dict[bytes, Signing] = field(default_factory=dict)
    purses: dict[bytes, Purse] = field(default_factory=dict)
    withdraws: dict[bytes, bytes] = field(default_factory=dict)
    periods: dict[bytes, int] = field(default_factory=dict)
    historicals: dict[tuple[bytes, int], Historical] = field(default_factory=dict)
    starts: dict[tuple[bytes, bytes], Start] = field(default_factory=dict)
    events: dict[tuple[bytes, int, int], int] = field(default_factory=dict)

    def add(self, account: bytes, denom: str, amount: int) -> None:
        """Adds an amount to a balance, also one below 0."""
        amount += self.balances.pop((account, denom), 0)
        if amount:
            self.balances[account, denom] = amount

    def move(self, giver: bytes, taker: bytes, coins: Coins) -> None:
        """Moves coins from one account to another."""
        for denom, amount in coins.items():
            self.add(giver, denom, -amount)
            self.add(taker, denom, amount)

    def coins(self, account: bytes) -> Coins:
        """What an account has."""
        return {denom: amount for (holder, denom), amount in self.balances.items() if holder == account}


HEAD, PARAMS, POOL = 0x01, 0x02, 0x41
TABLES: dict[int, tuple[str, tuple[str, ...], Any]] = {  # by the first byte: the table, the key's fields, the value
    0x10: ("balances", ("Address", "Denom"), "Wide"),
    0x11: ("supply", ("Denom",), "Wide"),
    0x20: ("validators", ("Address",), Validator),
    0x21: ("delegations", ("Address", "Address"), "Wide"),            # operator, delegator
    0x22: ("unbondings", ("Address", "Address"), "Entries"),          # delegator, operator
    0x23: ("redelegations", ("Address", "Address", "Address"), "Entries"),  # delegator, source, target
    0x30: ("signings", ("Address",), Signing),
    0x40: ("purses", ("Address",), Purse),
    0x42: ("withdraws", ("Address",), "Address"),
    0x50: ("periods", ("Address",), "Short"),
    0x51: ("historicals", ("Address", "Short"), Historical),          # operator, period
    0x52: ("starts", ("Address", "Address"), Start),                  # operator, delegator
    0x53: ("events", ("Address", "Short", "Short"), "Wide"),          # operator, height, period
}


# ---- how fields are spelled

class BadRow(ValueError):
    """Bytes that are no row."""


class Bytes:
    """The bytes of a key or value of rows in a format, which are taken from the front."""

    def __init__(self, data: bytes, form: int = ROW_FORMS[-1]):
        self.data, self.place, self.form = data, 0, form

    def take(self, count: int) -> bytes:
        """The next bytes."""
        self.place += count
        if self.place > len(self.data):
            raise BadRow
        return self.data[self.place - count:self.place]

    def number(self, count: int) -> int:
        """The number that the next bytes spell, the highest first."""
        return int.from_bytes(self.take(count), "big")

    def end(self) -> None:
        """Nothing may follow."""
        if self.place != len(self.data):
            raise BadRow


def _number(count: int) -> tuple[Callable[[int], bytes], Callable[[Bytes], int]]:
    return lambda number: number.to_bytes(count, "big"), lambda data: data.number(count)


def _below(bound: int) -> Callable[[Bytes], int]:
    def read(data: Bytes) -> int:
        number = data.number(1)
        if number >= bound:
            raise BadRow
        return number
    return read


def _read_moment(data: Bytes) -> int:
    moment = data.number(16)
    if moment >= END_OF_TIME:
        raise BadRow
    return moment


def _write_denom(denom: str) -> bytes:
    return bytes([len(denom)]) + denom.encode("ascii")


def _read_denom(data: Bytes) -> str:
    return data.take(data.number(1)).decode("ascii")


def _write_list(elements: list[bytes]) -> bytes:
    return len(elements).to_bytes(4, "big") + b"".join(elements)


def _write_coins(coins: Coins | None) -> bytes:
    return _write_list([_write_denom(denom) + amount.to_bytes(16, "big")
                        for denom, amount in sorted((coins or {}).items())])


def _read_coins(data: Bytes) -> Coins:
    return {_read_denom(data): data.number(16) for _ in range(data.number(4))}


def _write_ring(ring: list[bool]) -> bytes:
    places = [place.to_bytes(4, "big") for place, missed in enumerate(ring) if missed]
    return len(ring).to_bytes(4, "big") + _write_list(places)


def _read_ring(data: Bytes) -> list[bool]:
    """In the first format each place is a bit, the first the lowest of its byte; in the second the missed ones are listed."""
    count = data.number(4)
    if count > MOST_PLACES:
        raise BadRow
    if data.form == 1:
        places = int.from_bytes(data.take(-(-count // 8)), "little")
        return [bool(places >> place & 1) for place in range(count)]
    missed = {data.number(4) for _ in range(data.number(4))}
    if any(place >= count for place in missed):
        raise BadRow
    return [place in missed for place in range(count)]


SPELLINGS: dict[str, tuple[Callable[[Any], bytes], Callable[[Bytes], Any]]] = {
    "Address": (bytes, lambda data: data.take(20)),
    "Byte": _number(1), "Short": _number(8), "Wide": _number(16),
    "Moment": (_number(16)[0], _read_moment),
    "Status": (lambda status: bytes([status]), _below(3)),
    "bool": (lambda truth: bytes([truth]), lambda data: bool(_below(2)(data))),
    "Denom": (_write_denom, _read_denom),
    "Coins": (_write_coins, _read_coins), "Coins | None": (_write_coins, _read_coins),
    "Ring": (_write_ring, _read_ring),
    "Entries": (lambda entries: _write_list([_write_body(Entry, entry) for entry in entries]),
                lambda data: [_read_body(Entry, data) for _ in range(data.number(4))]),
}


def _write_body(form: Any, value: Any) -> bytes:
    if isinstance(form, str):
        return SPELLINGS[form][0](value)
    return b"".join(SPELLINGS[part.type][0](getattr(value, part.name)) for part in fields(form))


def _read_body(form: Any, data: Bytes) -> Any:
    if isinstance(form, str):
        return SPELLINGS[form][1](data)
    return form(*(SPELLINGS[part.type][1](data) for part in fields(form)))


# ---- rows

def rows_of(state: State) -> Iterator[Row]:
    """The rows of a state, not in their order."""
    yield bytes([HEAD]), _write_body(Head, Head(ROW_FORMS[-1], state.height, state.time))
    yield bytes([PARAMS]), _write_body(Params, state.params)
    yield bytes([POOL]), _write_coins(state.pool)
    for first, (table, key_forms, form) in TABLES.items():
        for key, value in getattr(state, table).items():
            key = key if len(key_forms) > 1 else (key,)
            name = b"".join(SPELLINGS[spelled][0](part) for spelled, part in zip(key_forms, key))
            yield bytes([first]) + name, _write_body(form, value)


def state_of(rows: dict[bytes, bytes]) -> State:
    """The state that has these rows; a `BadRow` where they are none."""
    single = {}
    for first, form in ((HEAD, Head), (PARAMS, Params), (POOL, "Coins")):
        data = Bytes(rows.get(bytes([first]), b"\0\0\0\0" if first == POOL else b""))
        single[first] = _read_body(form, data)
        data.end()
    if single[HEAD].form not in ROW_FORMS or not single[PARAMS].power_reduction:
        raise BadRow
    state = State(single[HEAD].height, single[HEAD].time, single[PARAMS], single[POOL])
    for name, body in rows.items():
        if name[:1] not in (b"\x01", b"\x02", b"\x41"):
            _take_row(state, Bytes(name), Bytes(body, single[HEAD].form))
    return state


def _take_row(state: State, name: Bytes, body: Bytes) -> None:
    first = name.number(1)
    if first not in TABLES:
        raise BadRow
    table, key_forms, form = TABLES[first]
    key = tuple(SPELLINGS[spelled][1](name) for spelled in key_forms)
    getattr(state, table)[key if len(key) > 1 else key[0]] = _read_body(form, body)
    name.end()
    body.end()


# ---- the file

SCHEMA = "CREATE TABLE kept (name BLOB NOT NULL PRIMARY KEY, body BLOB NOT NULL) STRICT"


def ask_free(path: str) -> None:
    """Refuses the path of a store where something stands already."""
    for name in (path, path + "-wal", path + "-journal"):
        if os.path.lexists(name):
            stop("store", f"{name} is there already")


def write_store(path: str, state: State) -> None:
    """Makes the store of a state: the whole of it, or none."""
    if sqlite3.sqlite_version_info < (3, 37):
        stop("store", f"SQLite {sqlite3.sqlite_version} can't make the table of a store; it needs 3.37")
    ask_free(path)
    begun = path + ".part"
    try:
        with contextlib.suppress(FileNotFoundError):
            os.remove(begun)
        with contextlib.closing(sqlite3.connect(os.path.abspath(begun), isolation_level=None)) as db:
            db.execute("BEGIN")
            db.execute(SCHEMA)
            db.executemany("INSERT INTO kept (name, body) VALUES (?, ?)", sorted(rows_of(state)))
            db.execute("COMMIT")
        os.rename(begun, path)
    except (OSError, sqlite3.Error) as fault:
        stop("store", f"{path}: {fault}")
    finally:
        for name in (begun, begun + "-journal"):
            with contextlib.suppress(OSError):
                os.remove(name)


def read_store(path: str) -> State:
    """The state of a store. A copy is read, since SQLite would change the store's log."""
    try:
        with tempfile.TemporaryDirectory() as room:
            copy = os.path.join(room, "copy")
            shutil.copyfile(path, copy)
            with contextlib.suppress(FileNotFoundError):
                shutil.copyfile(path + "-wal", copy + "-wal")
            with contextlib.closing(sqlite3.connect(copy)) as db:
                return state_of(dict(db.execute("SELECT name, body FROM kept")))
    except OSError as fault:
        stop("file", f"{path}: {fault.strerror}")
    except (sqlite3.Error, BadRow, UnicodeDecodeError, TypeError) as fault:
        stop("store", f"{path} is no store of a chain: {fault or 'a row is not of its form'}")
