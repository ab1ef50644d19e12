"""The lines of an output as values: a class for each kind, with exact numbers.

An amount is an `int`. A decimal is a `Dec`, which holds its units of 10^-18 as an `int`, so that sums and comparisons are
exact; `Decimal` would round sums to the places of its context, and a float nearly everything.
"""
from __future__ import annotations

import functools
import os
import re
import typing
from dataclasses import MISSING, dataclass, fields
from decimal import Decimal
from fractions import Fraction
from typing import Any, Callable, ClassVar, Iterable, Iterator, Union

from stakeplay.calling import opened, stop
from stakeplay.lines.reading import lines_of
from stakeplay.tables import Refusal, refusals

ONE = 10 ** 18
_DECIMAL = re.compile(r"([0-9]{1,38})(?:\.([0-9]{1,18}))?", re.ASCII)
_AMOUNT = re.compile("[0-9]{1,60}", re.ASCII)


# ---- numbers

@dataclass(frozen=True, order=True)
class Dec:
    """A decimal of 18 places, as `sdk.Dec`: its units of 10^-18."""
    units: int

    @classmethod
    def of(cls, text: str) -> Dec:
        """The decimal of a text."""
        found = _DECIMAL.fullmatch(text)
        if not found:
            raise ValueError(f"{text!r} is no decimal")
        return cls(int(found[1]) * ONE + int((found[2] or "").ljust(18, "0")))

    def __str__(self) -> str:
        sign, units = "-" if self.units < 0 else "", abs(self.units)
        return f"{sign}{units // ONE}.{units % ONE:018d}"

    def __repr__(self) -> str:
        return f"Dec.of('{self}')" if self.units >= 0 else f"Dec({self.units})"

    def __bool__(self) -> bool:
        return bool(self.units)

    def __int__(self) -> int:
        """The whole part."""
        return self.units // ONE if self.units >= 0 else -(-self.units // ONE)

    def __add__(self, other: Dec | int) -> Dec:
        return Dec(self.units + (other.units if isinstance(other, Dec) else other * ONE))

    __radd__ = __add__

    def __neg__(self) -> Dec:
        return Dec(-self.units)

    def __sub__(self, other: Dec | int) -> Dec:
        return Dec(self.units - (other.units if isinstance(other, Dec) else other * ONE))

    @property
    def decimal(self) -> Decimal:
        """The same as a `Decimal`, exactly."""
        return Decimal(str(self))

    @property
    def fraction(self) -> Fraction:
        """The same as a `Fraction`, for products and quotients."""
        return Fraction(self.units, ONE)


@dataclass(frozen=True)
class Coin:
    """Whole units of a denomination."""
    denom: str
    amount: int


@dataclass(frozen=True)
class DecCoin:
    """Units of a denomination, with 18 places."""
    denom: str
    amount: Dec


Coins = tuple[Coin, ...]
DecCoins = tuple[DecCoin, ...]
Amount = int    # of a text, where a number of JSON is `int`


# ---- the kinds

@dataclass(frozen=True)
class Fact:
    """A line."""
    kind: ClassVar[str] = ""


@dataclass(frozen=True)
class Genesis(Fact):
    """The genesis was taken."""
    kind: ClassVar[str] = "genesis"
    height: int
    supply: Coins


@dataclass(frozen=True)
class Block(Fact):
    """A block begins."""
    kind: ClassVar[str] = "block"
    height: int
    time: str   # RFC 3339 in UTC, with up to nine places of a second


@dataclass(frozen=True)
class Accepted(Fact):
    """A transaction was accepted."""
    kind: ClassVar[str] = "accepted"
    height: int
    tx: int


@dataclass(frozen=True)
class Refused(Fact):
    """A transaction was refused, by a message or, without one, since its fee was not paid."""
    kind: ClassVar[str] = "refused"
    height: int
    tx: int
    number: int
    msg: int | None = None
    until: str | None = None
    member: int | None = None
    a: str | None = None
    b: str | None = None
    c: str | None = None
    over: str | None = None

    @property
    def refusal(self) -> Refusal | None:
        """The name and the condition of the number; nothing of a number of a later version."""
        return refusals().get(self.number)


@dataclass(frozen=True)
class Transfer(Fact):
    """Coins went from one account to another."""
    kind: ClassVar[str] = "transfer"
    height: int
    coins: Coins
    from_: str
    to: str


@dataclass(frozen=True)
class Burn(Fact):
    """Coins were burned."""
    kind: ClassVar[str] = "burn"
    height: int
    amount: Amount
    denom: str
    from_: str


@dataclass(frozen=True)
class Allocated(Fact):
    """A validator got its share of a block's fees."""
    kind: ClassVar[str] = "allocated"
    height: int
    coins: DecCoins
    validator: str


@dataclass(frozen=True)
class Pooled(Fact):
    """Coins joined the community pool."""
    kind: ClassVar[str] = "pooled"
    height: int
    coins: DecCoins


@dataclass(frozen=True)
class Period(Fact):
    """A period of a validator ended."""
    kind: ClassVar[str] = "period"
    height: int
    period: int
    ratio: DecCoins
    validator: str


@dataclass(frozen=True)
class Started(Fact):
    """The rewards of a delegation begin."""
    kind: ClassVar[str] = "started"
    height: int
    delegator: str
    period: int
    stake: Dec
    validator: str


@dataclass(frozen=True)
class Slashed(Fact):
    """A validator was slashed."""
    kind: ClassVar[str] = "slashed"
    height: int
    burned: Amount
    fraction: Dec
    validator: str


@dataclass(frozen=True)
class Paid(Fact):
    """The rewards of a delegation were paid."""
    kind: ClassVar[str] = "paid"
    height: int
    coins: Coins
    delegator: str
    reward: DecCoins
    to: str
    validator: str


@dataclass(frozen=True)
class Commission(Fact):
    """The commission of a validator was paid."""
    kind: ClassVar[str] = "commission"
    height: int
    coins: Coins
    to: str
    validator: str


@dataclass(frozen=True)
class Status(Fact):
    """A validator has another status."""
    kind: ClassVar[str] = "status"
    height: int
    status: str
    validator: str


@dataclass(frozen=True)
class _OfValidator(Fact):
    height: int
    validator: str


@dataclass(frozen=True)
class Jailed(_OfValidator):
    """A validator was jailed."""
    kind: ClassVar[str] = "jailed"


@dataclass(frozen=True)
class Unjailed(_OfValidator):
    """A validator left jail."""
    kind: ClassVar[str] = "unjailed"


@dataclass(frozen=True)
class Tombstoned(_OfValidator):
    """A validator was jailed for ever."""
    kind: ClassVar[str] = "tombstoned"


@dataclass(frozen=True)
class Removed(_OfValidator):
    """A validator is no more."""
    kind: ClassVar[str] = "removed"


@dataclass(frozen=True)
class Params(Fact):
    """The parameters were replaced."""
    kind: ClassVar[str] = "params"
    height: int
    authority: str


# ---- the report

@dataclass(frozen=True)
class Supply(Fact):
    """The supply of each denomination."""
    kind: ClassVar[str] = "supply"
    coins: Coins


@dataclass(frozen=True)
class Account(Fact):
    """What an account has."""
    kind: ClassVar[str] = "account"
    address: str
    coins: Coins


@dataclass(frozen=True)
class Validator(Fact):
    """What a validator has."""
    kind: ClassVar[str] = "validator"
    operator: str
    cons: str
    status: str
    jailed: bool
    tokens: Amount
    shares: Dec
    rate: Dec
    commission: DecCoins
    outstanding: DecCoins


@dataclass(frozen=True)
class Delegation(Fact):
    """The shares of a delegation."""
    kind: ClassVar[str] = "delegation"
    delegator: str
    validator: str
    shares: Dec


@dataclass(frozen=True)
class Pending(Fact):
    """The rewards that a delegation would be paid; nothing where reckoning them meets a limit."""
    kind: ClassVar[str] = "pending"
    delegator: str
    validator: str
    coins: DecCoins | None = None
    limit: bool = False


@dataclass(frozen=True)
class Unbonding(Fact):
    """An entry of an unbonding delegation."""
    kind: ClassVar[str] = "unbonding"
    delegator: str
    validator: str
    created: int
    completes: str
    initial: Amount
    balance: Amount


@dataclass(frozen=True)
class Redelegation(Fact):
    """An entry of a redelegation."""
    kind: ClassVar[str] = "redelegation"
    delegator: str
    source: str
    target: str
    created: int
    completes: str
    initial: Amount
    shares: Dec


@dataclass(frozen=True)
class Signing(Fact):
    """A signing record."""
    kind: ClassVar[str] = "signing"
    cons: str
    start: int
    counted: int
    missed: int
    jailed_until: str
    tombstoned: bool


@dataclass(frozen=True)
class Pool(Fact):
    """The community pool."""
    kind: ClassVar[str] = "pool"
    coins: DecCoins


KINDS: dict[str, type[Fact]] = {
    fact.kind: fact for fact in (
        Genesis, Block, Accepted, Refused, Transfer, Burn, Allocated, Pooled, Period, Started, Slashed, Paid, Commission,
        Status, Jailed, Unjailed, Tombstoned, Removed, Params, Supply, Account, Validator, Delegation, Pending, Unbonding,
        Redelegation, Signing, Pool)}


# ---- from lines to values

def _exactly(form: type) -> Callable[[Any], Any]:
    def read(value: Any) -> Any:
        if type(value) is not form:
            raise ValueError(value)
        return value
    return read


def _amount(value: Any) -> int:
    if not _AMOUNT.fullmatch(value):
        raise ValueError(value)
    return int(value)


def _coins(value: Any) -> Coins:
    return tuple(Coin(coin["denom"], _amount(coin["amount"])) for coin in value)


def _dec_coins(value: Any) -> DecCoins:
    return tuple(DecCoin(coin["denom"], Dec.of(coin["amount"])) for coin in value)


FORMS: dict[str, Callable[[Any], Any]] = {
    "int": _exactly(int), "str": _exactly(str), "bool": _exactly(bool), "Amount": _amount, "Dec": Dec.of,
    "Coins": _coins, "DecCoins": _dec_coins,
}


@functools.cache
def _plan(fact: type[Fact]) -> list[tuple[str, str, Callable[[Any], Any], bool]]:
    """Of each field of a kind: its name, its member, how that is read, and whether it has to be there."""
    return [(one.name, one.name.rstrip("_"), FORMS[str(one.type).removesuffix(" | None")], one.default is MISSING)
            for one in fields(fact)]


def fact_of(line: dict[str, Any]) -> Fact:
    """A line as a value; a `ValueError` of a line that is none of an output."""
    try:
        fact = KINDS[line["kind"]]
        return fact(**{name: read(line[member]) for name, member, read, is_due in _plan(fact) if is_due or member in line})
    except (KeyError, TypeError) as fault:
        raise ValueError(f"no line of an output: {fault}") from fault


Source = Union[str, "os.PathLike[str]", Iterable[str], Iterable[bytes]]


def _texts(source: Source) -> Iterator[bytes]:
    if isinstance(source, (str, os.PathLike)):
        with opened(os.fspath(source)) as file:
            yield from file
    else:
        for text in source:
            yield text.encode() if isinstance(text, str) else typing.cast(bytes, text)


def read(source: Source) -> Iterator[Fact]:
    """The facts of a whole output, one by one: of a path (`-`: standard input), an open file, or any lines.

    Where the output is cut, or of another program, the facts before that are given, and then a `Fault` is raised."""
    for place, line in enumerate(lines_of(_texts(source)), 1):
        try:
            fact = fact_of(line)
        except ValueError:
            stop(f"line {place}: this is no line of stakeplay's output")
        yield fact
