"""How a recipe is called, and the one way in which it fails: a line on standard error and status 2, whatever is wrong.

A recipe has `arguments()`, which reads its words by `Parser`, `main()`, which gives its status, and `command()`, which
is `run(main)`. What it can't go on with it raises as a `Fault`; a program that imports the recipe catches that.
"""
from __future__ import annotations

import argparse
import os
import re
import sys
from typing import Any, BinaryIO, Callable, Iterable, NoReturn

from stakeplay.addresses import KINDS, MODULES, bare, kind_of, prefix_of, spelled_as

GZIP = b"\x1f\x8b"


class Fault(Exception):
    """Why no more can be told."""


def stop(text: str) -> NoReturn:
    """Says why no more can be told."""
    raise Fault(text)


def own_name() -> str:
    """The name under which the recipe was called."""
    return os.path.basename(sys.argv[0]) or "stakeplay"


def ended(text: str, status: int = 2) -> NoReturn:
    """Ends the program with a line."""
    try:
        sys.stdout.flush()
    except OSError:
        os.dup2(os.open(os.devnull, os.O_WRONLY), 1)
    print(f"{own_name()}: {' '.join(text.split())}", file=sys.stderr)
    sys.exit(status)


def run(main: Callable[[], int | None]) -> NoReturn:
    """Runs a recipe, and ends with its status; with a line and 2 where it can't go on."""
    try:
        status = main() or 0
        sys.stdout.flush()
    except Fault as fault:
        ended(str(fault))
    except BrokenPipeError:
        os.dup2(os.open(os.devnull, os.O_WRONLY), 1)
        sys.exit(2)
    except OSError as fault:
        ended(f"{fault.filename or 'the output'}: {fault.strerror}")
    except KeyboardInterrupt:
        sys.exit(130)
    sys.exit(status)


# ---- words

class Parser(argparse.ArgumentParser):
    """Reads the words of a recipe, whose head is its help; words at fault are told in a line."""

    def __init__(self, head: str | None):
        super().__init__(prog=own_name(), description=head, allow_abbrev=False,
                         formatter_class=argparse.RawDescriptionHelpFormatter)

    def error(self, message: str) -> NoReturn:
        """Ends with what is wrong with the words."""
        ended(f"{message} (--help says what it takes)")

    def words(self) -> argparse.Namespace:
        """The words, in any order of flags and others."""
        return self.parse_intermixed_args()

    def input_beside(self) -> None:
        """The input of a run, which may stand behind its output."""
        self.add_argument("input", metavar="INPUT", nargs="?", help="the lines that the run read, of `replay` or `resume`")

    def before(self) -> None:
        """An output before that of the run, whose report tells what was known then."""
        self.add_argument("--before", metavar="FILE", help="the output of the night before, whose report tells what stood then")

    def output(self) -> None:
        """The output of a run."""
        self.add_argument("output", metavar="OUTPUT", help="what the program wrote; - for standard input")

    def unknown(self) -> None:
        """Whether addresses may be asked for that no line names."""
        self.add_argument("--allow-unknown", action="store_true", help="take an address that no line names as one without a line")


def a_height(text: str) -> int:
    """A height among the words."""
    if not text.isascii() or not text.isdigit() or int(text) >= 2 ** 63:
        raise argparse.ArgumentTypeError(f"{text!r} is no height: digits, below 2^63")
    return int(text)


def a_count(text: str) -> int:
    """A count among the words, from 1 on."""
    if not text.isascii() or not text.isdigit() or not 1 <= int(text) < 2 ** 63:
        raise argparse.ArgumentTypeError(f"{text!r} is no count: digits, from 1 on")
    return int(text)


def a_part(text: str) -> str:
    """A part of one among the words, as a decimal from 0 to 1."""
    if not re.fullmatch(r"[0-9]{1,9}(?:\.[0-9]{1,18})?", text) or float(text) > 1:
        raise argparse.ArgumentTypeError(f"{text!r} is no part of one, as 0.05")
    return text


def a_year(text: str) -> int:
    """A year among the words."""
    if not re.fullmatch("(?:19[7-9]|[2-9][0-9]{2})[0-9]", text):
        raise argparse.ArgumentTypeError(f"{text!r} is no year from 1970 to 9999")
    return int(text)


def an_address(text: str) -> str:
    """An account's address among the words."""
    if text not in MODULES:
        kind = kind_of(judged(text))
        if kind == "valoper":
            fault = f"{text} is an operator's address; the one of its account is {spelled_as(text, '')}"
            raise argparse.ArgumentTypeError(fault)
        if kind:
            raise argparse.ArgumentTypeError(f"{text} is {KINDS[kind]}, and no account's")
    return text


def an_operator(text: str) -> str:
    """An operator's address among the words."""
    prefix = judged(text)
    if prefix and kind_of(prefix) != "valoper":
        of = KINDS.get(kind_of(prefix), f"an account's address; the one of its operator would be {spelled_as(text, 'valoper')}")
        raise argparse.ArgumentTypeError(f"{text} is {of}")
    return text


def judged(text: str) -> str:
    """The prefix of an address among the words."""
    prefix = prefix_of(text)
    if prefix is None:
        raise argparse.ArgumentTypeError(f"{text!r} is no address: forty digits 0-9a-f, or bech32 with its checksum")
    return prefix


# ---- files

def opened(name: str, buffer: int = -1) -> BinaryIO:
    """The file of that name, read by so many bytes at once; standard input for `-`."""
    try:
        return sys.stdin.buffer if name == "-" else open(name, "rb", buffer)
    except (OSError, ValueError) as fault:
        stop(f"{name}: {getattr(fault, 'strerror', fault)}")


def addresses_of(words: Iterable[str], files: Iterable[str] = (), kind: Callable[[str], str] = an_address) -> list[str]:
    """The addresses of words and of files, each once: a word `@FILE` is a file too, and a file has one on each line.

    Empty lines of a file, and those that begin with `#`, are passed over."""
    found = []
    for word in words:
        found += addresses_of((), [word[1:]], kind) if word.startswith("@") else [one(word, "", kind)]
    for name in files:
        with opened(name) as file:
            texts = [text.strip().decode(errors="replace") for text in file]
        wanted = [(place, text) for place, text in enumerate(texts, 1) if text and not text.startswith("#")]
        if not wanted:
            stop(f"{name}: no address stands there")
        found += [one(text, f"{name}: line {place}: ", kind) for place, text in wanted]
    return list(dict.fromkeys(found))


def one(text: str, where: str, kind: Callable[[str], str]) -> str:
    """An address, judged."""
    try:
        return kind(text)
    except argparse.ArgumentTypeError as fault:
        stop(f"{where}{fault}")


# ---- addresses that were asked for, and those that lines name

ACCOUNTS: dict[str, tuple[str, ...]] = {
    "transfer": ("from", "to"), "started": ("delegator",), "paid": ("delegator", "to"), "commission": ("to",),
    "params": ("authority",), "account": ("address",), "delegation": ("delegator",), "pending": ("delegator",),
    "unbonding": ("delegator",), "redelegation": ("delegator",),
}
OPERATORS: dict[str, tuple[str, ...]] = {
    "validator": ("operator",), "redelegation": ("source", "target"),
    **dict.fromkeys(("allocated", "period", "started", "slashed", "paid", "commission", "status", "jailed", "unjailed",
                     "tombstoned", "removed", "delegation", "pending", "unbonding"), ("validator",)),
}


class Asked:
    """The addresses that a recipe was asked for. Their form is judged by the first address of their kind that a line
    names; at the end each has to be one that some line names."""

    def __init__(self, addresses: Iterable[str], is_operator: bool = False, allow_unknown: bool = False):
        self.all = list(addresses)
        self.members = OPERATORS if is_operator else ACCOUNTS
        self.unknown = dict.fromkeys(text for text in self.all if text not in MODULES)
        self.bare = {bare(text): text for text in self.unknown}
        self.is_judged, self.allow_unknown = not self.unknown, allow_unknown

    def take(self, kind: str, line: dict[str, Any]) -> None:
        """Goes on to a line."""
        if not self.unknown:
            return
        for member in self.members.get(kind, ()):
            named = line[member]
            if not self.is_judged and named not in MODULES:
                self.judge(named)
            self.unknown.pop(named, None)
        if self.members is ACCOUNTS:  # an operator's account is one that lines name, whether or not it has coins
            for member in OPERATORS.get(kind, ()):
                self.unknown.pop(self.bare.get(bare(line[member])), None)

    def name(self, address: str) -> None:
        """An address that something else than a line names."""
        self.unknown.pop(address, None)

    def judge(self, named: str) -> None:
        """Holds the forms of all addresses against that of one which a line names."""
        wanted = prefix_of(named)
        if wanted is None:
            stop(f"a line names the address {named}, which is none")
        for text in self.unknown:
            if prefix_of(text) != wanted:
                form = f"in bech32 with the prefix {wanted}" if wanted else "in forty hexadecimal digits"
                stop(f"{text} is of another form than the addresses of the run, which are {form}, as {named}")
        self.is_judged = True

    def end(self) -> None:
        """What is to be said once all lines were read."""
        if not self.unknown or self.allow_unknown:
            return
        first = next(iter(self.unknown))
        more = f", nor {len(self.unknown) - 1} others that were asked for" if len(self.unknown) > 1 else ""
        stop(f"no line names {first}{more} (--allow-unknown takes it all the same)")
