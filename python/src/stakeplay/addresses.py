"""Addresses as lines spell them: forty hexadecimal digits, or bech32 (BIP 173) with a prefix that tells whose they are.
"""
from __future__ import annotations

import base64
import functools
import re

LETTERS = "qpzry9x8gf2tvdw0s3jn54khce6mua7l"
_VALUES = bytes.maketrans(LETTERS.encode(), bytes(range(32)))
_DIGITS = str.maketrans(LETTERS, "0123456789abcdefghijklmnopqrstuv")       # those of `int(text, 32)`
_OF_BASE32 = bytes.maketrans(b"ABCDEFGHIJKLMNOPQRSTUVWXYZ234567", LETTERS.encode())
_BECH32 = re.compile(f"([!-@\\[-~]{{1,83}})1([{LETTERS}]{{6,}})")
_GENERATOR = 0x3B6A57B2, 0x26508E6D, 0x1EA119FA, 0x3D4233DD, 0x2A1462B3


def _sum_of(top: int) -> int:
    total = 0
    for place, term in enumerate(_GENERATOR):
        total ^= term if top >> place & 1 else 0
    return total


_SUMS = [_sum_of(top) for top in range(32)]


def _checksum(values: bytes, check: int = 1) -> int:
    for value in values:
        check = (check & 0x1FFFFFF) << 5 ^ value ^ _SUMS[check >> 25]
    return check


@functools.lru_cache(maxsize=64)
def _begun(prefix: str) -> int:
    """The checksum behind a prefix."""
    return _checksum(bytes([ord(letter) >> 5 for letter in prefix] + [0] + [ord(letter) & 31 for letter in prefix]))


def bech32(prefix: str, address: bytes) -> str:
    """The text of an address."""
    letters = base64.b32encode(address).rstrip(b"=").translate(_OF_BASE32)
    check = _checksum(letters.translate(_VALUES) + bytes(6), _begun(prefix)) ^ 1
    return f"{prefix}1{letters.decode()}" + "".join(LETTERS[check >> 5 * place & 31] for place in (5, 4, 3, 2, 1, 0))


@functools.lru_cache(maxsize=1 << 16)
def from_bech32(text: str) -> tuple[str, bytes] | None:
    """The prefix and the bytes of a text; nothing where it is no bech32 in small letters."""
    found = _BECH32.fullmatch(text)
    if not found or _checksum(found[2].encode().translate(_VALUES), _begun(found[1])) != 1:
        return None
    digits = found[2][:-6].translate(_DIGITS)
    size, spare = divmod(len(digits) * 5, 8)
    bits = int(digits or "0", 32)
    if spare >= 5 or bits & (1 << spare) - 1:
        return None
    return found[1], (bits >> spare).to_bytes(size, "big")


# ---- what an address is of

HEXADECIMAL = re.compile("[0-9a-f]{40}")
MODULES = "fee_collector", "bonded_tokens_pool", "not_bonded_tokens_pool", "distribution"
KINDS = {"valoper": "an operator's", "valcons": "a consensus address"}


def prefix_of(text: str) -> str | None:
    """What stands in front of an address: nothing before hexadecimal digits; None where a text is no address."""
    if HEXADECIMAL.fullmatch(text):
        return ""
    prefix, address = from_bech32(text) or ("", b"")
    return prefix if len(address) in (20, 32) else None


def kind_of(prefix: str) -> str:
    """Of an operator `valoper`, of consensus `valcons`, of another account nothing: how a prefix ends."""
    return next((kind for kind in KINDS if prefix.endswith(kind) and prefix != kind), "")


def bare(address: str) -> str:
    """What an operator's address and that of its account have in common: all of it in hexadecimal digits; of a
    spelling of BIP 173 what is between its prefix and the six last letters, which check the others."""
    if HEXADECIMAL.fullmatch(address) or "1" not in address:
        return address
    return address.rpartition("1")[2][:-6]


def spelled_as(address: str, kind: str) -> str:
    """An address of the spellings of BIP 173 with the same bytes and another kind."""
    prefix, data = from_bech32(address) or ("", b"")
    return bech32(prefix.removesuffix(kind_of(prefix)) + kind, data)
