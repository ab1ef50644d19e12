#!/usr/bin/env python3
"""Cases of the calls of `base_decimals` and of `base_shares` with their answers by Python's exact integers, as texts in Rattle
source files: a line for each case, with the call, its operands, and the answer's units, or what is over, with its operands, or
the word for what is refused.

    python3 bench/decimal_cases.py

Edges: 0, one unit, the limit less one unit, ties at the 36th digit behind the point and at the 18th, results just
below and just at the limit; then random operands of all sizes. The output is the same at each run.
"""
import pathlib
import random

LIMIT = 10**38
ONE = 10**18
random.seed(47)


def cut(a, c):
    return a // c


def up(a, c):
    return -(-a // c)


def even(a, c):
    q, r = divmod(a, c)
    return q + (2 * r > c or (2 * r == c and q % 2 == 1))


def answer(value, kind, a, b, c):
    if value < LIMIT:
        return f"{value}"
    return f"{kind} {a} {b} {c}"


def quotient(rounded, a, n, b):
    return answer(rounded(a * n * 10**36 // b, ONE), "quotient", a, n * ONE, b)


CALLS = {
    "Add": lambda a, b, c: answer(a + b, "sum", a, b, 0),
    "OfWhole": lambda a, b, c: answer(a * ONE, "quotient", a, ONE, 1),
    "MulEven": lambda a, b, c: answer(even(a * b, ONE), "quotient", a, b, ONE),
    "MulCut": lambda a, b, c: answer(a * b // ONE, "quotient", a, b, ONE),
    "QuoEven": lambda a, b, c: quotient(even, a, 1, b),
    "QuoCut": lambda a, b, c: quotient(cut, a, 1, b),
    "QuoUp": lambda a, b, c: quotient(up, a, 1, b),
    "MulIntQuoEven": lambda a, b, c: quotient(even, a, b, c),
    "MulIntQuoCut": lambda a, b, c: quotient(cut, a, b, c),
    "MulIntQuoInt": lambda a, b, c: answer(a * b // c, "quotient", a, b, c),
    "Trunc": lambda a, b, c: f"{a // ONE}",
    "RoundInt": lambda a, b, c: f"{even(a, ONE)}",
}
TOP = LIMIT - 1
EDGES = {
    "Add": [
        (0, 0, 0),
        (TOP, 0, 0),
        (TOP, 1, 0),
        (TOP, TOP, 0),
        (LIMIT // 2, LIMIT // 2 - 1, 0),
        (LIMIT // 2, LIMIT // 2, 0),
    ],
    "OfWhole": [(0, 0, 0), (10**20 - 1, 0, 0), (10**20, 0, 0), (2**128 - 1, 0, 0)],
    # half a unit is a tie
    "MulEven": [
        (1, ONE // 2, 0),
        (3, ONE // 2, 0),
        (5, ONE // 2, 0),
        (1, ONE // 2 + 1, 0),
        (1, ONE // 2 - 1, 0),
        (3, ONE // 2 + 1, 0),
        (0, TOP, 0),
        (TOP, ONE, 0),
        (TOP, ONE + 1, 0),
        (TOP, TOP, 0),
    ],
    "MulCut": [(1, ONE // 2, 0), (1, ONE - 1, 0), (0, TOP, 0), (TOP, ONE, 0), (TOP, ONE + 1, 0), (TOP, TOP, 0)],
    # one unit / 1.999999999999999999 is a tie at 36 digits, and above it exactly
    "QuoEven": [
        (1, 2 * ONE, 0),
        (3, 2 * ONE, 0),
        (5, 2 * ONE, 0),
        (1, 2 * ONE - 1, 0),
        (1, 2 * ONE + 1, 0),
        (3, 2 * ONE - 1, 0),
        (2 * ONE, 3 * ONE, 0),
        (0, 1, 0),
        (TOP, ONE, 0),
        (TOP, ONE - 1, 0),
        (TOP, 1, 0),
        (TOP, TOP, 0),
        (1, TOP, 0),
    ],
    "QuoCut": [
        (ONE, 3 * ONE, 0),
        (0, 1, 0),
        (TOP, ONE, 0),
        (TOP, ONE - 1, 0),
        (10**20 - 1, 1, 0),
        (10**20, 1, 0),
        (TOP, 1, 0),
    ],
    # behind the 36th digit nothing counts: one unit over the largest decimal is 0 upward too
    "QuoUp": [
        (1, 2 * ONE, 0),
        (ONE, 3 * ONE, 0),
        (1, TOP, 0),
        (0, 1, 0),
        (999999999999999999 * ONE, ONE * ONE, 0),
        (ONE, 999999999999999999 * ONE, 0),
        (TOP, ONE, 0),
        (TOP, ONE - 1, 0),
        (10**20, 1, 0),
    ],
    "MulIntQuoEven": [
        (10101010101010101010, 99, 100 * ONE),
        (98989898989898989898, 99, 100 * ONE),
        (1, 1, 2 * ONE - 1),
        (TOP, 10**20, TOP),
        (TOP, 10**20, 1),
        (0, 0, 1),
        (3, 1, 2 * ONE),
    ],
    "MulIntQuoCut": [
        (10101010101010101010, 99, 100 * ONE),
        (TOP, 10**20, TOP),
        (TOP, 10**20, 1),
        (0, 0, 1),
        (3, 1, 2 * ONE),
    ],
    "MulIntQuoInt": [
        (100 * ONE, 10, 99),
        (10**30, 10**9, 1),
        (TOP, 1, 1),
        (TOP, 2**128 - 1, TOP),
        (0, 0, 1),
        (TOP, 2**128 - 1, 1),
    ],
    "Trunc": [(0, 0, 0), (ONE - 1, 0, 0), (ONE, 0, 0), (TOP, 0, 0)],
    "RoundInt": [
        (0, 0, 0),
        (ONE // 2, 0, 0),
        (3 * ONE // 2, 0, 0),
        (5 * ONE // 2, 0, 0),
        (ONE // 2 + 1, 0, 0),
        (TOP, 0, 0),
    ],
}


def decimal():
    return min(
        TOP,
        random.choice(
            [
                random.randrange(10 ** random.randrange(1, 39)),
                random.randrange(1, 1000) * 10 ** random.randrange(0, 36),
                10 ** random.randrange(0, 38) + random.randrange(-1, 2),
            ]
        ),
    )


def operands(call):
    """Random operands that the call takes."""
    a, b = decimal(), decimal()
    if call in ("Add", "MulEven", "MulCut"):
        return a, b, 0
    if call == "OfWhole":
        return random.choice([random.randrange(10**20), random.randrange(2**128)]), 0, 0
    if call in ("Trunc", "RoundInt"):
        return a, 0, 0
    if call in ("QuoEven", "QuoCut", "QuoUp"):
        return a, max(1, b), 0
    if call == "MulIntQuoInt":
        return a, random.choice([random.randrange(2**128), random.randrange(10**19)]), max(1, b)
    return a, random.choice([0, 1, 10**20, random.randrange(10**20), random.randrange(10**9)]), max(1, b)


def at_limit(call):
    """Operands whose result is just below the limit, and just at it."""
    if call in ("MulEven", "MulCut"):
        b = random.randrange(ONE, 10**30)
        return [(LIMIT * ONE // b + step, b, 0) for step in (0, 1)]
    if call in ("QuoEven", "QuoCut", "QuoUp"):
        b = random.randrange(1, ONE)
        return [(LIMIT * b // ONE + step, b, 0) for step in (0, 1)]
    return []


rows = []
for call, compute in CALLS.items():
    cases = list(EDGES[call])
    for _ in range(3):
        cases += at_limit(call)
    cases += [operands(call) for _ in range(16)]
    rows += [(call, a, b, c, compute(a, b, c)) for a, b, c in cases]

MOST_TOKENS = ONE
# Tokens, issued shares, and what is issued for, or asked for.
ISSUED = [
    (99, 100 * ONE, 10),
    (1, ONE, 0),
    (MOST_TOKENS, 2, 1),
    (0, 0, 7),
    (5, 0, 7),
    (0, 0, 0),
    (0, 1, 7),
    (0, TOP, 0),
    (MOST_TOKENS, TOP, MOST_TOKENS),
    (MOST_TOKENS, TOP, MOST_TOKENS + 1),
    (1, ONE * 10**12, 10**9),
    (0, 0, 100 * ONE),
    (0, 0, 2**128 - 1),
]
ASKED = [
    (99, 100 * ONE, 10),
    (99, 100 * ONE, 98),
    (99, 100 * ONE, 99),
    (99, 100 * ONE, 0),
    (5, 0, 7),
    (0, 0, 0),
    (0, ONE, 7),
    (1, TOP, 2),
]
# Tokens, issued shares, and a part of them: 0.5 and 1.5 units are ties; all but one unit of the shares is worth all tokens to
# the nearest, and that unit keeps none.
PARTS = [
    (99, 100 * ONE, 10101010101010101010),
    (99, 100 * ONE, 98989898989898989898),
    (99, 100 * ONE, 100 * ONE),
    (99, 100 * ONE, 0),
    (0, 5, 3),
    (0, 5, 5),
    (1, 2 * ONE, 1),
    (1, 2 * ONE, 3),
    (2, 3, 2),
    (MOST_TOKENS, 3, 2),
    (MOST_TOKENS, TOP, TOP - 1),
]


def issued(tokens, shares, amount):
    if shares == 0:
        return answer(amount * ONE, "quotient", amount, ONE, 1)
    return "rate-invalid" if tokens == 0 else shares_for(tokens, shares, amount)


def shares_for(tokens, shares, amount):
    return "no-tokens" if tokens == 0 else answer(shares * amount // tokens, "quotient", shares, amount, tokens)


def value(rounded, tokens, shares, part):
    return rounded(part * tokens * 10**36 // shares, ONE)


def amount_out(tokens, shares, part):
    return value(even, tokens, shares, part) // ONE


SHARE_CALLS = {
    "Issue": (ISSUED, issued),
    "SharesFor": (ASKED, shares_for),
    "ValueEven": (PARTS, lambda *case: value(even, *case)),
    "ValueCut": (PARTS, lambda *case: value(cut, *case)),
    "TokensKept": (PARTS, lambda *case: case[0] - amount_out(*case)),
    "SharesLeft": (PARTS, lambda tokens, shares, part: shares - part),
    "AmountOut": (PARTS, amount_out),
}
share_rows = [(call, *case, compute(*case)) for call, (cases, compute) in SHARE_CALLS.items() for case in cases]


def write(name, what, rows):
    """Writes the rows as the text of a source file."""
    file = pathlib.Path(__file__).parent.parent / f"crates/test_values/src/{name}.rt"
    with open(file, "w") as out:
        print(f"//! Calls of {what} and their answers, written by bench/decimal_cases.py from exact integers.\n", file=out)
        print('pub static CASES: &str = "\\', file=out)
        for row in rows:
            print(*row, file=out)
        print('";', file=out)


write("decimal_cases", "decimals", rows)
write("share_cases", "shares", share_rows)
