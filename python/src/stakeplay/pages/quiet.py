"""Lines that change nothing of a page, told by their form, so that they need not be read as JSON.

Beside the shares of fees most lines of a run are such: fees, payments and sends, which move no bonded tokens; what joins
the community pool; periods that end; outcomes of transactions. They are taken together, as many as stand one after the
other. A line of another form is none of them, whatever it means.
"""
from __future__ import annotations

import re

NUMBER, NAME = rb"(?:0|[1-9][0-9]{0,17})", rb"[0-9a-z_]+"
COIN = rb'\{"amount":"[0-9.]+","denom":"[0-9A-Za-z/._:-]+"\}'
COINS = rb"\[(?:%s(?:,%s)*)?\]" % (COIN, COIN)
OUTCOME = re.compile(rb'"tx":([0-9]+)\}')


class Forms:
    """What the lines of a run look like whose fees are drawn in a denomination: quiet ones, and shares of its fees."""

    def __init__(self, denom: str) -> None:
        share = rb'\{"amount":"[0-9]+\.[0-9]{18}","denom":"%s"\}' % re.escape(denom).encode()
        transfer = (rb'coins":%s,"from":"(?!bonded_tokens_pool"|fee_collector")%s","height":%s,"kind":"transfer",'
                    rb'"to":"(?!bonded_tokens_pool")%s"' % (COINS, NAME, NUMBER, NAME))
        pooled = rb'coins":\[(?:%s)?\],"height":%s,"kind":"pooled"' % (share, NUMBER)
        period = rb'height":%s,"kind":"period","period":(?!1,)%s,"ratio":%s,"validator":"%s"' % (NUMBER, NUMBER, COINS, NAME)
        outcome = rb'height":%s,"kind":"(?:accepted"|refused","msg":%s,"number":%s),"tx":%s' % (NUMBER, NUMBER, NUMBER, NUMBER)
        begun = (rb'\{"coins":\[\{"amount":"[0-9]+\.[0-9]{18}","denom":"%s"\}\],"height":%s,"kind":"allocated",'
                 % (re.escape(denom).encode(), NUMBER))
        either = rb'((?:\{"(?:%s)\}\n)+)|(%s)'
        self.all = re.compile(either % (b"|".join((transfer, outcome, pooled, period)), begun))
        self.shares = re.compile(b"()(?!)|(%s)" % begun)
        self.but_outcomes = re.compile(either % (b"|".join((transfer, pooled, period)), begun))


def outcomes(text: bytes, place: int, end: int, first: int) -> int:
    """How many outcomes stand in a text, if they are those of transactions one after the other from a first one on; -1
    if they are not."""
    found = OUTCOME.findall(text, place, end)
    return len(found) if [int(tx) for tx in found] == [*range(first, first + len(found))] else -1
