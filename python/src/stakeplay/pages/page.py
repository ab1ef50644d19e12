"""A page of a run, for those who would rather look: one file that a browser opens without a network.

Who wants it: delegators, operators, auditors, researchers.
One command:  python3 page.py run.out run.jsonl --exponent uatom=6:ATOM > page.html
The output is that of `replay`, `resume` or `keep`; `-` is standard input. Behind it stand the files of its input, in
their order, which have what no line of the output tells (votes, rates, the first stakes), and files of statements.
With --only the page has what an address was paid, and of the validators those with which it has to do.
Series are thinned: of each step of blocks the least, the greatest and the last value stay, never an average.
Status: 0; 1 where the lines do not add up, which the page says too; 2 where the output is cut or of another program.
"""
from __future__ import annotations

import argparse
import gc
import sys

from stakeplay.addresses import bare, kind_of, prefix_of, spelled_as
from stakeplay.calling import Parser, a_count, a_part, an_address, stop
from stakeplay.lines.reading import run as guarded
from stakeplay.pages.document import Document, page
from stakeplay.pages.given import Given
from stakeplay.pages.run import Run
from stakeplay.sheets.tax_year import an_exponent


def an_account(text: str) -> str:
    """An address to show: an operator's stands for that of its account."""
    return spelled_as(text, "") if kind_of(prefix_of(text) or "") == "valoper" else an_address(text)


def arguments() -> argparse.Namespace:
    """What the recipe was called with."""
    parser = Parser(__doc__)
    parser.add_argument("run", metavar="RUN", help="the output of a run, or - for standard input")
    parser.add_argument("inputs", metavar="INPUT", nargs="*", help="the files of its input, and files of statements")
    parser.add_argument("--only", metavar="ADDRESS", type=an_account, action="append", default=[],
                        help="an address to show; may stand again")
    parser.add_argument("--exponent", metavar="DENOM=N:NAME", type=an_exponent, action="append", default=[],
                        help="10^N units of DENOM are one NAME")
    parser.add_argument("--denom", metavar="DENOM", help="whose rewards are drawn; else the bond denomination, if it is allocated")
    parser.add_argument("--window", metavar="N", type=a_count, help="the votes of the window, where no genesis tells it")
    parser.add_argument("--min-signed", metavar="PART", type=a_part, help="the part of them that is to be signed, as 0.05")
    parser.add_argument("--most-bytes", metavar="N", type=a_count, default=4_900_000, help="how long the file may be")
    parser.add_argument("--jobs", metavar="N", type=a_count, help="read by so many processes; else by as many as there are "
                        "processors, but at most 4, where the file is long")
    return parser.words()


def named(run: Run) -> None:
    """Each address that was asked for is one of the run, or the page would tell nothing and look as if it did."""
    operators = {bare(address) for address in run.by_text}
    for asked in run.addresses:
        is_operator = bare(asked.address) in operators
        if not (is_operator or asked.rows.count or asked.staked or asked.unbonding or asked.account[0] or asked.stake > 0):
            stop(f"no line names {asked.address}")


def main() -> int:
    """Writes the page."""
    words = arguments()
    run = Run(words.run, Given(words.inputs), words.only, words.denom, (256, 256))
    if words.window:
        run.votes.parameters({"signed_blocks_window": words.window, "min_signed_per_window": words.min_signed or "0.5"})
    run.read(words.jobs)
    if not run.moments:
        stop("there is no block in it, so there is nothing to draw")
    named(run)
    if words.denom is not None and words.denom not in run.report["supply"][0]:
        stop(f"the run has no denomination {words.denom!r}")
    sys.stdout.write(page(Document(run, dict(words.exponent)), words.most_bytes))
    for text in run.wrong:
        print(f"WRONG {text}", file=sys.stderr)
    return 1 if run.wrong else 0


def command() -> None:
    """Runs the recipe."""
    gc.disable()    # what is kept of a run has no cycles, and looking for some takes a good part of the time
    guarded(main)
