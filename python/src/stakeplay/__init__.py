"""Reads and audits what stakeplay writes, and turns a chain's own data into what it reads.

    for fact in stakeplay.read("run.out"):
        if isinstance(fact, stakeplay.Paid):
            print(fact.height, fact.to, fact.reward)

`read` gives the facts of an output, `replay`, `resume` and `query` those of a run of the program. Amounts are `int`,
decimals `Dec`, both exact. What can't be gone on with raises a `Fault`.
"""
from __future__ import annotations

import importlib
from typing import TYPE_CHECKING, Any

from stakeplay.version import __version__ as __version__

if TYPE_CHECKING:
    from stakeplay.calling import Fault as Fault
    from stakeplay.lines.facts import *     # noqa: F403
    from stakeplay.program import Ended as Ended, output as output, query as query, replay as replay, resume as resume
    from stakeplay.tables import Refusal as Refusal, refusals as refusals

_FACTS = ("Accepted Account Allocated Block Burn Coin Commission Dec DecCoin Delegation Fact Genesis Jailed Paid Params Pending "
          "Period Pool Pooled Redelegation Refused Removed Signing Slashed Started Status Supply Tombstoned Transfer Unbonding "
          "Unjailed Validator fact_of read").split()
_PLACES = {  # by the names that are given: the module where each stands, which is read when it is asked for
    **dict.fromkeys(_FACTS, "stakeplay.lines.facts"), "Fault": "stakeplay.calling",
    **dict.fromkeys(("Ended", "output", "query", "replay", "resume"), "stakeplay.program"),
    **dict.fromkeys(("Refusal", "refusals"), "stakeplay.tables"),
}
__all__ = sorted(_PLACES)


def __getattr__(name: str) -> Any:
    """A name of the package. A recipe that needs none of them starts without them."""
    if name not in _PLACES:
        raise AttributeError(f"module 'stakeplay' has no attribute {name!r}")
    return getattr(importlib.import_module(_PLACES[name]), name)
