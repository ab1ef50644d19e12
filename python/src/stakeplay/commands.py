"""The command `stakeplay-recipes`, which an installation of the package makes: `stakeplay-recipes NAME ..` runs a recipe.

A script `examples/recipes/NAME.py` runs the same; there `NAME` has `_` where the command has `-`.
"""
from __future__ import annotations

import importlib
import os
import sys

RECIPES = {     # by the name of a recipe: the folder of its module, and what it is for
    "tax-sheet": ("sheets", "what an address was paid, paid and lost"),
    "validator-sheet": ("sheets", "what a validator has, earns and loses, block by block"),
    "page": ("pages", "a page of a run, which a browser opens"),
    "operator-day": ("sheets", "what a validator's operator looks at each day"),
    "every-night": ("sheets", "goes on from a store with a night's blocks, and says what wants a look"),
    "refusals": ("sheets", "why messages were refused"),
    "reconcile": ("sheets", "whether accounts agree with what moved between two blocks"),
    "audit": ("sheets", "whether an output adds up"),
    "check-statement": ("statements", "whether reward statements are right"),
    "proposal": ("governance", "how a proposal would have ended"),
    "from-export": ("node", "makes a store or a genesis of a chain's export"),
    "fetch-blocks": ("node", "fetches a node's answers for a range of blocks"),
    "from-blocks": ("node", "makes lines of a node's answers"),
    "to-export": ("node", "writes a store in the shape of an export"),
    "compare-export": ("node", "compares a store with an export"),
    "first-format": ("stores", "copies a store into the first format of rows"),
    "long-run": ("lines", "makes a long input"),
}


def usage() -> str:
    """The recipes, a line each."""
    rows = "".join(f"  {name:16} {text}\n" for name, (_, text) in RECIPES.items())
    return f"usage: stakeplay-recipes RECIPE ..\n\n{rows}\n`stakeplay-recipes RECIPE --help` says what it takes.\n"


def main() -> None:
    """Runs the recipe of the first word with the others."""
    words = sys.argv[1:]
    if words[:1] in (["--help"], ["-h"]):
        print(usage(), end="")
        return
    name = words[0].replace("_", "-") if words else ""
    if name not in RECIPES:
        print(f"stakeplay-recipes: {f'{words[0]} is no recipe' if words else 'no recipe is named'}; --help has all",
              file=sys.stderr)
        sys.exit(2)
    module = name.replace("-", "_")
    sys.argv = [os.path.join(os.path.dirname(sys.argv[0]), name), *words[1:]]
    importlib.import_module(f"stakeplay.{RECIPES[name][0]}.{module}").command()
