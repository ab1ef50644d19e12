#!/usr/bin/env python3
"""Counts what pages give numbers of, and ends with 1 where a page has another number.

They are kinds of messages, cases, rows of words and of questions, changed stores, and crates above a crate.
"""
import pathlib
import re
import sys

sys.dont_write_bytecode = True
import map as graph_of  # noqa: E402

TOP = pathlib.Path(__file__).resolve().parent.parent
WORDS = "no one two three four five six seven eight nine ten eleven twelve thirteen fourteen fifteen sixteen seventeen".split()


def text(name: str) -> str:
    return (TOP / name).read_text(encoding="utf-8")


def ends() -> list[str]:
    """How each case and each example ends, by its status."""
    return [path.read_text().split()[0] for folder in ("cases", "cases/bech32", "examples")
            for path in (TOP / folder).glob("*.end")]


def rows(name: str, end: str) -> int:
    """The rows of a table of words that end so."""
    return sum(f"| {end}" in line for line in text(f"cases/{name}.txt").splitlines() if not line.startswith("#"))


def changed_stores() -> tuple[int, int]:
    """The changes of `checks/stores.py` against a sound state, and those that are no rows of one."""
    script = text("checks/stores.py")
    unsound = re.search(r"^UNSOUND = \{\n(.*?)^\}", script, re.M | re.S)[1]
    no_items = re.search(r"^NO_ITEMS = \{\n(.*?)^\}", script, re.M | re.S)[1]
    return len(re.findall(r"^        \"", unsound, re.M)), len(re.findall(r"^    \"", no_items, re.M))


def above(*names: str) -> list[int]:
    """How many crates stand on each of these, the fewest and the most."""
    graph, known = graph_of.crates(), {}
    found = [sum(name in graph_of.reached(graph, other, known) for other in graph) for name in names]
    return sorted({min(found), max(found)})


def wanted() -> list[tuple[str, str, list[int | str]]]:
    """The pages, what stands there with its numbers as groups, and these numbers."""
    enum = re.search(r"pub enum Msg \{(.*?)^\}", text("crates/base_messages/src/message.rt"), re.M | re.S)[1]
    kinds = WORDS[len(re.findall(r"^    [A-Z]\w+\(", enum, re.M))]
    unsound, no_items = changed_stores()
    found = [
        ("README.md", r"evidence and (\w+) kinds of messages", [kinds]),
        ("docs/THEOREM.md", r"all (\w+) kinds of messages", [kinds]),
        ("docs/FORMATS.md", r"There are (\w+) kinds; another", [kinds]),
        ("docs/PROOFS.md", r"accepted where none does: all (\w+) kinds", [kinds]),
        ("docs/PROOFS.md", r"each of the (\w+) messages", [kinds]),
        ("docs/BRACKET.md", r"each of the (\w+) messages", [kinds]),
        ("docs/OPERATING.md", r"\| 0 \|.*tried: (\d+) cases", [ends().count("0")]),
        ("docs/OPERATING.md", r"\| 1 \|.*tried: (\d+) rows of words", [sum(rows(it, "1 ") for it in ("words", "questions"))]),
        ("docs/OPERATING.md", r"\| 2 \|.*tried: (\d+) cases", [ends().count("2")]),
        ("docs/OPERATING.md", r"\| 8 \|.*tried: (\d+) changed stores", [unsound + no_items]),
        ("docs/OPERATING.md", r"(\d+) rows changed by one unit.*? (\d+) that are no rows", [unsound, no_items]),
        ("docs/OPERATING.md", r"\| 10 \|.*tried: (\d+) questions", [rows("questions", "10 ")]),
    ]
    for line in text("CONTRIBUTING.md").splitlines():
        row = re.match(r"\| ([^|]*) \| (\d+)(?: to (\d+))? \|", line)
        names = re.findall(r"`(\w+)`", row[1]) if row else []
        if names and all((TOP / "crates" / name).is_dir() for name in names):
            found.append(("CONTRIBUTING.md", re.escape(row[1]) + r" \| (\d+)(?: to (\d+))? \|", above(*names)))
    return found


def main() -> int:
    faults, pages = [], {}
    for page, what, numbers in wanted():
        here = pages.setdefault(page, text(page))
        match = re.search(what.replace(" ", r"\s+") if "|" not in what else what, here, 0 if "|" in what else re.S)
        stands = [it for it in match.groups() if it is not None] if match else None
        if stands != [str(it) for it in numbers]:
            faults.append(f"{page} has {'no' if stands is None else ' and '.join(stands)} for {what}; "
                          f"counted {' and '.join(map(str, numbers))}")
    for fault in faults:
        print(f"counts: {fault}")
    if not faults:
        print(f"counts: {len(wanted())} numbers of {len(pages)} pages are as counted")
    return 1 if faults else 0


if __name__ == "__main__":
    sys.exit(main())
