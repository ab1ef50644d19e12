#!/usr/bin/env python3
"""The nearest dependencies of each crate: those of the repository's crates that no other of its dependencies reaches.

  checks/map.py                prints NAME: NEAREST ..
  checks/map.py --above NAME   prints the crates that reach a crate: a change in it proves them anew
  checks/map.py --check        compares the nearest with the rows of the code map in docs/ARCHITECTURE.md, looks whether
                               the page's invariants between groups of crates hold of crates.txt, and ends with 1 at a
                               difference

A row of the map is `| NAME | what it does | NEAREST, .. |`, a crate with no dependency having an empty last cell.
"""
import pathlib
import re
import sys

TOP = pathlib.Path(__file__).resolve().parent.parent
PAGE = "docs/ARCHITECTURE.md"

# The name that the page gives an invariant; the crates of which it is said, a name ending in _ being all of a group;
# those that they reach at most, or may not reach; and the few that are excepted on either side.
ONLY, NEVER = "only", "never"
INVARIANTS = [
    ("Values know no rules", "base_", ONLY, "base_", {}),
    ("Definitions know no modules", "rule_", ONLY, "base_ rule_", {"rule_worked": "law_rewards"}),
    ("Laws know no chain", "law_", NEVER, "chain_ line_ run_", {"law_lines": "line_json line_statements line_compact"}),
    ("Only the laws of records know modules", "law_", NEVER, "mod_ store_",
     {"law_records": "mod_sums mod_staking mod_periods mod_allocation mod_signing mod_distribution "
                     "store_records store_soundness",
      "law_lines": "mod_statement", "law_statements": "mod_statement mod_recorder mod_tracking"}),
    ("Modules know no lines", "mod_", NEVER, "line_ run_ store_ chain_", {}),
    ("Modules know roles and not the bank", "mod_", NEVER, "mod_bank", {}),
    ("Distribution and evidence know no staking", "mod_distribution mod_periods mod_allocation mod_evidence", NEVER,
     "mod_staking mod_slashing mod_bonded_set mod_unbonding mod_redelegation mod_entries", {}),
    ("Slashing knows no entries", "mod_slashing", NEVER, "mod_entries mod_unbonding mod_redelegation", {}),
    ("One module alone cites laws", "mod_", NEVER, "law_", {"mod_distribution": "law_soundness"}),
    ("Lines know no chain", "line_", ONLY, "base_ rule_ line_", {"line_ballots": "mod_tally", "line_statements": "mod_statement"}),
    ("Stores know no lines", "store_", NEVER, "line_ run_", {}),
    ("Rows know no state", "store_rows store_history store_sqlite", ONLY, "base_", {}),
    ("Only run_app joins lines, chain and store", "line_ chain_ run_words run_generated run_trial", NEVER,
     "store_items store_commits store_loading store_resuming", {}),
    ("The program needs no examples", "stakeplay", NEVER,
     "base_roles_example rule_worked rule_histories run_worked", {}),
    ("Nothing stands on tests", "base_ rule_ law_ mod_ chain_ line_ store_ run_ stakeplay test_", NEVER, "test_", {}),
]


def crates():
    """Each crate with its dependencies among the repository's crates, in the order of crates.txt."""
    listed = {}
    for line in (TOP / "crates.txt").read_text(encoding="utf-8").splitlines():
        line = line.split("#")[0].strip()
        if line:
            name, _, rest = line.partition(":")
            listed[name.split()[0]] = rest.split()
    return {name: [dep for dep in deps if dep in listed] for name, deps in listed.items()}


def reached(graph, name, known):
    """All that a crate stands on, through whatever crates."""
    if name not in known:
        known[name] = set()
        for dep in graph[name]:
            known[name] |= {dep} | reached(graph, dep, known)
    return known[name]


def nearest(graph):
    known = {}
    rows = {}
    for name, deps in graph.items():
        rows[name] = sorted(dep for dep in deps if not any(dep in reached(graph, other, known) for other in deps))
    return rows


def is_of(name, words):
    """Whether a crate is one of those named, or of a group that is."""
    return any(name == word or (word.endswith("_") and name.startswith(word)) for word in words.split())


def broken(graph):
    """What each invariant forbids and crates.txt has."""
    known = {}
    for title, who, how, whom, excepted in INVARIANTS:
        if not any(is_of(name, who) for name in graph):
            yield f"invariant '{title}' is said of no crate"
        for name in graph:
            if is_of(name, who):
                for dep in sorted(reached(graph, name, known)):
                    if is_of(dep, whom) != (how == ONLY) and not is_of(dep, excepted.get(name, "")):
                        yield f"'{title}' does not hold: {name} reaches {dep}"


def rows_of_page(graph, text, say):
    """The last cells of the rows of the code map, by crate."""
    rows = {}
    for place, line in enumerate(text.splitlines(), start=1):
        row = re.fullmatch(r"\| ([a-z]+_[a-z0-9_]+|stakeplay) \|.*\|([^|]*)\|", line)
        if not row:
            continue
        if row[1] not in graph:
            say(f"{PAGE}:{place} has a row for {row[1]}, which crates.txt does not list")
        elif row[1] in rows:
            say(f"{PAGE}:{place} has a second row for {row[1]}")
        else:
            rows[row[1]] = place, re.findall(r"[a-z0-9_]+", row[2])
    return rows


def main():
    graph = crates()
    wanted = nearest(graph)
    if sys.argv[1:2] == ["--above"] and len(sys.argv) == 3 and sys.argv[2] in graph:
        known = {}
        print(*[name for name in graph if sys.argv[2] in reached(graph, name, known)])
        return 0
    if len(sys.argv) > 1 and sys.argv[1:] != ["--check"]:
        print(__doc__, file=sys.stderr)
        return 2
    if len(sys.argv) == 1:
        for name, deps in wanted.items():
            print(f"{name}: {' '.join(deps)}".rstrip())
        return 0
    faults = []
    text = (TOP / PAGE).read_text(encoding="utf-8")
    rows = rows_of_page(graph, text, faults.append)
    for name, deps in wanted.items():
        if name not in rows:
            faults.append(f"{PAGE} has no row for {name}")
            continue
        place, told = rows[name]
        if sorted(told) != deps:
            faults.append(f"{PAGE}:{place} {name} has {', '.join(told) or 'nothing'}; "
                          f"its nearest are {', '.join(deps) or 'none'}")
    faults += broken(graph)
    for title, *_ in INVARIANTS:
        if f"**{title}.**" not in text:
            faults.append(f"{PAGE} has no invariant '{title}'")
    for title in re.findall(r"^- \*\*([^*]+)\.\*\* \[map\]", text, re.M):
        if title not in [row[0] for row in INVARIANTS]:
            faults.append(f"{PAGE} says that '{title}' is checked here, and it is not")
    for fault in faults:
        print(f"map: {fault}")
    if not faults:
        print(f"map: {len(wanted)} crates, each with its nearest dependencies; {len(INVARIANTS)} invariants hold")
    return 1 if faults else 0


if __name__ == "__main__":
    sys.exit(main())
