#!/usr/bin/env bash
# Lists the lemmas of proofs/ that nothing cites: a name that is declared at the head of a line of a lemma file and stands
# nowhere else in the repository, an import being no use. Those of WAITING go with the next change of their crate, since a
# change of a low crate has all crates above it proved again; one that is cited or gone has to leave that list.
set -u
cd "$(dirname "$0")/.."
python3 - <<'PYTHON'
import collections, pathlib, re, sys

# names of antt have letters, digits, _, ' and -, and a - stands within them alone
NAME = r"[A-Za-z_][\w']*(?:-[\w']+)*"
HEAD = re.compile(rf"^\s*(?:pub )?(?:abbrev )?(?:pub )?({NAME}) :(?!:)")


WAITING = set()


def indent(line):
    return len(line) - len(line.lstrip())


CLAUSE = re.compile(r"\s=(\s|$)")
uses = collections.Counter()
declared = []
for path in sorted(pathlib.Path("crates").glob("*/**/*")):
    if path.suffix not in (".antt", ".rt") or "out" in path.parts[:3]:
        continue
    text = path.read_text(encoding="utf-8")
    lines = [line.split("-- ")[0] if path.suffix == ".antt" else line for line in text.splitlines()]
    of_lemmas = path.parts[2] == "proofs" and path.name not in ("Answers.antt", "Invariants.antt", "Proof.antt", "Lib.antt")
    own = {}
    for line in lines:
        head = HEAD.match(line) if of_lemmas else None
        if head and head[1] not in own:
            own[head[1]] = indent(line)
            declared.append((head[1], str(path)))
    for line in lines:
        if line.startswith(("use ", "ghost use ")):
            continue
        names = re.findall(NAME, line)
        # the lines of a lemma's own clauses begin with its name, as far to the right as its head
        head = HEAD.match(line)
        begins = names and line.lstrip().startswith(names[0]) and own.get(names[0]) == indent(line) and CLAUSE.search(line)
        first = head[1] if head else names[0] if begins else None
        for at, name in enumerate(names):
            if name == first and at <= (1 if head else 0):
                continue
            uses[name] += 1
uncited = {f"{path}: {name}" for name, path in declared if not uses[name]}
dead, ended = sorted(uncited - WAITING), sorted(WAITING - uncited)
for row in dead:
    print(f"lemmas: nothing cites {row}")
for row in ended:
    print(f"lemmas: {row} does not wait any more: take it off the list")
for row in sorted(WAITING & uncited):
    print(f"lemmas: goes with the next change of its crate: {row}")
if not dead:
    print(f"lemmas: {len(declared)} names of lemma files, each cited but for {len(WAITING & uncited)}")
sys.exit(1 if dead or ended else 0)
PYTHON
