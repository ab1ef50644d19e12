#!/usr/bin/env python3
"""Counts lines by crate, and of the proofs those that a shorter form might save. It changes nothing and proves nothing.

  checks/sizes.py            a row for each crate, the longest proofs first, and the sum
  checks/sizes.py --twice    the statements that stand in several lemmas, up to the names of variables
  checks/sizes.py --unled    the lemmas that no answer, no invariant, no definition and no contract leads to

The columns: lines of code, of definitions and of proofs; of the proofs, imports, empty lines and comments; in answers, lines
`let` that repeat one above them; lemmas whose statement stands in another lemma too; lemmas that nothing leads to. The last
go by names as imports resolve them, so they are fewer names than `checks/lemmas.sh` sees cited.
"""
import collections
import pathlib
import re
import sys

from imports import leaves

ROOT = pathlib.Path(__file__).resolve().parent.parent
USE = re.compile(r"^(?:(?:unfoldable )?(pub ))?use ([^\s{]+?)(?:\.\{(.*)\})?(?: as (\S+))?$")
NAME = r"[^\s(){}\[\],;]+"
HEAD = re.compile(rf"^(?:axiom |pattern |unfoldable |abbrev |pub )*(?:(?:data|record|ruleset) ({NAME})|({NAME})(?= : ))")
ANSWERS = ("Answers.antt", "Invariants.antt", "Proof.antt")


def texts(crate: pathlib.Path, folder: str, suffix: str) -> list[str]:
    return [path.read_text(encoding="utf-8") for path in sorted(crate.glob(f"{folder}/**/*{suffix}"))]


# ---- lines

def repeated_lets(text: str) -> int:
    seen, count = set(), 0
    for line in map(str.strip, text.split("\n")):
        if line.startswith("let ") and len(line) >= 25:
            count += line in seen
            seen.add(line)
    return count


def line_counts(crate: pathlib.Path) -> collections.Counter:
    out = collections.Counter(src=0, specs=0, proofs=0)
    out["src"] = sum(text.count("\n") for text in texts(crate, "src", ".rt"))
    out["specs"] = sum(text.count("\n") for text in texts(crate, "specs", ".antt"))
    for text in texts(crate, "proofs", ".antt"):
        lines = text.rstrip("\n").split("\n")
        out["proofs"] += len(lines)
        out["imports"] += sum(bool(USE.match(line)) for line in lines)
        out["empty"] += sum(not line.strip() for line in lines)
        out["comments"] += sum(line.lstrip().startswith("--") for line in lines)
    for path in sorted(crate.glob("proofs/**/Answers.antt")):
        out["lets"] += repeated_lets(path.read_text(encoding="utf-8"))
    return out


# ---- statements

def as_stated(statement: str) -> str:
    """A statement with its variables numbered, in the order in which they are bound."""
    bound = re.findall(r"[({]([\w' -]+?) : |λ ([\w' ]+?)\.", statement)
    names = dict.fromkeys(word for pair in bound for part in pair for word in part.split())
    numbers = {name: f"x{at}" for at, name in enumerate(names)}
    words = re.findall(r"[A-Za-z_][\w']*(?:-[\w']+)*|\d+|[^\sA-Za-z_0-9]", statement)
    return " ".join(numbers.get(word, word) for word in words)


def statements(path: pathlib.Path) -> list[tuple[str, str]]:
    """The lemmas of a file, outside blocks, each with its statement in one line."""
    out = []
    lines = path.read_text(encoding="utf-8").split("\n")
    for at, line in enumerate(lines):
        found = re.match(rf"(?:pub )?({NAME}) : (.*)$", line)
        if found and not line.startswith(("--", "use ", "record ", "data ")) and "goal." not in line:
            text = found[2]
            for more in lines[at + 1 :]:
                if not re.match(r"\s+[→×≡∙]", more):
                    break
                text += " " + more.strip()
            if "→" in text and re.search(r"[≡≤<⊥⊎]|Is[A-Z]|All", text.split("→")[-1]):
                out.append((found[1], as_stated(text)))
    return out


def stated_twice(crates: list[pathlib.Path]) -> dict[str, list[tuple[pathlib.Path, str]]]:
    where = collections.defaultdict(list)
    for crate in crates:
        for path in sorted(crate.glob("proofs/**/*.antt")):
            for name, statement in statements(path):
                where[statement].append((path.relative_to(ROOT), name))
    return {statement: places for statement, places in where.items() if len(places) > 1}


# ---- what leads to what

class Module:
    """What a file imports and declares, with the lines of each declaration."""

    def __init__(self, path: pathlib.Path) -> None:
        self.path = path
        self.names: dict[str, tuple[str, str]] = {}
        self.passed_on: dict[str, tuple[str, str]] = {}
        self.aliases: dict[str, str] = {}
        self.lines: dict[str, list[str]] = {}
        blocks: list[int] = []
        head_ends = -1
        current = None
        lines = path.read_text(encoding="utf-8").split("\n")
        for at, line in enumerate(lines):
            if not line.strip() or line.lstrip().startswith("--") or re.match(r"(pub )?mod |infix|postfix|prefix|syntax", line):
                continue
            if found := USE.match(line):
                self.take(found)
                continue
            if at <= head_ends:
                continue
            depth = len(line) - len(line.lstrip())
            while blocks and depth < blocks[-1]:
                blocks.pop()
            if re.match(r"(module _|(unfoldable |abbrev )?mutual)\b", line.lstrip()) and depth == (blocks[-1] if blocks else 0):
                end = next((to for to in range(at, len(lines)) if lines[to].rstrip().endswith(("where", "mutual"))), at)
                body = next((more for more in lines[end + 1 :] if more.strip() and not more.lstrip().startswith("--")), "")
                blocks.append(len(body) - len(body.lstrip()))
                head_ends = end
                self.lines.setdefault("module _", []).extend(lines[at : end + 1])
                continue
            line = line[blocks[-1] if blocks else 0 :].split(" -- ")[0]
            if line[0] != " " and not line.startswith("unfolding "):
                head = HEAD.match(line)
                name = (head[1] or head[2]) if head else line.split()[0]
                if head or name in self.lines:
                    current = name
                    self.lines.setdefault(name, [])
            if current:
                self.lines[current].append(line)

    def take(self, found: re.Match) -> None:
        if found[3] is None:
            self.aliases[found[4] or found[2].split(".")[-1]] = found[2]
            return
        for path, item in leaves(found[3]):
            name, _, other = item.partition(" as ")
            place = (".".join([found[2], *path]), name)
            self.names[other or name] = place
            if found[1]:
                self.passed_on[other or name] = place


def name_of(path: pathlib.Path) -> str:
    words = list(path.relative_to(ROOT / "crates").with_suffix("").parts)
    return ".".join(["Rattle", *(words[:-1] if words[-1] == "Lib" else words)])


class Leads:
    """Which declarations the answers, the invariants, the definitions and the code lead to."""

    def __init__(self) -> None:
        files = [*ROOT.glob("crates/*/proofs/**/*.antt"), *ROOT.glob("crates/*/specs/**/*.antt")]
        self.modules = {name_of(path): Module(path) for path in sorted(files)}
        self.reached: set[tuple[str, str]] = set()
        todo = []
        for name, module in self.modules.items():
            answers = module.path.name in ANSWERS
            for declared, lines in module.lines.items():
                if declared == "module _" or "specs" in module.path.parts or answers and "goal" in " ".join(lines):
                    todo.append((name, declared))
        for path in ROOT.glob("crates/*/src/**/*.rt"):
            text = path.read_text(encoding="utf-8").replace("crate::", path.relative_to(ROOT / "crates").parts[0] + "::")
            for cited in re.findall(r"\w+::proofs::[\w:]+", text):
                module, _, item = cited.replace("::", ".").rpartition(".")
                todo += self.declared("Rattle." + module, item)
            for module, items in re.findall(r"ghost use ([\w.]+)\.\{([^}]*)\};", text):
                for path_in, item in leaves(items):
                    todo += self.declared(".".join([module, *path_in]), item)
        while todo:
            place = todo.pop()
            if place not in self.reached:
                self.reached.add(place)
                todo += self.cited(*place)

    def declared(self, module: str, name: str) -> list[tuple[str, str]]:
        """Where a name of a module is declared; for a constructor or a field, the declarations that it stands in."""
        for _ in range(9):
            if module not in self.modules:
                return []
            here = self.modules[module]
            if name in here.lines:
                return [(module, name)]
            if name not in here.passed_on:
                word = re.compile(rf"(?<![\w'-]){re.escape(name)}(?![\w'-])")
                return [(module, it) for it, lines in here.lines.items() if any(map(word.search, lines))]
            module, name = here.passed_on[name]
        return []

    def cited(self, name: str, declared: str) -> list[tuple[str, str]]:
        here = self.modules[name]
        text = "\n".join(here.lines[declared])
        out = []
        for word in set(re.findall(NAME, text)):
            first, *more = word.split(".")
            for it in {word, first}:
                if it in here.lines:
                    out.append((name, it))
                elif it in here.names:
                    out += self.declared(*here.names[it])
            if more and first in here.aliases:
                out += self.declared(here.aliases[first], more[0])
            if first == "Rattle":
                for at in range(len(more), 0, -1):
                    if ".".join([first, *more[:at]]) in self.modules and at < len(more):
                        out += self.declared(".".join([first, *more[:at]]), more[at])
        for it in [*here.lines, *here.names]:
            if "◌" in it and all(part in text for part in it.split("◌") if part):
                out += [(name, it)] if it in here.lines else self.declared(*here.names[it])
        return out

    def unled(self) -> list[tuple[pathlib.Path, str]]:
        return [
            (module.path.relative_to(ROOT), declared)
            for name, module in self.modules.items()
            for declared in module.lines
            if "proofs" in module.path.parts and (name, declared) not in self.reached
        ]


def main() -> None:
    crates = sorted(path for path in (ROOT / "crates").glob("*") if (path / "src").is_dir())
    twice = stated_twice(crates)
    if "--twice" in sys.argv:
        for statement, places in sorted(twice.items(), key=lambda it: -len(it[1])):
            print(f"{len(places)}: {statement}\n    " + ", ".join(f"{path}: {name}" for path, name in places))
        return
    unled = Leads().unled()
    if "--unled" in sys.argv:
        for path, name in unled:
            print(f"{path}: {name}")
        return
    rows = []
    for crate in crates:
        row = line_counts(crate)
        row["twice"] = sum(path.parts[1] == crate.name for places in twice.values() for path, _ in places)
        row["unled"] = sum(path.parts[1] == crate.name for path, _ in unled)
        rows.append((crate.name, row))
    rows.sort(key=lambda it: -it[1]["proofs"])
    rows.append(("all", sum((row for _, row in rows), collections.Counter())))
    columns = ["src", "specs", "proofs", "imports", "empty", "comments", "lets", "twice", "unled"]
    print(f"{'crate':20}" + "".join(f"{column:>9}" for column in columns))
    for name, row in rows:
        print(f"{name:20}" + "".join(f"{row[column]:>9}" for column in columns))


if __name__ == "__main__":
    main()
