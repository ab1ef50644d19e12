#!/usr/bin/env python3
"""Writes docs/READING.md: the definitions that the contract of `run` leads to, name by name, in an order in which each
stands behind those that it cites.

  checks/reading.py           writes the page
  checks/reading.py --check   ends with 1 where the page is not what the sources say
"""
import collections
import pathlib
import re
import sys
import textwrap

ROOT = pathlib.Path(__file__).resolve().parent.parent
CRATES = ROOT / "crates"
PAGE = ROOT / "docs" / "READING.md"
WORD = re.compile(r"[A-Za-z_][\w'-]*")
IMPORT = re.compile(r"use Rattle\.([a-z]\w*)\.specs\.([\w.]+?)\.\{(.*)\};?$")
ALIAS = re.compile(r"use Rattle\.([a-z]\w*)\.specs\.([\w.]+?) as (\S+?);?$")
HEAD = re.compile(
    r"\s*(?:(?:abbrev|unfoldable|pub) )*(?:record |data )?([A-Za-z_◌][^\s:({]*)(?:\s*[({].*?)?\s*:(?!:)"
)


def file_of(crate: str, path: str) -> pathlib.Path | None:
    """Returns the file of a module of definitions, or None where it is no file of the repository's."""
    parts = path.split(".")
    for count in range(len(parts), 0, -1):
        file = CRATES / crate / "specs" / ("/".join(parts[:count]) + ".antt")
        if file.exists():
            return file
    return None


class Module:
    """What a file of definitions imports, and the lines of each of its definitions."""

    def __init__(self, file: pathlib.Path):
        self.names: dict[str, tuple[pathlib.Path, str]] = {}
        self.aliases: dict[str, pathlib.Path] = {}
        self.lines: dict[str, list[str]] = {}
        text = file.read_text(encoding="utf-8")
        head_comment = " ".join(line.removeprefix("--").strip() for line in re.match(r"(?:--.*\n)*", text)[0].splitlines())
        self.title = re.match(r"(?:.*?\.(?= [A-Z]|$))?", head_comment)[0] or head_comment  # its first sentence
        current, in_record = "", -1  # the depth of the record's head, or -1
        for line in text.splitlines():
            if line.startswith("use "):
                self.take_import(line)
                continue
            depth = len(line) - len(line.lstrip())
            # definitions stand at the front, or in modules with what they share, where they begin by one of these words
            begins = depth <= 2 or re.match(r"\s+(abbrev|unfoldable|pub (record|data))\b", line)
            head = HEAD.match(line) if begins and not line.lstrip().startswith("--") else None
            if head and not (in_record >= 0 and depth > in_record and re.match(r"\s+pub \w+ :", line)):
                current, in_record = head[1], depth if re.search(r"\b(record|data)\b", line) else -1
                self.lines.setdefault(current, [])
            if current and line.strip() and not line.lstrip().startswith("--"):
                self.lines[current].append(line)

    def take_import(self, line: str) -> None:
        """Takes the names that a line imports from definitions of the repository's."""
        if found := IMPORT.match(line):
            file = None if "declared" in found[2] else file_of(found[1], found[2])
            for name in found[3].split(","):
                words = name.split(" as ")
                if file:
                    self.names[words[-1].strip()] = (file, words[0].strip())
        elif found := ALIAS.match(line):
            file = None if "declared" in found[2] else file_of(found[1], found[2])
            if file:
                self.aliases[found[3]] = file


modules: dict[pathlib.Path, Module] = {}


def module_of(file: pathlib.Path) -> Module:
    if file not in modules:
        modules[file] = Module(file)
    return modules[file]


def cited(file: pathlib.Path, name: str) -> list[tuple[pathlib.Path, str]]:
    """Returns what a definition cites, in the order of its text."""
    module = module_of(file)
    text = "\n".join(module.lines.get(name, []))
    found = []
    for word in dict.fromkeys(WORD.findall(text)):
        if word in module.names:
            found.append(module.names[word])
        elif word in module.lines and word != name:
            found.append((file, word))
        elif word in module.aliases:
            for inner in re.findall(re.escape(word) + r"\.([A-Za-z_][\w'-]*)", text):
                found.append((module.aliases[word], inner))
    return found


def cited_by_run() -> list[tuple[pathlib.Path, str]]:
    """Returns the definitions that the contract of `run` names."""
    source = (CRATES / "run_app" / "src" / "running.rt").read_text(encoding="utf-8")
    begin = source.index("pub fn run<")
    words = set(WORD.findall(source[begin : source.index("\n{", begin)]))
    found = []
    for line in source.splitlines():
        if match := IMPORT.match(line.removeprefix("ghost ")):
            file = file_of(match[1], match[2])
            found += [(file, name.strip()) for name in match[3].split(",") if name.strip() in words and file]
    return found


def reached() -> list[tuple[pathlib.Path, str]]:
    """Returns all definitions that the contract leads to, each behind those that it cites."""
    order: list[tuple[pathlib.Path, str]] = []
    seen = set()
    todo = [(place, False) for place in reversed(cited_by_run())]
    while todo:
        place, done = todo.pop()
        if done:
            order.append(place)
            continue
        if place in seen or not module_of(place[0]).lines.get(place[1]):
            continue
        seen.add(place)
        todo.append((place, True))
        todo += [(below, False) for below in reversed(cited(*place))]
    return order


def wrapped(text: str) -> str:
    """A paragraph in lines of at most 120 columns."""
    return textwrap.fill(text, 120, break_long_words=False, break_on_hyphens=False)


def text_of_page() -> str:
    order = reached()
    by_file: dict[pathlib.Path, list[str]] = collections.OrderedDict()
    for file, name in order:
        by_file.setdefault(file, []).append(name)
    lines = {file: sum(len(module_of(file).lines[name]) for name in names) for file, names in by_file.items()}
    whole = {
        file: sum(bool(line.strip()) and not line.startswith("use ") for line in file.read_text(encoding="utf-8").splitlines())
        for file in by_file
    }
    out = [
        "# What an auditor reads",
        "",
        "The theorem is the contract of `run` (`crates/run_app/src/running.rt`; in words: `THEOREM.md`). To believe what it",
        "says, one has to read the definitions that its clauses cite, and those that these cite, and no code and no proof: the",
        "prover has checked those. This page lists them, made by `checks/reading.py`: the files in an order in which most of",
        "what a file cites stands in files before it, and of each file the definitions that count, in the order of reading.",
        f"They are **{len(order):,} definitions, {sum(lines.values()):,} lines in {len(by_file)} files** (which have"
        f" {sum(whole.values()):,} lines without their imports).",
        "",
        "| crate | definitions | lines |",
        "|---|---|---|",
    ]
    crates = collections.Counter()
    of_crate = collections.Counter()
    for file in by_file:
        crates[file.parts[-3]] += len(by_file[file])
        of_crate[file.parts[-3]] += lines[file]
    out += [f"| `{crate}` | {count} | {of_crate[crate]} |" for crate, count in crates.most_common()]
    for number, (file, names) in enumerate(by_file.items(), 1):
        path = file.relative_to(ROOT)
        told = f"{lines[file]} of {whole[file]} lines: " + ", ".join(f"`{name}`" for name in names) + "."
        out += ["", f"## {number}. `{path}`", "", wrapped(module_of(file).title), "", wrapped(told)]
    return "\n".join(out) + "\n"


def main(words: list[str]) -> int:
    if words not in ([], ["--check"]):
        print(__doc__, end="", file=sys.stderr)
        return 2
    text = text_of_page()
    if not words:
        PAGE.write_text(text, encoding="utf-8")
    elif not PAGE.exists() or PAGE.read_text(encoding="utf-8") != text:
        print("reading: docs/READING.md is not what the sources say; run checks/reading.py")
        return 1
    return 0


if __name__ == "__main__":
    sys.exit(main(sys.argv[1:]))
