#!/usr/bin/env python3
"""Groups the imports at the head of proof files: one `use` line for what a file takes of a crate, with the paths below it
in braces, as Rust does; a line that would have more than 120 columns is broken before a module. What std's Common passes
on is taken from there, where the file takes anything from it. The same names are imported as before, and no more.

  checks/imports.py [--width N] [CRATE ..]           says how many lines the proof files of these crates (of all) have, and would have
  checks/imports.py [--width N] --write [CRATE ..]   writes them
"""
import functools
import os
import pathlib
import re
import shutil
import sys

ROOT = pathlib.Path(__file__).resolve().parent.parent
KIT = pathlib.Path(os.path.realpath(shutil.which("rt") or "/opt/rattle/bin/rt")).parent.parent / "rattle"
USE = re.compile(r"^use (Rattle\.[\w.«»]+)\.\{(.*)\}$")
ANY = re.compile(r"^(pub |unfoldable pub )?use ")


# ---- what std passes on

@functools.lru_cache(None)
def folded() -> dict[str, str]:
    """The modules of std's definitions that stand in a crate below it, each with the module there."""
    text = (KIT / "std/specs/Lib.antt").read_text(encoding="utf-8")
    return {m.split(".")[-1]: m for m in re.findall(r"^pub use ([\w.]+)$", text, re.M)}


def home(module: str) -> str:
    """The module that a module of std stands for."""
    words = module.split(".")
    if words[:3] == ["Rattle", "std", "specs"] and len(words) > 3:
        if words[3] in folded():
            return ".".join([folded()[words[3]], *words[4:]])
        if words[3] == "declared" and words[4:5] in (["cmp"], ["option"], ["result"]):
            return ".".join(["Rattle", "core", *words[2:]])
    return module


@functools.lru_cache(None)
def passed_on(module: str) -> dict[str, tuple[str, str]]:
    """The names that a module of the kit passes on, with the module and the name that it takes each from."""
    words = module.split(".")
    if words[0] != "Rattle":
        return {}
    for file in (KIT.joinpath(*words[1:-1], words[-1] + ".antt"), KIT.joinpath(*words[1:], "Lib.antt")):
        if file.exists():
            lines = re.findall(r"^(?:unfoldable )?pub use ([\w.«»]+)\.\{(.*)\}$", file.read_text(encoding="utf-8"), re.M)
            return {item: (under, item) for under, text in lines for item in map(str.strip, text.split(",")) if " " not in item}
    return {}


def origin(module: str, name: str) -> tuple[str, str]:
    """Where a name is declared."""
    for _ in range(9):
        module = home(module)
        if name not in passed_on(module):
            break
        module, name = passed_on(module)[name]
    return module, name


COMMON = "Rattle.std.proofs.Common"


def is_common(module: str, name: str) -> bool:
    """Whether Common passes on this very thing."""
    return name in passed_on(COMMON) and origin(COMMON, name) == origin(module, name)


# ---- lines

def leaves(text: str) -> list[tuple[list[str], str]]:
    """What stands in braces: the path and the item of each name."""
    out, depth, start = [], 0, 0
    for at, sign in enumerate(text + ","):
        depth += (sign == "{") - (sign == "}")
        if sign == "," and depth == 0:
            part, start = text[start:at].strip(), at + 1
            if inner := re.match(r"([^{]*)\.\{(.*)\}$", part):
                out += [(inner[1].split(".") + path, item) for path, item in leaves(inner[2])]
            elif part:
                name, _, other = part.partition(" as ")
                *path, leaf = name.split(".")
                out.append((path, leaf + (" as " + other if other else "")))
    return out


class Node:
    """Names below a path."""

    def __init__(self) -> None:
        self.items: list[str] = []
        self.below: dict[str, Node] = {}

    def put(self, path: tuple[str, ...], item: str) -> None:
        node = self
        for word in path:
            node = node.below.setdefault(word, Node())
        if item not in node.items:
            node.items.append(item)

    def parts(self) -> list[str]:
        out = list(self.items)
        for word, node in self.below.items():
            inner = node.parts()
            is_word = len(inner) == 1 and "◌" not in inner[0].split("{")[0].split(".")[-1] and " as " not in inner[0]
            out.append(f"{word}.{inner[0]}" if is_word else f"{word}.{{{', '.join(inner)}}}")
        return out


def line_of(crate: str, entries: list[tuple[tuple[str, ...], str]]) -> str:
    """The line that imports these names of a crate."""
    top = Node()
    for path, item in entries:
        top.put(path, item)
    head, node = ["Rattle", crate], top
    while len(node.below) == 1 and not node.items:
        ((word, node),) = node.below.items()
        head.append(word)
    return f"use {'.'.join(head)}.{{{', '.join(node.parts())}}}"


def lines_of(crate: str, entries: list[tuple[tuple[str, ...], str]], width: int) -> list[str]:
    """The lines that import these names of a crate, modules of one folder together."""
    modules: dict[tuple[str, ...], list[str]] = {}
    for path, item in entries:
        modules.setdefault(path, []).append(item)
    folders: dict[str, list[tuple[str, ...]]] = {}
    for path in modules:
        folders.setdefault(path[0] if path else "", []).append(path)
    out, now = [], []
    for path in (path for paths in folders.values() for path in paths):
        here = [(path, item) for item in modules[path]]
        if now and len(line_of(crate, now + here)) > width:
            out.append(line_of(crate, now))
            now = here
        else:
            now = now + here
    return [*out, line_of(crate, now)]


def grouped(lines: list[str], width: int) -> list[str]:
    """The lines of a head, grouped."""
    has_common = any(line.startswith(f"use {COMMON}.{{") for line in lines)
    order: list[str | tuple[str, bool]] = []
    groups: dict[tuple[str, bool], list[tuple[tuple[str, ...], str]]] = {}
    for line in lines:
        found = USE.match(line)
        if not found:
            order.append(line)
            continue
        words = found[1].split(".")
        for path, item in leaves(found[2]):
            crate, *rest = words[1:] + path
            if has_common and crate == "std" and is_common(".".join(["Rattle", crate, *rest]), item):
                rest = ["proofs", "Common"]
            key = (crate, crate == "std" and rest == ["proofs", "Common"])
            if key not in groups:
                groups[key] = []
                order.append(key)
            if (tuple(rest), item) not in groups[key]:
                groups[key].append((tuple(rest), item))
    out = []
    for it in order:
        out += [it] if isinstance(it, str) else lines_of(it[0], groups[it], width)
    return out


def of_text(text: str, width: int) -> str:
    """The text of a file, its imports grouped; as it is, where something else stands between them."""
    lines = text.split("\n")
    uses = [at for at, line in enumerate(lines) if ANY.match(line)]
    if not uses or any(not ANY.match(line) for line in lines[uses[0] : uses[-1] + 1]):
        return text
    return "\n".join(lines[: uses[0]] + grouped(lines[uses[0] : uses[-1] + 1], width) + lines[uses[-1] + 1 :])


def main() -> None:
    words = sys.argv[1:]
    width = 120
    if "--width" in words:
        at = words.index("--width")
        width = int(words[at + 1])
        del words[at : at + 2]
    writes = "--write" in words
    crates = [word for word in words if word != "--write"]
    folders = [ROOT / "crates" / crate for crate in crates] or sorted((ROOT / "crates").glob("*"))
    before = after = 0
    for folder in folders:
        for path in sorted(folder.glob("proofs/**/*.antt")):
            old = path.read_text(encoding="utf-8")
            new = of_text(old, width)
            before, after = before + old.count("\n"), after + new.count("\n")
            if writes and new != old:
                path.write_text(new, encoding="utf-8")
    print(f"imports: {before} lines of proof files, {after} with imports grouped")


if __name__ == "__main__":
    main()
