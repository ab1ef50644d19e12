#!/usr/bin/env python3
"""Lays out the pages: a paragraph or an item of a list with a line of more than 120 columns is wrapped anew.

  checks/wrap.py           wraps them
  checks/wrap.py --check   ends with 1 where a page has such a line

Tables, headings, pictures and what is shown of code stay as they are; what stands in backquotes is not parted.
"""
import pathlib
import re
import sys

TOP = pathlib.Path(__file__).resolve().parent.parent
PAGES = ("*.md", "docs/*.md", "bench/*.md", "cases/*.md", "examples/**/*.md", "python/*.md", "crates/*/README.md")
WIDTH = 120
ITEM = re.compile(r"(\s*)(- |\d+\. )")
STAYS = ("|", "#", "<", "!", "    ")


def words_of(text: str) -> list[str]:
    """The words of a text; what stands in backquotes is a part of one."""
    return re.findall(r"(?:`[^`]*`|[^\s`]|`)+", text)


def wrapped(block: list[str]) -> list[str]:
    """The lines of a paragraph or an item, filled anew."""
    item = ITEM.match(block[0])
    front = item[0] if item else re.match(r"\s*", block[0])[0]
    rest = re.match(r"\s*", block[1])[0] if item and len(block) > 1 else " " * len(front) if item else front
    lines, line = [], ""
    for word in words_of(" ".join([block[0][len(front):], *(line.strip() for line in block[1:])])):
        if line and len(line) + 1 + len(word) > WIDTH:
            lines.append(line)
            line = ""
        line = f"{line} {word}" if line else (rest if lines else front) + word
    return [*lines, line]


def is_item(line: str, item: re.Match | None) -> bool:
    """Whether the line begins an item behind a block: a number does so only in a list of numbers."""
    found = ITEM.match(line)
    return found is not None and (found[2] == "- " or item is not None and item[2] != "- ")


def laid_out(text: str) -> str:
    """The text of a page, with no line that is too long."""
    lines, out, at, is_code = text.split("\n"), [], 0, False
    while at < len(lines):
        block = [lines[at]]
        at += 1
        is_code ^= block[0].startswith("```")
        if is_code or not block[0].strip() or block[0].startswith((*STAYS, "```")):
            out += block
            continue
        item = ITEM.match(block[0])
        while at < len(lines) and lines[at].strip() and not is_item(lines[at], item):
            depth = len(lines[at]) - len(lines[at].lstrip())
            if item and depth <= len(item[1]) or not item and lines[at].startswith(("|", "#", "!", "```")):
                break
            block.append(lines[at])
            at += 1
        out += wrapped(block) if any(len(line) > WIDTH for line in block) else block
    return "\n".join(out)


def main(words: list[str]) -> int:
    if words not in ([], ["--check"]):
        print(__doc__, end="", file=sys.stderr)
        return 2
    status = 0
    for page in sorted({page for pattern in PAGES for page in TOP.glob(pattern)}):
        text = page.read_text(encoding="utf-8")
        new = laid_out(text)
        if new != text and words:
            print(f"wrap: {page.relative_to(TOP)} has lines of more than {WIDTH} columns; run checks/wrap.py")
            status = 1
        elif new != text:
            page.write_text(new, encoding="utf-8")
    return status


if __name__ == "__main__":
    sys.exit(main(sys.argv[1:]))
