#!/usr/bin/env python3
"""Writes the tables of docs/FORMATS.md that programs want as CSV: refusals.csv and shapes.csv, in `examples` and in the
package of `python`.

  checks/tables.py           writes them
  checks/tables.py --check   ends with 1 where a file is not what the page says
"""
import csv
import io
import itertools
import pathlib
import re
import sys

ROOT = pathlib.Path(__file__).resolve().parent.parent
PAGE = ROOT / "docs" / "FORMATS.md"
FOLDERS = "examples", "python/src/stakeplay/tables"


def rows_below(heading: str, columns: list[str]) -> list[list[str]]:
    """Returns the cells of the table with these columns that stands in the section of this heading."""
    section = re.search(rf"^## {re.escape(heading)}\n(.*?)(?=^## |\Z)", PAGE.read_text(encoding="utf-8"), re.M | re.S)
    head = "| " + " | ".join(columns) + " |"
    lines = section[1].splitlines() if section else []
    if head not in lines:
        sys.exit(f"tables: docs/FORMATS.md has no table '{head}' below '## {heading}'")
    at = lines.index(head) + 2
    table = []
    while at < len(lines) and lines[at].startswith("|"):
        table.append([cell.strip().replace("`", "") for cell in lines[at].strip("|").split("|")])
        at += 1
    return table


def text_of(columns: list[str], rows: list[list[str]]) -> str:
    out = io.StringIO()
    writer = csv.writer(out, lineterminator="\n")
    writer.writerow(columns)
    writer.writerows(rows)
    return out.getvalue()


def tables() -> dict[str, str]:
    refusals = rows_below("Refusals", ["number", "name", "the condition", "the SDK's error"])
    shapes = rows_below("The numbers of `bad shape N`", ["N", "member", "of"])
    return {
        "refusals.csv": text_of(["number", "name", "condition", "sdk_error"], refusals),
        "shapes.csv": text_of(["number", "member", "of"], shapes),
    }


def main(words: list[str]) -> int:
    if words not in ([], ["--check"]):
        print(__doc__, end="", file=sys.stderr)
        return 2
    status = 0
    for folder, (name, text) in itertools.product(FOLDERS, tables().items()):
        path = ROOT / folder / name
        if not words:
            path.write_text(text, encoding="utf-8")
        elif not path.exists() or path.read_text(encoding="utf-8") != text:
            print(f"tables: {folder}/{name} is not what docs/FORMATS.md says; run checks/tables.py")
            status = 1
    return status


if __name__ == "__main__":
    sys.exit(main(sys.argv[1:]))
