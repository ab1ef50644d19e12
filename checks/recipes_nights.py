"""Tries `every_night.py`, called by `checks/recipes.sh` with the path of the program (empty where it is not built).

A chain is made by `bench/node/make.py`, a store of its genesis and first ten blocks, and three nights are played: one of
lines, one of a node's answers with the chain's export, and one in which a validator signs twice and the export differs.
The rows of the sheets have to be those of one whole run, and calls that are wrong have to leave the store as it is.
"""
from __future__ import annotations

import json
import pathlib
import shutil
import subprocess
import sys
import tempfile
from typing import Any

ROOT = pathlib.Path(__file__).resolve().parent.parent
RECIPES, MAKE = ROOT / "examples/recipes", ROOT / "bench/node/make.py"
Json = dict[str, Any]
bad: list[str] = []


def ask(holds: bool, text: str) -> None:
    """Notes what does not hold."""
    if not holds:
        bad.append(text)


def ran(*words: object, given: bytes = b"") -> tuple[int, bytes, str]:
    """A command: its status, what it wrote, what it said."""
    done = subprocess.run([str(word) for word in words], input=given, capture_output=True)
    return done.returncode, done.stdout, done.stderr.decode()


def recipe(name: str, *words: object) -> tuple[int, bytes, str]:
    """A recipe."""
    return ran(sys.executable, RECIPES / name, *words)


def twice_signed(line: bytes, genesis: Json) -> bytes:
    """A block's line with evidence that its first validator signed twice."""
    block = json.loads(line)
    told = {"cons": genesis["validators"][0]["cons"], "height": block["height"] - 1, "time": block["time"], "power": 1000}
    return json.dumps(block | {"evidence": [told]}, separators=(",", ":")).encode() + b"\n"


class Chain:
    """A made chain, and a store of its beginning."""

    def __init__(self, built: str, room: pathlib.Path) -> None:
        self.built, self.room, self.store = built, room, room / "chain.db"
        ran(sys.executable, MAKE, room / "blocks", 25)
        self.genesis = ran(sys.executable, MAKE, "--genesis")[1]
        made = recipe("from_blocks.py", room / "blocks", 1, 24)[1].splitlines(keepends=True)
        self.lines = [*made[:20], twice_signed(made[20], json.loads(self.genesis)), *made[21:]]
        ran(built, self.store, "replay", given=self.genesis + b"".join(self.lines[:10]))
        (room / "run.jsonl").write_bytes(self.genesis + b"".join(self.lines))
        (room / "run.out").write_bytes(ran(built, "-", "replay", given=self.genesis + b"".join(self.lines))[1])
        validator = json.loads(self.genesis)["validators"]
        self.first, self.second = validator[0]["operator"], validator[1]["operator"]

    def file(self, first: int, last: int) -> pathlib.Path:
        """The lines of some blocks."""
        path = self.room / f"day_{first}.jsonl"
        path.write_bytes(b"".join(self.lines[first - 1:last]))
        return path

    def answers(self, last: int) -> pathlib.Path:
        """The node's answers up to a height, and the results of the next one."""
        path = self.room / "answers"
        path.mkdir()
        for entry in (self.room / "blocks").iterdir():
            kind, height = entry.stem.rsplit("_", 1)
            if int(height) <= last + (kind == "block_results"):
                shutil.copy(entry, path)
        return path

    def export(self, last: int) -> pathlib.Path:
        """What the chain would export at a height."""
        store, path = self.room / f"to_{last}.db", self.room / f"export_{last}.json"
        ran(self.built, store, "replay", given=self.genesis + b"".join(self.lines[:last]))
        path.write_bytes(recipe("to_export.py", store, "--next", self.room / f"blocks/block_results_{last + 1}.json")[1])
        return path

    def night(self, blocks: pathlib.Path, name: str, *more: object) -> tuple[int, str, str]:
        """Plays a night; what it told."""
        watched = "--operator", self.first, "--operator", self.second, "--address", self.first
        status, out, err = recipe("every_night.py", self.store, blocks, self.room / name, *watched, *more)
        return status, out.decode(), err

    def rows(self, name: str, sheet: str) -> list[str]:
        """The rows of a night's sheet which are of blocks, the last one without what its report tells."""
        texts = (self.room / name / sheet).read_text().splitlines()[1:]
        return [text for text in texts if text.startswith("2024-")]


def try_nights(built: str, room: pathlib.Path) -> None:
    """The three nights, and calls that are wrong."""
    chain = Chain(built, room)
    status, out, err = chain.night(chain.file(11, 14), "night_1", "--missed", 99)
    ask((status, out.splitlines()[1:]) == (0, ["well"]), f"the first night ended with {status}: {out}{err}")
    same = chain.night(chain.file(15, 18), "night_1"), chain.night(chain.file(19, 20), "night_x", "--missed", 99)
    ask([one[0] for one in same] == [2, 2] and "bad block" in same[1][2], f"wrong nights ended with {same}")
    export = chain.export(18)
    status, out, err = chain.night(chain.answers(18), "night_2", "--missed", 99, "--export", export, "--before", room / "night_1/night.out")
    ask((status, out.splitlines()[1:]) == (0, ["well"]), f"the second night ended with {status}: {out}{err}")
    ask((room / "night_2/blocks.jsonl").read_bytes() == b"".join(chain.lines[14:18]), "the second night has other lines")
    status, out, err = chain.night(chain.file(19, 24), "night_3", "--export", export, "--before", room / "night_2/night.out")
    wanted = [f"{chain.first}: {what}" for what in ("slashed in block 21", "jailed in block 21", "tombstoned in block 21", "is jailed")]
    wanted += ["the export differs: "]
    looks = [text.removeprefix("look ") for text in out.splitlines() if text.startswith("look ")]
    ask(status == 1 and all(any(look.startswith(text) for look in looks) for text in wanted) and "well" not in out,
        f"the third night ended with {status}: {out}{err}")
    ask(not any(look.startswith(f"{chain.second}: is") for look in looks), f"the third night looks at who did nothing: {looks}")
    for operator in (chain.first, chain.second):
        whole = recipe("validator_sheet.py", operator, room / "run.out", room / "run.jsonl")[1].decode().splitlines()[11:]
        found = [row for number in (1, 2, 3) for row in chain.rows(f"night_{number}", f"validator_{operator}.csv")]
        cells = [[row.split(",")[place] for row in rows for place in (0, 1, 2, 3, 6, 7, 8, 9, 10, 11, 13, 14, 15)] for rows in (found, whole)]
        ask(cells[0] == cells[1] and len(found) == 14, f"the sheets of three nights are not that of the run: {found[:2]}, {whole[:2]}")
    whole = [row for row in recipe("tax_sheet.py", chain.first, room / "run.out", room / "run.jsonl")[1].decode().splitlines()[1:]
             if int(row.split(",")[1]) > 10 and row.split(",")[2] not in ("balance", "pending")]
    found = [row for number in (1, 2, 3) for row in chain.rows(f"night_{number}", f"tax_{chain.first}.csv")
             if row.split(",")[2] not in ("balance", "pending")]
    ask(found == whole, f"the sheets of an address of three nights are not that of the run: {found[:3]}, {whole[:3]}")


built = sys.argv[1] if len(sys.argv) > 1 else ""
if not built:
    print("recipes: every_night.py: passed over, since the program is not built")
    sys.exit(0)
with tempfile.TemporaryDirectory() as folder:
    try_nights(built, pathlib.Path(folder))
for text in bad:
    print(f"recipes: every_night.py: {text}")
print(f"recipes: every_night.py: three nights, {len(bad)} not as they are to be")
sys.exit(1 if bad else 0)
