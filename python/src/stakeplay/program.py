"""Runs the program, and gives what it writes as facts.

The program is the one that the variable STAKEPLAY names, else `stakeplay` or `stakeplay.sh` on the path, else the script
of the repository in which this package stands.
"""
from __future__ import annotations

import json
import os
import pathlib
import shutil
import subprocess
import threading
from typing import Any, Iterable, Iterator, Union

from stakeplay.calling import Fault, stop
from stakeplay.lines.facts import Fact, read

Line = Union[str, bytes, "dict[str, Any]"]
Path = Union[str, "os.PathLike[str]"]


class Ended(Fault):
    """How a run ended that did not end well: its status and its line (docs/OPERATING.md has all)."""

    def __init__(self, status: int, text: str):
        super().__init__(f"{text or 'the program ended'} (status {status})")
        self.status, self.text = status, text


def program() -> str:
    """The path of the program."""
    script = pathlib.Path(__file__).resolve().parents[3] / "stakeplay.sh"
    named = os.environ.get("STAKEPLAY")
    found = named or shutil.which("stakeplay") or shutil.which("stakeplay.sh") or (str(script) if script.exists() else "")
    return found or stop("there is no program: put `stakeplay` on the path, or its path into the variable STAKEPLAY")


def _bytes_of(line: Line) -> bytes:
    text = json.dumps(line, separators=(",", ":")) if isinstance(line, dict) else line
    raw = text.encode() if isinstance(text, str) else text
    return raw if raw.endswith(b"\n") else raw + b"\n"


def output(words: Iterable[str], lines: Iterable[Line] = ()) -> Iterator[bytes]:
    """The lines that the program writes, called with these words; a run that does not end with 0 raises `Ended`."""
    command = [program(), *words]
    alone = dict(os.environ, STAKEPLAY_PLAIN="1")   # the script becomes the program, which says one line
    with subprocess.Popen(command, stdin=subprocess.PIPE, stdout=subprocess.PIPE, stderr=subprocess.PIPE, env=alone) as process:
        assert process.stdin and process.stdout and process.stderr
        faults: list[BaseException] = []
        told: list[bytes] = []
        feeder = threading.Thread(target=_feed, args=(process.stdin, lines, faults), daemon=True)
        hearer = threading.Thread(target=lambda: told.append(process.stderr.read()), daemon=True)
        feeder.start()
        hearer.start()
        try:
            yield from process.stdout
            status = process.wait()
            feeder.join()
            hearer.join()
        finally:
            if process.poll() is None:
                process.kill()
    if faults:
        raise faults[0]
    if status:
        raise Ended(status, b"".join(told).decode(errors="replace").strip().rpartition("\n")[2])


def _feed(into: Any, lines: Iterable[Line], faults: list[BaseException]) -> None:
    """Writes the input; what making it raises is kept."""
    try:
        with into:
            for line in lines:
                into.write(_bytes_of(line))
    except BrokenPipeError:     # the run ended before
        pass
    except BaseException as fault:
        faults.append(fault)


def _facts(words: list[str], lines: Iterable[Line], bech32: bool) -> Iterator[Fact]:
    store, *others = words
    return read(output([store, *(["bech32"] if bech32 else []), *others], lines))


def replay(lines: Iterable[Line], *, store: Path = "-", keep: bool = False, bech32: bool = False) -> Iterator[Fact]:
    """The facts of a replay of a genesis and blocks: texts or objects, one a line. With `store` the state is kept."""
    return _facts([os.fspath(store), *(["keep"] if keep else []), "replay"], lines, bech32)


def resume(store: Path, lines: Iterable[Line], *, keep: bool = False, bech32: bool = False) -> Iterator[Fact]:
    """The facts of blocks that go on from a store."""
    return _facts([os.fspath(store), *(["keep"] if keep else []), "resume"], lines, bech32)


def query(store: Path, *words: str, height: int | None = None, bech32: bool = False) -> list[Fact]:
    """The answer to a question of a store: `query(store, "account", address)`; with `height` as it was then."""
    past = [] if height is None else ["past", str(height)]
    return list(_facts([os.fspath(store), *past, "query", *words], (), bech32))
