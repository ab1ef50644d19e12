#!/usr/bin/env python3
"""Times `examples/recipes/page.py` on a run of many blocks with a hundred validators: bench/page/run.py [BLOCKS]

The input is made by `make.py` (100,000 blocks, if BLOCKS is not said: 0.9 GB, and 1.8 GB of output), and the program that
the variable STAKEPLAY names replays it, else `stakeplay.sh`. Told are, for one process and for as many as the recipe takes
by itself: the seconds by the clock, the processor seconds of all processes, and the most memory of all of them together,
of which `/proc` tells the proportional sizes (Pss) five times a second. Both pages must have the same bytes. Works in a
temporary folder."""
from __future__ import annotations

import os
import pathlib
import resource
import subprocess
import sys
import tempfile
import threading
import time

HERE = pathlib.Path(__file__).resolve().parent
TOP = HERE.parents[1]


def family(pid: int) -> list[int]:
    """A process and those below it."""
    found = [pid]
    try:
        for thread in os.listdir(f"/proc/{pid}/task"):
            for child in pathlib.Path(f"/proc/{pid}/task/{thread}/children").read_text().split():
                found += family(int(child))
    except OSError:     # it ended
        pass
    return found


def kilobytes(pid: int) -> int:
    """The memory of a process, its part of what it shares with others."""
    try:
        lines = pathlib.Path(f"/proc/{pid}/smaps_rollup").read_text().splitlines()
        return sum(int(line.split()[1]) for line in lines if line.startswith("Pss:"))
    except OSError:     # it ended
        return 0


def made(words: list[str], page: pathlib.Path) -> str:
    """Makes a page; what it took."""
    before, began, most = resource.getrusage(resource.RUSAGE_CHILDREN), time.monotonic(), [0]
    with open(page, "wb") as file:
        process = subprocess.Popen([sys.executable, str(TOP / "examples/recipes/page.py"), *words], stdout=file)

    def look() -> None:
        while process.returncode is None:
            most[0] = max(most[0], sum(map(kilobytes, family(process.pid))))
            time.sleep(0.2)
    watcher = threading.Thread(target=look)
    watcher.start()
    status = process.wait()
    watcher.join()
    if status:
        sys.exit(f"page.py {' '.join(words)} ended with {status}")
    after = resource.getrusage(resource.RUSAGE_CHILDREN)
    used = after.ru_utime + after.ru_stime - before.ru_utime - before.ru_stime
    return (f"{time.monotonic() - began:.1f} s by the clock, {used:.1f} processor seconds, {most[0] / 1024:.0f} MB of all "
            f"processes, a page of {page.stat().st_size / 1e6:.2f} MB")


def main() -> None:
    """Makes the run, and its page twice."""
    blocks = sys.argv[1] if len(sys.argv) > 1 else "100000"
    named = os.environ.get("STAKEPLAY")
    program = [named] if named else ["bash", str(TOP / "stakeplay.sh")]
    with tempfile.TemporaryDirectory(prefix="page-") as name:
        room = pathlib.Path(name)
        given, out, pages = room / "run.jsonl", room / "run.out", [room / "one.html", room / "more.html"]
        with open(given, "wb") as file:
            subprocess.run([sys.executable, str(HERE / "make.py"), blocks], stdout=file, check=True)
        with open(given, "rb") as read, open(out, "wb") as file:
            subprocess.run([*program, "-", "replay"], stdin=read, stdout=file, check=True)
        print(f"{blocks} blocks: {given.stat().st_size / 1e6:.0f} MB of input, {out.stat().st_size / 1e6:.0f} MB of output")
        words = [str(out), str(given), "--exponent", "uatom=6:ATOM"]
        print("one process:", made([*words, "--jobs", "1"], pages[0]), flush=True)
        print("as it does by itself:", made(words, pages[1]), flush=True)
        print("the same bytes" if pages[0].read_bytes() == pages[1].read_bytes() else "THE PAGES DIFFER")


main()
