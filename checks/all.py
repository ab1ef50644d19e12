"""What `checks/all.sh` runs: the checks, side by side, over the program that STAKEPLAY names, and what they count."""
import concurrent.futures
import dataclasses
import os
import re
import subprocess
import sys
import threading
import time

SECONDS = 900  # after which a check that has not ended is failed
# the checks, those that take longest first
IN_PYTHON = "page", "wrong_calls"
NAMES = (
    "recipes stores page wrong_calls commands statements install pages words repository lemmas cases forms lines pipes "
    "trials caught release"
).split()
CHECKS = {name: [sys.executable, "-B", f"checks/{name}.py"] if name in IN_PYTHON else ["bash", f"checks/{name}.sh"]
          for name in NAMES}
# what a check counts: `NAME: 12 answers compared, 0 differ`
COUNTED = re.compile(r"^(?:[\w/]+: )?(?:\d+ \w+, )?(\d+) [a-z ]+, (\d+) (?:differ|not |ended )", re.M)
BREAK = " \\"  # what ends a line of a command that goes on
LEFT_OUT = re.compile(r"^.*\b(?:left out\b|passed over, since).*$", re.M)


@dataclasses.dataclass(frozen=True)
class Played:
    """What a check wrote, and how many of what it counts passed and failed; a check that counts nothing is one."""
    passed: int
    failed: int
    left_out: tuple[str, ...]


def counted(status: int, out: str) -> Played:
    """A check that ends by another status than 0 has at least one failed; one that counts none has not passed."""
    rows = [(int(all_of), int(bad)) for all_of, bad in COUNTED.findall(out)] or [(1, 0)]
    passed, failed = sum(all_of - bad for all_of, bad in rows), sum(bad for _, bad in rows)
    if status and not failed:
        passed, failed = max(passed - 1, 0), 1
    if not passed + failed:
        failed = 1
    return Played(passed, failed, tuple(LEFT_OUT.findall(out)))


def played(name: str, printing: threading.Lock) -> Played:
    """Runs a check, and prints what it wrote once it has ended."""
    began = time.monotonic()
    try:
        done = subprocess.run(CHECKS[name], stdin=subprocess.DEVNULL, stdout=subprocess.PIPE, stderr=subprocess.STDOUT,
                              text=True, errors="replace", timeout=SECONDS)
        status, out = done.returncode, done.stdout
    except subprocess.TimeoutExpired:
        status, out = 1, f"{name}: did not end within {SECONDS} seconds\n"
    result = counted(status, out)
    with printing:
        ended = "" if status == 0 else f", ended with {status}"
        print(f"== {name}: {result.passed} passed, {result.failed} failed{ended}; {time.monotonic() - began:.0f} s\n{out}",
              end="", flush=True)
    return result


def main(names: list[str]) -> int:
    unknown = [name for name in names if name not in CHECKS]
    if unknown:
        print(f"all: there is no check {' '.join(unknown)}; there are {' '.join(CHECKS)}\n0 passed, 1 failed")
        return 2
    printing = threading.Lock()
    with concurrent.futures.ThreadPoolExecutor(max(len(os.sched_getaffinity(0)), 2)) as pool:
        results = list(pool.map(lambda name: played(name, printing), names or CHECKS))
    left_out = [line for result in results for line in result.left_out]
    for line in left_out:
        print(f"all: LEFT OUT: {line.rstrip(BREAK)}")
    failed = sum(result.failed for result in results)
    print(f"{sum(result.passed for result in results)} passed, {failed} failed")
    return 1 if failed else 0


if __name__ == "__main__":
    sys.exit(main(sys.argv[1:]))
