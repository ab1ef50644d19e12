#!/usr/bin/env python3
"""Tells where the time of the gate goes.

  bench/gate.py run [--log FILE] [COMMAND..]
      runs the command (rt ci, if none is given) at the top of the repository, writes each line of its output to FILE with
      the second at which it came, prints the table, and ends with its status. FILE is gate.log in the temporary folder
      unless it is given
  bench/gate.py read FILE
      prints the table of what an earlier run wrote
  bench/gate.py page FILE
      prints it as bench/README.md has it: seconds of a processor, of the crates of which some part takes at least 120,
      those that take most first
  bench/gate.py modules FOLDER
      lists the slowest modules (a function's proof, a file of lemmas) of the check that kept its work in FOLDER, as
      'rt check' does in crates/NAME/out/incremental: the first one there, if it had one job

rt ci says what it has done and not how long it took. So while it runs, its checks are looked at four times a second: a
check's time begins when it is first seen and ends when it is gone. Of the check that a crate's edits begin with, the files
that it writes are looked at too: a module's time is that since the one before was written.
Edits are those of must-fail/ and, where the command tries them, of wrong-bodies/.
"""
import collections
import os
import pathlib
import re
import subprocess
import sys
import tempfile
import threading
import time

ROOT = pathlib.Path(__file__).resolve().parent.parent
# Minutes from nothing, and after a change in one module.
BUDGET = 75, 10
TICKS = os.sysconf("SC_CLK_TCK")
MARK, OF_MODULE = "@check", "@module"

# One check: its kind (proof, tests, seed, edit or build), its crate, an edit's name (or -), when it began and ended, and the
# processor seconds that it took.
Check = collections.namedtuple("Check", "kind crate name began ended cpu")


def dependencies():
    """Returns the crates of the repository below each crate."""
    lines = [
        line for line in (ROOT / "crates.txt").read_text().splitlines() if ":" in line and not line.startswith("#")
    ]
    named = {line.partition(":")[0].split()[0]: line.partition(":")[2].split() for line in lines}
    return {crate: [it for it in words if it in named] for crate, words in named.items()}


def edit_names(crate):
    return sorted(it.stem for it in (ROOT / "crates" / crate / "must-fail").glob("*.edit"))


def task_of(pid):
    """Returns the kind, the crate and the edit's name of a check that runs, or None for any other process."""
    try:
        words = pathlib.Path(f"/proc/{pid}/cmdline").read_bytes().decode(errors="replace").split("\0")
        where = os.readlink(f"/proc/{pid}/cwd")
    except OSError:
        return None
    if "--crate-name" not in words or words[1] not in ("check", "build"):
        return None
    crate = words[words.index("--crate-name") + 1]
    of_function = re.search(r"/wrong-body-(\w+)-", where)
    if of_function:
        return "edit", crate, of_function[1]
    if "/rt-edit-" in where:
        over = words[words.index("--incremental") + 1] if "--incremental" in words else ""
        number = os.path.basename(over)
        names = edit_names(crate)
        if number == "seed":
            return "seed", crate, over
        return "edit", crate, names[int(number)] if number.isdigit() and int(number) < len(names) else "-"
    if "--crate-checked" in words:
        return "build", crate, "-"
    return "tests" if "--test" in words else "proof", crate, "-"


def processes_below(top):
    """Returns the processor seconds of each check that runs below a process, by its number."""
    parents, seconds = {}, {}
    for folder in os.listdir("/proc"):
        if folder.isdigit():
            try:
                said = pathlib.Path(f"/proc/{folder}/stat").read_text()
            except OSError:
                continue
            name, _, rest = said[said.index("(") + 1 :].rpartition(")")
            rest = rest.split()
            parents[int(folder)] = int(rest[1])
            if name == "rattle" and rest[0] != "Z":
                seconds[int(folder)] = (int(rest[11]) + int(rest[12])) / TICKS
    found = {}
    for pid, cpu in seconds.items():
        at = pid
        while at in parents and at != top:
            at = parents[at]
        if at == top:
            found[pid] = cpu
    return found


def module_times(folder):
    """Returns the modules that a check wrote into a folder, slowest first, each with the seconds since the one before."""
    files = []
    for here, _, names in os.walk(folder):
        for name in names:
            if name.endswith(".oantt"):
                try:
                    written = os.stat(os.path.join(here, name)).st_mtime
                except FileNotFoundError:
                    continue  # what began with it may have cleared it
                files.append((written, name.removesuffix(".oantt").partition("Rattle-")[2].removesuffix(".decls")))
    files.sort()
    times = [(b[0] - a[0], b[1]) for a, b in zip(files, files[1:])]
    return sorted(times, reverse=True)


class Watch:
    """What is seen of the checks that run below a process."""

    def __init__(self, top, start, tell):
        self.top, self.start, self.tell = top, start, tell
        self.tasks, self.running, self.seeded = {}, {}, set()

    def look(self):
        now = time.monotonic() - self.start
        alive = set()
        for pid, cpu in processes_below(self.top).items():
            task = self.tasks.get(pid) or task_of(pid)
            if task:
                self.tasks[pid] = task
                alive.add(task)
                self.running.setdefault(task, [now, {}])[1][pid] = cpu
        for task in [it for it in self.running if it not in alive]:
            began, seconds = self.running.pop(task)
            kind, crate, name = task
            if kind == "seed" and crate not in self.seeded:
                self.seeded.add(crate)
                for took, module in module_times(name)[:10]:
                    self.tell(f"{OF_MODULE} {module} {took:.1f}")
            self.tell(
                f"{MARK} {kind} {crate} {'-' if kind == 'seed' else name} {began:.1f} {now:.1f} {sum(seconds.values()):.1f}"
            )
            self.tasks = {pid: it for pid, it in self.tasks.items() if it != task}


def run(log, command):
    """Runs the command and writes what it says, with times, to the log; returns its status."""
    start = time.monotonic()
    writing = threading.Lock()
    with open(log, "w", encoding="utf-8") as to:

        def tell(line):
            with writing:
                print(f"{time.monotonic() - start:.1f}\t{line}", file=to, flush=True)

        how = {"stdin": subprocess.DEVNULL, "stdout": subprocess.PIPE, "stderr": subprocess.STDOUT}
        child = subprocess.Popen(command, cwd=ROOT, text=True, errors="replace", **how)
        watch, ended = Watch(child.pid, start, tell), threading.Event()

        def look():
            while not ended.wait(0.25):
                watch.look()

        looking = threading.Thread(target=look)
        looking.start()
        for line in child.stdout:
            tell(line.rstrip("\n"))
        status = child.wait()
        ended.set()
        looking.join()
        watch.look()
        tell(f"status {status}")
    return status


def read(log):
    """Returns the checks of a log, the times of modules, its other lines, and the second of its last line."""
    checks, modules, lines, last = [], [], [], 0.0
    for line in pathlib.Path(log).read_text(encoding="utf-8").splitlines():
        when, _, text = line.partition("\t")
        last = float(when)
        if text.startswith(MARK + " "):
            kind, crate, name, *numbers = text.split()[1:]
            checks.append(Check(kind, crate, name, *map(float, numbers)))
        elif text.startswith(OF_MODULE + " "):
            modules.append((float(text.split()[2]), text.split()[1]))
        else:
            lines.append(text)
    return checks, modules, lines, last


def wall(checks):
    """Returns the seconds in which at least one of the checks ran."""
    total, reached = 0.0, 0.0
    for it in sorted(checks, key=lambda it: it.began):
        total += max(0.0, it.ended - max(it.began, reached))
        reached = max(reached, it.ended)
    return total


def row(name, checks):
    """Returns a crate's line of the table: seconds of the clock, and of processors in brackets."""
    cells = [f"`{name}`" if name != "all" else name]
    for kinds in (("proof", "build"), ("tests",), ("seed", "edit")):
        found = [it for it in checks if it.kind in kinds]
        cells.append(f"{wall(found):.0f} ({sum(it.cpu for it in found):.0f})" if found else "")
    cells.append(
        str(
            len({it.name for it in checks if it.kind == "edit"})
            if name != "all"
            else sum(it.kind == "edit" for it in checks)
        )
    )
    return "| " + " | ".join(cells) + " |"


def page_row(name, checks, per=1):
    """Returns a line of the page's table: the seconds of a processor, or so many of them, and how many edits there are."""
    cells = [name]
    for kinds in (("proof", "build"), ("tests",), ("seed", "edit")):
        spent = sum(it.cpu for it in checks if it.kind in kinds)
        cells.append(f"{spent / per:,.0f}" if spent else "")
    count = len({(it.crate, it.name) for it in checks if it.kind == "edit"})
    return "| " + " | ".join([*cells, str(count) if count else ""]) + " |"


def page(log):
    """Prints the table of the page."""
    checks = read(log)[0]
    kinds = (("proof", "build"), ("tests",), ("seed", "edit"))
    of_crate = {crate: [it for it in checks if it.crate == crate] for crate in dependencies()}

    def parts(crate):
        return [sum(it.cpu for it in of_crate[crate] if it.kind in kind) for kind in kinds]

    long = sorted((crate for crate in of_crate if max(parts(crate)) >= 120), key=lambda crate: -sum(parts(crate)))
    print("| crate | proofs | tests' proofs | edits, with the checks around them | edits |\n|---|---|---|---|---|")
    for crate in long:
        built = ", built twice" if any(it.kind == "build" for it in of_crate[crate]) else ""
        print(page_row(f"`{crate}`{built}", of_crate[crate]))
    print(page_row("all others", [it for it in checks if it.crate not in long]))
    cells = page_row("all, in minutes", checks, 60).strip("| ").split(" | ")
    print("| " + " | ".join(f"**{cell}**" for cell in cells) + " |")


def longest_chain(checks):
    """Returns the chain of crates, each of which waits for the one before, whose proofs took longest, and its seconds."""
    below, proof, best = dependencies(), collections.Counter(), {}
    for it in checks:
        if it.kind == "proof":
            proof[it.crate] += it.ended - it.began

    def reach(crate):
        if crate not in best:
            seconds, chain = max([reach(it) for it in below.get(crate, [])], default=(0.0, []))
            best[crate] = seconds + proof[crate], [*chain, crate]
        return best[crate]

    return max([reach(crate) for crate in below], default=(0.0, []))


def table(log):
    checks, modules, lines, last = read(log)
    proofs = [it for it in checks if it.kind in ("proof", "tests", "build")]
    edits = [it for it in checks if it.kind in ("seed", "edit")]
    print("Seconds of the clock, and in brackets of processors.\n")
    print("| crate | proofs | tests' proofs | edits | how many |\n|---|---|---|---|---|")
    for crate in dependencies():
        print(row(crate, [it for it in checks if it.crate == crate]))
    print(row("all", checks))
    for name, found in (("Proofs and tests", proofs), ("Edits", edits), ("All", checks)):
        if found:
            cpu, span = sum(it.cpu for it in found), wall(found)
            print(
                f"\n{name}: {span / 60:.1f} minutes of the clock, {cpu / 60:.1f} of processors, {cpu / span:.1f} at work."
            )
    seconds, chain = longest_chain(checks)
    print(f"\nLongest chain of proofs, {seconds / 60:.1f} minutes: {', '.join(f'`{it}`' for it in chain)}.")
    print("\nSlowest edits, in seconds of a processor:")
    for it in sorted((it for it in checks if it.kind == "edit"), key=lambda it: -it.cpu)[:10]:
        print(f"- `{it.crate}/{it.name}` {it.cpu:.0f}")
    print("\nSlowest modules, in seconds of the clock:")
    for seconds, module in sorted(modules, reverse=True)[:10]:
        print(f"- `{module}` {seconds:.0f}")
    print(
        f"\nThe whole run: {last / 60:.1f} minutes (at most {BUDGET[0]} from nothing, "
        f"{BUDGET[1]} after a change in one module)."
    )
    for line in lines:
        if re.match(r"rt: (ok|FAILED)|\d+ passed, |status ", line):
            print(f"    {line}")


def main(words):
    verb, rest = (words[0] if words else ""), words[1:]
    if verb == "run":
        log = os.path.join(tempfile.gettempdir(), "gate.log")
        if rest[:1] == ["--log"]:
            log, rest = rest[1], rest[2:]
        status = run(log, rest or ["rt", "ci"])
        table(log)
        return status
    if verb == "read" and len(rest) == 1:
        table(rest[0])
        return 0
    if verb == "page" and len(rest) == 1:
        page(rest[0])
        return 0
    if verb == "modules" and len(rest) == 1:
        for seconds, module in module_times(rest[0])[:20]:
            print(f"{seconds:8.1f} {module}")
        return 0
    print(__doc__, end="", file=sys.stderr)
    return 2


if __name__ == "__main__":
    sys.exit(main(sys.argv[1:]))
