#!/usr/bin/env bash
# Runs the program where its input or its output fails: a reader that goes after some bytes, as `head -c` does; output that
# is closed, or on a full disk; input that is closed, or a folder. Each run ends by its status, and never by a signal; what
# its reader took is a front of the whole output. Python's children get every signal's default, as those of a shell do.
# Needs the program.
set -u
cd "$(dirname "$0")/.."
. checks/program.bash
need_program pipes
python3 - "$built" <<'PYTHON'
import json, pathlib, subprocess, sys, tempfile

READ, WRITE = (4, "stakeplay: read fault"), (5, "stakeplay: write fault")
bad, count = [], 0


def start(words, given, **how):
    with open(given, "rb") as lines:
        return subprocess.Popen([sys.argv[1], *words], stdin=lines, stderr=-1, **how)


def ask(process, wanted, what):
    global count
    count += 1
    said = process.stderr.read().decode("utf-8", "replace").strip()
    if (process.wait(), said) != wanted:
        bad.append(f"{what}: ended as {process.returncode} {said!r}, wanted {wanted}")


def try_readers(words, given, whole):
    """Readers that go: one that takes all ends the run with 0, one that leaves more than a pipe holds with a write fault."""
    for length in (0, 1, 74, 4095, 4096, 4097, 65536, 100000, len(whole) - 1000000, len(whole)):
        process = start(words, given, stdout=-1)
        got = process.stdout.read(length)
        process.stdout.close()
        ask(process, (0, "") if length == len(whole) else WRITE, f"{words} behind a reader of {length} bytes")
        if got != whole[:length]:
            bad.append(f"{words}: the first {length} bytes are not those of the whole output")


with tempfile.TemporaryDirectory() as room:
    lines, no_lines = pathlib.Path(room) / "lines", "/dev/null"
    with lines.open("wb") as file:
        subprocess.run([sys.argv[1], "-", "gen", "7", "1500"], stdout=file, check=True)
    replay, gen = ["-", "replay"], ["-", "gen", "7", "3000"]
    replayed = start(replay, lines, stdout=-1).communicate()[0]
    paid = json.loads(next(line for line in replayed.splitlines() if b'"kind":"paid"' in line))
    statement = ["-", "statement", paid["delegator"], paid["validator"]]
    try_readers(replay, lines, replayed)
    try_readers(gen, no_lines, start(gen, no_lines, stdout=-1).communicate()[0])
    for words, given in ((replay, lines), (statement, lines), (gen, no_lines), (["-", "trial", "7", "5"], no_lines)):
        with open("/dev/full", "wb") as full:
            ask(start(words, given, stdout=full), WRITE, f"{words} on a full disk")
        ask(start(["-c", 'exec "$@" >&-', "sh", sys.argv[1], *words], given, executable="/bin/sh"), WRITE, f"{words} with output closed")
    for words in (replay, statement):
        ask(start(["-c", 'exec "$@" <&-', "sh", sys.argv[1], *words], lines, executable="/bin/sh"), READ, f"{words} with input closed")
        ask(start(["-c", 'exec "$@" </', "sh", sys.argv[1], *words], lines, executable="/bin/sh"), READ, f"{words} of a folder")
for line in bad:
    print(f"pipes: {line}")
print(f"pipes: {count} runs, {len(bad)} not as they are to end")
sys.exit(1 if bad else 0)
PYTHON
