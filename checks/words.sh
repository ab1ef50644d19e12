#!/usr/bin/env bash
# Runs the program with each row of words of cases/words.txt and cases/questions.txt, those of a file one after another in a
# new folder, and compares how it ends and what it writes. Needs the program: the interpreter would take minutes for each row.
set -u
cd "$(dirname "$0")/.."
. checks/program.bash
need_program words
python3 - "$built" <<'PYTHON'
import hashlib, pathlib, subprocess, sys, tempfile


def ran(words, given, room):
    done = subprocess.run([sys.argv[1], *words.split()], input=given, capture_output=True, cwd=room)
    return done.stdout, f"{done.returncode} {done.stderr.decode('utf-8', 'replace').strip()}".strip()


def try_row(row, room):
    """Whether the row holds; what differs is said."""
    words, end, digest = (part.strip() for part in row.split("|"))
    written, ended = b"", ""
    for part in words.split(">"):
        written, ended = ran(part, written, room)
    wrote = hashlib.sha256(written).hexdigest() if written else ""
    if (ended, wrote) == (end, digest):
        return True
    print(f"words {words}: ended as {ended!r}, wanted {end!r}; wrote {wrote or 'nothing'}, wanted {digest or 'nothing'}")
    return False


bad = 0
for name in ("words", "questions"):
    rows = [row for row in pathlib.Path(f"cases/{name}.txt").read_text().splitlines() if not row.startswith("#")]
    with tempfile.TemporaryDirectory() as room:
        held = [try_row(row, room) for row in rows]
    print(f"{name}: {len(held)} compared, {held.count(False)} differ")
    bad += held.count(False)
sys.exit(1 if bad else 0)
PYTHON
