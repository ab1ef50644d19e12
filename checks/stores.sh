#!/usr/bin/env bash
# Runs the program over stores: each command of `examples/store.md` with what stands there, over a real file; and stores that
# it is to refuse: files that are no database, or one of another schema, cut files, folders, files without rights, files that
# another program holds; and stores of which a row was changed by hand, by one unit against each of the points that make a
# state sound, or to something that is no row. Each ends by its status and its line, and leaves the file byte for byte as it
# was. Stores that were changed and are sound are taken. One of the first format of rows answers as it stands, and a resume
# brings it to the second. The rows are read and changed by Python's sqlite3. Needs the program.
set -u
cd "$(dirname "$0")/.."
. checks/program.bash
need_program stores
export PYTHONDONTWRITEBYTECODE=1
python3 - "$built" <<'PYTHON' || { python3 checks/stores.py "$built"; exit 1; }
import os, pathlib, sys, tempfile

sys.path.insert(0, "checks")
import console

page, shown, bad = pathlib.Path("examples/store.md").resolve(), 0, []
with tempfile.TemporaryDirectory() as room:
    script = pathlib.Path(room) / "stakeplay.sh"
    script.write_text(f'#!/bin/sh\nexec "{sys.argv[1]}" "$@"\n')
    script.chmod(0o755)
    os.symlink(page.parent, f"{room}/examples")
    for command, wanted in console.blocks(page):
        absent = console.absent_tools(command)
        if absent:
            print(f"stores: left out, since {' and '.join(absent)} is absent: {command}")
            continue
        shown += 1
        bad += filter(None, [console.fault_of(command, wanted, cwd=room)])
for fault in bad:
    print(f"stores: {fault}")
print(f"stores: {shown} commands of the page")
sys.exit(1 if bad else 0)
PYTHON
exec python3 checks/stores.py "$built"
