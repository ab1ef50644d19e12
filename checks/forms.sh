#!/usr/bin/env bash
# Runs the program on each line of cases/forms.txt, a genesis, ballot or statement as line 1 or a block as line 2, and compares
# how it ends. Needs the program as the gate builds it, or the one that the variable STAKEPLAY names.
set -u
cd "$(dirname "$0")/.."
. checks/program.bash
need_program forms
python3 - "$built" <<'PYTHON'
import json, pathlib, subprocess, sys, tempfile

texts = [it for it in pathlib.Path("cases/forms.txt").read_text().splitlines() if it and not it.startswith("#")]
rows = [json.loads(it) for it in texts]
given = {row[1]: row[2] for row in rows if row[0] == "given"}
start = pathlib.Path("examples/one-send.jsonl").read_text().splitlines()[0]
wanting = []
room = tempfile.TemporaryDirectory()
# The words with which the line is line 1; a ballot wants a store.
WORDS = {
    "genesis": "- replay",
    "ballot": f"{room.name}/store tally",
    "statement": "- check",
    "spelled statement": "- bech32 check",
}
subprocess.run([sys.argv[1], f"{room.name}/store", "replay"], input=start + "\n", capture_output=True, text=True, check=True)


def line_of(kind, *parts):
    """The line that a row speaks of: one of those that are given with its first text of that kind replaced by another, one
    with this message, one that has so many lists within one another as a member or is them, or the whole line."""
    if kind in ("block", "genesis"):
        old, new = parts
        if old not in given[kind]:
            wanting.append(parts)
        return given[kind].replace(old, new, 1)
    if kind == "message":
        name, members = (it.replace("@", given["@"]).replace("#", given["#"]) for it in parts)
        return given["message"].replace("KIND", name).replace("MEMBERS", members)
    lists = "[" * parts[0] + "]" * parts[0] if kind in ("lists", "member") else ""
    return {"lists": lists, "member": given["block"].replace("{", '{"memo":' + lists + ",", 1)}.get(kind) or parts[0]


def ended(kind, line):
    """How the program ends where the line is line 1, or else line 2 of an input."""
    lines = [line] if kind in WORDS else [start, line]
    text = "".join(it + "\n" for it in lines).encode("latin-1")
    done = subprocess.run([sys.argv[1], *WORDS.get(kind, "- replay").split()], input=text, capture_output=True)
    return done.returncode, done.stderr.decode()


tried = [row for row in rows if row[0] != "given"]
bad = 0
for kind, *parts, said in tried:
    wanted = 2, f"stakeplay: line {1 if kind in WORDS else 2}: {said}\n"
    if ended(kind, line_of(kind, *parts)) != wanted:
        bad += 1
        print(f"forms: {json.dumps([kind, *parts, said])} ended with {ended(kind, line_of(kind, *parts))}")
for parts in wanting:
    print(f"forms: {parts[0]} does not stand in the line")
print(f"forms: {len(tried)} compared, {bad + len(wanting)} differ")
sys.exit(1 if bad or wanting else 0)
PYTHON
