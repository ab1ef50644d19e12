#!/usr/bin/env bash
# Runs the program on each case and compares what it writes and how it ends: the cases of cases/, and the examples, which are
# cases with a page of their own. `checks/cases.sh FOLDER` runs those of one folder. A case is NAME.jsonl (the input),
# NAME.out (what is written) and NAME.end (the status, and the line on standard error, if there is one). Those of
# cases/bech32/ are run with the words `bech32 replay`, all others with `replay`.
# The program of checks/program.bash runs; but where sources changed since the release, and none was built of them, the kit's
# interpreter runs them once for all cases, proving nothing, if there is a kit.
set -u
cd "$(dirname "$0")/.."
folders=("$@")
[ $# -gt 0 ] || folders=(cases cases/bech32 examples)
. checks/program.bash
way=built
if [ "$kind" = older ] || [ "$kind" = none ]; then
    if command -v rt >/dev/null; then
        way=sources
    else
        need_program cases
        echo "cases: run by $(told_program)"
    fi
fi
status=0
for folder in "${folders[@]}"; do
    run="$(mktemp -d)"
    case "$folder" in
        *bech32*) words=(bech32 replay) ;;
        *) words=(replay) ;;
    esac
    if [ "$way" = sources ]; then
        mkdir "$run/cases"
        cp "$folder"/*.jsonl "$run/cases/"
        (cd crates/stakeplay && rt try --cases "$run/cases" -- - "${words[@]}") >"$run/out" 2>"$run/err"
    fi
    python3 - "$folder" "$run" "$way" "$built" "${words[@]}" <<'PYTHON' || status=1
import pathlib, re, subprocess, sys

folder, run, way, program = pathlib.Path(sys.argv[1]), pathlib.Path(sys.argv[2]), sys.argv[3], sys.argv[4]
names = sorted(path.stem for path in folder.glob("*.jsonl"))
written, ended = {}, {}
if way == "built":
    for name in names:
        with open(folder / f"{name}.jsonl", "rb") as lines:
            done = subprocess.run([program, "-", *sys.argv[5:]], stdin=lines, capture_output=True)
        written[name] = done.stdout.decode("utf-8", "replace")
        ended[name] = f"{done.returncode} {done.stderr.decode('utf-8', 'replace').strip()}".strip()
else:
    name = None
    for line in (run / "out").read_text().splitlines(True):
        head = re.fullmatch(r"== (\S+)\.jsonl\n", line)
        if head:
            name = head[1]
            written[name] = ""
        elif name:
            written[name] += line
    said = ""
    for line in (run / "err").read_text().splitlines():
        case = re.match(r"case=(\S+)\.jsonl run=ended status=(\d+)", line)
        if case:
            ended[case[1]] = f"{case[2]} {said}".strip()
            said = ""
        elif line.startswith("stakeplay: "):
            said = line
bad = 0
for name in names:
    wanted, end = (folder / f"{name}.out").read_text(), (folder / f"{name}.end").read_text().strip()
    if written.get(name) == wanted and ended.get(name) == end:
        continue
    bad += 1
    print(f"{folder}/{name}: ended as {ended.get(name)!r}, wanted {end!r}")
    for got, want in zip(written.get(name, "").splitlines() + ["(end)"], wanted.splitlines() + ["(end)"]):
        if got != want:
            print(f"  wrote  {got[:200]}\n  wanted {want[:200]}")
            break
print(f"{folder}: {len(names)} compared, {bad} differ")
sys.exit(1 if bad else 0)
PYTHON
    rm -rf "$run"
done
# the payments of one case, from its input alone
[ $# -gt 0 ] || python3 checks/payments.py || status=1
exit $status
