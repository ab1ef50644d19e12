#!/usr/bin/env bash
# The package of `python/`: it is installed without a network into an empty environment and used from there, by its command
# and by a program that imports it, and is taken away again. Then every recipe is called wrongly in each way
# (`checks/wrong_calls.py`), and, where the program is built, the schemas of lines are held against it
# (`checks/schemas_tried.py`). Needs Python with `venv` and `pip`, and nothing else.
set -u
cd "$(dirname "$0")/.."
. checks/program.bash
top="$PWD"
room="$(mktemp -d)"
trap 'rm -rf "$room"' EXIT
bad=0
say() { echo "package: $*"; bad=1; }

install() {
    "$room/env/bin/python" -m pip install --quiet --disable-pip-version-check --no-index "$@"
}

python3 -m venv "$room/env" || exit 1
install ./python 2>"$room/err" || { say "pip does not install it: $(tail -n 3 "$room/err")"; exit 1; }
recipes="$room/env/bin/stakeplay-recipes"

# its command, called outside the repository
user=0307070707070707070707070707070707070707
(cd "$room" && "$recipes" tax-sheet "$user" "$top/examples/life.out" "$top/examples/life.jsonl") >"$room/sheet"
python3 examples/recipes/tax_sheet.py "$user" examples/life.out examples/life.jsonl | cmp - "$room/sheet" \
    || say "the command does not write what the script does"
"$recipes" --help >"$room/all"
for script in examples/recipes/*.py; do
    name="$(basename "$script" .py)"
    (cd "$room" && "$recipes" "${name//_/-}" --help) >"$room/help" 2>&1 || say "stakeplay-recipes ${name//_/-} --help fails"
    grep -q "^Who wants it:" "$room/help" || say "the help of ${name//_/-} does not say who wants it"
    grep -q "^  ${name//_/-} " "$room/all" || say "stakeplay-recipes does not name ${name//_/-}"
done

# a program that imports it
cat >"$room/uses.py" <<'PYTHON'
import importlib.metadata, pathlib, sys

import stakeplay

top, built = pathlib.Path(sys.argv[1]), sys.argv[2]
assert pathlib.Path(stakeplay.__file__).is_relative_to(sys.prefix), stakeplay.__file__
assert stakeplay.__version__ == (top / "VERSION").read_text().strip() == importlib.metadata.version("stakeplay")
assert all(hasattr(stakeplay, name) for name in stakeplay.__all__)
life, given = top / "examples/life.out", top / "examples/life.jsonl"
with open(life) as file:
    facts = list(stakeplay.read(file))
assert facts == list(stakeplay.read(life)) == list(stakeplay.read(life.read_text().splitlines(keepends=True)))
assert len(facts) == len(life.read_text().splitlines())
paid = [fact for fact in facts if isinstance(fact, stakeplay.Paid) and fact.coins]
assert [coin.amount for fact in paid for coin in fact.coins] == [44, 199, 44]
reward = sum((coin.amount for fact in paid for coin in fact.reward), start=stakeplay.Dec(0))
assert str(reward) == "289.999999999996000000" and reward.decimal * 10 ** 18 == reward.units, reward
assert [fact.refusal.name for fact in facts if isinstance(fact, stakeplay.Refused)] == ["TooManyShares", "Tombstoned"]
for path in (top / "examples").glob("*.end"):
    fault = None
    try:
        sum(1 for _ in stakeplay.read(path.with_suffix(".out")))
    except stakeplay.Fault as found:
        fault = found
    assert (fault is None) == path.read_text().startswith("0"), (path, fault)
if built:
    assert list(stakeplay.replay(open(given))) == facts
    assert list(stakeplay.replay(given.read_bytes().splitlines())) == facts
    lines = given.read_text().splitlines()
    begun = list(stakeplay.replay(lines[:4], store="chain.db"))
    assert isinstance(begun[-1], stakeplay.Pool)
    rest = list(stakeplay.resume("chain.db", lines[4:]))
    assert rest == facts[-len(rest):]
    assert stakeplay.query("chain.db", "pool") == facts[-1:]
    try:
        list(stakeplay.replay(["{}"]))
        raise SystemExit("a line that is none was taken")
    except stakeplay.Ended as end:
        assert end.status == 2 and "bad shape 1" in end.text, end
print(f"package: {len(facts)} facts read{', replayed, resumed and asked for' if built else ''}")
PYTHON
(cd "$room" && STAKEPLAY="$built" "$room/env/bin/python" -I uses.py "$top" "$built") || say "a program that imports it fails"

# taken away, and put there as a place of work
"$room/env/bin/python" -m pip uninstall --quiet --yes stakeplay || say "pip does not take it away"
left="$(find "$room/env" -iname '*stakeplay*')"
[ -z "$left" ] || say "something is left: $left"
install --editable ./python 2>"$room/err" || say "pip does not install it as a place of work: $(tail -n 3 "$room/err")"
place="$(cd "$room" && "$room/env/bin/python" -I -c 'import stakeplay; print(stakeplay.__file__)')"
[ "$place" = "$top/python/src/stakeplay/__init__.py" ] || say "a place of work leads to $place"
git status --porcelain --untracked-files=all python | grep '^??' && say "these files were left there"

python3 checks/wrong_calls.py || bad=1
if [ -n "$built" ]; then
    python3 checks/schemas_tried.py "$built" || bad=1
fi
exit $bad
