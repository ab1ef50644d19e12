#!/usr/bin/env bash
# What a reader of the repository relies on: the handles; a README that fits a screen's width and is short; a page for each
# crate that says what is proved, what is only tested and what no clause says; the documents; and wrong bodies for each crate
# that has code, but where its check is long: in must-fail/ those that every reader of the rules should see refused, which
# the gate tries over a check of the crate, and in wrong-bodies/ all others, which checks/wrong_bodies.py tries.
# And what keeps the gate short: tests in crates of their own.
set -u
cd "$(dirname "$0")/.."
bad=0
# crates of definitions, laws and worked examples alone, which have no body that could be wrong (as those of tests alone, by
# their names), and the program, whose body is one call
no_edits=" rule_modules rule_machine rule_worked rule_histories law_rewards law_soundness law_records law_runs law_statements run_worked stakeplay "
# crates whose check is long and for which no wrong body is among those that every reader should see refused; they may have
# some, and most have none
long_checks=" base_types base_coins base_roles line_json "
must_fail="invents_overflow|rounds_exact_quotient|cuts_slash_fraction|starts_after_removal|skips_slash_at_start|drops_slash_reference"
must_fail="$must_fail|keeps_dead_records|drops_the_dust|burns_from_bonded|hides_a_burn|keeps_refused_reward|writes_before_commit"
must_fail="$must_fail|sorts_all_validators|invents_(read|write|store)_fault|invents_not_found|restarts_from_genesis"
must_fail="$must_fail|commits_all_rows|sum_not_compared|always_answers_true|greatest_height_above"
say() { echo "repository: $*"; bad=1; }
[ "$(cat HANDLES)" = "Handles allowed: none." ] || say "HANDLES is not the one line"
lines="$(wc -l <README.md)"
[ "$lines" -lt 100 ] || say "the README has $lines lines, and is to have fewer than 100"
while IFS= read -r place; do say "README.md:$place has more than 120 columns"; done \
    < <(LC_ALL=C.UTF-8 awk 'length($0) > 120 { print FNR }' README.md)
for crate in $(sed -n 's/^\([a-z0-9_]*\):.*/\1/p' crates.txt); do
    grep -q "^| $crate \|^| $crate,\|, $crate \|, $crate," docs/ARCHITECTURE.md || say "the map of crates does not have $crate"
    for part in "# $crate" "## Proved, and by which contract" "## Only tested" "## Said by no clause"; do
        grep -qx "$part" "crates/$crate/README.md" 2>/dev/null || say "crates/$crate/README.md has no line '$part'"
    done
    edits="$(ls crates/"$crate"/must-fail 2>/dev/null)"
    [[ "$no_edits$long_checks" == *" $crate "* || "$crate" == test_* ]] || [ -n "$edits" ] \
        || ls crates/"$crate"/wrong-bodies/*.edit >/dev/null 2>&1 || say "$crate has no wrong body"
    [ "$(grep -Evc "^(|($must_fail)\.edit)$" <<<"$edits")" = 0 ] \
        || say "$crate has an edit in must-fail/ that is none of those that every reader should see refused: move it to wrong-bodies/"
done
# a crate with tests is proved twice, since they are checked together with all of it
while IFS= read -r file; do say "$file has tests, which stand in a crate of tests alone"; done \
    < <(grep -rl --include='*.rt' '#\[test\]' crates/*/src | grep -v '^crates/test_')
for page in CHANGELOG.md SECURITY.md VERSION; do [ -s "$page" ] || say "$page is missing"; done
for page in COMMANDS THEOREM ARCHITECTURE FORMATS OPERATING RULES PROOFS BRACKET DECISIONS RECIPES READING FROM_A_NODE; do
    [ -s "docs/$page.md" ] || say "docs/$page.md is missing"
    grep -q "docs/$page.md" README.md || say "the README does not lead to docs/$page.md"
done
# every refusal of the code stands in the table of FORMATS, under its number
while read -r name number; do
    grep -q "^| $number | \`$name\`" docs/FORMATS.md || say "docs/FORMATS.md does not have refusal $number, $name"
done < <(sed -n 's/^ *Refusal::\([A-Za-z]*\)\((_)\)\{0,1\} => \([0-9]*\),$/\1 \3/p' crates/base_roles/src/refusal.rt)
# the contract that docs/THEOREM.md shows is the code's
shown="$(sed -n '/^```rust$/,/^```$/{/^```/d;p}' docs/THEOREM.md)"
[[ "$shown" == "pub fn run<"* && "$(<crates/run_app/src/running.rt)" == *"$shown"* ]] \
    || say "docs/THEOREM.md shows another contract of run than crates/run_app/src/running.rt has"
# pages and tables that scripts make are what they would make now
python3 checks/tables.py --check || bad=1
python3 checks/schemas.py --check || bad=1
python3 checks/commands.py --check || bad=1
python3 checks/reading.py --check || bad=1
python3 checks/map.py --check || bad=1
python3 checks/counts.py || bad=1
python3 checks/wrap.py --check || bad=1
python3 docs/drawings/draw.py --check || bad=1
python3 -B checks/wrong_bodies.py --check || bad=1
# each decision has an anchor of its own
while read -r anchor; do say "docs/DECISIONS.md has the anchor $anchor twice"; done \
    < <(grep -o '<a id="[a-z0-9-]*"' docs/DECISIONS.md | sort | uniq -d)
while IFS= read -r line; do say "docs/DECISIONS.md has a decision without an anchor: ${line:0:60}"; done \
    < <(grep '^- ' docs/DECISIONS.md | grep -v '^- <a id=')
[ $bad = 0 ] && echo "repository: all there"
exit $bad
