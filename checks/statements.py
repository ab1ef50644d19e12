"""What `checks/statements.sh` runs: statements that are checked by the program and by the recipe, which have to agree."""
import contextlib, copy, importlib.util, io, json, pathlib, subprocess, sys, tempfile

PROGRAM = sys.argv[1]
spec = importlib.util.spec_from_file_location("check_statement", "python/src/stakeplay/statements/check_statement.py")
recipe = importlib.util.module_from_spec(spec)
spec.loader.exec_module(recipe)

UNIT = "0.000000000000000001"


def coins(amount):
    return [{"denom": "uatom", "amount": amount}]


# A delegation of 950,000 of 2,000,000 shares, a slash of 100,000 of 1,950,000 tokens, and behind it fees of 1,850; shares were
# about to change once before.
BEHIND_A_SLASH = {
    "kind": "statement", "delegator": "4" * 39 + "a", "validator": "4" * 39 + "b", "height": 9,
    "reward": coins("901.282051282051281150"), "low": coins("901.282051282051282051"),
    "high": coins("901.282051282051282052"), "slack": coins("0.000000000001901903"), "removals": 1,
    "ratio": coins("0.001"),
    "entries": [{"kind": "started", "shares": "950000", "tokens": "2000000", "total": "2000000"}, {"kind": "ended"},
                {"kind": "slashed", "burned": "100000", "tokens": "1950000"},
                {"kind": "allocated", "coins": coins("1850"), "tokens": "1850000"}, {"kind": "ended"}],
}
VALUES = [None, True, 0, 1, -1, 1.5, 2 ** 63, "", "0", "x", "1.5", "00", "1" * 39, [], [7], {}, coins("0"), coins("1") * 2,
          coins("1." + "0" * 19), coins(7), [{"denom": "u", "amount": "1"}], [{**coins("1")[0], "more": 1}]]


def moved(amount, by):
    """A decimal, moved by so many units of 10^-18."""
    units = recipe.units(amount) + by
    return f"{units // recipe.ONE}.{units % recipe.ONE:018}"


def places(value, path=()):
    """The paths of all members and elements within a value."""
    for key in value if isinstance(value, dict) else range(len(value)) if isinstance(value, list) else ():
        yield (*path, key)
        yield from places(value[key], (*path, key))


def changed(statement):
    """The statement with one change each: a member that is missing, or another value in its place; an element that is missing,
    twice, or further ahead; an amount one unit more or less; a further member."""
    for path in list(places(statement)):
        for value in ["gone", "twice", "ahead", "more", "up", "down", *VALUES]:
            whole = copy.deepcopy(statement)
            around = whole
            for key in path[:-1]:
                around = around[key]
            key = path[-1]
            if value == "gone":
                del around[key]
            elif value in ("twice", "ahead"):
                if not isinstance(around, list):
                    continue
                around.insert(0 if value == "ahead" else key, copy.deepcopy(around[key]))
            elif value == "more":
                if not isinstance(around[key], dict):
                    continue
                around[key]["more"] = 1
            elif value in ("up", "down"):
                if key != "amount" or (value == "down" and recipe.units(around[key]) == 0):
                    continue
                around[key] = moved(around[key], 1 if value == "up" else -1)
            else:
                around[key] = value
            yield json.dumps(whole).encode()


def by_recipe(text):
    """How the recipe ends on a text, and what it writes."""
    with tempfile.NamedTemporaryFile() as file:
        file.write(text)
        file.flush()
        written = io.StringIO()
        with contextlib.redirect_stdout(written):
            end = recipe.main([file.name])
    line, what, status = end or (0, "", 0)
    return status, f"stakeplay: line {line}: {what}" if status else "", written.getvalue().encode()


def by_program(text):
    done = subprocess.run([PROGRAM, "-", "check"], input=text, capture_output=True)
    return done.returncode, done.stderr.decode("utf-8", "replace").strip(), done.stdout


def main():
    worked = pathlib.Path("examples/recipes/statements.jsonl").read_bytes()
    good = worked.splitlines(keepends=True)[0]
    seeds = [json.loads(good), BEHIND_A_SLASH]
    texts = [b"", b"\n", worked, worked + worked, good.rstrip(), good + b"{", b"7\n" + good, b"\xff", good * 300,
             json.dumps(BEHIND_A_SLASH).encode() + b"\r\n" + good, good.rstrip().rjust(4194304)]
    texts += [good + line + b"\n" + good for seed in seeds for line in changed(seed)]
    bad = 0
    for text in texts:
        mine, theirs = by_program(text), by_recipe(text)
        if mine != theirs:
            bad += 1
            print(f"statements: {text[-900:]!r}: the program {mine}, the recipe {theirs}")
    print(f"statements: {len(texts)} compared, {bad} differ")
    sys.exit(1 if bad else 0)


main()
