"""What `checks/stores.sh` runs: stores that the program is to refuse, and some that it is to take."""
import contextlib, json, os, pathlib, shutil, sqlite3, subprocess, sys, tempfile

sys.path.insert(0, "python/src")
from stakeplay.stores.first_format import MISSED as MISSES, first_format

PROGRAM = os.path.abspath(sys.argv[1])
FAULT, BAD = (6, "stakeplay: store fault"), (8, "stakeplay: bad store")
EMPTY, FULL = (9, "stakeplay: store is empty"), (9, "stakeplay: store is not empty")
DONE = (0, "")
SCHEMA = "CREATE TABLE kept (name BLOB NOT NULL PRIMARY KEY, body BLOB NOT NULL) STRICT"
LINES = pathlib.Path("examples/history.jsonl").read_bytes().splitlines(keepends=True)[:5]
COMMANDS = (["replay"], ["resume"], ["query", "supply"], ["tally"])
OPTIONS = ("yes", "abstain", "no", "no_with_veto")
ONE = 10 ** 18
bad, count = [], 0


# ---- runs

def ran(store, words, given=b"", **how):
    done = subprocess.run([PROGRAM, str(store), *words], input=given, capture_output=True, **how)
    return (done.returncode, done.stderr.decode("utf-8", "replace").strip()), done.stdout


def ask(got, wanted, what):
    global count
    count += 1
    if got != wanted:
        bad.append(f"{what}: {got}, wanted {wanted}")


def content(store):
    """The bytes of a file, where there is one that may be read."""
    try:
        return store.read_bytes()
    except OSError:
        return None


def try_all(store, wanted, what, **how):
    """Each command ends as is wanted of it (a tally as a question), prints nothing where that is no success, and leaves the
    file as it was."""
    before = content(store)
    for words, end in zip(COMMANDS, (*wanted, wanted[-1])):
        ended, printed = ran(store, words, b"".join(LINES) if words == ["replay"] else b"", **how)
        ask(ended, end, f"{' '.join(words)} on {what}")
        ask(bool(printed), end == DONE, f"whether {' '.join(words)} on {what} prints something")
    ask(content(store) == before, True, f"whether {what} is byte for byte as it was")


# ---- rows

def key(prefix, *parts):
    return bytes.fromhex(prefix + "".join(parts))


def number(value, size):
    return value.to_bytes(size, "big").hex()


FIRST, SECOND, THIRD, SENDER, OTHER, NOBODY = (digit * 40 for digit in "123457")
BONDED, NOT_BONDED, DISTRIBUTION = (number(module, 20) for module in (2, 3, 4))
UATOM = "05" + b"uatom".hex()
HEAD, PARAMS, POOL = key("01"), key("02"), key("41")
ENTRY, MOVED = key("22", SENDER, SECOND), key("23", OTHER, THIRD, FIRST)
SIGNED = key("30", "a" * 40)
PURSE, EVENT = key("40", FIRST), key("53", SECOND, number(4, 8), number(5, 8))
# Where the fields of a value begin, and how many bytes they have.
TOKENS, SHARES, RATE, MAX_RATE, MAX_CHANGE, LEFT_AT = (22, 16), (38, 16), (54, 16), (70, 16), (86, 16), (134, 8)
MAX_VALIDATORS, COUNTED, MISSED, PLACES = (22, 8), (8, 8), (16, 8), (41, 4)
CREATED, INITIAL, BALANCE, FIRST_COIN = (4, 8), (28, 16), (44, 16), (10, 16)


def balance(account):
    return key("10", account, UATOM)


def validator(operator):
    return key("20", operator)


def history(operator, period):
    return key("51", operator, number(period, 8))


def start(operator, delegator):
    return key("52", operator, delegator)


def put(rows, name, field, value):
    at, size = field
    rows[name] = rows[name][:at] + value.to_bytes(size, "big") + rows[name][at + size:]


def add(rows, name, field, more=1):
    at, size = field
    put(rows, name, field, int.from_bytes(rows[name][at:at + size], "big") + more)


def move(rows, source, target):
    """One unit from an account to another, so that the supply stays."""
    add(rows, balance(source), (0, 16), -1)
    add(rows, balance(target), (0, 16))


def referred(rows, name, more):
    """So many references more to a recorded period; with none it goes."""
    add(rows, name, (len(rows[name]) - 16, 16), more)
    if not any(rows[name][-16:]):
        del rows[name]


def current_of_nobody(rows):
    rows[key("50", NOBODY)] = bytes.fromhex(number(1, 8))
    rows[history(NOBODY, 0)] = bytes.fromhex(number(0, 4) + number(1, 16))


def start_that_is_gone(rows):
    del rows[start(FIRST, FIRST)]
    referred(rows, history(FIRST, 1), -1)


def start_of_the_current_period(rows):
    put(rows, start(THIRD, OTHER), (0, 8), 5)
    referred(rows, history(THIRD, 3), -1)
    rows[history(THIRD, 5)] = rows[history(THIRD, 4)]
    put(rows, history(THIRD, 5), (26, 16), 1)


def period_of_none(rows):
    rows[history(FIRST, 2)] = rows[history(FIRST, 1)]
    put(rows, history(FIRST, 2), (4, 16), 0)


def ratio_that_falls(rows):
    rows[history(SECOND, 4)] = rows[history(SECOND, 5)][:26] + rows[history(SECOND, 4)][26:]
    add(rows, history(SECOND, 4), FIRST_COIN)


def event_moved(height, period):
    def change(rows):
        fraction = rows.pop(EVENT)
        rows[key("53", SECOND, number(height, 8), number(period, 8))] = fraction
        if period != 5:
            rows[history(SECOND, period)] = rows[history(SECOND, 5)]
            put(rows, history(SECOND, period), (26, 16), 1)
            referred(rows, history(SECOND, 5), -1)
    return change


def event_twice(rows):
    rows[key("53", SECOND, number(3, 8), number(5, 8))] = rows[EVENT]
    referred(rows, history(SECOND, 5), 1)


def event_of_nobody(rows):
    rows[key("53", NOBODY, number(1, 8), number(0, 8))] = rows[EVENT]
    rows[history(NOBODY, 0)] = bytes.fromhex(number(0, 4) + number(1, 16))


def missed(*places):
    """The signing record lists these places as missed."""
    def change(rows):
        rows[SIGNED] = rows[SIGNED][:MISSES] + b"".join(place.to_bytes(4, "big") for place in (len(places), *places))
    return change


def all_first(rows):
    """All rows in the first format."""
    for name in rows:
        rows[name] = first_format(name, rows[name])


def mixed(change):
    """Rows of the first format, but for one that is changed."""
    def both(rows):
        second = dict(rows)
        all_first(rows)
        change(rows, second)
    return both


def slashed_by_hand(rows):
    """An entry has one unit less, which the account holds less too: sound, whatever made it."""
    add(rows, ENTRY, BALANCE, -1)
    move(rows, NOT_BONDED, SENDER)


# Changes by one unit, or the like, against each point of a sound state, and only against it.
UNSOUND = {
    "1 ranges and supplies": {
        "the supply one more": lambda rows: add(rows, key("11", UATOM), (0, 16)),
        "a balance one less": lambda rows: add(rows, balance(SENDER), (0, 16), -1),
        "a highest rate above 1": lambda rows: add(rows, validator(FIRST), MAX_RATE),
        "a rate above the highest": lambda rows: put(rows, validator(FIRST), RATE, ONE + 1),
        "a change above the highest": lambda rows: put(rows, validator(FIRST), MAX_CHANGE, ONE + 1),
        "a parameter outside its range": lambda rows: put(rows, PARAMS, MAX_VALIDATORS, 1001),
        "a last height of 2^63": lambda rows: put(rows, HEAD, (1, 8), 1 << 63),
    },
    "2 shares": {
        "a delegation of one unit more": lambda rows: add(rows, key("21", FIRST, OTHER), (0, 16)),
        "a validator's shares one unit less": lambda rows: add(rows, validator(SECOND), SHARES, -1),
        "a consensus address twice": lambda rows: put(rows, validator(SECOND), (0, 20), int("a" * 40, 16)),
    },
    "3 what accounts hold": {
        "the bonded account one less": lambda rows: move(rows, BONDED, SENDER),
        "the not-bonded account one more": lambda rows: move(rows, SENDER, NOT_BONDED),
        "the distribution account one more": lambda rows: move(rows, SENDER, DISTRIBUTION),
        "the tokens of a bonded validator one more": lambda rows: add(rows, validator(FIRST), TOKENS),
        "an unbonding entry one less": lambda rows: add(rows, ENTRY, BALANCE, -1),
        "the pool one unit more": lambda rows: add(rows, POOL, FIRST_COIN),
        "what is outstanding one unit less": lambda rows: add(rows, PURSE, FIRST_COIN, -1),
    },
    "4 purses, periods, starts": {
        "a purse of nobody": lambda rows: rows.update({key("40", NOBODY): bytes(12)}),
        "a current period of nobody": current_of_nobody,
        "a delegation without a start": start_that_is_gone,
        "a start above the last height": lambda rows: put(rows, start(FIRST, OTHER), (24, 8), 5),
        "a start of the current period": start_of_the_current_period,
    },
    "5 recorded periods": {
        "a count one more": lambda rows: referred(rows, history(FIRST, 3), 1),
        "a period that is referred to and gone": lambda rows: rows.pop(history(SECOND, 1)),
        "a period that nothing refers to": period_of_none,
        "a ratio that falls": ratio_that_falls,
    },
    "6 slash events": {
        "an event above the last height": event_moved(5, 5),
        "an event of the current period": event_moved(4, 6),
        "a fraction above 1": lambda rows: put(rows, EVENT, (0, 16), ONE + 1),
        "two events of one period": event_twice,
        "an event of nobody": event_of_nobody,
    },
    "7 signing records": {
        "one missed more": lambda rows: add(rows, SIGNED, MISSED),
        "a place more that was missed": missed(0),
        "a place fewer": lambda rows: add(rows, SIGNED, PLACES, -1),
        "more counted than there are heights": lambda rows: put(rows, SIGNED, COUNTED, 5),
        "a bonded validator without a record": lambda rows: rows.pop(SIGNED),
    },
    "8 entries": {
        "an unbonding balance above what it was": lambda rows: put(rows, ENTRY, INITIAL, 179999),
        "an unbonding above the last height": lambda rows: put(rows, ENTRY, CREATED, 5),
        "a redelegation above the last height": lambda rows: put(rows, MOVED, CREATED, 5),
        "a redelegation of more than 10^18": lambda rows: put(rows, MOVED, INITIAL, ONE + 1),
        "no entries in a list": lambda rows: rows.update({MOVED: bytes(4)}),
        "a validator that left above the last height": lambda rows: put(rows, validator(SECOND), LEFT_AT, 5),
    },
}
# Rows that no item is spelled as.
NO_ITEMS = {
    "a row of another kind": lambda rows: rows.update({key("ff"): b""}),
    "a row without a key": lambda rows: rows.update({b"": b""}),
    "a key that is longer": lambda rows: rows.update({POOL + b"\0": rows.pop(POOL)}),
    "a value that is shorter": lambda rows: rows.update({PARAMS: rows[PARAMS][:-1]}),
    "a value that is longer": lambda rows: rows.update({PARAMS: rows[PARAMS] + b"\0"}),
    "a format of 1 over rows of the second": lambda rows: put(rows, HEAD, (0, 1), 1),
    "a format of 2 over rows of the first": mixed(lambda rows, second: put(rows, HEAD, (0, 1), 2)),
    "a signing record of the second format among rows of the first": mixed(lambda rows, second: rows.update({SIGNED: second[SIGNED]})),
    "a format of 3": lambda rows: put(rows, HEAD, (0, 1), 3),
    "a balance of 0": lambda rows: rows.update({balance(NOBODY): bytes(16)}),
    "a truth value of 2": lambda rows: put(rows, validator(FIRST), (21, 1), 2),
    "a status of 3": lambda rows: put(rows, validator(FIRST), (20, 1), 3),
    "a missed place at the end": missed(2),
    "a missed place twice": missed(1, 1),
    "missed places that fall": missed(1, 0),
    "a spare bit that is set, in the first format": mixed(lambda rows, second: put(rows, SIGNED, (45, 1), 4)),
    "a denomination of three signs": lambda rows: rows.update({key("11", "032b2b2b"): bytes(15) + b"\1"}),
    "a pool with a coin of 0": lambda rows: put(rows, POOL, FIRST_COIN, 0),
    "an operator that is a module": lambda rows: rows.update({key("42", BONDED): bytes.fromhex(SENDER)}),
    "no head": lambda rows: rows.pop(HEAD),
    "no parameters": lambda rows: rows.pop(PARAMS),
    "no pool": lambda rows: rows.pop(POOL),
}
SOUND = {"nothing changed": lambda rows: None, "an entry and its account one less": slashed_by_hand}


# ---- stores

@contextlib.contextmanager
def opened(store):
    with contextlib.closing(sqlite3.connect(store, isolation_level=None)) as base:
        yield base
        base.execute("PRAGMA wal_checkpoint(TRUNCATE)")


def copied(good, store):
    """A copy of a store, of its two files."""
    for end in ("", "-wal"):
        if os.path.exists(f"{good}{end}"):
            shutil.copyfile(f"{good}{end}", f"{store}{end}")
    return store


def changed(good, store, change):
    """A copy of a store with changed rows, in one file."""
    with opened(copied(good, store)) as base:
        before = dict(base.execute("SELECT name, body FROM kept"))
        rows = dict(before)
        change(rows)
        base.execute("BEGIN")
        base.executemany("DELETE FROM kept WHERE name = ?", [[name] for name in before if name not in rows])
        base.executemany("INSERT OR REPLACE INTO kept VALUES (?, ?)", rows.items() - before.items())
        base.execute("COMMIT")
    return store


def made(store, *statements):
    with opened(store) as base:
        for statement in statements:
            base.execute(statement)
    return store


def try_rows(room, good):
    groups = [(f"point {point}", BAD, changes) for point, changes in UNSOUND.items()]
    for group, end, changes in [*groups, ("no item", BAD, NO_ITEMS), ("sound", DONE, SOUND)]:
        for name, change in changes.items():
            store = changed(good, room / "changed", change)
            try_all(store, (FULL, end, end), f"{group}, {name}")
            for file in room.glob("changed*"):
                file.unlink()


def try_first_format(room, good):
    """A store of the first format answers as it stands, and a resume brings its rows to the second, with lines or without."""
    wanted, rest = rows_of(good), b"".join(pathlib.Path("examples/history.jsonl").read_bytes().splitlines(keepends=True)[5:])
    for name, given in (("no lines", b""), ("a line that is refused", b"{"), ("the lines behind it", rest)):
        old, new = changed(good, room / "first", all_first), changed(good, room / "second", lambda rows: None)
        before = content(old)
        for words in (["query", "supply"], ["query", "validators"], ["tally"]):
            ask(ran(old, words), ran(new, words), f"{' '.join(words)} on rows of the first format")
        ask(content(old) == before, True, "whether questions leave rows of the first format byte for byte as they were")
        ask(ran(old, ["replay"], b"".join(LINES)), (FULL, b""), "a replay on rows of the first format")
        ask(ran(old, ["resume"], given), ran(new, ["resume"], given), f"a resume on rows of the first format with {name}")
        ask(rows_of(old) == rows_of(new), True, f"whether a resume with {name} leaves the rows of the second format")
        if given != rest:
            ask(rows_of(old) == wanted, True, f"whether a resume with {name} changes nothing else")
        for file in (*room.glob("first*"), *room.glob("second*")):
            file.unlink()


def try_files(room, good):
    whole = changed(good, room / "whole", lambda rows: None).read_bytes()
    files = {
        "a text": b"no database, but words\n" * 200,
        "a short text": b"no database\n",
        "a cut file": whole[:len(whole) // 2 // 4096 * 4096],
        "a file cut within a page": whole[:-1000],
        "a file without its last page": whole[:-4096],
        "a file whose head is gone": bytes(4096) + whole[4096:],
    }
    for name, content in files.items():
        store = room / name.replace(" ", "-")
        store.write_bytes(content)
        try_all(store, (FAULT, FAULT, FAULT), name)
    schemas = {
        "another table": ["CREATE TABLE other (x)"],
        "another table beside": [SCHEMA, "CREATE TABLE other (x)"],
        "a table that is not strict": [SCHEMA.replace(" STRICT", "")],
        "a table with a column more": [SCHEMA.replace("body BLOB NOT NULL", "body BLOB NOT NULL, more BLOB")],
        "another index beside": [SCHEMA, "CREATE INDEX other ON kept (body)"],
    }
    for name, statements in schemas.items():
        try_all(made(room / name.replace(" ", "-"), *statements), (FAULT, FAULT, FAULT), name)
    (room / "folder").mkdir()
    try_all(room / "folder", (FAULT, FAULT, FAULT), "a folder")
    try_all(room / "missing" / "store", (FAULT, FAULT, FAULT), "a file in a folder that is missing")
    try_all(pathlib.Path(":memory:"), (FAULT, FAULT, FAULT), "the name that sqlite has for a database in memory")
    linked = changed(good, room / "linked", lambda rows: None)
    os.link(linked, room / "second-name")
    try_all(linked, (FAULT, FAULT, FAULT), "a file with two names")
    journal = changed(good, room / "journal", lambda rows: None)
    (room / "journal-journal").write_bytes(b"\xd9")
    try_all(journal, (FAULT, FAULT, FAULT), "a file beside which sqlite left a journal")


def try_rights(room, good):
    """As another user, where this one may do everything."""
    user = dict(user=65534, group=65534, extra_groups=[]) if os.geteuid() == 0 else {}
    for mode in (0o000, 0o444, 0o222):
        store = changed(good, room / f"mode-{mode:03o}", lambda rows: None)
        store.chmod(mode)
        try_all(store, (FAULT, FAULT, FAULT), f"a file of mode {mode:03o}", **user)
    (room / "locked").mkdir(mode=0o555)
    try_all(room / "locked" / "store", (FAULT, EMPTY, EMPTY), "a file that is not there, in a folder that may not be written", **user)


def try_new(room):
    """Files that hold no rows yet: they are taken, and only a replay puts rows there. Where there is none only a replay makes one."""
    for name in ("new", "empty"):
        store = room / name
        if name == "empty":
            store.write_bytes(b"")
        for words in COMMANDS[1:]:
            ask(ran(store, words), (EMPTY, b""), f"{words} on a {name} file")
        for words in ([], ["queries"], ["query", "account", "nobody"]):
            ask(ran(store, words), ((1, "stakeplay: usage"), b""), f"{words} on a {name} file")
        if name == "new":
            for words in (["gen", "7", "3"], ["trial", "7", "3"]):
                ask(ran(store, words), ran("-", words), f"{words} on a new file")
            ask(list(room.glob("new*")), [], "which files are there before a replay makes one")
        ended, printed = ran(store, ["replay"], b"".join(LINES))
        ask((ended, bool(printed)), (DONE, True), f"a replay on a {name} file")
    for word in ("-x", "--help", "-store"):
        ask(ran(word, ["replay"], b"".join(LINES), cwd=room), ((1, "stakeplay: usage"), b""), f"a store named {word}")
        ask((room / word).exists(), False, f"whether a file named {word} was made")


def try_held(room):
    """A store that another run holds, or SQLite."""
    store = room / "held"
    first = subprocess.Popen([PROGRAM, str(store), "replay"], stdin=-1, stdout=-1, stderr=-1, bufsize=0)
    first.stdin.write(LINES[0])
    head = first.stdout.read(20)
    for words in COMMANDS:
        ask(ran(store, words, b"".join(LINES)), (FAULT, b""), f"{words} on a store that another run holds")
    first.stdin.write(b"".join(LINES[1:]))
    first.stdin.close()
    rest, said = first.stdout.read(), first.stderr.read()
    wanted = ran("-", ["replay"], b"".join(LINES))
    ask((first.wait(), said, head + rest), (0, b"", wanted[1]), "the run that holds the store")
    with contextlib.closing(sqlite3.connect(store)) as base:
        base.execute("SELECT count(*) FROM kept").fetchall()
        for words in COMMANDS:
            ask(ran(store, words, b"".join(LINES)), (FAULT, b""), f"{words} on a store that SQLite has open")


def rows_of(store):
    """The rows of a store, as SQLite reads them from a copy."""
    with tempfile.TemporaryDirectory() as room, opened(copied(store, f"{room}/copy")) as base:
        return dict(base.execute("SELECT name, body FROM kept"))


def changes(before, after):
    """The keys of the rows in which two stores differ."""
    return sorted(name for name in before.keys() | after.keys() if before.get(name) != after.get(name))


def try_one_send(room):
    """Which rows a block changes, what a failed write leaves, and answers: the worked example of one send."""
    payer, receiver, collector = "1" * 40, "2" * 40, number(1, 20)
    genesis, block = pathlib.Path("examples/one-send.jsonl").read_bytes().splitlines(keepends=True)
    report = [b'{"coins":[{"amount":"1000","denom":"uatom"}],"kind":"supply"}',
              b'{"address":"%s","coins":[{"amount":"1000","denom":"uatom"}],"kind":"account"}' % payer.encode(),
              b'{"coins":[],"kind":"pool"}', b""]
    store = room / "one-send"
    reader, writer = os.pipe()
    os.close(reader)
    done = subprocess.run([PROGRAM, store, "replay"], input=genesis + block, stdout=writer, stderr=-1)
    os.close(writer)
    ask((done.returncode, done.stderr), (5, b"stakeplay: write fault\n"), "a replay whose first write fails")
    first = rows_of(store)
    ran(room / "genesis", ["replay"], genesis)
    ask(first == rows_of(room / "genesis"), True, "whether the first write comes behind the commit of the genesis, and of it alone")
    ask(ran(store, ["resume"]), (DONE, b"\n".join(report)), "a resume without lines behind the genesis")
    ended, printed = ran(store, ["resume"], block)
    whole = pathlib.Path("examples/one-send.out").read_bytes()
    ask((ended, printed), (DONE, whole[whole.index(b"\n") + 1:]), "a resume behind the genesis")
    ask(changes(first, rows_of(store)), sorted([HEAD, balance(payer), balance(receiver), balance(collector)]),
        "the rows that the block changes")
    line = b'{"address":"fee_collector","coins":[{"amount":"10","denom":"uatom"}],"kind":"account"}\n'
    ask(ran(store, ["query", "account", collector]), (DONE, line), "the account of the fee collector")
    ask(ran(store, ["query", "rewards", payer]), ((10, "stakeplay: not found"), b""), "rewards without a delegation")
    again = changed(store, room / "one-more", lambda rows: add(rows, key("11", UATOM), (0, 16)))
    try_all(again, (FULL, BAD, BAD), "a supply of one more")
    try_refused(room, genesis, block, first)


def try_refused(room, genesis, block, first):
    """A block of which the one transaction is refused, and pays no fee, changes the head alone."""
    given = json.loads(block)
    tx = given["txs"][0]
    tx["fee"], send = [], tx["msgs"][0]
    send["coins"] = [{"denom": "uatom", "amount": "600"}]
    tx["msgs"] = [send, send]
    ended, printed = ran(room / "refused", ["replay"], genesis + json.dumps(given).encode())
    refused = b'{"height":1,"kind":"refused","msg":1,"number":1,"tx":0}\n'
    ask((ended, refused in printed), (DONE, True), "a block whose second send is refused")
    ask(changes(first, rows_of(room / "refused")), [HEAD], "the rows that a refused transaction changes")


def try_cut(room):
    """A third line that ends in its middle: what stands before it is printed and kept, and a resume with the whole line prints
    the rest of one run."""
    lines = pathlib.Path("examples/two-blocks.jsonl").read_bytes().splitlines(keepends=True)
    whole, store = pathlib.Path("examples/two-blocks.out").read_bytes(), room / "cut"
    ended, printed = ran(store, ["replay"], b"".join(lines[:2]) + lines[2][:len(lines[2]) // 2])
    ask(ended, (2, "stakeplay: line 3: not JSON"), "a replay whose third line is cut")
    ask(printed, whole[:whole.index(b'{"height":2,')], "what a replay prints whose third line is cut")
    for name, given in (("one-block", lines[:2]), ("two-blocks", lines)):
        ran(room / name, ["replay"], b"".join(given))
    ask(rows_of(store) == rows_of(room / "one-block"), True, "whether a replay keeps what stands before a cut line, and that alone")
    ended, rest = ran(store, ["resume"], lines[2])
    ask((ended, printed + rest), (DONE, whole), "a resume with the line that was cut, behind what was printed before")
    ask(rows_of(store) == rows_of(room / "two-blocks"), True, "whether a resume with the line that was cut keeps what one run keeps")


def raw(decimal):
    """A decimal in units of 10^-18."""
    return int(decimal.replace(".", ""))


def worth(validator, part):
    """What a part of a validator's shares is worth: a quotient of 36 places, rounded half to even to 18."""
    quotient = part * int(validator["tokens"]) * ONE * ONE // raw(validator["shares"])
    whole, rest = divmod(quotient, ONE)
    return whole + (2 * rest > ONE or (2 * rest == ONE and whole % 2))


def line_of_tally(report, ballots):
    """The line of a tally, counted from the lines of a report, validator by validator."""
    cast, totals, bonded = dict(ballots), dict.fromkeys(OPTIONS, 0), 0
    for validator in report:
        if validator["kind"] != "validator" or validator["status"] != "bonded":
            continue
        bonded += int(validator["tokens"])
        left = raw(validator["shares"])
        for line in report:
            if line["kind"] == "delegation" and line["validator"] == validator["operator"] and line["delegator"] in cast:
                left -= raw(line["shares"])
                totals[cast[line["delegator"]]] += worth(validator, raw(line["shares"]))
        if validator["operator"] in cast and raw(validator["shares"]):
            totals[cast[validator["operator"]]] += worth(validator, left)
    line = {name: f"{total // ONE}.{total % ONE:018}" for name, total in totals.items()}
    return json.dumps({**line, "bonded": str(bonded), "kind": "tally"}, sort_keys=True, separators=(",", ":")) + "\n"


def text_of(ballots):
    return "".join(json.dumps({"kind": "ballot", "voter": voter, "option": option}) + "\n" for voter, option in ballots)


def try_tally(room):
    """Ballots over the store of a generated run, and inputs that are not ballots to their end."""
    store = room / "tally"
    ran(store, ["replay"], ran("-", ["gen", "7", "300"])[1])
    report = [json.loads(line) for line in ran(store, ["resume"])[1].splitlines()]
    before, voters = content(store), sorted({line["delegator"] for line in report if line["kind"] == "delegation"})
    for step in range(8):
        ballots = [(voter, OPTIONS[(at * at + step) % 4]) for at, voter in enumerate([*voters, NOBODY, *voters[:step]])
                   if (at + step) % 8 >= step]
        ask(ran(store, ["tally"], text_of(ballots).encode()), (DONE, line_of_tally(report, ballots).encode()),
            f"a tally of {len(ballots)} ballots")
    good = text_of([(voters[0], "yes")]).encode()
    for given, end in ((b"x\n", "line 2: not JSON"), (b"\n", "line 2: not JSON"), (b'{"kind":"block"}', "line 2: bad shape 140"),
                       (good.replace(b'voter', b'sender'), "line 2: bad shape 141"),
                       (good.replace(b'"yes"', b'"veto"'), "line 2: bad shape 142"),
                       (good.replace(b'}', b',"weight":"1"}'), "line 2: bad shape 0")):
        ask(ran(store, ["tally"], good + given), ((2, f"stakeplay: {end}"), b""), f"a tally of {given!r} behind a ballot")
    for more, end in ((0, (DONE, line_of_tally(report, [(voters[0], "yes")]).encode())),
                      (1, ((3, "stakeplay: line 2: limit line"), b""))):
        ask(ran(store, ["tally"], good + good.rstrip().rjust(4194304 + more)), end, f"a ballot of {4194304 + more} bytes")
    ask(content(store) == before, True, "whether tallies leave the store byte for byte as it was")


# ---- histories

PAST = (11, "stakeplay: no past")
QUESTIONS = (["supply"], ["pool"], ["validators"], *([what, address] for what, address in (
    ("account", "4" * 40), ("account", "6" * 40), ("delegations", "4" * 40), ("rewards", "4" * 40), ("unbondings", "4" * 40))))


def visible(rows):
    return {name: body for name, body in rows.items() if name[:1] not in (b"\x60", b"\x61")}


def ask_past(store, answers, heights, what):
    """Each question is answered of each of these heights as it was then, and none of the heights beside them."""
    for height in heights:
        for question, answer in zip(QUESTIONS, answers[height]):
            ask(ran(store, ["past", str(height), "query", *question]), answer, f"{' '.join(question)} of height {height} {what}")
    for height in (heights[0] - 1, heights[-1] + 1):
        if height >= 0:
            ask(ran(store, ["past", str(height), "query", "supply"]), (PAST, b""), f"supply of height {height} {what}")


def try_history(room):
    """Runs that keep what they replace print what others print, leave the same visible rows, and tell what stood at each height."""
    lines = pathlib.Path("examples/history.jsonl").read_bytes().splitlines(keepends=True)
    plain, last, answers = room / "plain", len(lines) - 1, []
    for height, line in enumerate(lines):
        ran(plain, ["resume"] if height else ["replay"], line)
        answers.append([ran(plain, ["query", *question]) for question in QUESTIONS])
    for stop in range(last + 1):
        kept, other = room / "kept", room / "other"
        for words, given in ((["replay"], lines[:stop + 1]), (["resume"], lines[stop + 1:])):
            ask(ran(kept, ["keep", *words], b"".join(given)), ran(other, words, b"".join(given)), f"keep {words[0]}, at {stop}")
        ask(visible(rows_of(kept)) == rows_of(plain), True, f"whether the visible rows are those without a history, at {stop}")
        ask_past(kept, answers, range(last + 1), f"of a run that was stopped at {stop}")
        for words, end in ((["query", "pool"], BAD), (["resume"], BAD), (["tally"], BAD), (["replay"], FULL)):
            ask(ran(kept, words), (end, b""), f"{' '.join(words)} on a history")
        ask(ran(kept, ["keep", "replay"], b"".join(lines)), (FULL, b""), "keep replay on a history")
        for store in ("kept", "other"):
            for file in room.glob(f"{store}*"):
                file.unlink()
    # A history that begins where a run goes on.
    ran(room / "kept", ["replay"], b"".join(lines[:3]))
    ask_past(room / "kept", answers, range(2, 3), "without a history")
    ran(room / "kept", ["keep", "resume"], b"".join(lines[3:]))
    ask_past(room / "kept", answers, range(2, last + 1), "of a run that goes on from 2")
    return room / "kept"


def try_past_send(room):
    """The worked example of one send with a history: what its payer had at each height."""
    store, payer = room / "past-send", "1" * 40
    ask(ran(store, ["keep", "replay"], pathlib.Path("examples/one-send.jsonl").read_bytes()),
        (DONE, pathlib.Path("examples/one-send.out").read_bytes()), "keep replay of one send")
    for height, amount in ((0, 1000), (1, 890)):
        line = b'{"address":"%s","coins":[{"amount":"%d","denom":"uatom"}],"kind":"account"}\n' % (payer.encode(), amount)
        ask(ran(store, ["past", str(height), "query", "account", payer]), (DONE, line), f"what the payer had at {height}")
    ask(ran(store, ["past", "2", "query", "account", payer]), (PAST, b""), "what the payer had at 2")


def try_past_first_format(room):
    """A history that begins on rows of the first format, at height 5: they change their format then, and nothing before is told."""
    new, old = room / "five", room / "first-five"
    ran(new, ["replay"], pathlib.Path("examples/history.jsonl").read_bytes())
    changed(new, old, all_first)
    ask(ran(old, ["keep", "resume"]), ran(new, ["resume"]), "keep resume on rows of the first format")
    rows = rows_of(old)
    ask(visible(rows) == rows_of(new), True, "whether keep resume brings rows of the first format to the second")
    ask({name: body for name, body in rows.items() if name not in visible(rows)}, {key("61"): (5).to_bytes(8, "big")}, "the history that begins then")
    ask(ran(old, ["past", "5", "query", "supply"]), ran(new, ["query", "supply"]), "supply of the height at which a history begins")
    for height in (4, 6):
        ask(ran(old, ["past", str(height), "query", "supply"]), (PAST, b""), f"supply of {height}, where a history begins at 5")


def try_bad_histories(room, good):
    """Histories out of form are refused by each command that knows them, and left byte for byte as they were."""
    kept = [name for name in rows_of(good) if name[:1] == b"\x60"]
    base, last = key("61"), rows_of(good)[HEAD][1:9].hex()
    changes = {"no base": lambda rows: rows.pop(base), "a base of seven bytes": lambda rows: rows.update({base: bytes(7)}),
               "a base of nine bytes": lambda rows: rows.update({base: bytes(9)}),
               "a base above the last height": lambda rows: rows.update({base: b"\xff" * 8}),
               "a base with a longer key": lambda rows: rows.update({key("6100"): bytes(8)}),
               "no head": lambda rows: rows.pop(HEAD), "a head of eight bytes": lambda rows: rows.update({HEAD: rows[HEAD][:8]}),
               "a height at the base": lambda rows: rows.update({b"\x60" + rows[base] + HEAD: b"\0"}),
               "a height above the last": lambda rows: rows.update({key("60", number(int(last, 16) + 1, 8), "01"): b"\0"}),
               "half a height": lambda rows: rows.update({key("6000000000"): b"\0"}),
               "a row of a history that is kept": lambda rows: rows.update({key("60", last, "61"): b"\0"}),
               "a kept value of none and a byte": lambda rows: rows.update({kept[0]: b"\0\0"}),
               "a kept value of another first byte": lambda rows: rows.update({kept[0]: b"\x02"}),
               "no kept value": lambda rows: rows.update({kept[0]: b""})}
    for name, change in changes.items():
        store = changed(good, room / "changed", change)
        before = content(store)
        for words in (["past", "3", "query", "supply"], ["past", "9", "query", "supply"], ["keep", "resume"], ["keep", "replay"]):
            ask(ran(store, words, b"".join(LINES) if "replay" in words else b""), (BAD, b""), f"{' '.join(words)} on {name}")
        ask(content(store) == before, True, f"whether a history with {name} is byte for byte as it was")
        for file in room.glob("changed*"):
            file.unlink()
    # Past rows of no sound state, where those of another height and the present ones are sound.
    supply = next(name for name in kept if name[9:10] == b"\x10" and rows_of(good)[name][:1] == b"\x01")
    height = int.from_bytes(supply[1:9], "big")
    store = changed(good, room / "changed", lambda rows: add(rows, supply, (1, 16)))
    ask(ran(store, ["past", str(height - 1), "query", "supply"]), (BAD, b""), "past rows of no sound state")
    ask(ran(store, ["past", str(height), "query", "supply"])[0], DONE, "past rows behind them")


def main():
    with tempfile.TemporaryDirectory(prefix="stores-") as name:
        room, good = pathlib.Path(name), pathlib.Path(name) / "good"
        room.chmod(0o755)
        global PROGRAM
        PROGRAM = shutil.copy(PROGRAM, room / "stakeplay")
        ask(ran(good, ["replay"], b"".join(LINES))[0], DONE, "the replay that makes the store")
        for part in (try_rows, try_first_format, try_files, try_rights):
            part(room, good)
        try_new(room)
        try_held(room)
        try_one_send(room)
        try_cut(room)
        try_past_send(room)
        try_past_first_format(room)
        try_tally(room)
        try_bad_histories(room, try_history(room))
    for line in bad:
        print(f"stores: {line}")
    print(f"stores: {count} answers compared, {len(bad)} differ")
    sys.exit(1 if bad else 0)


main()
