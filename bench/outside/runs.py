"""What the scripts of this folder share: the program, the rows of a store, and one whole run with the rows that stand
after each of its lines, by which a run that was ended from outside is judged.

The program is the one that `.ci/run` (or `rt run`) built, or the one that the variable STAKEPLAY names."""
import contextlib, json, os, pathlib, select, shutil, sqlite3, subprocess, sys, tempfile, time

TOP = pathlib.Path(__file__).resolve().parents[2]
PROGRAM = os.environ.get("STAKEPLAY", str(TOP / "crates/stakeplay/out/stakeplay"))
HALF_MADE = 65536
# where so much text waits, what waits is committed
MEBIBYTE = 1 << 20
# the word before each command over a store, where what blocks replace is to be kept
KEPT = []
# `every N` before each replay and resume that is ended from outside, where N blocks are to be one commit
EVERY = []


class Wrong(Exception):
    """What a run left is not what it may leave."""


def ask(holds, text):
    if not holds:
        raise Wrong(text)


def add_every(words):
    """The option by which each replay and resume that is ended from outside commits at each Nth block."""
    words.add_argument("--every", type=int)


def take_every(number):
    EVERY[:] = [] if number is None else ["every", str(number)]


def most_ahead():
    """How many lines are one commit."""
    return int(EVERY[1]) if EVERY else 1


def begin_words(first):
    """The words of a run over a store that holds so many lines."""
    return [*KEPT, *EVERY, "resume" if first else "replay"]


@contextlib.contextmanager
def folder():
    """A folder for one store. It stays, and is named, where what it holds is wrong."""
    room = pathlib.Path(tempfile.mkdtemp(prefix="outside-"))
    try:
        yield room
    except Wrong as fault:
        raise Wrong(f"{fault} (in {room})") from None
    shutil.rmtree(room)


def ran(store, words, given=b"", **how):
    """The status of a run (below 0 where a signal ended it), what it printed, and what it said."""
    done = subprocess.run([PROGRAM, str(store), *words], input=given, capture_output=True, **how)
    return done.returncode, done.stdout, done.stderr.decode("utf-8", "replace").strip()


def rows_of(store):
    """The rows of a store by ascending key, as SQLite reads them from a copy of its two files: none where no table was made yet.

    The log is copied first: what is copied from it to the other file meanwhile is then in both."""
    with tempfile.TemporaryDirectory(prefix="rows-") as room:
        copy = pathlib.Path(room) / "copy"
        for end in ("-wal", ""):
            if os.path.exists(f"{store}{end}"):
                shutil.copyfile(f"{store}{end}", f"{copy}{end}")
        if not copy.exists() or is_half_made(copy):
            return []
        with contextlib.closing(sqlite3.connect(copy)) as base:
            if not base.execute("SELECT 1 FROM sqlite_master WHERE name = 'kept'").fetchall():
                return []
            return base.execute("SELECT name, body FROM kept ORDER BY name").fetchall()


def is_half_made(path):
    """Whether a file is what an end within its very first opening leaves: at most a page, without SQLite's mark."""
    begin = path.read_bytes()[: HALF_MADE + 1]
    return len(begin) <= HALF_MADE and not begin.startswith(b"SQLite format 3\0")


def generated(seed, blocks):
    """The lines of a generated input, the genesis first."""
    status, lines, said = ran("-", ["gen", str(seed), str(blocks)])
    if status:
        sys.exit(f"outside: gen ended with {status}, {said}")
    return lines.splitlines(keepends=True)


def texts_of(output):
    """What was printed for the genesis, for each block, and as the report, whose lines have no height."""
    texts = {}
    for line in output.splitlines(keepends=True):
        texts.setdefault(json.loads(line).get("height", "report"), []).append(line)
    return [b"".join(lines) for lines in texts.values()]


def fed(store, lines, texts):
    """Gives a replay over a store each line once it has answered the one before, and gives out the rows in between."""
    process = subprocess.Popen([PROGRAM, str(store), *KEPT, "replay"], stdin=-1, stdout=-1, stderr=-1, bufsize=0)
    rows = []
    for line, text in zip(lines, texts):
        process.stdin.write(line)
        ask(taken(process.stdout, len(text)) == text, "a replay over a store prints other lines than one in memory")
        rows = rows_of(store)
        yield rows
    process.stdin.close()
    report, said = process.stdout.read(), process.stderr.read()
    ask((process.wait(), report, said) == (0, texts[-1], b""), f"a replay over a store ended with {process.returncode}")
    ask(rows_of(store) == rows, "the report changed the rows")


class Whole:
    """One whole replay: its lines, the text of each and of the report, and the rows after each line."""

    def __init__(self, lines):
        self.lines = lines
        status, self.output, said = ran("-", ["replay"], b"".join(lines))
        ask((status, said) == (0, ""), f"a replay in memory ended with {status}, {said}")
        self.texts = texts_of(self.output)
        ask(len(self.texts) == len(lines) + 1, "the output does not have a text for each line, and a report")
        self.rows, self.largest = [], 0
        with folder() as room:
            for rows in fed(room / "store", lines, self.texts):
                self.rows.append(rows)
                files = [path.stat().st_size for path in room.iterdir()]
                self.largest, self.all_files = max([self.largest, *files]), sum(files)
            self.resumes = ran(room / "store", [*KEPT, "resume"])[0] != 1
        self.place = {tuple(rows): place + 1 for place, rows in enumerate(self.rows)}
        ask(len(self.place) == len(self.lines), "two lines leave the same rows")
        if not self.resumes:
            print("this program cannot resume: what is kept is judged, and not gone on with", flush=True)

    def commits(self, first):
        """Behind how many lines a run that begins behind the first of them commits."""
        places, waiting, held = {first, len(self.lines)}, 0, 0
        for place in range(first, len(self.lines)):
            waiting, held = waiting + 1, held + len(self.texts[place])
            if place == 0 or waiting == most_ahead() or held >= MEBIBYTE:
                places.add(place + 1)
                waiting = held = 0
        return places

    def begun(self, printed, first):
        """Of how many lines a byte was printed, by a run that began behind the first of them."""
        begun, length = first, 0
        for text in self.texts[first:-1]:
            begun += length < len(printed)
            length += len(text)
        return begun

    def judge(self, printed, rows, first=0, is_all=True):
        """Of how many lines the rows are, after a run that began behind the first of them. What it printed, all of it or
        what a reader took of it, has to agree."""
        kept = self.place.get(tuple(rows)) if rows else 0
        ask(kept is not None, "the rows are those of no front of the lines")
        ask(kept >= first, f"the rows are those of {kept} lines, and of {first} before")
        ask(kept in self.commits(first), f"the rows are those of {kept} lines, where none are committed")
        whole = b"".join(self.texts[first:])
        ask(whole.startswith(printed), "what was printed is no front of the whole output")
        begun = self.begun(printed, first)
        ask(begun <= kept, f"the texts of {begun} lines were printed or begun, and the rows are those of {kept}")
        ahead = kept - begun
        ask(not is_all or ahead <= most_ahead(), f"{ahead} lines are kept of which nothing was printed")
        return kept

    def go_on(self, store, kept):
        """Resumes behind the lines whose rows stand, or replays all where there are none: the end has to be that of the whole run."""
        if kept and not self.resumes:
            ask(ran(store, ["replay"], self.lines[0])[0] == 9, "a replay does not find the rows that are kept")
            return
        status, printed, said = ran(store, begin_words(kept), b"".join(self.lines[kept:]))
        ask((status, said) == (0, ""), f"behind {kept} lines it ended with {status}, {said}")
        ask(printed == b"".join(self.texts[kept:]), f"behind {kept} lines it printed something else than the rest")
        ask(rows_of(store) == self.rows[-1], f"behind {kept} lines it left other rows than the whole run")


def taken(pipe, length, seconds=60):
    """So many bytes of a pipe, or fewer where it ends or nothing comes for a minute."""
    got = b""
    while len(got) < length and select.select([pipe], [], [], seconds)[0]:
        piece = os.read(pipe.fileno(), length - len(got))
        if not piece:
            break
        got += piece
    return got


def tell(seen, what="printed"):
    """Prints how often each end was seen, and that each run left what it may leave."""
    for name, count in sorted(seen.items()):
        print(f"{count:6} {name}")
    print(f"each left a front of the run that holds all that was {what}, and came to the end of the whole run")


def carry_out(name, main):
    """Runs a script, and ends it by a line where something was wrong."""
    try:
        main()
    except Wrong as fault:
        sys.exit(f"{name}: {fault}")
