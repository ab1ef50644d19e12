#!/usr/bin/env python3
"""Draws the five pictures of the pages, as SVG, from what stands here.

  python3 docs/drawings/draw.py           writes docs/drawings/*.svg
  python3 docs/drawings/draw.py --check   compares them with what it would write, and ends with 1 at a difference

`layers` takes the names of crates from crates.txt, and looks whether each dependency follows an arrow. The other four
are told by the lists below.
"""
import pathlib
import sys

HERE = pathlib.Path(__file__).resolve().parent
sys.path.insert(0, str(HERE.parent.parent / "checks"))
sys.dont_write_bytecode = True
import map as nearest  # noqa: E402

INK, SOFT, LINE = "#1b1f24", "#57606a", "#8c959f"
BLUE, GREEN, AMBER, RED, VIOLET, GREY = "#dbeafe", "#dcfce7", "#fef3c7", "#fee2e2", "#ede9fe", "#f1f3f5"
STRONG = {BLUE: "#2563eb", GREEN: "#15803d", AMBER: "#b45309", RED: "#b91c1c", VIOLET: "#6d28d9", GREY: "#57606a"}
SANS = "DejaVu Sans, Verdana, Helvetica, Arial, sans-serif"
MONO = "DejaVu Sans Mono, Menlo, Consolas, monospace"


class Picture:
    """An SVG of fixed size, on white, that grows by the calls below."""

    def __init__(self, width, height, title):
        self.width, self.height, self.title = width, height, title
        self.parts, self.heads = [], set()

    def add(self, text):
        self.parts.append(text)

    def box(self, x, y, w, h, fill=GREY, stroke=None, dash=False, round_=6):
        dashes = ' stroke-dasharray="5 4"' if dash else ""
        self.add(f'<rect x="{x}" y="{y}" width="{w}" height="{h}" rx="{round_}" fill="{fill}" '
                 f'stroke="{stroke or STRONG.get(fill, LINE)}"{dashes}/>')

    def text(self, x, y, text, size=13, colour=INK, anchor="start", bold=False, mono=False, italic=False):
        more = (' font-weight="bold"' if bold else "") + (' font-style="italic"' if italic else "")
        text = text.replace("&", "&amp;").replace("<", "&lt;").replace(">", "&gt;")
        self.add(f'<text x="{x}" y="{y}" font-family="{MONO if mono else SANS}" font-size="{size}" fill="{colour}" '
                 f'text-anchor="{anchor}"{more}>{text}</text>')

    def lines(self, x, y, texts, step=18, **more):
        for place, text in enumerate(texts):
            self.text(x, y + place * step, text, **more)

    def note(self, x, y, texts):
        self.lines(x, y, texts, step=17, size=12, colour=SOFT)

    def line(self, points, colour=LINE, width=1.5, dash=False, arrow=False):
        path = " ".join(f"{x},{y}" for x, y in points)
        dashes = ' stroke-dasharray="5 4"' if dash else ""
        head = f' marker-end="url(#head{colour[1:]})"' if arrow else ""
        if arrow:
            self.heads.add(colour)
        self.add(f'<polyline points="{path}" fill="none" stroke="{colour}" stroke-width="{width}"{dashes}{head}/>')

    def svg(self):
        heads = "".join(
            f'<marker id="head{c[1:]}" viewBox="0 0 10 10" refX="9" refY="5" markerWidth="7" markerHeight="7" '
            f'orient="auto"><path d="M 0 0 L 10 5 L 0 10 z" fill="{c}"/></marker>'
            for c in sorted(self.heads))
        body = "\n".join(self.parts)
        return (f'<svg xmlns="http://www.w3.org/2000/svg" width="{self.width}" height="{self.height}" '
                f'viewBox="0 0 {self.width} {self.height}" role="img">\n<title>{self.title}</title>\n'
                f'<defs>{heads}</defs>\n<rect width="{self.width}" height="{self.height}" fill="#ffffff"/>\n'
                f'{body}\n</svg>\n')


# ---- the crates in layers

# a box: its key, what stands in its head, its colour, the crates by name or by prefix, its place, columns of names
BOXES = [
    ("stakeplay", "main", GREY, ["stakeplay"], (40, 20, 760), 1),
    ("run", "run_: the commands", BLUE, ["run_app", "run_trial", "run_generated", "run_words"], (40, 112, 760), 4),
    ("line", "line_: lines; their law", VIOLET, ["line_", "law_lines"], (40, 226, 170), 1),
    ("store", "store_: a chain in a store", AMBER, ["store_commits", "store_resuming", "store_loading"],
     (590, 226, 210), 1),
    ("chain", "chain_: modules as a chain", GREEN,
     ["chain_whole", "chain_blocks", "chain_transactions", "chain_modules"], (260, 310, 290), 2),
    ("records", "law_: records, statements", RED, ["law_records", "law_statements"], (590, 354, 210), 1),
    ("mod", "mod_: the modules", GREEN, ["mod_"], (260, 470, 290), 2),
    ("rows", "store_: rows and records", AMBER,
     ["store_items", "store_rows", "store_history", "store_sqlite", "store_records", "store_soundness"], (590, 470, 210), 1),
    ("law", "law_: of the machine", RED, ["law_runs", "law_rewards", "law_soundness"], (40, 470, 170), 1),
    ("rule", "rule_: what is right, as definitions", RED, ["rule_machine", "rule_modules"], (40, 694, 760), 2),
    ("base", "base_: values, tables, and the roles between modules", GREY,
     ["base_roles", "base_messages", "base_records", "base_table", "base_io", "base_lists", "base_bech32", "base_coins",
      "base_shares", "base_types", "base_decimals"], (40, 796, 760), 5),
]
ASIDE = [
    ("tests", "test_: tests alone", BLUE, ["test_"], (840, 112, 200), 1),
    ("worked", "worked rows, examples", GREY, ["run_worked", "rule_histories", "rule_worked", "base_roles_example"],
     (840, 470, 200), 1),
]
# what stands on what: the arrows of the picture, along which each dependency goes
ARROWS = [("stakeplay", "run"), ("run", "line"), ("run", "chain"), ("run", "store"), ("store", "chain"),
          ("store", "rows"), ("chain", "records"), ("chain", "mod"), ("records", "mod"), ("records", "rows"),
          ("mod", "law"), ("mod", "rule"), ("law", "rule"), ("line", "law"), ("line", "rule"), ("line", "mod"),
          ("rows", "rule"), ("rule", "base")]
ROW = 20


def crates_of(graph, names):
    told = []
    for name in names:
        told += [crate for crate in graph if crate.startswith(name)] if name.endswith("_") else [name]
    return told


def box_height(count, columns):
    return 34 + ROW * (-(-count // columns))


def layers():
    graph = nearest.crates()
    picture = Picture(1060, 960, "The crates in layers: each stands on crates below it alone")
    places, home = {}, {}
    for key, head, fill, names, (x, y, w), columns in BOXES + ASIDE:
        crates = crates_of(graph, names)
        for crate in crates:
            if crate not in graph or crate in home:
                sys.exit(f"draw: {crate} is no crate, or stands in two boxes")
            home[crate] = key
        h = box_height(len(crates), columns)
        places[key] = (x, y, w, h)
        picture.box(x, y, w, h, fill, dash=key in ("tests", "worked"))
        picture.text(x + 12, y + 21, head, bold=True, size=13)
        deep = -(-len(crates) // columns)
        for place, crate in enumerate(crates):
            column, row = divmod(place, deep)
            picture.text(x + 12 + column * ((w - 12) // columns), y + 42 + row * ROW, crate, size=12, mono=True)
    if sorted(home) != sorted(graph):
        sys.exit(f"draw: no box has {', '.join(sorted(set(graph) - set(home)))}")

    for key, (x, y, w, h) in places.items():
        for other, (left, up, wide, high) in places.items():
            if key < other and x < left + wide and left < x + w and y < up + high and up < y + h:
                sys.exit(f"draw: the boxes {key} and {other} overlap")

    below = {key: {key} for key, *_ in BOXES + ASIDE}
    for _ in BOXES:
        for above, under in ARROWS:
            below[above] |= below[under]
    for crate, deps in graph.items():
        for dep in deps:
            if home[crate] in below and home[dep] not in below[home[crate]] and home[crate] not in ("tests", "worked"):
                sys.exit(f"draw: {crate} stands on {dep}, and no arrow says so")

    for above, under in ARROWS:
        if not any(home[crate] == above and home[dep] == under for crate, deps in graph.items() for dep in deps):
            sys.exit(f"draw: nothing in {above} stands on {under}")

    def arrow(points):
        picture.line(points, SOFT, arrow=True)

    def bottom(key):
        x, y, w, h = places[key]
        return y + h

    def top(key):
        return places[key][1]

    arrow([(420, bottom("stakeplay")), (420, top("run"))])
    arrow([(130, bottom("run")), (130, top("line"))])
    arrow([(405, bottom("run")), (405, top("chain"))])
    arrow([(695, bottom("run")), (695, top("store"))])
    arrow([(620, bottom("store")), (620, 337), (550, 337)])
    arrow([(800, 262), (818, 262), (818, 520), (801, 520)])
    arrow([(550, 371), (590, 371)])
    arrow([(405, bottom("chain")), (405, top("mod"))])
    arrow([(620, bottom("records")), (620, 440), (530, 440), (530, top("mod"))])
    arrow([(720, bottom("records")), (720, top("rows"))])
    arrow([(260, 520), (210, 520)])
    arrow([(125, bottom("line")), (125, top("law"))])
    arrow([(405, bottom("mod")), (405, top("rule"))])
    arrow([(150, bottom("law")), (150, top("rule"))])
    arrow([(40, 262), (22, 262), (22, 716), (39, 716)])
    arrow([(210, 262), (236, 262), (236, 446), (300, 446), (300, top("mod"))])
    arrow([(695, bottom("rows")), (695, top("rule"))])
    arrow([(420, bottom("rule")), (420, top("base"))])

    picture.text(236, 513, "lemmas", size=10, colour=SOFT, anchor="middle")
    picture.note(40, 916, [
        "An arrow: some crate of the upper box stands on one of the lower box. Each dependency goes along arrows, "
        "downwards or within a box.",
        "Red boxes and law_lines have no code that runs. Dashed boxes are no part of the program: nothing of it stands on them."])
    return picture


# ---- a block

CHECKS = ["its height is the next,", "its time is not earlier,", "each vote names a", "validator, once,",
          "evidence is of earlier", "heights, and powers fit"]
BEGIN = [("allocate", "the fees of the last block", "mod_distribution"),
         ("votes", "one by one; downtime", "mod_signing, mod_slashing"),
         ("evidence", "one by one; double signing", "mod_evidence, mod_slashing")]
END = [("the bonded set", "made anew", "mod_bonded_set"), ("mature validators", "become unbonded", "mod_bonded_set"),
       ("mature unbondings", "are paid", "mod_unbonding"), ("mature redelegations", "go", "mod_redelegation")]


def block():
    picture = Picture(1060, 590, "The way of a block through the modules, with its marks")
    picture.text(30, 34, "A block: applied whole, or not at all", size=16, bold=True)
    picture.text(30, 54, "chain_blocks and chain_transactions call the modules in this order", size=12, colour=SOFT)

    picture.box(30, 150, 165, 200, AMBER)
    picture.text(42, 173, "May it follow?", bold=True)
    picture.lines(42, 196, CHECKS, size=12)
    picture.text(42, 318, "the first that fails", size=12)
    picture.text(42, 334, "is the block's fault", size=12)
    picture.line([(195, 250), (225, 250)], SOFT, arrow=True)
    picture.line([(112, 350), (112, 470)], STRONG[RED], arrow=True)
    picture.text(120, 400, "no", size=12, colour=STRONG[RED])

    # the mark of the block
    picture.box(226, 76, 808, 376, "#fbfcfd", stroke=STRONG[VIOLET], dash=True, round_=10)
    picture.text(240, 98, "under the mark of the block", size=12, colour=STRONG[VIOLET], italic=True)

    picture.box(240, 112, 222, 300, GREEN)
    picture.text(252, 135, "1  Beginning", bold=True)
    for place, (what, how, who) in enumerate(BEGIN):
        y = 164 + place * 84
        picture.text(252, y, what, bold=True, size=12)
        picture.text(252, y + 18, how, size=12)
        picture.text(252, y + 36, who, size=10, mono=True, colour=SOFT)
    picture.line([(462, 262), (480, 262)], SOFT, arrow=True)

    picture.box(482, 112, 318, 326, BLUE)
    picture.text(494, 135, "2  Each transaction", bold=True)
    picture.box(496, 148, 290, 44, "#ffffff", stroke=STRONG[BLUE])
    picture.text(508, 167, "the fee", bold=True, size=12)
    picture.text(508, 184, "from the payer to the fee collector", size=12)
    picture.line([(520, 192), (520, 222)], SOFT, arrow=True)
    picture.text(532, 212, "paid", size=11, colour=STRONG[GREEN])
    picture.text(604, 212, "not covered: nothing changes", size=11, colour=STRONG[RED])
    picture.box(496, 224, 290, 202, "#ffffff", stroke=STRONG[VIOLET], dash=True)
    picture.text(508, 243, "under the mark of the transaction", size=11, colour=STRONG[VIOLET], italic=True)
    picture.text(508, 266, "messages, one after another,", bold=True, size=12)
    picture.text(508, 284, "up to the first that is refused", size=12)
    picture.text(508, 302, "mod_bank, mod_staking, mod_distribution ..", size=10, mono=True, colour=SOFT)
    picture.line([(560, 312), (560, 338)], SOFT, arrow=True)
    picture.line([(714, 312), (714, 338)], SOFT, arrow=True)
    picture.box(506, 340, 128, 76, GREEN)
    picture.lines(516, 358, ["all carried out", "forget the mark", "all facts are told"], size=11, step=20)
    picture.box(646, 340, 132, 76, RED)
    picture.lines(655, 358, ["one is refused", "back to the mark", "the fee stays paid"], size=11, step=20)
    picture.line([(800, 262), (822, 262)], SOFT, arrow=True)

    picture.box(824, 112, 196, 300, GREEN)
    picture.text(836, 135, "3  End", bold=True)
    for place, (what, how, who) in enumerate(END):
        y = 160 + place * 64
        picture.text(836, y, what, bold=True, size=12)
        picture.text(836, y + 17, how, size=12)
        picture.text(836, y + 33, who, size=10, mono=True, colour=SOFT)

    picture.line([(350, 452), (350, 470)], STRONG[RED], arrow=True)
    picture.line([(880, 452), (880, 470)], STRONG[GREEN], arrow=True)
    picture.box(30, 472, 190, 96, RED)
    picture.text(42, 494, "A fault", size=12, bold=True)
    picture.lines(42, 512, ["nothing was changed, and", "nothing is written; the run", "ends, and names the line"],
                  size=12)
    picture.box(244, 472, 384, 96, RED)
    picture.text(256, 494, "A limit, or memory was wanting", size=12, bold=True)
    picture.lines(256, 512, ["back to the mark of the block: all stands as before,",
                             "with the height and time of the last block.",
                             "From a sound state only part 1 can meet a limit."], size=12)
    picture.box(720, 472, 300, 96, GREEN)
    picture.text(732, 494, "Done", size=12, bold=True)
    picture.lines(732, 512, ["forget the mark; the report has the facts", "of the beginning, of each transaction and",
                             "of the end; then the changes are committed"], size=12)
    return picture


# ---- periods

# what is given to the delegators in each period, the tokens meanwhile, and who ends it
PERIODS = [(12, 600, "B delegates 400"), (30, 1000, "A withdraws 30"), (20, 1000, "B withdraws 20")]
# what refers to which period, and which ratios are kept until when
STAKES = [("A", 600, [(0, 2), (2, None)]), ("B", 400, [(1, 3), (3, None)])]
KEPT = [(0, 2, "ratio of period 0"), (1, 3, "ratio of period 1"), (2, None, "ratio of period 2"), (3, None, "period 3")]


def period():
    picture = Picture(1060, 620, "Periods of a validator, their ratio, and a start with a withdrawal")
    picture.text(30, 34, "Periods, the ratio, and a withdrawal", size=16, bold=True)
    picture.note(30, 54, ["One validator without commission. A has delegated 600 tokens as it was created, "
                          "B delegates 400 later."])
    left, width, floor, scale = 150, 250, 360, 3200
    ratios, at = [0.0], 0.0
    for given, tokens, _ in PERIODS:
        at += given / tokens
        ratios.append(at)
    xs = [left + place * width for place in range(len(PERIODS) + 1)]
    picture.line([(left, floor + 8), (left, 90)], INK, arrow=True)
    picture.line([(left - 8, floor), (left + 3 * width + 110, floor)], INK, arrow=True)
    picture.text(left + 3 * width + 112, floor + 20, "blocks", size=12, anchor="end")
    picture.text(left + 10, 96, "ratio: what one token was given, all periods together", size=12)

    # B's reward is the growth between its start and the withdrawal
    low, high = floor - ratios[1] * scale, floor - ratios[3] * scale
    picture.add(f'<rect x="{xs[1]}" y="{high:.1f}" width="{2 * width}" height="{low - high:.1f}" fill="{BLUE}" '
                f'opacity="0.55"/>')
    for place, (given, tokens, who) in enumerate(PERIODS):
        y, y2 = floor - ratios[place] * scale, floor - ratios[place + 1] * scale
        picture.line([(xs[place], y), (xs[place + 1], y), (xs[place + 1], y2)], STRONG[BLUE], 2.5)
        mid = (xs[place] + xs[place + 1]) / 2
        told = f"period {place + 1}: {given} for {tokens:,} tokens"
        picture.text(mid, y + 19 if place else y - 10, told, size=12, anchor="middle")
        picture.line([(xs[place + 1], y2), (xs[place + 1], floor + 26)], LINE, 1, dash=True)
        picture.text(xs[place + 1], floor + 42, f"period {place + 1} ends", size=12, anchor="middle", bold=True)
        picture.text(xs[place + 1], floor + 59, who, size=12, anchor="middle")
        picture.text(left - 12, y2 + 4, f"{ratios[place + 1]:.2f}", size=12, anchor="end", mono=True)
        picture.line([(left - 6, y2), (xs[place + 1], y2)], LINE, 0.7, dash=True)
    picture.line([(xs[3], floor - ratios[3] * scale), (xs[3] + 90, floor - ratios[3] * scale)], STRONG[BLUE], 2.5)
    picture.text(left - 12, floor + 4, "0.00", size=12, anchor="end", mono=True)
    picture.text(left, floor + 42, "period 0 ended", size=12, anchor="middle", bold=True)
    picture.text(left, floor + 59, "validator made", size=12, anchor="middle")
    picture.text(xs[1] + 12, high + 22, "B is paid 400 × (0.07 − 0.02) = 20", size=13, bold=True,
                 colour=STRONG[BLUE])

    # what refers to a period
    top = floor + 92
    picture.text(30, top + 4, "Starts", size=13, bold=True)
    for row, (who, stake, spans) in enumerate(STAKES):
        y = top + row * 30
        for begin, end in spans:
            x, x2 = xs[begin], xs[end] if end else xs[3] + 90
            picture.box(x + 2, y - 13, x2 - x - 4, 22, AMBER, round_=3)
            wide = x2 - x > 120
            told = f"{who}: stake {stake}, from period {begin}" if wide else f"{who}: from {begin}"
            picture.text(x + 9, y + 3, told, size=11)
    y = top + 62
    picture.text(30, y + 4, "Kept", size=13, bold=True)
    for begin, end, text in KEPT:
        x, x2 = xs[begin], xs[end] if end else xs[3] + 90
        row = begin % 2
        picture.box(x + 2, y - 13 + row * 28, x2 - x - 4, 22, GREEN if end else BLUE, round_=3)
        more = " until nothing refers to it" if end and x2 - x > 300 else ""
        picture.text(x + 9, y + 3 + row * 28, text + more, size=11)
    picture.note(30, 590, [
        "A start refers to the period that had just ended. A withdrawal ends the period, pays the stake times the "
        "growth of the ratio, and starts anew.",
        "A ratio is deleted once no start and no slash refers to it, and it is not that of the last period."])
    return picture


# ---- the bracket

def bracket():
    picture = Picture(1060, 560, "A payment between its bounds: ideal, full reward, outstanding, slack and overclaim")
    picture.text(30, 34, "A payment between its bounds", size=16, bold=True)
    picture.note(30, 54, ["Amounts of one denomination, to the right; the distances are drawn far too large."])
    zero, ideal, least, full = 60, 930, 700, 880

    def bar(y, fill, x2, text, colour=None):
        picture.box(zero, y, x2 - zero, 26, fill, round_=2)
        picture.text(zero + 10, y + 18, text, size=12, colour=colour or INK)

    def post(x, y, y2, text, anchor="middle", colour=INK, dash=True):
        picture.line([(x, y), (x, y2)], colour, 1.2, dash=dash)
        picture.text(x, y - 6, text, size=12, anchor=anchor, colour=colour)

    def span(x, x2, y, text, colour, below=False):
        picture.line([(x, y), (x2, y)], colour, 2)
        picture.line([(x, y - 5), (x, y + 5)], colour, 2)
        picture.line([(x2, y - 5), (x2, y + 5)], colour, 2)
        picture.text((x + x2) / 2, y + (17 if below else -8), text, size=12, anchor="middle", colour=colour)

    # what is promised of the full reward
    post(ideal, 96, 500, "ideal reward", colour=STRONG[RED])
    post(least, 96, 288, "ideal less slack", colour=STRONG[RED])
    bar(112, RED, ideal, "ideal: fees shared by stake, block by block, in exact fractions")
    span(least, ideal, 156, "slack: what rounding may take", STRONG[RED], below=True)
    bar(190, BLUE, full, "full reward: stake × growth of the ratio, rounded; it ends within the slack")

    # the usual case
    picture.text(70, 250, "Where the record of what is outstanding has enough", size=13, bold=True)
    bar(262, GREEN, 850, "paid: the whole coins of the full reward")
    picture.box(850, 262, full - 850, 26, GREY, round_=2)
    picture.line([(865, 290), (865, 306), (850, 306)], SOFT)
    picture.text(844, 310, "the fraction, to the pool", size=12, colour=SOFT, anchor="end")

    # the exhausted case
    out = 800
    picture.text(70, 350, "Where it is exhausted", size=13, bold=True)
    bar(362, AMBER, out, "outstanding for the validator: all that is left in its record")
    picture.line([(full, 216), (full, 412)], STRONG[BLUE], 1.2, dash=True)
    span(out, full, 404, "", STRONG[AMBER])
    picture.text(out - 10, 409, "cut: at most the overclaim", size=12, colour=STRONG[AMBER], anchor="end")
    bar(440, GREEN, 770, "paid: the whole coins of what is outstanding")
    picture.box(770, 440, out - 770, 26, GREY, round_=2)
    picture.line([(zero, 84), (zero, 500)], INK, 1.2)
    picture.text(zero, 516, "0", size=12, anchor="middle")
    picture.note(30, 538, [
        "No payment is above the ideal reward. The slack grows with the periods crossed; the overclaim with how often "
        "shares left the validator",
        "(one unit of 10^-18 times the last ratio for each). docs/BRACKET.md has both in words."])
    return picture


# ---- commit, write and stop

# what runs between two places, what the store then has, and of what text was written
RUNS = [("read", "commit", GREY, "read and apply line 3"), ("commit", "gap", AMBER, "commit line 3"),
        ("write", "read4", BLUE, "write its text"), ("read4", "commit4", GREY, "read, apply line 4"),
        ("commit4", "end", AMBER, "commit 4")]
HAS = [(150, 435, "the rows after line 2"), (435, 955, "the rows after line 3"), (955, 1010, "4")]
WRITTEN = [(150, 560, BLUE, "lines 1 and 2"), (560, 720, "#eff6ff", "a part of line 3"),
           (720, 1010, BLUE, "lines 1 to 3")]
# a stop: when it comes, what the store then has, of which lines text was written, and by how much the store is ahead
STOPS = [("a", "while line 3 is read and applied", "2 lines", "2 lines", "nothing"),
         ("b", "within the commit of line 3", "2 or 3 lines", "2 lines", "at most one line"),
         ("c", "between commit and write", "3 lines", "2 lines", "one line"),
         ("d", "within the write of line 3", "3 lines", "2 lines and a part", "the rest of one line"),
         ("e", "while line 4 is read and applied", "3 lines", "3 lines", "nothing")]


def stop():
    picture = Picture(1060, 484, "Commit, write and stop on a line of time")
    picture.text(30, 34, "Commit, write, stop: the store is at most one line ahead", size=16, bold=True)
    picture.note(30, 54, ["Each line of the input: it is read and applied, its rows are committed, and then its text "
                          "is written."])
    xs = {"read": 150, "commit": 370, "gap": 500, "write": 560, "read4": 720, "commit4": 900, "end": 1010}
    marks = [260, 435, 530, 640, 810]
    for x, (name, *_rest) in zip(marks, STOPS):
        picture.line([(x, 84), (x, 276)], STRONG[RED], 1.4, dash=True)
        picture.add(f'<circle cx="{x}" cy="84" r="10" fill="{STRONG[RED]}"/>')
        picture.text(x, 88, name, size=12, colour="#ffffff", anchor="middle", bold=True)
    picture.line([(140, 166), (1030, 166)], INK, arrow=True)
    picture.text(1030, 186, "time", size=12, anchor="end")
    picture.text(30, 130, "what runs", size=12, bold=True)
    for x, x2, fill, text in RUNS:
        picture.box(xs[x] + 2, 108, xs[x2] - xs[x] - 4, 36, fill)
        picture.text((xs[x] + xs[x2]) / 2, 130, text, size=12, anchor="middle")
    # what the store has, and what was written
    picture.text(30, 216, "the store has", size=12, bold=True)
    for x, x2, text in HAS:
        picture.box(x + 1, 198, x2 - x - 2, 26, AMBER, round_=2)
        picture.text((x + x2) / 2, 216, text, size=12, anchor="middle")
    picture.text(30, 256, "text written of", size=12, bold=True)
    for x, x2, fill, text in WRITTEN:
        picture.box(x + 1, 238, x2 - x - 2, 26, fill, stroke=STRONG[BLUE], round_=2)
        picture.text((x + x2) / 2, 256, text, size=12, anchor="middle")
    # the table
    columns = [30, 80, 380, 570, 800]
    for x, head in zip(columns, ["stop", "comes", "the store then has", "of which text is written", "ahead by"]):
        picture.text(x, 306, head, size=12, bold=True)
    picture.line([(30, 313), (1030, 313)], LINE, 1)
    for row, (name, when, rows, text, ahead) in enumerate(STOPS):
        y = 333 + row * 20
        for x, cell in zip(columns, [name, when, rows, text, ahead]):
            picture.text(x, y, cell, size=12, colour=STRONG[RED] if x == 30 else INK, bold=x == 30)
    picture.note(30, 450, [
        "A stop is the end of the process at any moment, or of the power while the disk keeps its word. A commit is "
        "all of its changes or none.",
        "So the store has each line of which a byte was written, and at most one more."])
    return picture


PICTURES = {"layers": layers, "block": block, "period": period, "bracket": bracket, "stop": stop}


def main():
    check = sys.argv[1:] == ["--check"]
    bad = 0
    for name, draw in PICTURES.items():
        path, text = HERE / f"{name}.svg", draw().svg()
        if not check:
            path.write_text(text, encoding="utf-8")
        elif not path.exists() or path.read_text(encoding="utf-8") != text:
            print(f"drawings: {path.name} is not what draw.py draws")
            bad = 1
    if check and not bad:
        print(f"drawings: {len(PICTURES)} as draw.py draws them")
    return bad


if __name__ == "__main__":
    sys.exit(main())
