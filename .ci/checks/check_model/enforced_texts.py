"""What the program tells that constraints enforce, over F7: random AIRs of few cells, some with fixed columns, and each
window of rows on which all constraints are zero."""
import random

from . import enforcing, meaning, objects, reading, telling
from .comparing import compared
from .fields import ask
from .running import FILE, answer_of, room, written

# --- random AIRs ---

CELLS = ["a", "b", "c", "d"]
SELECTORS = ["is_first_row", "is_last_row", "is_transition"]


def table_of(names, rows):
    return "".join(",".join(map(str, line)) + "\n" for line in [names, *rows]).encode()


class Asserting:
    """An AIR over F7 whose constraints say something of the flags and counts of its lookups, more often than not."""

    def __init__(self, draw):
        self.draw = draw
        self.cells = CELLS[: draw.choice([1, 2, 2, 3, 3, 3, 4])]
        self.height = draw.choice([1, 1, 2, 2, 3, 4])
        # the weights times the heights are below 7
        self.room = 6 // self.height
        head = [f"height {self.height}", f"columns ({', '.join(self.cells)})"]
        self.files = self.tables() if draw.random() < 0.5 else {}
        if self.files:
            head = ['trace "t.csv"', 'preprocessed "p.csv"']
        self.bits, items = [], []
        for _ in range(draw.choice([0, 1, 2, 2, 3, 4])):
            items.append(self.assertion())
        for _ in range(draw.choice([1, 1, 2, 3])):
            items.append(self.lookup())
        if draw.random() < 0.3:
            draw.shuffle(items)
        self.text = "air x {\n" + "".join(f"    {item}\n" for item in head + items) + "}\n"

    def tables(self):
        """A trace of numbers, and fixed columns: of each row at most one is 1, or they are bits, or numbers."""
        draw, rows = self.draw, range(self.height)
        trace = [[draw.choice([0, 0, 1]) for _ in self.cells] for _ in rows]
        names = ["p", "q", "r"][: draw.choice([1, 2, 2, 3])]
        most, one = draw.choice([1, 1, 1, 1, 6]), draw.random() < 0.6
        fixed = [[draw.randint(0, most) for _ in names] for _ in rows]
        if one:
            chosen = [draw.randrange(len(names) + draw.choice([0, 1])) for _ in rows]
            fixed = [[int(at == it) for at in range(len(names))] for it in chosen]
        files = {"t.csv": table_of(self.cells, trace), "p.csv": table_of(names, fixed)}
        self.cells = self.cells[:2] + [f"pre.{name}" for name in names]
        return files

    def cell(self):
        cell = self.draw.choice(self.bits or self.cells) if self.draw.random() < 0.6 else self.draw.choice(self.cells)
        return f"next({cell})" if self.draw.random() < 0.08 else cell

    def condition(self):
        return self.draw.choice([*SELECTORS, self.cell(), f"({self.cell()} - 1)"])

    def said(self):
        """An expression, most often one that is 0 or 1 by what is asserted."""
        one, other, third = self.cell(), self.cell(), self.cell()
        forms = [
            one, one, f"1 - {one}", f"{one} * {other}", f"{one} + {other}", f"{one} - {other}", f"{one} * (1 - {other})",
            f"{one} + {other} + {third}", self.draw.choice(SELECTORS), f"{one} + 2 * {other}", f"1 - {one} - {other}",
            f"{one}^{self.draw.choice([2, 3, 6])}", f"{one} + {other} - {one} * {other}", f"-{one}", "1", "0", f"3 * {one}",
        ]  # fmt: skip
        return self.draw.choice(forms)

    def assertion(self):
        draw, one, other = self.draw, self.cell(), self.cell()
        how = draw.random()
        if how < 0.4:
            self.bits.append(one)
            return f"assert bool {one}"
        if how < 0.5:
            return f"assert bool {self.said()}"
        if how < 0.6:
            return f"assert {one} * {other}" if draw.random() < 0.5 else f"assert {one} * (1 - {other})"
        if how < 0.75:
            return f"assert {one} - ({self.said()})"
        if how < 0.85:
            return f"assert {self.condition()} * {one} * ({one} - 1)"
        if how < 0.93:
            return f"assert {self.condition()} * ({self.said()})"
        return f"assert {self.said()}"

    def message(self):
        verb = self.draw.choice(["query", "query", "send", "receive", "provide"])
        most = self.draw.choice([0, 1, 1, 1, 2, 3])
        if verb != "provide" and most > self.room:
            most = 0
        count = self.draw.choice(["", "", "said"])
        if verb == "provide":
            return f"{verb} m(1)" + (f" times {self.said()}" if count else "")
        if not count and self.room > 0:
            self.room -= 1
            return f"{verb} m(1)"
        self.room -= most
        return f"{verb} m(1) times {self.said()} at most {most}"

    def lookup(self):
        how = self.draw.random()
        if how < 0.35:
            return self.message()
        if how < 0.45:
            return "together {\n" + "".join(f"        {self.message()}\n" for _ in range(2)) + "    }"
        one, other = self.cell(), self.cell()
        pairs = [
            [one], [one, f"1 - {one}"], [f"{one} * {other}", f"{one} * (1 - {other})"], ["is_first_row", "is_last_row"],
            [f"is_transition * {one}", "is_last_row"], [one, f"{other} - {one} * {other}"],
        ]  # fmt: skip
        flags = [self.said() for _ in range(self.draw.choice([1, 2, 2, 2, 3]))]
        flags = self.draw.choice(pairs) if self.draw.random() < 0.6 else flags
        return "exclusive {\n" + "".join(f"        when {it} {self.message()}\n" for it in flags) + "    }"


def files_of_seed(seed):
    made = Asserting(random.Random(f"enforced {seed}"))
    return {FILE: made.text.encode(), **made.files}


def words_of_seed(seed, files):
    draw = random.Random(f"words of enforced {seed}")
    command = "check" if len(files) > 1 and draw.random() < 0.8 else "plan"
    return [command, "--field", "f7", *["--json"] * (draw.random() < 0.6), *["--enforced"] * (draw.random() < 0.5)]


# --- over the program ---

# Of these AIRs at least so many parts tell that something is enforced, and that something is not; and of those with fixed
# columns at least so many tell more once the cells of these are looked at.
LEAST, LEAST_BY_FIXED = 0.25, 0.05


def unshown_in(found):
    """How much an answer tells that is not shown to be enforced."""
    return sum(found.count(it) for it in (b"TRUSTED", b'"weight":false', b'"flags":false'))


def enforced_swept(program, seeds):
    """What is told of the random AIRs of these seeds, beside each window on which their constraints are zero."""
    faults, all_of, some_of, checked, by_fixed = [], 0, 0, 0, 0
    with room() as folder:
        for seed in seeds:
            files = files_of_seed(seed)
            words = words_of_seed(seed, files)
            faults += compared(program, folder, f"seed {seed}, {' '.join(words)}", files, words)
            found = answer_of(program, [*words, FILE], folder).output
            some_of += unshown_in(found) > 0
            all_of += b"enforced  " in found or b" enforced\n" in found or b'"weight":true' in found
            if words[0] == "check" and found:
                checked += 1
                by_fixed += unshown_in(found) < unshown_in(answer_of(program, ["plan", *words[1:], FILE], folder).output)
    for what, count, least in (
        ("something enforced", all_of, LEAST * len(seeds)),
        ("something trusted", some_of, LEAST * len(seeds)),
        ("more enforced by fixed columns", by_fixed, LEAST_BY_FIXED * checked),
    ):
        if count < least:
            faults.append(f"of {len(seeds)} AIRs only {count} have {what}")
    return len(seeds), faults, {}


# --- a test of the judge ---

TOGETHER = "together {\nquery m(1) times a at most 0\nquery m(1) times b at most 1\n}"
# Items of an AIR of two columns, how many rows it has, and what can be told of its lookups: for each whether its flags
# are enforced, whether its weight is, and the bounds; and whether that is so.
JUDGED = [
    ("assert bool a\nexclusive {\nwhen a query m(1)\n}", 3, [(True, True, [1])], True),
    ("assert bool a\nexclusive {\nwhen b query m(1)\n}", 3, [(True, True, [1])], False),
    ("assert bool a\nexclusive {\nwhen b query m(1)\n}", 3, [(False, True, [1])], True),
    ("assert bool a\nassert bool b\nexclusive {\nwhen a query m(1)\nwhen b query m(1)\n}", 3, [(True, True, [1, 1])], False),
    ("assert bool a\nassert bool b\nexclusive {\nwhen a query m(1)\nwhen b query m(1)\n}", 3, [(False, True, [1, 1])], False),
    ("assert bool a\nexclusive {\nwhen a query m(1)\nwhen 1 - a query m(1)\n}", 3, [(True, True, [1, 1])], True),
    ("assert is_transition * a * (a - 1)\nexclusive {\nwhen a query m(1)\n}", 2, [(True, True, [1])], False),
    ("assert is_transition * a * (a - 1)\nexclusive {\nwhen is_transition * a query m(1)\n}", 2, [(True, True, [1])], True),
    ("exclusive {\nwhen is_first_row query m(1)\nwhen is_last_row query m(1)\n}", 2, [(True, True, [1, 1])], True),
    ("exclusive {\nwhen is_first_row query m(1)\nwhen is_last_row query m(1)\n}", 1, [(True, True, [1, 1])], False),
    ("exclusive {\nwhen is_transition query m(1)\nwhen next(a) query m(1)\n}", 0, [(True, True, [1, 1])], True),
    ("assert bool a\nquery m(1) times a at most 1", 3, [(None, True, [1])], True),
    ("assert bool a\nquery m(1) times a at most 1", 3, [(None, False, [0])], False),
    ("assert a * (a - 2)\nquery m(1) times a at most 1", 3, [(None, True, [1])], False),
    ("assert a * (a - 2)\nquery m(1) times a at most 2", 3, [(None, True, [2])], True),
    ("assert bool a\nquery m(1) times -a at most 1", 3, [(None, True, [1])], True),
    ("query m(1) times a at most 2", 1, [(None, False, [None])], True),
    ("query m(1) times a at most 2", 1, [(None, False, [2])], False),
    ("query m(1) times a at most 3", 1, [(None, True, [3])], True),
    ("provide m(1) times a", 1, [(None, True, [None])], True),
    (f"assert bool a\nassert bool b\nassert a * b\n{TOGETHER}", 1, [(None, True, [1, 1])], True),
    (f"assert bool a\nassert bool b\n{TOGETHER}", 1, [(None, True, [1, 1])], False),
    ("assert 1\nexclusive {\nwhen a query m(1)\n}", 1, [(True, True, [1])], True),
]  # fmt: skip


# The same of an AIR with fixed columns p and q of three rows, whether it is so for these cells, and whether for all.
PAIR = "exclusive {\nwhen pre.p query m(1)\nwhen %s query m(1)\n}"
JUDGED_OVER_FIXED = [
    (PAIR % "pre.q", "1,0\n0,1\n0,0", (True, True, [1, 1]), True, False),
    (PAIR % "pre.q", "1,0\n1,1\n0,1", (True, True, [1, 1]), False, False),
    (PAIR % "pre.q", "1,0\n2,0\n0,1", (True, True, [1, 1]), False, False),
    (PAIR % "next(pre.q)", "1,0\n0,0\n0,1", (True, True, [1, 1]), True, False),
    (PAIR % "next(pre.q)", "0,1\n0,0\n1,0", (True, True, [1, 1]), False, False),
    ("query m(1) times pre.p at most 1", "0,0\n1,0\n1,0", (None, True, [1]), True, False),
    ("query m(1) times pre.p at most 1", "0,0\n1,0\n2,0", (None, True, [1]), False, False),
    ("assert bool pre.p\nquery m(1) times pre.p at most 1", "0,0\n1,0\n1,0", (None, True, [1]), True, True),
]  # fmt: skip


def air_of(items, height, folder=""):
    """The AIR of these items, over F7."""
    ask(b"f7")
    text = f"air x {{\nheight {height}\ncolumns (a, b)\n{items}\n}}\n".encode()
    return text, meaning.planned_of(reading.batch_of(text), folder)


def are_so(airs, told, over_fixed=False):
    """Whether what is told of the lookups of an AIR is so."""
    try:
        enforcing.check_all(airs, [[enforcing.Shown(*it) for it in told]], over_fixed)
        return True
    except enforcing.Untrue:
        return False


def is_so(items, height, told):
    return are_so(air_of(items, height)[1], told)


def is_so_over_fixed(items, table, told):
    """Whether it is so for the cells of a fixed table, and whether for all."""
    with room() as folder:
        written(folder, {"p.csv": f"p,q\n{table}\n".encode()})
        airs = air_of(f'preprocessed "p.csv"\n{items}', 3, folder)[1]
        return are_so(airs, [told], over_fixed=True), are_so(airs, [told])


# An AIR of three rows, what is told of it in a text and in JSON, and in which part of either something stands in place of
# something else.
AIR = "assert bool a\nexclusive {\nwhen a query m(1)\nwhen b query m(1)\n}\nquery m(1) times b at most 0"
NOTES = [
    (
        b"      the flag of line 7 is not shown to be 0 or 1 on the first row (add: assert bool b)\n",
        b"      unless its flags are lawful, its counts may add up to 2, which is above 1\n",
    ),
    (b"      no bound is shown of the count of line 9 (add: assert b)\n",),
]
TABLE = b"""\
  whatever traces of these heights a prover picks, where this constraint holds:
  air  lookup               flags    weight
  x    exclusive of line 5  TRUSTED  TRUSTED
%s%s  x    query of line 9      -        TRUSTED
%s""" % (*NOTES[0], *NOTES[1])
SPOILT = [
    ("TRUSTED  TRUSTED", "enforced TRUSTED"),
    ("TRUSTED  TRUSTED", "enforced  TRUSTED"),
    ("TRUSTED  TRUSTED", "TRUSTED  enforced"),
    ("-        TRUSTED", "-        enforced"),
    ("-        TRUSTED", "TRUSTED  TRUSTED"),
    ("exclusive of", "query of"),
    ("flag of line 7", "flag of line 5"),
    ("on the first row", "on the only row"),
    ("assert bool b)", "assert bool a)"),
    (" (add: assert b)", ""),
    ("may add up to 2", "may add up to 1"),
    ("which is above 1", "which is above 2"),
    ("where this constraint holds", "where these 1 constraints hold"),
    ("as long as what is marked TRUSTED is so", "as it is"),
    (NOTES[1][0].decode(), ""),
    (NOTES[0][0].decode(), ""),
    (NOTES[0][1].decode(), NOTES[0][1].decode() * 2),
]
MISSING = {"flag": 1, "rows": "first"}
SPOILT_JSON = [
    ('"flags":false', '"flags":true'),
    ('"flags":false', '"flags":null'),
    ('"weight":false', '"weight":true'),
    ('"bounds":["1","1"]', '"bounds":["1","0"]'),
    ('"bounds":["1","1"]', '"bounds":["1"]'),
    ('"bounds":["1","1"]', '"bounds":[1,1]'),
    ('"bounds":[null]', '"bounds":["2"]'),
    ('"flag":1', '"flag":2'),
    ('"rows":"first"', '"rows":"only"'),
    ('"missing":null', '"missing":{"flag":0,"rows":"first"}'),
    ('"text_line":9', '"text_line":5'),
    ('"enforced":false', '"enforced":true'),
    ('"enforced":[', '"shown":['),
]


def answers():
    """The text and the JSON of what is told of that AIR, with the answer that is wanted of each."""
    text, airs = air_of(AIR, 3)
    noted = [enforcing.Shown(False, False, notes=NOTES[0]), enforcing.Shown(None, False, notes=NOTES[1])]
    bounds = [enforcing.Shown(False, False, [1, 1], MISSING), enforcing.Shown(None, False, [None])]
    ((wanted, _),), ((as_json, _),) = telling.plan_told(text, airs), objects.planned(text, airs)
    return (wanted, wanted.told([noted])), (as_json, objects.Json(as_json.told([bounds])).text())


def rows():
    """What is judged, how many faults are found, and how many have to be."""
    for items, height, told, wanted in JUDGED:
        yield f"{items!r}, {height} rows, {told}", is_so(items, height, told), wanted
    for items, table, told, *wanted in JUDGED_OVER_FIXED:
        yield f"{items!r}, {table!r}, {told}", is_so_over_fixed(items, table, told), tuple(wanted)
    of_text, of_json = answers()
    yield "the table of a plan", TABLE in of_text[1], True
    for (wanted, answer), spoilt in ((of_text, SPOILT), (of_json, SPOILT_JSON)):
        yield f"{answer}", wanted.unlike(answer), None
        for old, new in spoilt:
            changed = answer.replace(old.encode(), new.encode(), 1)
            found = changed != answer and wanted.unlike(changed) is not None
            yield f"{new!r} in place of {old!r}", found, True


SEEDS, PARTS = 240, 4


def tasks(program):
    """What there is to run: its name, the call and its words."""
    for part in range(PARTS):
        yield "what constraints enforce", enforced_swept, program, range(part, SEEDS, PARTS)
