"""A test of the judge: runs written by hand, each with the number of faults that it has.

What is printed of a fault, and of the runs and seconds of a sweep, is not tested: a fault counts whatever is said of it.
"""
import collections
import contextlib
import io
import subprocess
import tempfile

from .groups import faults_of_group, faults_of_run, never_refused
from .judge import Judge, listed
from .reading import text_fault
from .runs import Ran, made_shim, runs_of, swept
from .sweeps import sweep_all

# The lines of a group with all memory, and the refusals of its calls.
AMPLE = [
    "left: [0]",
    "a: Ok(1)",
    "count: 2",
    "before: []",
    "b: Ok(())",
    "after: [1]",
    "before: [1]",
    "b: Ok(())",
    "after: [1, 2]",
    "c: Ok(())",
    'left: [Add(1, "],"), 23]',
    "left: B { inner: A { base: [2, 3], at: (0, 1), count: 2 }, more: [[]] }",
    "d: Ok(3)",
    "input: 7",
    "e: Ok(())",
    "filled: [1, 2]",
    "before: []",
    "b: Ok(())",
    "after: [5]",
]
REFUSALS = {"a": "Err(Memory)", "b": "Err(Memory)", "c": "Err(Memory)", "d": "-", "e": "Err(Memory)"}

# What a run writes otherwise, by place, and how many of its lines are wrong.
LINES = [
    ({}, 0),
    ({0: "left: []"}, 1),
    ({0: "left: []", 1: "a: Err(Memory)"}, 1),
    ({1: "a: Err(Memory)", 2: "count: 1"}, 0),
    ({1: "a: Err(Memory)"}, 0),
    ({1: "a: Err(Memory)", 2: "count: 3"}, 1),
    ({1: "a: Err(AllocError)"}, 1),
    ({2: "count: 1"}, 1),
    ({4: "b: Err(Memory)", 5: "after: []", 6: "before: []", 8: "after: [1]"}, 0),
    ({7: "b: Err(Memory)", 8: "after: [1]"}, 0),
    ({4: "b: Err(Memory)"}, 3),
    ({7: "b: Err(Memory)"}, 1),
    ({5: "after: []"}, 1),
    ({6: "before: []"}, 1),
    ({17: "b: Err(Memory)", 18: "after: []"}, 0),
    ({16: "before: [1, 2]"}, 1),
    ({9: "c: Err(Memory)"}, 0),
    ({9: "c: Err(Memory)", 10: "left: []"}, 0),
    ({9: "c: Err(Memory)", 10: 'left: [Add(1, "],")]'}, 0),
    ({9: "c: Err(Memory)", 10: 'left: [Add(1, "],"), 2]'}, 1),
    ({9: "c: Err(Memory)", 10: "left: [Add(1)]"}, 1),
    ({9: "c: Err(Memory)", 10: "left: [Add]"}, 1),
    ({9: "c: Err(Memory)", 10: "left: [Add(1]"}, 1),
    ({9: "c: Err(Memory)", 10: "left: ["}, 1),
    ({9: "c: Err(Memory)", 10: "left: [23]"}, 1),
    ({9: "c: Err(Memory)", 10: 'left: [Add(1, "],"), 23, 4]'}, 1),
    ({9: "c: Err(Memory)", 11: "left: B { inner: A { base: [2], at: (0, 1), count: 2 }, more: [] }"}, 0),
    ({9: "c: Err(Memory)", 11: "left: B { inner: A { base: [2], at: (0, 1), count: 1 }, more: [] }"}, 0),
    ({9: "c: Err(Memory)", 11: "left: B { inner: A { base: [2], at: (0, 1), count: 2 }, more: [[]] }"}, 0),
    ({9: "c: Err(Memory)", 11: "left: B { inner: A { base: [2], at: (0, 1), count: 3 }, more: [] }"}, 1),
    ({9: "c: Err(Memory)", 11: "left: B { inner: A { base: [3], at: (0, 1), count: 2 }, more: [] }"}, 1),
    ({9: "c: Err(Memory)", 11: "left: B { inner: A { base: [2], at: (0), count: 2 }, more: [] }"}, 1),
    ({9: "c: Err(Memory)", 11: "left: B { inner: A { base: [2, 3], at: (0, 2), count: 2 }, more: [] }"}, 1),
    ({9: "c: Err(Memory)", 11: "left: C { inner: A { base: [2], at: (0, 1), count: 2 }, more: [] }"}, 1),
    ({9: "c: Err(Memory)", 11: "left: B { inner: C { base: [2], at: (0, 1), count: 2 }, more: [] }"}, 1),
    ({9: "c: Err(Memory)", 11: "left: B { inner: A { base: [2], at: (0, 1), count: 2 } }"}, 1),
    ({9: "c: Err(Memory)", 11: "left: B { inner: A { base: [2], at: (0, 1), count: 2 }, more: [[], []] }"}, 1),
    ({11: "left: B { inner: A { base: [2], at: (0, 1), count: 2 }, more: [] }"}, 1),
    ({10: 'left: [Add(1, "],")]'}, 1),
    # a call that is refused says nothing of what later ones leave
    ({1: "a: Err(Memory)", 10: "left: []"}, 1),
    ({1: "a: Err(Memory)", 15: "filled: []"}, 1),
    ({14: "e: Err(Memory)", 15: "filled: []"}, 0),
    ({14: "e: Err(Memory)"}, 1),
    ({14: "e: Err(Memory)", 15: "filled: [1]"}, 1),
    ({15: "filled: [1]"}, 1),
    ({12: "d: Err(Memory)"}, 1),
    ({12: "d: no input"}, 1),
    ({12: "d: -"}, 1),
    ({13: "input: 8"}, 1),
    ({14: "e: Err(Memory)", 13: "input: 8"}, 2),
    ({12: "d: Err(Memory)", 13: "input: 8"}, 2),
    ({12: "d: Err(Memory)", 13: "input: 6"}, 2),
    # another line than the wanted one ends the comparison
    ({12: "f: Ok(3)"}, 1),
    ({12: "a: Err(Memory)"}, 1),
    ({12: "f: Ok(3)", 13: "input: 8"}, 1),
    ({13: "left: 7"}, 1),
]


def lines(changes):
    return [changes.get(place, line) for place, line in enumerate(AMPLE)]


def ran(written, refused=1, **changed):
    """A run that writes these lines, and is as it has to be but for what is given."""
    output = "".join(f"{line}\n" for line in written).encode()
    return Ran(0, 9, refused, 0, 64, output, b"")._replace(**changed)


ONE = {1: "a: Err(Memory)"}
TWO = {1: "a: Err(Memory)", 14: "e: Err(Memory)", 15: "filled: []"}

# A run in which a request, or it and all later ones, is refused; how many faults it has; and the calls refused.
RUNS = [
    (ran(lines({})), False, 0, ""),
    (ran(lines(ONE)), False, 0, "a"),
    (ran(lines(TWO)), False, 1, "ae"),
    (ran(lines(TWO)), True, 0, "ae"),
    (ran(lines({})[:8], status=3), False, 0, ""),
    (ran([], status=3), False, 0, ""),
    (ran(lines(ONE)[:8], status=3), False, 1, "a"),
    (ran(lines(ONE)[:8], status=3), True, 0, "a"),
    (ran(lines({12: "d: Err(Memory)"})), False, 1, "d"),
    (ran(lines({}), status=3), False, 1, ""),
    (ran(lines({})[:8]), False, 1, ""),
    (ran([*lines({}), "input: 7"]), False, 1, ""),
    (ran([*lines({}), "input: 7"], status=3), False, 1, ""),
    (ran(lines({}), status=1), False, 1, ""),
    (ran(lines({})[:8], status=-11), False, 1, ""),
    (ran(lines({}), live=1), False, 1, ""),
    (ran(lines({}), errors=b"x"), False, 1, ""),
    (ran(lines({}), status=1, live=1, errors=b"x"), False, 3, ""),
]

LAST = ran(AMPLE, 0)
NOT_ACCEPTED = {4: "b: Err(Width)", 7: "b: Err(Width)", 17: "b: Err(Width)"}
# The runs of a group: with all memory, and with each request refused in turn; how many faults they have.
GROUPS = [
    (LAST, [ran(lines(ONE)), LAST], 0),
    (LAST, [LAST], 0),
    (LAST, [ran(lines({})), LAST], 0),
    (LAST, [ran(lines(TWO)), ran(lines({}), live=1), LAST], 2),
    # the last run is the ample one
    (LAST, [ran(lines(ONE))], 1),
    (LAST, [ran(lines(ONE), 0)], 1),
    (LAST, [LAST._replace(live=1)], 1),
    (LAST, [LAST._replace(requests=8)], 1),
    # with all memory
    (LAST._replace(status=1), [LAST._replace(status=1)], 1),
    (LAST._replace(live=1), [LAST._replace(live=1)], 1),
    (LAST._replace(errors=b"x"), [LAST._replace(errors=b"x")], 1),
    (ran(lines(ONE), 0), [ran(lines(ONE), 0)], 2),
    (ran(lines(NOT_ACCEPTED), 0), [ran(lines(NOT_ACCEPTED), 0)], 1),
    (ran(lines({4: "b: Err(Width)"}), 0), [ran(lines({4: "b: Err(Width)"}), 0)], 0),
    (ran(lines({4: "b: Err(Memory)"}), 0), [ran(lines({4: "b: Err(Memory)"}), 0)], 1),
    (ran(lines({12: "d: Err(Width)"}), 0), [ran(lines({12: "d: Err(Width)"}), 0)], 0),
    (ran([*AMPLE, "f: Ok(1)"], 0), [ran([*AMPLE, "f: Ok(1)"], 0)], 1),
    (ran(AMPLE[:14], 0), [ran(AMPLE[:14], 0)], 2),
]

# The calls of groups that were refused, and how many are missing.
SEEN = [
    ({"one": {"a": 1, "b": 2, "d": 0}, "two": {"a": 1}}, 0),
    ({"one": {"a": 1, "b": 0, "d": 0}, "two": {"a": 1}}, 1),
    ({"one": {"a": 1, "b": 1, "d": 3}, "two": {"a": 0}}, 1),
    ({"one": {"a": 0, "b": 0, "d": 0}, "two": {"a": 0}}, 3),
]
SEEN_OF = {"one": {"a": "Err(Memory)", "b": "Err(Memory)", "d": "-"}, "two": {"a": "Err(Memory)"}}
# The same as a list.
LIST = ["# a: -", "", "[one]", "a: Err(Memory)\n", "b: Err(Memory)", "# c: -", "d: -", "", "[two]", "a: Err(Memory)"]

# --- texts ---

CELL = '{"Leaf":{"Variable":{"entry":{"Main":{"offset":0}},"index":0}}}'
ONCE = '{"Leaf":{"Constant":1}}'
NUMBERS = '"count_weight":1,"column":0'
LOOKUP = f'{{"kind":{{"Global":"g"}},"elements":[[{CELL}]],"multiplicities":[{ONCE}],{NUMBERS},"flags":null}}'
READER = '{"table":"t","position":0,"payload":[1]}'
TABLE = '{"name":"t","window":"Main","columns":[1,2]}'
TEXTS = {"lookups": f"[{LOOKUP}]", "declarations": f'{{"reads":[{READER}],"tables":[{TABLE}]}}'}
GREATEST = "18446744073709551615"
BESIDE = LOOKUP.replace('"column":0', '"column":1')

# What stands in a text, what stands there instead, and the answer: it is read as it stands, or as the text that is
# given, or refused, or malformed.
AS_IT_STANDS, REFUSED = "read", "refused: "
READ = {
    "lookups": [
        ("[", "[", AS_IT_STANDS),
        (f"[{LOOKUP}]", "[]", AS_IT_STANDS),
        (f"[{LOOKUP}]", LOOKUP, REFUSED),
        (f"[{LOOKUP}]", "[1]", REFUSED),
        (f"[{LOOKUP}]", "[" * 100000, REFUSED),
        (LOOKUP, f"{LOOKUP},{BESIDE}", AS_IT_STANDS),
        (LOOKUP, f"{LOOKUP},{LOOKUP}", "malformed: BadRecord { lookup: 1 }"),
        (LOOKUP, f"{BESIDE},{LOOKUP}", "malformed: BadRecord { lookup: 0 }"),
        ("g", "\udcff", REFUSED),
        ('"column":0', '"column":1', "malformed: BadRecord { lookup: 0 }"),
        (',"column":0', "", REFUSED),
        (',"flags":null', "", f"read: [{LOOKUP}]"),
        ("null", f"[{ONCE}]", AS_IT_STANDS),
        ("null", "[]", "malformed: BadRecord { lookup: 0 }"),
        ("null", f"[{ONCE},{ONCE}]", "malformed: BadRecord { lookup: 0 }"),
        (f"[{ONCE}]", "[]", "malformed: BadRecord { lookup: 0 }"),
        (f"[[{CELL}]]", "{}", REFUSED),
        (f"[[{CELL}]]", f"[{CELL}]", REFUSED),
        (f"[[{CELL}]]", "[[]]", AS_IT_STANDS),
        ('"count_weight":1', f'"count_weight":{GREATEST}', AS_IT_STANDS),
        ('"count_weight":1', f'"count_weight":{int(GREATEST) + 1}', REFUSED),
        ('"count_weight":1', '"count_weight":"1"', REFUSED),
        ('"Constant":1', '"Constant":6', AS_IT_STANDS),
        ('"Constant":1', '"Constant":7', REFUSED),
        ('"Constant":1', '"Constant":-0', REFUSED),
        ('"Constant":1', '"Constant":1.0', REFUSED),
        ('"Constant":1', '"Constant":true', REFUSED),
        ('"Constant":1', '"Constant":NaN', REFUSED),
        ('"index":0', '"index":0,"x":1,"x":2', f"read: [{LOOKUP}]"),
        ('"index":0', '"index":0,"x":NaN', REFUSED),
        ('"index":0', '"index":0,"index":0', REFUSED),
        ('{"Main":{"offset":0}}', '"Public"', AS_IT_STANDS),
        ('{"Main":{"offset":0}}', '{"Preprocessed":{"offset":0}}', AS_IT_STANDS),
        ('{"Main":{"offset":0}}', '"Main"', REFUSED),
        ('{"Main":{"offset":0}}', '{"Public":null}', REFUSED),
        ('{"Main":{"offset":0}}', '{"Main":{"offset":0},"x":1}', REFUSED),
        ('{"Main":{"offset":0}}', "1", REFUSED),
        ('{"Global":"g"}', '"Local"', AS_IT_STANDS),
        ('{"Global":"g"}', '"Global"', REFUSED),
        ('{"Global":"g"}', '{"Global":1}', REFUSED),
        (ONCE, '{"Leaf":"IsFirstRow"}', AS_IT_STANDS),
        (ONCE, '{"Leaf":"IsLastRow"}', AS_IT_STANDS),
        (ONCE, '{"Neg":{"Leaf":"IsTransition"}}', AS_IT_STANDS),
        (ONCE, '{"Leaf":"Constant"}', REFUSED),
        (ONCE, '"Leaf"', REFUSED),
        *((ONCE, f'{{"{node}":[{CELL},{ONCE}]}}', AS_IT_STANDS) for node in ("Add", "Sub", "Mul")),
        (ONCE, f'{{"Add":[{ONCE}]}}', REFUSED),
        (ONCE, f'{{"Add":[{ONCE},{ONCE},{ONCE}]}}', REFUSED),
    ],
    "declarations": [
        ("[1]", "[1]", AS_IT_STANDS),
        (READER, f"{READER},{READER}", AS_IT_STANDS),
        ("[1]", "[0,1,2]", AS_IT_STANDS),
        ("[1]", "[]", "malformed: EmptyPayload"),
        ("[1]", "[3]", "malformed: ColumnOutOfRange"),
        ("[1]", "[1,2,1]", "malformed: RepeatedColumn"),
        ("[1]", "[3,3]", "malformed: ColumnOutOfRange"),
        ("[1]", '["1"]', REFUSED),
        ('"position":0', '"position":2', AS_IT_STANDS),
        ('"position":0', '"position":3', "malformed: ColumnOutOfRange"),
        ('"position":0', '"position":4', "malformed: ColumnOutOfRange"),
        ('0,"payload":[1]', '3,"payload":[]', "malformed: ColumnOutOfRange"),
        ("[1,2]", "[]", "malformed: EmptyTable"),
        ("[1,2]", "[1,3]", "malformed: ColumnOutOfRange"),
        ("[1,2]", "[2,2]", "malformed: RepeatedColumn"),
        (f'[1]}}],"tables":[{TABLE}', f'[]}}],"tables":[{TABLE.replace("[1,2]", "[]")}', "malformed: EmptyPayload"),
        ('"Main"', '"Preprocessed"', "malformed: ColumnOutOfRange"),
        ('"Main","columns":[1,2]', '"Preprocessed","columns":[]', "malformed: EmptyTable"),
        ('"Main","columns":[1,2]', '"Preprocessed","columns":[0]', "malformed: ColumnOutOfRange"),
        ('"Main"', '"Public"', REFUSED),
        ('"Main"', '{"Main":null}', REFUSED),
        ('"table":"t"', '"table":1', REFUSED),
        ('"name":"t"', '"name":null', REFUSED),
        (f'"reads":[{READER}],', "", REFUSED),
        (f',"tables":[{TABLE}]', "", REFUSED),
    ],
}
# Answers of each kind, and some that are none.
ANSWERS = [
    *("read: 7", "read: []", "malformed: BadRecord { lookup: 7 }", "malformed: EmptyPayload", "malformed: None", ""),
    *("refused: Syntax", "refused: Data", "refused: Eof", "refused: Memory", "malformed", "read"),
]


def texts_judged():
    """For each text whether its own answer is taken, and each other is not."""
    for kind, rows in READ.items():
        for old, new, said in rows:
            text = TEXTS[kind].replace(old, new)
            value = f"read: {text}" if said == AS_IT_STANDS else said
            right = ANSWERS[6:9] if said == REFUSED else [value]
            value_of_right = value.partition(": ")[2]
            wrong = [f"read: {text}", f"malformed: {value_of_right}", f"read: {value_of_right}"]
            wrong += [value.replace("1", "1.0"), *ANSWERS]
            wrong = [it for it in wrong if it not in right]
            of_text = [text_fault(kind, text.encode(errors="surrogateescape"), it) for it in [*right, *wrong]]
            yield kind, new, [fault is None for fault in of_text] == [it in right for it in [*right, *wrong]]


# --- runs and sweeps ---

# What the shim reports, and the runs: status, numbers, and the ends of what is written.
REPORT = b"0 5 0 0 64 3 1\n256 5 1 2 70 3 4\n9 7 1 0 64 6 4\n"
REPORTED = [
    Ran(0, 5, 0, 0, 64, b"abc", b"x"),
    Ran(1, 5, 1, 2, 70, b"", b"yzw"),
    Ran(-9, 7, 1, 0, 64, b"def", b""),
]


def is_swept(later):
    """Whether each request of a program is refused, alone or with all later ones."""
    with tempfile.TemporaryDirectory() as folder:
        shim = made_shim(folder)
        ample, *refusing, last = swept(shim, "sort", ["-r"], b"a\nb\n", later)
        (alone,) = swept(shim, "sort", ["-r"], b"a\nb\n", last=0)
    counts = [it.refused for it in refusing]
    well = ample == last == alone and ample.output == b"b\na\n" and len(refusing) == ample.requests > 5
    return well and min(counts) == 1 and (max(counts) > 1) == later and any(it.errors for it in refusing)


def answering(found, refused):
    return 1, found, refused


def failing(error):
    raise error


SEEN_ONE = {"one": {"a": 1}}
WELL, FAULTY = ("x", answering, [], SEEN_ONE), ("x", answering, ["fault"], SEEN_ONE)
# The tasks of builds, and the status.
SWEEPS = [
    ([[WELL]], 0),
    ([[WELL, ("x", answering, [], {})], [("x", answering, [], {}), WELL]], 0),
    ([[FAULTY]], 1),
    ([[WELL, FAULTY], [WELL]], 1),
    ([[WELL], [FAULTY, WELL]], 1),
    ([[WELL], [("x", answering, [], {})]], 1),
    *(([[WELL, ("x", failing, error)]], 1) for error in (RuntimeError(), ValueError(), subprocess.SubprocessError())),
]


def swept_status(builds):
    with contextlib.redirect_stdout(io.StringIO()):
        return sweep_all([("build", tasks) for tasks in builds], {"one": {"a": "Err(Memory)"}})


def judged():
    """Of each row its name, and whether it is judged as it has to be."""
    for changes, wanted in LINES:
        yield "lines", changes, len(list(Judge(AMPLE, REFUSALS).faults(lines(changes), []))) == wanted
    for run, later, wanted, calls in RUNS:
        seen = collections.Counter()
        found = list(faults_of_run(Judge(AMPLE, REFUSALS), run, later, seen))
        yield "run", run, (len(found), seen) == (wanted, collections.Counter(calls))
    for ample, runs, wanted in GROUPS:
        found = list(faults_of_group(REFUSALS, ample, runs, False, collections.Counter()))
        yield "group", runs, len(found) == wanted
    for seen, wanted in SEEN:
        yield "never refused", seen, len(list(never_refused(SEEN_OF, seen))) == wanted
    yield "list", LIST, listed(LIST) == SEEN_OF
    yield from texts_judged()
    for later in (False, True):
        yield "shim", later, is_swept(later)
    yield "report", REPORT, list(runs_of(REPORT, b"abcdef", b"xyzw")) == REPORTED
    for builds, wanted in SWEEPS:
        yield "sweep", builds, swept_status(builds) == wanted


def judge_itself():
    """Says of how many rows the judge finds what it has to find. Returns the status."""
    rows = list(judged())
    wrong = [f"{name}: {str(row)[:500]}" for name, row, is_well in rows if not is_well]
    print(*wrong, f"the judge: {len(rows) - len(wrong)} of {len(rows)} rows judged as they have to be", sep="\n")
    return 1 if wrong else 0
