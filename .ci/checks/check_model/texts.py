"""Texts over which the program is run: the cases, random batches, and hostile ones."""
import subprocess

from refused_memory.program import REFUSED
from refused_memory.runs import swept

from . import batches, enforced_texts, option_texts, showing, witness_texts
from .comparing import TOP, bytes_of, cases, compared, modelled, run_compared, wanted_of
from .fields import FIELDS
from .running import FILE, Answer, answer_of, differences, limit, room, unlawful, written

EXAMPLE = "examples/memory/memory.lookups"
TABLES = ("accesses.csv", "boundary.csv", "gaps.csv")

# --- cases ---


def cases_swept(program):
    """All cases, over the program, and by the model where it has the command."""
    faults, count = [], 0
    for place, case, status in cases():
        wanted, by_model = wanted_of(case, status), modelled(TOP, case.words)
        count += 1 + (by_model is not None)
        faults += [f"{place}: not by the model: {it}" for it in differences(by_model or wanted, wanted)]
        faults += [f"{place}: {it}" for it in differences(wanted, answer_of(program, case.words, TOP))]
    return count, faults, {}


# --- random batches ---

SEEDS, PARTS = 600, 6
# The least part of the random batches that balance, that do not, and that are refused.
LEAST = 0.05


def random_swept(program, seeds):
    """The random batches of these seeds."""
    faults, statuses = [], []
    with room() as folder:
        for seed in seeds:
            words = batches.words_of_seed(seed)
            text, files = batches.batch_of_seed(seed, batches.field_in(words))
            faults += compared(program, folder, f"seed {seed}, {' '.join(words)}", {**files, FILE: text}, words)
            if words == ["check"]:
                statuses.append(modelled(folder, [b"check", FILE.encode()]).status)
    rare = [status for status in (0, 1, 2) if statuses.count(status) < LEAST * len(statuses)]
    return len(seeds), faults + [f"random batches seldom have status {it}" for it in rare], {}


def shown_swept(program, seeds, options, faults_of):
    """What `show` writes of the random batches of these seeds, read again."""
    faults, compared_ones = [], 0
    with room() as folder:
        for seed in seeds:
            field = [*FIELDS][seed // 2 % len(FIELDS)]
            text, files = batches.batch_of_seed(seed, field)
            written(folder, {**files, FILE: text})
            found = answer_of(program, ["show", FILE, "--field", field, *options], folder)
            # of no AIR nothing is shown
            faults += [f"seed {seed}: {it}" for it in unlawful(found) if found != Answer(0, b"", b"")]
            if found.status == 0:
                again, count = faults_of(text, folder, found.output, field)
                faults += [f"seed {seed}: {it}" for it in again]
                compared_ones += count
    few = [f"only {compared_ones} messages are compared"] if compared_ones < len(seeds) else []
    return len(seeds), faults + few, {}


def more_batches(program, start, end):
    """Tasks over more seeds."""
    for first in range(start, end, 100):
        yield "random batches", random_swept, program, range(first, min(end, first + 100))


# --- cut and changed texts ---

BYTES = b"(\"\n#`9\xff,"
CHANGED_PARTS = 4


def example(**changed):
    """The files of the example, some of them changed."""
    files = {name: bytes_of(f"examples/memory/{name}") for name in TABLES}
    return {**files, FILE: bytes_of(EXAMPLE), **changed}


def cut_swept(program, name):
    """The example with a file cut at each byte."""
    faults, text = [], example()[name]
    with room() as folder:
        for end in range(len(text) + 1):
            faults += compared(program, folder, f"{name} cut at {end}", example(**{name: text[:end]}))
    return len(text) + 1, faults, {}


def changed_swept(program, name, part):
    """The example with each byte of a file changed to some others; a part of the places."""
    faults, count, text = [], 0, example()[name]
    with room() as folder:
        for at in range(part, len(text), CHANGED_PARTS):
            # two of the bytes at each place, so that each of them comes to every second place of a kind
            for byte in {BYTES[at % len(BYTES)], BYTES[(at + 3) % len(BYTES)]} - {text[at]}:
                changed = text[:at] + bytes([byte]) + text[at + 1 :]
                faults += compared(program, folder, f"{name}, byte {at} is {byte}", example(**{name: changed}))
                count += 1
    return count, faults, {}


# --- small texts of tables ---

SMALL_TABLES = [
    b"", b"\n", b"a", b"a\n", b"a\r\n1\r\n", b"a\r\n1", b"a\n1\r", b"a\n1\n\n", b"a\n\n1\n", b"a,b\n1\n", b"a,b\n1,2,3\n",
    b"a,b\n1,\n", b"\xef\xbb\xbfa\n1\n", b"\xef\xbb\xbf", b"\xef\xbb\xbf\xef\xbb\xbfa\n1\n", b"a,a\n1,1\n",
    b"a,\n1,1\n", b"a\n-\n", b"a\n-0\n", b"a\n2013265921\n", b"a\n-2013265921\n", b"a\n00\n", b"a\n+1\n", b"a\n 1\n",
    b'"a"\n1\n', b"a\n\x00\n", b"\xff,a\n1,2\n", b"a\rb\n1\n",
]  # fmt: skip


def tables_swept(program):
    """A batch over each of some small tables, as the main one and as the preprocessed one."""
    faults = []
    main = b'air x {\n trace "t.csv"\n query m(a)\n}\n'
    fixed = b'air x {\n trace "t.csv"\n preprocessed "p.csv"\n query m(pre.a)\n}\n'
    with room() as folder:
        for table in SMALL_TABLES:
            faults += compared(program, folder, f"table {table!r}", {FILE: main, "t.csv": table})
            files = {FILE: fixed, "t.csv": b"a\n1\n", "p.csv": table}
            faults += compared(program, folder, f"preprocessed table {table!r}", files)
    return 2 * len(SMALL_TABLES), faults, {}


# --- long texts ---

MANY, MEGABYTE = 100_000, 1_000_000


def air(*items):
    lines = "".join(f"    {item}\n" for item in items)
    return f'air x {{\n    trace "t.csv"\n{lines}}}\n'


def query(value):
    return air(f"query m({value})")


def chain(count, step):
    """Definitions each of which is made of the one before it, and a message with the last one."""
    return air("let d0 = a", *(f"let d{at + 1} = {step(f'd{at}')}" for at in range(count)), f"query m(d{count})")


def each(line, count):
    return [line.format(at) for at in range(count)]


LAYERS = b":3:%d: error: this expression has more than 1,024 layers\n"
NO_ROOM = b" error: the expressions up to here have more than 1,048,576 nodes\n"
DEEP = b" error: with what its names stand for, this has more than 1,024 layers\n"
NO_NAME = b":3:13: error: no column, public value or definition has this name\n"
UNREADABLE = b":2:12: error: this file cannot be read\n"
OFTEN = b"UNBALANCED on m: (1) is sent or queried too often, by 100,000\n"
NAME = "n" * MEGABYTE
TRACED = 'air x{} {{\n trace "t.csv"\n query m(a)\n}}\n'
# Long texts over a table whose one row is a = 1: a name, how the text is made, the status, and a part of what is
# written then. In a chain the definition of number N has 2 N + 1 nodes, so 1,024 of them take all the room; where each
# is the square of the one before, the first 19 of them take all but 21 nodes of it.
LONG = [
    ("a long comment", lambda: air("#" * MEGABYTE, "query m(a)"), 1, b""),
    ("a long line of blanks", lambda: air(" " * MEGABYTE + "query m(a)"), 1, b""),
    ("a long sum", lambda: query("+".join("a" * (MEGABYTE // 2))), 2, LAYERS % 2055),
    ("many parentheses", lambda: query("(" * MEGABYTE + "a" + ")" * MEGABYTE), 2, LAYERS % 269),
    ("many signs", lambda: query("-" * MEGABYTE + "a"), 2, LAYERS % 1035),
    ("many digits", lambda: query("1" * MEGABYTE), 2, b":3:13: error: this number is not below 2^64\n"),
    ("many zeros", lambda: query("0" * MEGABYTE + "1"), 1, b"UNBALANCED on m: (1) is"),
    ("an unknown name", lambda: query(NAME), 2, NO_NAME),
    ("the name of a bus", lambda: query("a").replace("m(", NAME + "("), 1, NAME.encode() + b": (1) is"),
    ("the name of an AIR", lambda: query("a").replace("x", NAME), 1, b"  " + NAME.encode() + b"     1  "),
    ("a long file name", lambda: query("a").replace("t.csv", NAME), 2, UNREADABLE),
    ("many empty lines", lambda: "\n" * MEGABYTE, 0, b"BALANCED"),
    ("many quotes", lambda: '"' * MEGABYTE, 2, b":1:2: error: expected `bus` or `air`\n"),
    ("definitions in a chain", lambda: chain(MANY, lambda it: f"{it} + 1"), 2, b":1027:17:" + NO_ROOM),
    ("definitions that double", lambda: chain(100, lambda it: f"{it} * {it}"), 2, b":22:15:" + NO_ROOM),
    ("powers of powers", lambda: query("((((a^64)^64)^64)^64)^64"), 2, b":3:17:" + NO_ROOM),
    ("definitions of many layers", lambda: chain(60, lambda it: "-" * 1000 + it), 2, b":5:1014:" + DEEP),
    ("many definitions", lambda: air(*each("let d{} = a", 10_000), "query m(a)"), 1, b""),
    ("many public values", lambda: air(*each("public d{} = 5", 10_000), "query m(a)"), 1, b""),
    ("many messages", lambda: air(*["query m(a)"] * MANY), 1, OFTEN),
    ("many messages in a group", lambda: air("together {", *["query m(a)"] * MANY, "}"), 1, OFTEN),
    ("many flags", lambda: air("exclusive {", *["when 0 query m(a)"] * MANY, "}"), 0, b"BALANCED"),
    ("many constraints", lambda: air(*["assert a - 1"] * 20000), 0, b"  20,000 constraints hold on all rows"),
    ("many values", lambda: query(", ".join("a" * MANY)), 1, b"widest tuple W = 100,000\n"),
    ("many local messages", lambda: air(*["query local(a)"] * 5000), 1, b"ids: 5,000"),
    ("many buses", lambda: air(*each("query m{}(a)", 2000)), 1, b"ids: 2,000"),
    ("many declared buses", lambda: "".join(each("bus m{}(a)\n", 5000)) + air("query m1(a)"), 1, b"ids: 1"),
    ("many AIRs", lambda: "".join(each(TRACED, 5000)), 1, b"by 5,000\n"),
]
# Long tables, with the same.
SURPLUS = b"t.csv:2:5: error: this line has too many numbers\n"
LARGE = b"t.csv:2:1: error: this number is not below the characteristic\n"
LONG_TABLES = [
    ("a long cell", lambda: b"a\n" + b"9" * MEGABYTE + b"\n", 2, LARGE),
    ("a cell of zeros", lambda: b"a\n" + b"0" * MEGABYTE + b"1\n", 1, b""),
    ("the name of a column", lambda: b"a," + NAME.encode() + b"\n1,1\n", 1, b""),
    ("many cells", lambda: b"a,b\n" + b"1," * MEGABYTE + b"\n", 2, SURPLUS),
    ("many rows", lambda: b"a\n" + b"1\n" * MANY, 1, OFTEN),
    ("many columns", lambda: b"a," + b",".join(b"c%d" % at for at in range(2000)) + b"\n1" + b",1" * 2000, 1, b""),
    ("many commas", lambda: b"," * MEGABYTE, 2, b"t.csv:1:1: error: this column has no name\n"),
    ("many lines without cells", lambda: b"a" + b"\n" * MEGABYTE, 2, b"t.csv:2:1: error: expected a number\n"),
]


def long_swept(program, place):
    """A long text."""
    name, make, status, part = (LONG + LONG_TABLES)[place]
    made = make()
    batch, table = (made.encode(), b"a\n1\n") if place < len(LONG) else (query("a").encode(), made)
    with room() as folder:
        written(folder, {FILE: batch, "t.csv": table})
        found = answer_of(program, ["check", FILE], folder)
    return 1, [f"{name}: {it}" for it in long_faults(found, status, part)], {}


def long_faults(found, status, part):
    yield from unlawful(found)
    if found.status in (0, 1, 2) and found.status != status:
        yield f"status {found.status}, and not {status}: {found.errors[:200]!r}"
    elif part not in found.output + found.errors:
        yield f"{part[:100]!r} is not in {(found.output + found.errors)[:300]!r}"


# --- files, words and streams ---

FILES = [
    b"none.csv", b".", b"..", b"/", b"", b"a/b.csv", b"t.csv/", b"\xff.csv", b"t\x00.csv", b"/dev/null", FILE.encode(),
    b"./t.csv", b"t.csv",
]  # fmt: skip
# Words that the model has, and words of which only the way in which the program ends is looked at.
WORDS = [b"check none", b"check .", b"check /dev/null", b"check t.csv", b"check x/", b"plan none", b"pack . --degree 2"]
ODD_WORDS = [
    b"", b"check", b"judge batch", b"check a b", b"check --limit", b"check --limit x t.csv", b"bits", b"help",
    b"--help", b"plan", b"pack t.csv", b"check --limit 0 t.csv", b"check --degree 0 t.csv", b"check --field f8 t.csv",
]  # fmt: skip


def files_swept(program):
    """Tables of odd names, and odd words."""
    faults = []
    with room() as folder:
        for name in FILES:
            text = b'air x {\n trace "%s"\n query m(a)\n}\n' % name
            faults += compared(program, folder, f"file {name!r}", {FILE: text, "t.csv": b"a\n1\n"})
        for words in map(bytes.split, WORDS):
            faults += run_compared(program, folder, words)
        for words in [*map(bytes.split, ODD_WORDS), [b"check", b""], [b"check", b"\xff"], [b"\xff"]]:
            faults += [f"words {words}: {it}" for it in unlawful(answer_of(program, words, folder))]
        endless = query("a").replace("t.csv", "/dev/zero").encode()
        written(folder, {FILE: endless})
        found = answer_of(program, ["check", FILE], folder)
        faults += [f"a file without end: {it}" for it in differences(Answer(*REFUSED), found)]
    return len(FILES) + len(WORDS) + len(ODD_WORDS) + 4, faults, {}


# What the shell does with the streams, whether the batch is one that is refused, and the status. Where output cannot be
# written that is told.
STREAMS = [
    (">/dev/full", False, 2), (">&-", False, 2), ("2>&-", False, 0), ("2>/dev/full", False, 0), ("<&-", False, 0),
    (">/dev/full", True, 2), (">&-", True, 2), ("2>&-", True, 2), ("2>/dev/full", True, 2), (">&- 2>&- <&-", True, 2),
    (">&- 2>&- <&-", False, 2),
]  # fmt: skip


def streams_swept(program):
    """Streams that are closed or full."""
    faults = []
    for how, refused, status in STREAMS:
        file = "examples/errors/column.lookups" if refused else EXAMPLE
        words = ["bash", "-c", f'"$0" check {file} {how}', program]
        ran = subprocess.run(words, cwd=TOP, capture_output=True, preexec_fn=limit, check=False)
        told = status == 2 and "2>" not in how
        if ran.returncode != status or bool(ran.stderr) != told or bool(ran.stdout) != (status == 0):
            faults.append(f"{how}, {file}: status {ran.returncode}, errors {ran.stderr!r}")
    return len(STREAMS), faults, {}


# --- memory ---

# How many faults of such a run are told.
FEW = 3
FIRST = "examples/first/first.lookups --field f7 --alpha 5 --beta 2"
SWEPT = [
    f"check {EXAMPLE}", "check examples/errors/column.lookups", "check examples/errors/number.lookups",
    f"witness {FIRST}", f"accept {FIRST} --witness examples/first/witness.txt", f"any {FIRST}",
    "bits --messages 1000 --width 3 --json", "check examples/first/unbalanced.lookups --field f7 --json",
    "plan examples/range/range.lookups --target 101", "pack examples/packing/packing.lookups --degree 3",
    "check examples/trusted/trusted.lookups",
]  # fmt: skip


def memory_swept(program, shim, run, later):
    """Each request for memory of a run refused: alone, or with all that come after it."""
    words = run.encode().split()
    (wanted,) = [wanted_of(case, status) for _, case, status in cases() if case.words == words]
    rooted = [f"{TOP}/{word}" if word.startswith("examples/") else word for word in run.split()]
    ample, *runs = swept(shim, program, rooted, later=later)
    # the place of a refusal has the name of the file
    shown = lambda ran: Answer(ran.status, ran.output, ran.errors.replace(f"{TOP}/".encode(), b""))  # noqa: E731
    faults = [f"with all memory: {it}" for it in differences(wanted, shown(ample))]
    faults += [f"{ample.live} blocks are not freed"] if ample.live else []
    faults += memory_faults(wanted, [(shown(it), it) for it in runs])
    more = [f"and {len(faults) - FEW} more faults of this run"] if len(faults) > FEW else []
    return len(runs), [f"{run}: {it}" for it in faults[:FEW] + more], {}


def memory_faults(wanted, runs):
    """What is wrong with runs in which requests are refused, up to one that meets no refusal."""
    for number, (found, ran) in enumerate(runs, 1):
        if found not in (wanted, Answer(*REFUSED)) or ran.live or (ran.refused == 0 and found != wanted):
            yield f"request {number} refused: {str(ran)[:300]}"
    if not any(found == Answer(*REFUSED) for found, _ in runs):
        yield "no run is out of memory"


# --- all of them ---


def tasks(program, shim):
    """What there is to run, the longest first: its name, the call and its words."""
    for run in SWEPT:
        for later in (False, True):
            yield "memory refused", memory_swept, program, shim, run, later
    for place in range(len(LONG + LONG_TABLES)):
        yield "long texts", long_swept, program, place
    for part in range(PARTS):
        yield "random batches", random_swept, program, range(part, SEEDS, PARTS)
    for part in range(CHANGED_PARTS):
        yield "changed texts", changed_swept, program, FILE, part
    yield from enforced_texts.tasks(program)
    yield from witness_texts.tasks(program)
    yield from option_texts.tasks(program)
    for name in (FILE, "gaps.csv"):
        yield "cut texts", cut_swept, program, name
    for part in range(CHANGED_PARTS):
        yield "changed texts", changed_swept, program, "gaps.csv", part
    yield "shown lookups", shown_swept, program, range(0, 300, 2), [], showing.faults_of
    yield "shown lookups as JSON", shown_swept, program, range(0, 80, 2), ["--json"], showing.faults_of_json
    yield "cases", cases_swept, program
    yield "small tables", tables_swept, program
    yield "files and words", files_swept, program
    yield "streams", streams_swept, program
