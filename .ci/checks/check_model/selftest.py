"""A test of the judge: answers written by hand, each with the number of faults that it has, and programs that are not
the one that is wanted."""
import collections
import shutil

from . import batches, enforced_texts, option_texts, selftest_more, showing, telling, texts, witness_texts
from .fields import FIELDS, ask
from .running import Answer, differences, room, unlawful, written
from .texts import REFUSED, long_faults, memory_faults

REPORT = Answer(1, b"AIRS\nNOT BALANCED\n", b"")
REFUSAL = Answer(2, b"", b"b.lookups:1:1: error: expected `bus` or `air`\n")

# An answer that is wanted, one that is found, and how many differences they have.
DIFFERENT = [
    (REPORT, REPORT, 0),
    (REPORT, REPORT._replace(status=0), 1),
    (REPORT, REPORT._replace(output=b"AIRS\nBALANCED\n"), 1),
    (REPORT, REPORT._replace(output=REPORT.output + b"\n"), 1),
    (REPORT, REPORT._replace(output=REPORT.output[:-1]), 1),
    (REPORT, REPORT._replace(errors=b"\n"), 1),
    (REFUSAL, REFUSAL, 0),
    (REFUSAL, REFUSAL._replace(errors=REFUSAL.errors.replace(b":1: ", b":2: ")), 1),
    (REFUSAL, REFUSAL._replace(output=b"AIRS\n"), 1),
    (REFUSAL, REPORT, 1),
]
# An answer, and how many faults it has whatever has to be written.
UNLAWFUL = [
    (REPORT, 0),
    (REFUSAL, 0),
    (REPORT._replace(status=0), 0),
    (REPORT._replace(status=2), 1),
    (REPORT._replace(status=3), 1),
    (REPORT._replace(status=-11), 1),
    (REPORT._replace(errors=b"x"), 1),
    (REFUSAL._replace(errors=b""), 1),
    (REFUSAL._replace(status=1), 1),
    (Answer(0, b"", b""), 1),
]
# An answer to a long text, what is right, and how many faults it has.
LONG = [
    (REPORT, (1, b"NOT"), 0),
    (REPORT, (0, b"NOT"), 1),
    (REPORT, (1, b"none"), 1),
    (REFUSAL, (2, b":1:1:"), 0),
    (REFUSAL, (2, b":1:2:"), 1),
    (Answer(*REFUSED), (2, b":1:1:"), 1),
    (REPORT._replace(status=-9), (1, b""), 1),
]
Ran = collections.namedtuple("Ran", "refused live")
# Runs in which requests are refused, and how many faults they have.
MET, LAST, OUT = Ran(1, 0), Ran(0, 0), Answer(*REFUSED)
MEMORY = [
    ([(OUT, MET), (REPORT, MET), (REPORT, LAST)], 0),
    ([(REPORT, MET), (REPORT, LAST)], 1),
    ([(OUT, MET), (REFUSAL, MET), (REPORT, LAST)], 1),
    ([(OUT, Ran(1, 3)), (REPORT, LAST)], 1),
    ([(OUT, MET), (OUT, LAST)], 1),
]

SIZE = FIELDS[b"babybear4"].characteristic
# How many bits are left of the extension, reckoned apart: its size is 2013265921^4, just below 2^123.63.
BITS = [((0, 1), 123), ((1, 1), 122), ((57, 39), 117), ((SIZE**4, 0), 0), ((SIZE**4, 1), 0), ((SIZE**5, 0), 0)]


def counted(what, found, wanted):
    return [] if found == wanted else [f"{what}: {found}, and not {wanted}"]


def of_answers():
    ask()
    for wanted, found, count in DIFFERENT:
        yield from counted(f"differences of {found}", len(list(differences(wanted, found))), count)
    for found, count in UNLAWFUL:
        yield from counted(f"faults of {found}", len(list(unlawful(found))), count)
    for found, right, count in LONG:
        yield from counted(f"faults of {found}, where {right} is right", len(list(long_faults(found, *right))), count)
    for runs, count in MEMORY:
        yield from counted(f"faults of {runs}", len(list(memory_faults(REPORT, runs))), count)
    for (betas, alphas), bits in BITS:
        yield from counted(f"bits of {betas} and {alphas}", telling.counting.bits_of(betas, alphas), bits)


def of_programs():
    """Programs that write nothing, or their words: each of their runs is told."""
    for name in ("true", "false", "echo"):
        program = shutil.which(name)
        count, faults, _ = texts.tables_swept(program)
        yield from counted(f"{name}, small tables", len(faults), count)
        count, faults, _ = texts.long_swept(program, 0)
        yield from counted(f"{name}, a long text", min(1, len(faults)), count)
        for swept in (option_texts.names_swept, witness_texts.numbers_swept):
            count, faults, _ = swept(program)
            yield from counted(f"{name}, {swept.__name__}", len(faults), count)
        _, faults, _ = texts.cases_swept(program)
        yield from counted(f"{name}, cases", len(faults), len(texts.cases()))


SHOWN = """\
x (rows: 2, columns: 2, public values: 0)
  lookup  line  bus    tuple             counts  when  weight
       0     3  m      (a - (b - 1), 2)  -b      -          0
       1     4  local  (a * a)           1       -          1
"""
# What is shown otherwise, and how many faults that has.
SHOWN_OTHERWISE = [
    ("", "", 0),
    ("(a - (b - 1), 2)", "(a - b - 1, 2)  ", 1),
    ("(a - (b - 1), 2)", "(a - (b - 1))   ", 1),
    ("-b ", "b  ", 1),
    ("-b      - ", "-b      a ", 1),
    ("local", "m    ", 1),
    ("a * a", "a + a", 1),
    ("          0", "          1", 1),
    ("       1     4  local  (a * a)           1       -          1\n", "", 1),
    ("a * a", "a * c", 1),
    ("x (", "y (rows: 2)\n\nx (", 1),
]


A, B = ('{"Leaf":{"Variable":{"entry":{"Main":{"offset":0}},"index":%d}}}' % index for index in (0, 1))
ONE = '{"Leaf":{"Constant":1}}'
LOOKUPS = (
    '[{"name":"x","lookups":[{"kind":{"Global":"m"},"elements":[[{"Sub":[.A,{"Sub":[.B,.1]}]},{"Add":[.1,.1]}]],"multiplicities":[{"Neg":.B}],'
    '"count_weight":0,"column":0,"flags":null},{"kind":"Local","elements":[[{"Mul":[.A,.A]}]],"multiplicities":[.1],'
    '"count_weight":1,"column":1,"flags":null}]}]\n'
)
SHOWN_AS_JSON = LOOKUPS.replace(".A", A).replace(".B", B).replace(".1", ONE)
JSON_OTHERWISE = [
    ("", "", 0),
    ('{"Global":"m"}', '"Local"', 1),
    ('"Local"', '{"Global":"local"}', 1),
    ('"Sub"', '"Add"', 1),
    ('"Mul"', '"Times"', 1),
    ('"Neg":', '"Leaf":', 1),
    ('"offset":0', '"offset":1', 1),
    ('"index":0', '"index":1', 1),
    ('"Constant":1', '"Constant":2', 1),
    ('"Constant":1', '"Constant":2013265922', 1),
    ('"Constant":1', '"Constant":"1"', 1),
    ('"Main"', '"Preprocessed"', 1),
    ('"count_weight":1', '"count_weight":0', 1),
    ('"flags":null', '"flags":[]', 1),
    ('"flags":null', '"flag":null', 1),
    ("]}]\n", "]},{}]\n", 1),
    ("]}]\n", "]}]", 1),
    ('"x"', '"y"', 1),
    ('"x",', '"x","more":1,', 1),
    (SHOWN_AS_JSON, "[]\n", 1),
    (SHOWN_AS_JSON, "{\n", 1),
]


def of_shown():
    text = b"air x {\ntrace \"t.csv\"\nprovide m(a - (b - 1), 2) times b\nquery local(a^2)\n}\n"
    kinds = (SHOWN, SHOWN_OTHERWISE, showing.faults_of), (SHOWN_AS_JSON, JSON_OTHERWISE, showing.faults_of_json)
    with room() as folder:
        written(folder, {"t.csv": b"a,b\n1,5\n3,4\n"})
        for shown, otherwise, faults_of in kinds:
            for old, new, count in otherwise:
                faults, _ = faults_of(text, folder, shown.replace(old, new, 1).encode())
                yield from counted(f"{new!r} in place of {old!r} is shown", len(faults), count)


def of_batches():
    """A seed gives one batch, and a changed table another report."""
    if batches.batch_of_seed(3) != batches.batch_of_seed(3):
        yield "a seed gives two batches"
    if telling.refused_at(b"b", b"x\n", 0, "Section") == telling.refused_at(b"b", b" x\n", 1, "Section"):
        yield "two places are told alike"


def judge_itself():
    """Tests the judge. Returns the status."""
    more = [it for rows in (selftest_more.rows(), enforced_texts.rows()) for row in rows for it in counted(*row)]
    faults = [*of_answers(), *of_programs(), *of_shown(), *of_batches(), *more]
    for fault in faults:
        print(f"check_texts --judge: {fault}")
    print(f"check_texts --judge: {len(faults)} faults of the judge")
    return 1 if faults else 0
