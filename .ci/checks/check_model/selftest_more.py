"""A test of the judge, and of the model, for witnesses, answers as JSON, targets and steps."""
import itertools
import re

from . import meaning, model, option_texts, reading, witness_texts, witnesses
from .comparing import TOP, modelled
from .fields import FIELDS, ask
from .objects import Json
from .running import Answer, Either, differences, room, written

# --- forms ---

LINE = Answer(2, b"", re.compile(rb"w:3: error: [^\n]+\n"))
NOT_ACCEPTED = Answer(1, model.NOT_FOR_A_ROW, b"")
EITHER = Either([LINE, NOT_ACCEPTED])
SAID = Answer(1, b"NOT ACCEPTED: 2 AIRs, and not 1\n", b"")
OBJECT = {"format": 1, "text": "1", "list": [1, None, True], "bits": None}
# An answer that is wanted, one that is found, and how many differences they have.
FORMS = [
    (LINE, LINE._replace(errors=b"w:3: error: x\n"), 0),
    (LINE, LINE._replace(errors=b"w:4: error: x\n"), 1),
    (LINE, LINE._replace(errors=b"w:3: error: \n"), 1),
    (LINE, LINE._replace(errors=b"w:3: error: x"), 1),
    (LINE, LINE._replace(errors=b"w:3: error: x\n\n"), 1),
    (LINE, LINE._replace(errors=b"w:3: error: x\n", output=b"ACCEPTED\n"), 1),
    (NOT_ACCEPTED, SAID, 0),
    (NOT_ACCEPTED, SAID._replace(status=0), 1),
    (NOT_ACCEPTED, SAID._replace(output=b"NOT ACCEPTED: \n"), 1),
    (NOT_ACCEPTED, SAID._replace(output=b"NOT ACCEPTED: air 0: constraint failed at row 1\n"), 1),
    (NOT_ACCEPTED, SAID._replace(output=b"ACCEPTED: 2 AIRs\n"), 1),
    (NOT_ACCEPTED, SAID._replace(errors=b"x\n"), 1),
    (EITHER, SAID, 0),
    (EITHER, LINE._replace(errors=b"w:3: error: x\n"), 0),
    (EITHER, LINE._replace(errors=b"w:2: error: x\n"), 1),
    (EITHER, SAID._replace(status=0), 1),
]
# A text in place of the object above, and how many differences it has.
OBJECTS = [
    ('{"format":1,"text":"1","list":[1,null,true],"bits":null}\n', 0),
    ('{ "bits": null, "list": [1, null, true], "text": "\\u0031", "format": 1 }\n', 0),
    ('{"format":1,"text":"1","list":[1,null,true],"bits":null}', 1),
    ('{"format":1,"text":"1",\n"list":[1,null,true],"bits":null}\n', 1),
    ('{"format":1,"text":1,"list":[1,null,true],"bits":null}\n', 1),
    ('{"format":"1","text":"1","list":[1,null,true],"bits":null}\n', 1),
    ('{"format":1.0,"text":"1","list":[1,null,true],"bits":null}\n', 1),
    ('{"format":true,"text":"1","list":[1,null,true],"bits":null}\n', 1),
    ('{"format":1,"text":"2","list":[1,null,true],"bits":null}\n', 1),
    ('{"format":1,"text":"1","list":[1,null,1],"bits":null}\n', 1),
    ('{"format":1,"text":"1","list":[1,null],"bits":null}\n', 1),
    ('{"format":1,"text":"1","list":[1,true,null],"bits":null}\n', 1),
    ('{"format":1,"text":"1","list":[1,null,true],"bits":0}\n', 1),
    ('{"format":1,"text":"1","list":[1,null,true]}\n', 1),
    ('{"format":1,"text":"1","list":[1,null,true],"bits":null,"more":1}\n', 1),
    ('{"format":1,"text":"1","text":"1","list":[1,null,true],"bits":null}\n', 1),
    ('{"format":1,"text":"1","list":[1,null,true],"bits":NaN}\n', 1),
    ('[{"format":1,"text":"1","list":[1,null,true],"bits":null}]\n', 1),
    ('{"format":1,"text":"\xff","list":[1,null,true],"bits":null}\n', 1),
    ("\n", 1),
]

# --- spoilt answers ---

FIRST = "examples/first/first.lookups --field f7 --alpha 5 --beta 2"
MEMORY, BITS = "examples/memory/memory.lookups", "bits --messages 1000 --width 3"
PACK = "pack examples/packing/packing.lookups --degree 3"
ACCEPT = f"accept {FIRST} --witness examples/first"
# Words, and what stands in the answer in place of something else. Each is one difference.
SPOILT = [
    (f"witness {FIRST}", "0 4", "0 5"),
    (f"witness {FIRST}", "4 3", "3 3"),
    (f"witness {FIRST}", "air 0", "air 1"),
    (f"witness {FIRST}", "terminal 0\n", ""),
    (f"witness {FIRST}", "terminal 0", "terminal 00"),
    (f"witness {FIRST}", "0 4", "0 4 "),
    ("witness examples/first/first.lookups --field goldilocks2 --alpha 0,1 --beta 0,0", "0,0 7", "0 7"),
    (f"{ACCEPT}/witness.txt", "ACCEPTED", "NOT ACCEPTED"),
    (f"{ACCEPT}/wrong-witness.txt", "row 1", "row 0"),
    (f"{ACCEPT}/wrong-witness.txt", "air 0", "air 1"),
    (f"{ACCEPT}/wrong-witness.txt", "NOT ACCEPTED: air 0: constraint failed at row 1", "NOT ACCEPTED: the terminals"),
    (f"any {FIRST}", "SOME WITNESS", "NO WITNESS"),
    (f"any {FIRST.replace('5', '1')}", "NO WITNESS", "SOME WITNESS"),
    (f"check {MEMORY} --json", '"bits":117', '"bits":116'),
    (f"check {MEMORY} --json", '"weight":"3"', '"weight":3'),
    (f"check {MEMORY} --json", '"sent":6', '"sent":"6"'),
    (f"check {MEMORY} --json", '"balanced":true', '"balanced":false'),
    (f"check {MEMORY} --json", '"name":"gaps","air":null', '"name":"gaps","air":2'),
    ("check examples/first/unbalanced.lookups --field f7 --json", '"row":1', '"row":0'),
    ("check examples/first/unbalanced.lookups --field f7 --json", '"count":"1"', '"count":"-1"'),
    (f"plan {MEMORY} --json", '"target":null', '"target":0'),
    (f"plan {MEMORY} --json --target 117", '"meets":true', '"meets":false'),
    (f"pack {MEMORY} --degree 2 --json", '"packed_degrees":[2,2,2]', '"packed_degrees":[3,2]'),
    (f"{PACK} --json", "[[0],[8],[1,3]", "[[8],[0],[1,3]"),
    (f"{PACK} --json", "[5,7]]", "[5],[7]]"),
    (f"{PACK}", "line 14, query of line 16", "line 14, query of line 17"),
    (f"{PACK}", "degree 4 (above 3)", "degree 4          "),
    (f"{PACK}", "COLUMNS", "SHARED"),
    (f"{BITS} --json", '"field":"f7","bits":0', '"field":"f7","bits":null'),
    (f"{BITS}", "  Goldilocks^2    115\n", ""),
    (f"{BITS} --target 111", "MET", "MISSED"),
    (f"{BITS} --target 112", "  TARGET MISSED: 112 bits are wanted\n", ""),
    (f"plan {MEMORY} --target 118", "MISSED", "MET"),
    (f"plan {MEMORY} --target 118", "118 bits", "117 bits"),
]


def as_written(part):
    return part.text() if isinstance(part, Json) else part


def of_spoilt():
    """The model's own answers, and the same spoilt: in their text, and in their status."""
    for words, old, new in SPOILT:
        wanted = modelled(TOP, words.encode().split())
        plain = Answer(wanted.status, as_written(wanted.output), as_written(wanted.errors))
        spoilt = plain._replace(output=plain.output.replace(old.encode(), new.encode(), 1))
        for found, count in [(plain, 0), (spoilt, 1), (plain._replace(status=1 - plain.status), 1)]:
            yield f"{words}: {new!r} in place of {old!r}", len(list(differences(wanted, found))), count


# --- witness texts ---

# Texts over F7: the lines at which they are refused, whether they may be read too; or None where they are read.
READ = [
    (b"", None),
    (b"air 0\n0 4\n4 3\nterminal 0\n", None),
    (b"air 0\nair 1\n0 1 2\nterminal 3\nair 2\n", None),
    (b"air 0\n\nair 1\n0 1 2\nterminal 3\n", ([2], False)),
    (b"air 0\n0 4\n4 3\nterminal 0", ([4], False)),
    (b"air 0\r\n0 4\n", ([1], False)),
    (b"air 1\n", ([1], False)),
    (b"\nair 0\n", ([1], False)),
    (b"air 0\n0 04\n", ([2], False)),
    (b"air 0\n0 7\n", ([2], False)),
    (b"air 0\n0,0 4\n", ([2], False)),
    (b"air 0\n0  4\n", ([2], False)),
    (b"air 0\n0 4\nterminal 0\n\n", ([4], False)),
    (b"air 0\n0 4\nterminal\n", ([3], False)),
    (b"air 0\n0 4\n4\nterminal 0\n", ([3], True)),
    (b"air 0\n0 4\n4\nterminal 00\n", ([3, 4], False)),
    (b"air 0\n0 4\n", ([2, 3], True)),
    (b"air 0\n0 4\nair 1\n0 4\nterminal 0\n", ([2, 3], True)),
]


def lines_of(text):
    ask(b"f7")
    try:
        witnesses.read(text)
        return None
    except witnesses.WitnessFault as fault:
        return fault.lines, fault.is_read


def of_texts():
    for text, wanted in READ:
        yield f"the lines of {text}", lines_of(text), wanted
    for field in FIELDS:
        ask(field)
        element = tuple(range(FIELDS[field].extension))
        text = witnesses.element_text(element)
        yield f"{text} in {field}", witnesses.element_in(text, witnesses.TEXT), element
        yield f"{text},0 in {field}", witnesses.element_in(text + b",0", witnesses.TEXT), None


# --- the model ---

# Batches of one row over F7, each with a = 3, b = 4 and c = 0.
SMALL = [
    "query m(a)", "query m(a)\nreceive m(a)", "query m(a)\nreceive m(b)", "together {\nquery m(a)\nquery m(b)\n}",
    "query m(a) times c at most 1", "query m(a) times c at most 1\nquery m(b)", "query local(a)\nquery local(a)",
    "together {\nquery m(a) times c at most 1\nprovide m(b)\n}\nquery m(a)", "exclusive {\nwhen c query m(a)\n}",
    "exclusive {\nwhen c query m(a)\nwhen 1 query m(b)\n}\nprovide m(b)", "query m(a, b)\nquery m(b, a)", "let d = a",
    "query m(a) times 2 at most 0\nprovide n(a)", "exclusive {\nwhen 1 - c query m(a) times c at most 1\n}\nquery m(b)",
]  # fmt: skip


def airs_of(items):
    with room() as folder:
        written(folder, {"t.csv": b"a,b,c\n3,4,0\n"})
        text = b'air x {\ntrace "t.csv"\n%s\n}\n' % items.encode()
        return meaning.airs_of(reading.batch_of(text), folder)[0]


def is_accepted(equations, witness):
    held = witnesses.has_shape(equations, witness) and witnesses.first_fault(equations, witness) is None
    return held and not any(witnesses.terminal_sum(witness))


def of_model():
    """Over F7 at each pair of challenges: a search through all fractions says whether a witness is accepted."""
    ask(b"f7")
    for items in SMALL:
        airs = airs_of(items)
        for alpha, beta in itertools.product(range(7), repeat=2):
            equations = witnesses.equations_of(airs, (alpha,), (beta,))
            every = itertools.product([(number,) for number in range(7)], repeat=len(airs[0].lookups))
            found = any(is_accepted(equations, [witnesses.summed([list(row)])]) for row in every)
            yield f"{items!r} at {alpha}, {beta}", witnesses.has_any(equations), found
            made = witnesses.accepted_one(equations)
            yield f"a witness of {items!r} at {alpha}, {beta}", made is not None and is_accepted(equations, made), found


# --- steps and files ---

STEPS = b"lookup-check: 0.000 s: reading\nlookup-check: 12.345 s: done\n"
# The errors of a run that should have written REPORT with its steps, and how many faults it has.
TOLD = [
    (STEPS, 0),
    (b"", 1),
    (STEPS + b"x\n", 1),
    (STEPS.replace(b"0.000", b"0.00"), 1),
    (STEPS.replace(b"0.000", b".000"), 1),
    (STEPS.replace(b" s:", b"s:", 1), 1),
    (STEPS.replace(b"reading", b""), 1),
    (STEPS[:-1], 1),
]
WITNESS = witness_texts.WITNESS_TEXT
# A run that should have written a witness to a file, whether that can be, what the file has, and its faults.
OUT = [
    (Answer(0, b"", b""), True, WITNESS, 0),
    (Answer(0, b"", b""), True, WITNESS[:-1], 1),
    (Answer(0, b"", b""), True, None, 1),
    (Answer(0, WITNESS, b""), True, WITNESS, 1),
    (Answer(0, b"", b"x"), True, WITNESS, 1),
    (Answer(1, b"", b""), True, WITNESS, 1),
    (Answer(2, b"", b"error: x\n"), False, None, 0),
    (Answer(2, b"", b""), False, None, 1),
    (Answer(0, b"", b""), False, None, 1),
]


def of_runs():
    report = Answer(0, b"AIRS\n", b"")
    for errors, count in TOLD:
        yield f"steps {errors}", len(list(option_texts.steps_faults(report, report._replace(errors=errors)))), count
    for found, is_written, file, count in OUT:
        yield f"{found}, {file}", len(list(witness_texts.out_faults(found, is_written, file))), count


def rows():
    """What is judged, how many faults are found, and how many have to be."""
    for wanted, found, count in FORMS:
        yield f"differences of {found}", len(list(differences(wanted, found))), count
    for text, count in OBJECTS:
        told = [it for it in [Json(OBJECT).unlike(text.encode("latin-1"))] if it]
        yield f"the object {text!r}", len(told), count
    yield from of_spoilt()
    yield from of_texts()
    yield from of_model()
    yield from of_runs()
