"""Texts from outside, read as lookups and as indexed declarations: cut, changed, deep, long."""
import json

from .reading import KINDS, text_fault
from .runs import swept


def packed(value):
    return json.dumps(value, separators=(",", ":")).encode()


CELL = {"Leaf": {"Variable": {"entry": {"Main": {"offset": 0}}, "index": 0}}}
PUBLIC = {"Leaf": {"Variable": {"entry": "Public", "index": 1}}}
SUM = {"Add": [{"Mul": [{"Neg": CELL}, {"Leaf": {"Constant": 6}}]}, {"Sub": [{"Leaf": "IsFirstRow"}, PUBLIC]}]}


def lookup_text(**changed):
    lists = {"elements": [[CELL]], "multiplicities": [SUM]}
    return {"kind": {"Global": "bus"}, **lists, "count_weight": 1, "column": 0, "flags": [CELL], **changed}


READER = {"table": "t", "position": 0, "payload": [1]}
TABLE = {"name": "t", "window": "Main", "columns": [1, 2]}

# Short texts, each of whose bytes is changed to every other one.
SHORT = {"lookups": packed([lookup_text()]), "declarations": packed({"reads": [READER], "tables": [TABLE]})}


def answered(shim, program, kind, texts):
    """The answers to texts, each on a line of its own, and the greatest number of bytes that was held."""
    (ran,) = swept(shim, program, ["lines", kind], b"\n".join(texts) + b"\n", last=0)
    if ran.status or ran.live or ran.errors:
        raise RuntimeError(f"{kind}: status {ran.status}, {ran.live} blocks are not freed, {ran.errors!r}")
    return ran.output.decode().splitlines(), ran.peak


def lines_swept(shim, program, kind, texts):
    answers, _ = answered(shim, program, kind, texts)
    faults = [text_fault(kind, text, line) for text, line in zip(texts, answers)]
    faults += [] if len(answers) == len(texts) else [f"{kind}: {len(answers)} answers to {len(texts)} texts"]
    return len(texts), [it for it in faults if it], {}


def cut_swept(shim, program, kind, _part):
    """The short text, cut at each byte."""
    return lines_swept(shim, program, kind, [SHORT[kind][:end] for end in range(len(SHORT[kind]) + 1)])


PARTS = 4


def changed_swept(shim, program, kind, part):
    """The short text with each of its bytes changed to each other one but a line feed, which ends a text. A part of
    the places, so that they are tried side by side."""
    text = SHORT[kind]
    places = [(place, byte) for place in range(part, len(text), PARTS) for byte in range(256) if byte != 10]
    texts = [text[:place] + bytes([byte]) + text[place + 1 :] for place, byte in places]
    return lines_swept(shim, program, kind, texts)


def unknown_kind_swept(shim, program, _kind, _part):
    """A kind of texts that is none is refused."""
    (ran,) = swept(shim, program, ["lines", "lookup"], b"[]\n", last=0)
    return 1, [] if (ran.status, ran.output) == (3, b"") else [f"lines lookup: {str(ran)[:200]}"], {}


# --- nested texts ---

# Nested objects and lists that `serde_json` reads, and those of the expression that layers are put around.
NESTED, OF_CELL = 127, 5

# The places of an expression in a list of lookups, and the nested objects and lists around it.
PLACES = {
    "elements": (4, lambda tree: lookup_text(elements=[[tree]])),
    "multiplicities": (3, lambda tree: lookup_text(multiplicities=[tree])),
    "flags": (3, lambda tree: lookup_text(flags=[tree])),
}

ONE = packed({"Leaf": {"Constant": 1}})

# What a layer begins and ends with, and the objects and lists that it has.
LAYERS = {
    "Neg": (b'{"Neg":', b"}", 1),
    **{f"{node} on the left": (b'{"%s":[' % node.encode(), b"," + ONE + b"]}", 2) for node in ("Add", "Sub", "Mul")},
    **{f"{node} on the right": (b'{"%s":[' % node.encode() + ONE + b",", b"]}", 2) for node in ("Add", "Sub", "Mul")},
}

HOLE = {"Leaf": {"Constant": 5}}


def nested(place, layer, count):
    """A list of one lookup with an expression of so many layers in this place."""
    start, end, _ = LAYERS[layer]
    tree = start * count + packed(CELL) + end * count
    return packed([PLACES[place][1](HOLE)]).replace(packed(HOLE), tree)


def nested_swept(shim, program, kind, _part):
    """In each place and of each layer an expression as deep as is read, and one that is a layer deeper."""
    pairs = []
    for place, (around, _) in PLACES.items():
        for layer, (_, _, levels) in LAYERS.items():
            most = (NESTED - OF_CELL - around) // levels
            pairs += [(nested(place, layer, most), "read: "), (nested(place, layer, most + 1), "refused: Syntax")]
    answers, _ = answered(shim, program, kind, [text for text, _ in pairs])
    faults = [] if len(answers) == len(pairs) else [f"{len(answers)} answers to {len(pairs)} texts"]
    for (text, wanted), line in zip(pairs, answers):
        if not line.startswith(wanted) or wanted == "read: " and text_fault(kind, text, line):
            faults.append(f"{text[:200]!r}: {line[:200]}, and not {wanted}")
    return len(pairs), faults, {}


# --- long texts ---

MANY = 1000000
DIGITS = b"1" * 100000
NAME = b"n" * MANY


def with_part(kind, old, new):
    assert SHORT[kind].count(old) == 1, old
    return SHORT[kind].replace(old, new)


def with_column(column):
    return with_part("declarations", b"[1,2]", b"[1," + column + b"]")


# Long texts: a name, the kind, how the text is made, and what the answer begins with.
LONG = [
    ("deep negations", "lookups", lambda: nested("elements", "Neg", MANY), "refused: Syntax"),
    ("deep sums on the left", "lookups", lambda: nested("elements", "Add on the left", MANY), "refused: Syntax"),
    ("deep sums on the right", "lookups", lambda: nested("flags", "Add on the right", MANY), "refused: Syntax"),
    ("deep lists", "lookups", lambda: b"[" * MANY, "refused: "),
    ("a weight", "lookups", lambda: with_part("lookups", b'weight":1', b'weight":' + DIGITS), "refused: "),
    ("a constant", "lookups", lambda: with_part("lookups", b'"Constant":6', b'"Constant":' + DIGITS), "refused: "),
    ("an index", "lookups", lambda: with_part("lookups", b'"index":1', b'"index":' + DIGITS), "refused: "),
    ("a column", "declarations", lambda: with_column(DIGITS), "refused: "),
    ("the name of a bus", "lookups", lambda: with_part("lookups", b"bus", NAME), "read"),
    ("the name of a table", "declarations", lambda: with_part("declarations", b'name":"t', b'name":"' + NAME), "read"),
    ("the name of a variant", "lookups", lambda: with_part("lookups", b"IsFirstRow", NAME), "refused: Data"),
    ("the name of a member", "lookups", lambda: with_part("lookups", b"flags", NAME), "read"),
    ("columns", "declarations", lambda: with_column(b"1," * MANY + b"1"), "malformed: RepeatedColumn"),
    ("tuples", "lookups", lambda: with_part("lookups", b"[[", b"[" + b"[]," * MANY + b"["), "malformed: BadRecord"),
]

# How many bytes are held at the most for each byte of a long text, and beside that.
HELD, BESIDE = 20, 1 << 16


def too_much(name, text, peak):
    return [f"{name}: {peak} bytes are held for a text of {len(text)}"] if peak > HELD * len(text) + BESIDE else []


def long_swept(shim, program, place, _part):
    """The answer to a long text, and the memory that it takes."""
    name, kind, make, wanted = LONG[place]
    text = make()
    (line,), peak = answered(shim, program, kind, [text])
    faults = [] if line.startswith(wanted) else [f"{name}: {line[:200]}"]
    faults += [f"{name}: read with another value"] if wanted == "read" and text_fault(kind, text, line) else []
    return 1, faults + too_much(name, text, peak), {}


def many_swept(shim, program, _place, _part):
    """A list of a million lookups is read, and written as it was."""
    start, end = b'{"kind":"Local","elements":[],"multiplicities":[],"count_weight":1,"column":', b',"flags":null}'
    text = b"[" + b",".join(start + str(place).encode() + end for place in range(MANY)) + b"]"
    (line,), peak = answered(shim, program, "lookups", [text])
    faults = [] if line.encode() == b"read: " + text else [f"{MANY} lookups: {line[:200]}"]
    return 1, faults + too_much(f"{MANY} lookups", text, peak), {}


def tasks():
    """What there is to try, the longest first: its name, the call, and two words of it."""
    yield "a million lookups", many_swept, None, None
    for kind in KINDS:
        for part in range(PARTS):
            yield "changed texts", changed_swept, kind, part
    for kind in KINDS:
        yield "cut texts", cut_swept, kind, None
    yield "nested texts", nested_swept, "lookups", None
    yield "an unknown kind", unknown_kind_swept, None, None
    for place in range(len(LONG)):
        yield "long texts", long_swept, place, None
