"""Fields, the answers as JSON, targets and steps told: over random batches and the examples."""
import random
import re

from . import batches, counting, meaning, model, reading
from .comparing import TOP, bytes_of, compared, modelled, run_compared
from .fields import FIELDS, ask
from .running import FILE, answer_of, differences, room, written
from .telling import most_bits

# --- fields ---

ONE_ROW = b"air x {\n%s}\n"
# Items of an AIR over each field, whose one row is a = 0: the weights and numbers around the characteristic P, and as
# many ids as there are numbers in F7.
ITEMS = [
    b"query m(P)", b"query m(a) times P", b"query m(a) times a at most P", b"query m(a - 1)", b"query m(1 - P)",
    *(b"query m(a) times a at most " + it for it in (b"5", b"6", b"7", b"LARGEST", b"18446744073709551615")),
    b"query m(a) times a at most LARGEST\nquery m(a) times a at most 1", b"query m(a) times LARGEST at most 1",
    b"query m(a)\nquery m(a) times a at most 18446744073709551615", b"exclusive {\nwhen 1 + P query m(a)\n}",
    b"exclusive {\nwhen LARGEST query m(a)\n}", b"exclusive {\nwhen a query m(a)\nwhen 8 query m(1)\n}",
    b"public p = P\nquery m(p)", b"let d = LARGEST\nquery m(d + 2) times d * d at most 1",
    *(b"provide local(a)\n" * count for count in (6, 7, 8, 9)), b"provide m(a)\nprovide n(a)\n" + b"provide local(a)\n" * 6,
]  # fmt: skip
# Cells in place of the one of such a table.
CELLS = [b"P", b"-P", b"LARGEST", b"-LARGEST", b"7", b"18446744073709551616", b"4294967296", b"-4294967295"]


def filled(text, field):
    most = FIELDS[field].characteristic
    return text.replace(b"P", b"%d" % most).replace(b"LARGEST", b"%d" % (most - 1))


def fields_swept(program):
    """Numbers and weights around the characteristic of each field."""
    faults, count = [], 0
    with room() as folder:
        for field in FIELDS:
            tried = [(b'trace "t.csv"\n%s\n' % item, b"0") for item in ITEMS]
            tried += [(b'trace "t.csv"\nquery m(a)\n', cell) for cell in CELLS]
            for items, cell in tried:
                files = {FILE: ONE_ROW % filled(items, field), "t.csv": b"a\n%s\n" % filled(cell, field)}
                words = [["check"], ["plan"], ["check", "--json"]][count % 3] + ["--field", field.decode()]
                faults += compared(program, folder, f"{field}, {items}, {cell}, {words}", files, words)
                count += 1
    return count, faults, {}


# --- JSON ---


def json_words(draw, seed):
    words = batches.words_of_seed(seed)
    if words[0] == "plan" and draw.random() < 0.5:
        words += ["--target", draw.choice(["0", "1", "30", "120", "125"])]
    words.insert(draw.choice([1, len(words)]), "--json")
    return words


def json_swept(program, seeds):
    """The answers as JSON over the random batches of these seeds."""
    faults = []
    with room() as folder:
        for seed in seeds:
            words = json_words(random.Random(f"json {seed}"), seed)
            text, files = batches.batch_of_seed(seed, batches.field_in(words))
            faults += compared(program, folder, f"seed {seed}, {' '.join(words)}", {**files, FILE: text}, words)
    return len(seeds), faults, {}


# Names that need care in JSON: of an AIR, of a bus and of a file.
NAMES = [
    b'a\\"b', b"\x01\x1f\x7f", b"\t\r", "é\U0001f600\u2028".encode(), b"\xff", b"\xed\xa0\x80", b"</script>",
    b"\\u0041", b"/",
]  # fmt: skip


def names_swept(program):
    """Names that need care in JSON."""
    faults = []
    with room() as folder:
        for name in NAMES:
            text = b'air `%s` {\n trace "t.csv"\n query local(a)\n query `%s`(a)\n}\n'
            bus = name if meaning.is_utf8(name) else b"m"
            files = {FILE: text % (name, bus), "t.csv": b"a\n1\n"}
            faults += compared(program, folder, f"name {name!r}", files, ["check", "--json"])
        for name in (b"t\xff.csv", "t\\é.csv".encode(), b"t'\x01.csv"):
            files = {FILE: b'air x {\n trace "%s"\n query m(a)\n}\n' % name, name: b"a\n1\n"}
            faults += compared(program, folder, f"file {name!r}", files, ["check", "--json"])
    return len(NAMES) + 3, faults, {}


# --- targets ---

PLANNED = ("examples/memory/memory.lookups", "examples/range/range.lookups", "examples/cpu/cpu.lookups")
# Numbers of `bits`: of messages, of unbalanced ones and of values, and around which powers of 2 they are drawn.
POWERS = (0, 1, 5, 20, 31, 40, 60)


def bits_words(draw):
    """The words of `bits` with a target near the bits that are left."""
    near = lambda: max(0, 2 ** draw.choice(POWERS) + draw.choice([-1, 0, 1]))  # noqa: E731
    messages = near()
    unbalanced = min(messages, draw.choice([0, near(), near(), messages]))
    width = draw.choice([1, 1, 2, 3, 1000])
    words = ["bits", "--messages", f"{messages}"]
    words += ["--unbalanced", f"{unbalanced}"] if unbalanced != messages or draw.random() < 0.5 else []
    words += ["--width", f"{width}"] if width > 1 else []
    field = draw.choice([*FIELDS])
    words += ["--field", field.decode()] if field != b"babybear4" or draw.random() < 0.5 else []
    left = counting.left_of(messages, unbalanced, width)
    bits = counting.bits_of(*left, FIELDS[field]) if unbalanced else 500
    words += ["--target", f"{max(0, bits + draw.choice([-1, 0, 0, 1, 1]))}"] if draw.random() < 0.8 else []
    return words + ["--json"] * (draw.random() < 0.3)


def bits_swept(program, seeds):
    """Random questions of `bits`, with targets."""
    faults = []
    for seed in seeds:
        words = bits_words(random.Random(f"bits {seed}"))
        faults += run_compared(program, TOP, list(map(str.encode, words)))
    return len(seeds), faults, {}


def bits_of_plan(file, field):
    ask(field)
    airs = meaning.planned_of(reading.batch_of(bytes_of(file)), f"{TOP}/{file.rpartition('/')[0]}")
    return most_bits(model.well_formed(airs))


def targets_swept(program):
    """Targets of `plan` around the bits that are left, in each field in which the batch can be."""
    faults, count = [], 0
    for file in PLANNED:
        for field in FIELDS:
            try:
                bits = bits_of_plan(file, field)
            except (counting.Refused, meaning.TableFault):
                bits = 1
            for target in (max(0, bits - 1), bits, bits + 1, 999):
                words = ["plan", "--target", f"{target}", file, "--field", field.decode()]
                words += ["--json"] if target == bits else []
                faults += run_compared(program, TOP, list(map(str.encode, words)))
                count += 1
    with room() as folder:
        for text in (b"", b"air x {\nheight 0\ncolumns (a)\nquery m(a)\n}\n", b"air x {\nheight 5\ncolumns (a)\n}\n"):
            for words in (["plan", "--target", "999"], ["plan", "--target", "999", "--json"]):
                faults += compared(program, folder, f"{words}, {text}", {FILE: text}, words)
                count += 1
    return count, faults, {}


# --- steps ---

STEP = re.compile(rb"lookup-check: [0-9]+\.[0-9]{3} s: [^\n]+\n")
STEPS_OF = [
    b"check examples/memory/memory.lookups", b"check examples/first/unbalanced.lookups --json",
    b"check examples/none.lookups", b"check examples/errors/column.lookups", b"check examples/errors/flags.lookups",
    b"plan examples/range/range.lookups", b"plan examples/memory/memory.lookups --target 118",
    b"pack examples/cpu/cpu.lookups --degree 4", b"check examples/errors/number.lookups",
    b"pack examples/memory/memory.lookups --degree 3 --json", b"check examples/cpu/cpu.lookups --field goldilocks2",
    b"witness examples/first/first.lookups --field f7 --alpha 5 --beta 2",
    b"any examples/first/first.lookups --field f7 --alpha 1 --beta 2",
    b"accept examples/first/first.lookups --field f7 --alpha 5 --beta 2 --witness examples/first/witness.txt",
    b"accept examples/first/first.lookups --field f7 --alpha 5 --beta 2 --witness examples/first/wrong-witness.txt",
    b"any examples/first/first.lookups --field f7 --alpha 7 --beta 2",
]  # fmt: skip


def without_steps(found):
    """An answer without the steps that it tells, and how many these are."""
    lines = found.errors.splitlines(keepends=True)
    others = [line for line in lines if not STEP.fullmatch(line)]
    return found._replace(errors=b"".join(others)), len(lines) - len(others)


def steps_faults(wanted, found):
    """What is wrong with an answer with its steps told."""
    rest, steps = without_steps(found)
    yield from differences(wanted, rest)
    if steps == 0 and found.status != 2:
        yield "no step is told"


def steps_swept(program):
    """Runs whose steps are told."""
    faults = []
    for words in map(bytes.split, STEPS_OF):
        found = answer_of(program, [words[0], b"--progress", *words[1:]], TOP)
        faults += [f"--progress, {words}: {it}" for it in steps_faults(modelled(TOP, words), found)]
    with room() as folder:
        for seed in range(0, 40, 4):
            words = batches.words_of_seed(seed)
            text, files = batches.batch_of_seed(seed, batches.field_in(words))
            written(folder, {**files, FILE: text})
            words = [*map(str.encode, words), FILE.encode()]
            found = answer_of(program, [*words, b"--progress"], folder)
            faults += [f"seed {seed}, --progress: {it}" for it in steps_faults(modelled(folder, words), found)]
    return len(STEPS_OF) + 10, faults, {}


# --- all of them ---


def tasks(program):
    """What there is to run: its name, the call and its words."""
    yield "fields", fields_swept, program
    yield "answers as JSON", json_swept, program, range(1000, 1120)
    yield "names in JSON", names_swept, program
    yield "questions of bits", bits_swept, program, range(80)
    yield "targets", targets_swept, program
    yield "steps", steps_swept, program
