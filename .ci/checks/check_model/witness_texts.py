"""Witnesses over which the program is run: those of random batches, changed ones, and hostile words and texts."""
import os
import random
import re

from . import batches, counting, meaning, model, reading, witnesses
from .comparing import bytes_of, modelled, run_compared
from .fields import ASKED, FIELDS, ask, minus, of, plus
from .running import FILE, answer_of, differences, room, unlawful, written

WITNESS = "witness.txt"
# The least part of the random witnesses that have each answer.
LEAST = 0.02
ANSWERS = [b"SOME WITNESS", b"NO WITNESS", b"ACCEPTED", b"NOT ACCEPTED", b"air 0", b""]

# --- random batches ---


def number(draw):
    """A coefficient."""
    most = ASKED.characteristic - 1
    return draw.choice([0, 1, most, draw.randint(0, most), draw.randint(0, most), draw.randint(0, most)])


def element(draw):
    return tuple(number(draw) for _ in range(ASKED.extension))


def airs_in(folder, text):
    """The AIRs of a batch, or None where it is refused."""
    try:
        airs, _ = meaning.airs_of(reading.batch_of(text), folder)
        return model.well_formed(airs)
    except (reading.Fault, meaning.TableFault, meaning.NoRows, counting.Refused, counting.Untold):
        return None


def messages_of(airs):
    """All messages of a batch, or none where its flags are wrong."""
    try:
        return [sent for place, air in enumerate(airs) for sent in counting.sent_of(place, air)]
    except counting.FlagFault:
        return []


def challenges(draw, airs):
    """A pair of challenges, at which maybe a denominator is zero."""
    alpha, beta = element(draw), draw.choice([element(draw), of(0), of(1)])
    messages = messages_of(airs) if airs else []
    messages = [it for it in messages if not it.count] or messages if draw.random() < 0.5 else messages
    if messages and draw.random() < 0.4:
        sent = draw.choice(messages)
        point = (counting.ids_of(airs)[counting.group_of(airs, sent)], sent.tuple)
        alpha = minus(of(0), witnesses.denominator_of(point, of(0), beta, counting.widest_of(airs)))
    return alpha, beta


def made_witness(equations):
    """A witness that is accepted, if there is one, else one whose rows hold, as far as they can."""
    made = witnesses.accepted_one(equations)
    if made is None:
        fraction = lambda it: witnesses.fraction_of(it) if any(it.denominator) else of(1)  # noqa: E731
        made = [witnesses.summed([list(map(fraction, row)) for row in rows]) for rows in equations]
    return made


def forged(draw, parts):
    """A witness in which something is added and taken away again: from the first accumulator on, or within a row."""
    parts = [part._replace(rows=[list(row) for row in part.rows]) for part in parts]
    by, places = element(draw), [place for place, part in enumerate(parts) if part.terminal]
    if draw.random() < 0.5:
        for place, shift in zip(draw.sample(places, min(2, len(places))), (by, minus(of(0), by))):
            part = parts[place]
            for row in part.rows:
                row[0] = plus(row[0], shift)
            parts[place] = part._replace(terminal=plus(part.terminal, shift))
    else:
        row = draw.choice(parts[draw.choice(places)].rows)
        row[1], row[-1] = plus(row[1], by), minus(row[-1], by)
    return witnesses.text_of(parts)


NUMBER = re.compile(rb"\d+")


def changed(draw, text):
    """A witness text with a number, a word or a line that is otherwise."""
    lines = text.split(b"\n")
    place = draw.randrange(len(lines))
    words = lines[place].split(b" ")
    how = draw.random()
    if how < 0.8 and (spans := [it.span() for it in NUMBER.finditer(text)]):
        start, end = draw.choice(spans)
        return text[:start] + b"%d" % number(draw) + text[end:]
    if how < 0.87:
        lines[place : place + 1] = draw.choice([[], [lines[place]] * 2])
    elif how < 0.95:
        lines[place] = b" ".join(draw.choice([words[:-1], words + words[-1:], words[::-1]]))
    else:
        lines = lines[: draw.choice([place, -1])] + draw.choice([[b""], [b"air 1"], [b"terminal 0"], lines])
    return b"\n".join(lines)


def runs_of_seed(draw, folder, field, text):
    """The words of the runs over a batch that is written, each with the witness that is read, if one is. Batches that
    are refused, or have no lookups, are seldom run."""
    airs = airs_in(folder, text)
    if not (airs and any(air.lookups for air in airs)) and draw.random() < 0.8:
        return []
    alpha, beta = challenges(draw, airs)
    pair = [b"--alpha", witnesses.element_text(alpha), b"--beta", witnesses.element_text(beta)]
    words = [*pair, b"--field", field, FILE.encode()]
    accept = [b"accept", *words, b"--witness", WITNESS.encode()]
    if airs is None:
        return [draw.choice([([b"witness", *words], None), ([b"any", *words], None), (accept, b"")])]
    parts = made_witness(witnesses.equations_of(airs, alpha, beta))
    made = witnesses.text_of(parts)
    is_forged = draw.random() < 0.3 and any(part.terminal for part in parts)
    wrong = forged(draw, parts) if is_forged else changed(draw, made)
    return [([b"witness", *words], None), ([b"any", *words], None), (accept, made), (accept, wrong)]


def witnesses_swept(program, seeds):
    """Witnesses of the random batches of these seeds, over all fields."""
    faults, count, outputs = [], 0, []
    with room() as folder:
        for seed in seeds:
            draw = random.Random(f"witness {seed}")
            field = draw.choice([*FIELDS])
            ask(field)
            text, files = batches.batch_of_seed(seed, field)
            written(folder, {**files, FILE: text})
            for words, witness in runs_of_seed(draw, folder, field, text):
                written(folder, {**files, FILE: text, **({} if witness is None else {WITNESS: witness})})
                wanted, found = modelled(folder, words), answer_of(program, words, folder)
                faults += [f"seed {seed}, {words}, witness {witness}: {it}" for it in differences(wanted, found)]
                outputs.append(found.output)
                count += 1
    return count, faults + list(rare_answers(outputs)), {}


def rare_answers(outputs):
    for start in ANSWERS:
        if sum(it.startswith(start) if start else not it for it in outputs) < LEAST * len(outputs):
            yield f"random witnesses seldom have the answer {start}"


# --- hostile words ---

FIRST = "examples/first/"
FIRST_FILES = ("first.lookups", "rows.csv", "witness.txt")
ONE = {b"f7": b"1", b"babybear4": b"1,0,0,0", b"koalabear4": b"1,0,0,0", b"goldilocks2": b"1,0"}
# Challenges in each field. Python takes digits of other alphabets for numbers.
CHALLENGES = {
    b"f7": [
        b"7", b"07", b"006", b"x", b"1,", b",1", b"1,0", b"13", b"1 ", b" 1", b"+1", b"1.0", b"0x1", b"1e0", b"1_0",
    ],
    b"babybear4": [
        b"1", b"1,2,3", b"1,2,3,4,5", b"1,2,3,", b"1,,3,4", b"1,2,3,2013265921", b"1,2,3,2013265920",
        b"4294967296,0,0,0", b"18446744073709551616,0,0,0", b"1;2;3;4", b"1 2 3 4", b"0001,02,3,4", b"1,2,3,4,",
        b"0" * 100_000 + b"1,2,3,4", b"1,2,3," + b"9" * 100_000, "1,2,3,４".encode(), "1,2,3,²".encode(),
    ],
    b"koalabear4": [b"2130706433,0,0,0", b"2130706432,2013265921,0,0", b"1"],
    b"goldilocks2": [
        b"1", b"1,2,3", b"18446744069414584321,0", b"18446744069414584320,0", b"18446744073709551615,1",
        b"18446744073709551616,0", b"340282366920938463463374607431768211456,0", b"0,18446744069414584321",
    ],
}  # fmt: skip
# Words of which only the way in which the program ends is looked at. FILE and W stand for files.
ODD_WORDS = [
    b"witness", b"accept", b"any", b"witness FILE", b"witness FILE --alpha 1", b"accept FILE --alpha 1 --beta 1",
    b"any FILE --alpha 1 --beta", b"any FILE --alpha -1 --beta 1", b"any FILE --alpha=-1 --beta 1", b"bits --json",
    b"any FILE --alpha 1 --alpha 1 --beta 1", b"any FILE --alpha 1 --beta 1 --witness W",
    b"bits --messages 9 --progress", b"witness FILE --alpha 1 --beta 1 --json", b"check FILE --target 9",
    b"plan FILE --target x", b"check FILE --out W", b"plan FILE --target -1",
    b"plan FILE --target 18446744073709551616", b"bits --messages 5 --target", b"plan --json",
    b"bits --messages 18446744073709551616 --json", b"bits --messages 5 --field f8", b"check --json --json FILE",
    b"show FILE --json --json", b"check FILE --progress --progress", b"witness FILE --alpha 1 --beta 1 --out",
    b"accept FILE --alpha 1 --beta 1 --witness", b"check --json=1 FILE", b"check --field F7 FILE",
    b"check --field f7,f7",
]  # fmt: skip


def first_files():
    return {name: bytes_of(FIRST + name) for name in FIRST_FILES}


def words_swept(program):
    """Challenges that are none, and odd words."""
    faults, count = [], 0
    with room() as folder:
        written(folder, first_files())
        for field, challenge in [(field, it) for field, those in CHALLENGES.items() for it in those]:
            one, file = ONE[field], (b"none.lookups", b"first.lookups")[count % 2]
            pair = [[b"--alpha", challenge, b"--beta", one], [b"--alpha", one, b"--beta", challenge]][count // 2 % 2]
            words = [(b"any", b"witness")[count // 4 % 2], file, b"--field", field, *pair]
            count += 1
            faults += run_compared(program, folder, words, f"field {field}, {file}, challenge {challenge[-60:]}")
        named = {b"FILE": b"first.lookups", b"W": b"witness.txt"}
        odd = [[named.get(word, word) for word in words.split()] for words in ODD_WORDS]
        pair = [b"--beta", b"1,0,0,0", b"--alpha"]
        odd += [[b"any", b"first.lookups", *pair, it] for it in (b"", b"\xff", b"\n", b"1,2,3,\xff")]
        for words in odd:
            faults += [f"words {words}: {it}" for it in unlawful(answer_of(program, words, folder))]
    return count + len(odd), faults, {}


# --- hostile texts ---

MANY, MEGABYTE = 50_000, 1_000_000
BYTES = b"0 \n,7a\r-\xff"
# Texts in place of the witness of examples/first: parts of it that are otherwise, and whole ones.
PARTS = [
    (b"\n", b"\r\n"), (b"4 3\n", b"4 3\r\n"), (b"0 4", b"0 04"), (b"0 4", b"00 4"), (b"0 4", b"0  4"),
    (b"0 4", b" 0 4"), (b"0 4", b"0 4 "), (b"0 4", b"0\t4"), (b"0 4", b"0,4"), (b"0 4", b"0 4,0"), (b"0 4", b"0 11"),
    (b"0 4", b"0 -3"), (b"0 4", b"-0 4"), (b"0 4", b"+0 4"), (b"air 0", b"air 00"), (b"air 0", b"air 1"),
    (b"air 0", b"Air 0"), (b"air 0", b"air"), (b"air 0", b"air  0"), (b"air 0", b" air 0"), (b"air 0", b"air 0 "),
    (b"air 0\n", b""), (b"air 0\n", b"\nair 0\n"), (b"air 0\n", b"air 0\n\n"), (b"air 0\n", b"air 0\nair 0\n"),
    (b"air 0\n", b"air 0\nair 1\n"), (b"air 0\n", b"\xef\xbb\xbfair 0\n"), (b"air 0\n", b"air 18446744073709551616\n"),
    (b"air 0\n", b"# first\nair 0\n"), (b"0 4\n", b""), (b"4 3\n", b""), (b"0 4\n4 3\n", b""),
    (b"0 4\n", b"0 4\n0 4\n"), (b"4 3\n", b"4 3\n\n"), (b"4 3\n", b"4 3\n0 0\n"), (b"0 4\n", b"0 4 0\n"),
    (b"4 3\n", b"4 3 0\n"), (b"4 3\n", b"4\n"), (b"0 4\n4 3\n", b"0\n4\n"), (b"0 4\n4 3\n", b"\n\n"),
    (b"0 4\n4 3\n", b"0 4 0\n4 3 0\n"), (b"0 4\n4 3\n", b"4 3\n0 4\n"), (b"0 4", b"1 4"), (b"4 3", b"4 4"),
    (b"4 3", b"5 3"), (b"0 4\n4 3\nterminal 0\n", b"1 4\n5 3\nterminal 1\n"), (b"terminal 0\n", b""),
    (b"terminal 0\n", b"terminal\n"), (b"terminal 0\n", b"terminal \n"), (b"l 0\n", b"l 1\n"), (b"l 0\n", b"l 7\n"),
    (b"l 0\n", b"l 00\n"), (b"l 0\n", b"l  0\n"), (b"l 0\n", b"l 0 0\n"), (b"l 0\n", b"l 0"),
    (b"l 0\n", b"l 0\nterminal 0\n"), (b"l 0\n", b"l 0\n\n"), (b"l 0\n", b"l 0\nx"), (b"l 0\n", b"l 0\n0 4\n"),
    (b"l 0\n", b"l 0\nair 1\n"), (b"l 0\n", b"l 0\nair 1\n0 0\nterminal 0\n"), (b"l 0\n", b"l 0\nair 1\n\n"),
    (b"l 0\n", b"l 0\n\x00"), (b"l 0\n", b"l 0\nair 2\n"), (b"0 4", b"0 \x00"), (b"0 4", b"0 4\n" * MANY),
    (b"0 4", b"0 " + b"0" * MEGABYTE), (b"0 4", b"0 " + b"9" * MEGABYTE), (b"0 4", b"0" + b" 0" * MANY),
    (b"0 4", b"0" + b",0" * MEGABYTE), (b"l 0\n", b"l 0" + b"\n" * MEGABYTE), (b"0 4", b" " * MEGABYTE),
]  # fmt: skip
WHOLE = [
    b"", b"\n", b"\r\n", b"x", b"air 0", b"air 0\n", b"terminal 0\n", b"0\n", b"\x00" * 1000, b"air \n",
    b"\n" * MEGABYTE,
]  # fmt: skip


def texts_in_place(text):
    """The texts that are tried in place of a witness."""
    yield from (text[:end] for end in range(len(text) + 1))
    for at in range(len(text)):
        for byte in {BYTES[at % len(BYTES)], BYTES[(at + 4) % len(BYTES)]} - {text[at]}:
            yield text[:at] + bytes([byte]) + text[at + 1 :]
    yield from (text.replace(old, new, 1 if new != b"\r\n" else -1) for old, new in PARTS)
    yield from WHOLE


def texts_swept(program, part, parts):
    """Hostile texts in place of the witness of examples/first; a part of them."""
    faults, files = [], first_files()
    tried = list(texts_in_place(files["witness.txt"]))[part::parts]
    with room() as folder:
        written(folder, files)
        words = b"accept first.lookups --field f7 --alpha 5 --beta 2 --witness witness.txt".split()
        for text in tried:
            with open(os.path.join(folder, "witness.txt"), "wb") as file:
                file.write(text)
            faults += run_compared(program, folder, words, f"witness {text[:80]!r} of {len(text)} bytes")
    return len(tried), faults, {}


# Challenges of examples/first over an extension, and numbers in place of the first one of its witness.
OVER_PAIRS = b"accept first.lookups --field goldilocks2 --alpha 0,1 --beta 0,0 --witness witness.txt".split()
NUMBERS = [
    b"0,0", b"0", b"0,0,0", b"0,", b",0", b"0,,0", b"0,1", b"00,0", b"0,00", b"0, 0", b"18446744069414584321,0",
    b"0,18446744069414584321", b"18446744073709551616,0", b"0,18446744069414584320", b"0,x", b"-0,0", b"",
]  # fmt: skip


# Files in place of it.
ODD_FILES = [b"none.txt", b".", b"/", b"first.lookups", b"rows.csv", b"witness.txt/", b"/dev/null", b"no/w.txt"]


def numbers_swept(program):
    """Numbers in place of those of a witness over an extension, and files in place of it."""
    faults = []
    with room() as folder:
        written(folder, first_files())
        plain = modelled(folder, [b"witness", *OVER_PAIRS[1:-2]]).output
        for word in NUMBERS:
            for text in (plain.replace(b"0,0", word, 1), plain.replace(b"terminal 0,0", b"terminal " + word)):
                written(folder, {**first_files(), "witness.txt": text})
                faults += run_compared(program, folder, OVER_PAIRS, f"witness {text!r}")
        for name in ODD_FILES:
            faults += run_compared(program, folder, [*OVER_PAIRS[:-1], name])
    return 2 * len(NUMBERS) + len(ODD_FILES), faults, {}


# --- files that are written ---

WITNESS_TEXT = bytes_of(FIRST + "witness.txt")
# Where a witness is written: the name, and whether that can be.
OUT = [(b"out.txt", True), (b"./out.txt", True), (b"first.txt", True), (b"no/out.txt", False), (b".", False)]
OUT += [(b"/dev/full", False), (b"", False), (b"rows.csv/out.txt", False), (b"out\xff.txt", None), (b"/dev/null", True)]


def out_swept(program):
    """Witnesses that are written to files."""
    faults, words = [], b"witness first.lookups --field f7 --beta 2 --alpha".split()
    with room() as folder:
        for name, is_written in OUT:
            written(folder, {**first_files(), "first.txt": b"before\n" * 100})
            found = answer_of(program, [*words, b"5", b"--out", name], folder)
            file = meaning.bytes_in(folder, name) if is_written and name != b"/dev/null" else WITNESS_TEXT
            faults += [f"--out {name}: {it}" for it in out_faults(found, is_written, file)]
        written(folder, {**first_files(), "first.txt": b"before\n"})
        for name, before in ((b"out.txt", None), (b"first.txt", b"before\n")):
            found = answer_of(program, [*words, b"1", b"--out", name], folder)
            faults += [f"--out of no witness: {it}" for it in unlawful(found)]
            faults += ["there is no witness, and it is written"] if meaning.bytes_in(folder, name) != before else []
    return len(OUT) + 2, faults, {}


def out_faults(found, is_written, file):
    """What is wrong with a run that should have written the witness of examples/first."""
    fails = found.status == 2 and found.errors
    if not (found.status == 0 if is_written else fails or is_written is None) or found.output:
        yield f"status {found.status}, output {found.output[:100]!r}, errors {found.errors[:200]!r}"
    elif is_written and found.errors:
        yield f"errors {found.errors[:200]!r}"
    elif is_written and file != WITNESS_TEXT:
        yield f"the file has {file and file[:200]!r}"


# --- all of them ---

WITNESS_SEEDS, TEXT_PARTS = range(0, 320, 2), 2
WITNESS_PARTS = 4


def tasks(program):
    """What there is to run, the longest first: its name, the call and its words."""
    for part in range(WITNESS_PARTS):
        yield "random witnesses", witnesses_swept, program, WITNESS_SEEDS[part::WITNESS_PARTS]
    for part in range(TEXT_PARTS):
        yield "witness texts", texts_swept, program, part, TEXT_PARTS
    yield "witness texts", numbers_swept, program
    yield "challenges and words", words_swept, program
    yield "written witnesses", out_swept, program
