"""What constraints are told to enforce of lookups. The program looks for proofs, and this model does not: of what is told
it says which texts there can be, and it tries windows of rows on which all constraints are zero, whether it is so."""
import collections
import itertools
import random
import re

from .fields import ASKED


def line_of(text, at):
    return text.count(b"\n", 0, at) + 1


# What is told of a lookup: of its flags and of its weight whether they are shown to be enforced, or None where it has
# none; the bounds of its counts, and what is missing of its flags, which a text does not tell; and the notes of a text.
Shown = collections.namedtuple("Shown", "flags weight bounds missing notes", defaults=(None, None, None, None, ()))

# Rows by their kinds: whether they are the first one and the last one, and how they are told.
ONLY, FIRST, LAST, BETWEEN = (True, True), (True, False), (False, True), (False, False)
ROWS = {ONLY: "only", FIRST: "first", LAST: "last", BETWEEN: "between"}
ROWS_TOLD = {
    ONLY: "the only row",
    FIRST: "the first row",
    LAST: "the last row",
    BETWEEN: "a row between the first and the last",
}


class Untrue(Exception):
    """What is told and cannot be."""


def kinds_of(height):
    """The kinds of the rows of traces of a height."""
    return {0: [], 1: [ONLY], 2: [FIRST, LAST]}.get(height, [FIRST, LAST, BETWEEN])


def is_query(part):
    return part.message.verb != "provide"


def has_queries(lookup):
    return any(map(is_query, lookup.parts))


def constraint_count(airs):
    return sum(len(air.constraints) for air in airs)


def is_told(airs):
    """Whether it is told what constraints enforce."""
    return ASKED.enforced or constraint_count(airs) > 0


def is_all(shown):
    """Whether all flags and weights are told to be enforced."""
    return not any(False in (it.flags, it.weight) for of_air in shown for it in of_air)


# --- weights ---


def allowed_of(lookup, number):
    """How often a message may count on a row."""
    return max(lookup.weights) if lookup.exclusive else lookup.weights[number]


def stays_within(lookup, flags, bounds):
    """Whether the bounds of the queries stay within the weight: each by itself where only one message counts."""
    queries = [bound for bound, part in zip(bounds, lookup.parts) if is_query(part)]
    if None in queries:
        return False
    return (max(queries, default=0) if lookup.exclusive and flags else sum(queries)) <= lookup.weight


# --- expressions as they are told ---

NOTHING, PRODUCT, SIGN, POWER = range(4)


def formula(text, said, around=NOTHING):
    """An expression as its author wrote it, but for blanks and parentheses."""
    kind, *parts = said
    if kind in ("name", "next"):
        at, name = parts
        quote = b"`" if at and text[at - 1 : at] == b"`" else b""
        named = quote + bytes(ord("?") if byte < 32 or byte == 127 else byte for byte in name) + quote
        return named if kind == "name" else b"next(%s)" % named
    if kind == "number":
        return b"%d" % parts[1]
    if kind == "negative":
        told, own = b"-" + formula(text, parts[0], SIGN), SIGN
    elif kind == "^":
        told, own = b"%s^%d" % (formula(text, parts[0], POWER), parts[1]), SIGN
    else:
        own = PRODUCT if kind == "*" else NOTHING
        sides = formula(text, parts[0], own), formula(text, parts[1], own + 1)
        told = (b" %s " % kind.encode()).join(sides)
    return b"(%s)" % told if around > own else told


# --- notes of a text ---


def notes_of_flags(text, lookup, height):
    """The notes of which one stands below a lookup whose flags are not shown to be lawful."""
    flags = [part.flag for part in lookup.parts]
    few = len(flags) < ASKED.characteristic
    several = b" + ".join(formula(text, it, PRODUCT if place else NOTHING) for place, it in enumerate(flags))
    hint = b" (add: assert bool %s)" % several if few else b""
    for kind in kinds_of(height):
        rows = ROWS_TOLD[kind].encode()
        yield b"      it is not shown that at most one flag is 1 on %s%s\n" % (rows, hint)
        for part in lookup.parts:
            places = line_of(text, part.message.at), rows, formula(text, part.flag)
            yield b"      the flag of line %d is not shown to be 0 or 1 on %s (add: assert bool %s)\n" % places


def note_of_bound(text, lookup, number):
    """The pattern of the note of a message whose count is not shown to be within what is allowed."""
    message, allowed = lookup.parts[number].message, allowed_of(lookup, number)
    line, hint = line_of(text, message.at), b""
    if message.count is not None and allowed < 2:
        hint = b" (add: assert %s%s)" % (b"bool " if allowed else b"", formula(text, message.count))
    unbounded = re.escape(b"      no bound is shown of the count of line %d%s\n" % (line, hint))
    above = rb"      the count of line %d is shown to be at most ([0-9,]+), which is above %s\n"
    return re.compile(rb"%s|%s" % (unbounded, above % (line, f"{allowed:,}".encode())))


def check_notes(text, lookup, height, shown):
    """Whether notes say what may be missing of a lookup: of its flags, and then of its weight."""
    notes = list(shown.notes)
    if shown.flags is False and (not notes or notes.pop(0) not in notes_of_flags(text, lookup, height)):
        raise Untrue(f"no note on flags of line {line_of(text, lookup.at)} in {shown.notes}")
    if shown.weight is False:
        check_notes_of_weight(text, lookup, shown, notes)
    elif notes:
        raise Untrue(f"notes {notes} of line {line_of(text, lookup.at)}, of which nothing is missing")


def check_notes_of_weight(text, lookup, shown, notes):
    allowed = max(lookup.weights)
    sum_note = rb"      unless its flags are lawful, its counts may add up to ([0-9,]+), which is above %s\n"
    found = re.fullmatch(sum_note % f"{allowed:,}".encode(), notes[0]) if len(notes) == 1 else None
    if found:
        if not shown.flags and lookup.exclusive and number_in(found[1]) > allowed:
            return
        raise Untrue(f"{notes[0]} of flags that are lawful, or of no greater sum")
    for number, part in enumerate(lookup.parts):
        found = re.fullmatch(note_of_bound(text, lookup, number), notes[0]) if notes and is_query(part) else None
        if found:
            if found[1] and number_in(found[1]) <= allowed_of(lookup, number):
                raise Untrue(f"{notes[0]} is no greater bound")
            notes.pop(0)
            if not notes:
                return
    raise Untrue(f"notes {notes} on the weight of line {line_of(text, lookup.at)}")


def number_in(told):
    return int(told.replace(b",", b""))


# --- the table of a text ---


def rows_in(text, airs, found, called, characters):
    """What the table below CONSTRAINTS tells of each lookup of each AIR. `called` is what a lookup is called."""
    lines = found.splitlines(keepends=True)
    begins = lambda line: line.startswith(b"  whatever traces of these heights") and line.endswith(b":\n")  # noqa: E731
    starts = [at for at, line in enumerate(lines) if begins(line)]
    if len(starts) != 1:
        raise Untrue(f"{len(starts)} tables of what constraints enforce")
    lines = lines[starts[0] + 2 :]
    labels = [(air.name, called(text, it)) for air in map(named, airs) for it in air.lookups]
    widths = [max([least, *(characters(pair[place]) for pair in labels)]) for place, least in enumerate((3, 6))]
    shown = []
    for air in airs:
        shown.append([])
        for lookup in air.lookups:
            cells = named(air).name, called(text, lookup)
            front = b"".join(b"  " + it + b" " * (width - characters(it)) for it, width in zip(cells, widths))
            row = lines.pop(0) if lines else b""
            found = re.fullmatch(rb"%s  (enforced|TRUSTED|-) *  (enforced|TRUSTED|-)\n" % re.escape(front), row)
            if not found:
                raise Untrue(f"{row} is not the row of {cells}")
            notes = list(itertools.takewhile(lambda line: line.startswith(b"      "), lines))
            lines = lines[len(notes) :]
            shown[-1].append(Shown(*map(MARKS.get, found.groups()), notes=tuple(notes)))
    return shown


MARKS = {b"enforced": True, b"TRUSTED": False, b"-": None}
MARKED = {mark: told for told, mark in MARKS.items()}
Named = collections.namedtuple("Named", "name lookups")


def named(air):
    name = bytes(ord("?") if byte < 32 or byte == 127 else byte for byte in air.said.name)
    return Named(name, air.lookups)


# --- whether it is so ---

# Up to how many windows all are tried, and how many of more are drawn.
MOST_WINDOWS, DRAWN = 7**5, 300


def leaves_of(expression, found):
    """The cells of an expression, in their order."""
    kind, *parts = expression
    if kind in ("main", "fixed"):
        found.setdefault(expression, f"c{len(found)}")
    elif kind == "^":
        leaves_of(parts[0], found)
    elif kind in ("negative", "+", "-", "*"):
        for part in parts:
            leaves_of(part, found)
    return found


def python_of(expression, cells, kind):
    """An expression in Python, on rows of a kind."""
    name, *parts = expression
    first, last = kind
    if name in ("main", "fixed"):
        return cells[expression]
    if name in ("number", "public"):
        return str(parts[0] % ASKED.characteristic)
    if name in ("is_first_row", "is_last_row", "is_transition"):
        return str(int({"is_first_row": first, "is_last_row": last, "is_transition": not last}[name]))
    if name == "^":
        return f"pow({python_of(parts[0], cells, kind)}, {parts[1]}, {ASKED.characteristic})"
    sides = [python_of(part, cells, kind) for part in parts]
    return f"(-{sides[0]})" if name == "negative" else f"({sides[0]} {name} {sides[1]})"


def fixed_rows_of(air, kind):
    """The rows of a kind of the fixed columns."""
    height = len(air.fixed.rows)
    return [row for row in range(height) if (row == 0, row == height - 1) == kind]


def held_on(air, cells, kind, over_fixed):
    """For each row of a kind the cells that are fixed there, if that counts, with their values; every other cell is free.
    Rows that are alike count once, and where nothing is fixed one row stands for all."""
    if not over_fixed or not any(name == "fixed" for name, *_ in cells):
        return [{}]
    table, rows = air.fixed.rows, fixed_rows_of(air, kind)
    value = lambda row, cell: table[(row + cell[2]) % len(table)][cell[1]] % ASKED.characteristic  # noqa: E731
    held = [{cell: value(row, cell) for cell in cells if cell[0] == "fixed"} for row in rows]
    return [dict(it) for it in dict.fromkeys(tuple(it.items()) for it in held)]


def windows_of(air, cells, kind, seed, over_fixed):
    """The values of the cells on rows of a kind on which all constraints are zero: all of them, or some that are drawn."""
    modulus, names = ASKED.characteristic, ", ".join(cells.values())
    zeros = " and ".join(f"not {python_of(it.zero, cells, kind)} % {modulus}" for it in air.constraints) or "True"
    hold = eval(f"lambda {names}: {zeros}")  # pylint: disable=eval-used
    for held in held_on(air, cells, kind, over_fixed):
        if modulus ** (len(cells) - len(held)) <= MOST_WINDOWS:
            every = itertools.product(*([held[cell]] if cell in held else range(modulus) for cell in cells))
        else:
            draw = random.Random(f"windows {seed}")
            few = [0, 0, 0, 1, 1, 1, 2, modulus - 1]
            one = lambda: draw.choice([*few, draw.randrange(modulus)])  # noqa: E731
            every = (tuple(held[cell] if cell in held else one() for cell in cells) for _ in range(DRAWN))
        yield from (window for window in every if hold(*window))


def values_on(expressions, cells, kind):
    """A function from the values of cells to those of expressions."""
    told = "".join(f"{python_of(it, cells, kind)} % {ASKED.characteristic}, " for it in expressions)
    return eval(f"lambda {', '.join(cells.values())}: ({told})")  # pylint: disable=eval-used


def size_of(value):
    return min(value, ASKED.characteristic - value)


def fault_of(lookup, shown, flags, counts):
    """What is told of a lookup and is not so on a row with these flags and counts, or None."""
    if shown.flags and lookup.exclusive and (max(flags) > 1 or sum(flags) > 1):
        return f"flags {flags}"
    sizes = [size_of(count) for count in counts]
    for bound, size in zip(shown.bounds or [], sizes):
        if bound is not None and size > bound:
            return f"a count of {size}, which is above {bound}"
    sent = [flag == 1 for flag in flags] if lookup.exclusive else [True] * len(sizes)
    total = sum(size for size, part, is_sent in zip(sizes, lookup.parts, sent) if is_sent and is_query(part))
    if shown.weight and total > lookup.weight:
        return f"counts that add up to {total}, where the weight is {lookup.weight}"
    return None


def check_air(air, shown, seed, over_fixed):
    """Whether what is told of the lookups of an AIR is so on each row on which its constraints are zero; if that counts,
    with the fixed cells that there are."""
    if not any(it.flags or it.weight or it.bounds for it in shown):
        return 0
    cells, tried = {}, 0
    for expression in [it.zero for it in air.constraints] + expressions_of(air):
        leaves_of(expression, cells)
    for kind in kinds_of(len(air.main.rows)):
        worked = values_on(expressions_of(air), cells, kind)
        for window in windows_of(air, cells, kind, seed, over_fixed):
            values, tried = iter(worked(*window)), tried + 1
            for lookup, it in zip(air.lookups, shown):
                flags = [next(values) for branch in lookup.branches if branch.flag]
                counts = [next(values) for _ in lookup.branches]
                if fault := fault_of(lookup, it, flags, counts):
                    where = dict(zip(cells, window))
                    raise Untrue(f"line {lookup.at}, {ROWS[kind]}: {fault} at {where}, told is {it}")
    return tried


def expressions_of(air):
    """The flags and the counts of each lookup."""
    flags = lambda lookup: [branch.flag for branch in lookup.branches if branch.flag]  # noqa: E731
    return [it for lookup in air.lookups for it in flags(lookup) + [branch.count for branch in lookup.branches]]


def check_all(airs, shown, over_fixed=False, seed=0):
    """Whether what is told is so, of all AIRs. Returns how many windows were tried."""
    return sum(check_air(air, of_air, seed, over_fixed) for air, of_air in zip(airs, shown))


# --- JSON ---


def shown_in(airs, objects):
    """What an answer in JSON tells of each lookup."""
    if not isinstance(objects, list) or len(objects) != len(airs):
        raise Untrue("other AIRs")
    return [shown_of_air(air, it.get("enforced") if isinstance(it, dict) else None) for air, it in zip(airs, objects)]


def shown_of_air(air, objects):
    if not isinstance(objects, list) or len(objects) != len(air.lookups):
        raise Untrue(f"{objects} is told of the lookups of an AIR")
    return [shown_of(lookup, it) for lookup, it in zip(air.lookups, objects)]


def shown_of(lookup, it):
    """What is told of a lookup, if its members are of the right kinds."""
    if not isinstance(it, dict) or set(it) != {"text_line", "flags", "weight", "bounds", "missing"}:
        raise Untrue(f"{it} is told of a lookup")
    bounds = it["bounds"]
    if not isinstance(bounds, list) or len(bounds) != len(lookup.parts):
        raise Untrue(f"{bounds} are the bounds of {len(lookup.parts)} counts")
    if not all(bound is None or (isinstance(bound, str) and re.fullmatch("0|[1-9][0-9]*", bound)) for bound in bounds):
        raise Untrue(f"{bounds} are bounds")
    return Shown(it["flags"], it["weight"], [None if it is None else int(it) for it in bounds], it["missing"])


def object_of(lookup, shown, text, height):
    """The object of a lookup, as far as what is told can be: it is lawful flags or something missing, and a weight
    that is kept if its bounds say so."""
    flags = shown.flags is True if lookup.exclusive else None
    rows = [ROWS[kind] for kind in kinds_of(height)]
    missing = None
    if flags is False:
        found = shown.missing if isinstance(shown.missing, dict) else {}
        numbers = [None, *range(len(lookup.parts))]
        missing = {
            "flag": found.get("flag") if found.get("flag") in numbers else "a number, or null",
            "rows": found.get("rows") if found.get("rows") in rows else f"one of {rows}",
        }
    return {
        "text_line": line_of(text, lookup.at),
        "flags": flags,
        "weight": stays_within(lookup, flags, shown.bounds) if has_queries(lookup) else None,
        "bounds": [None if bound is None else str(bound) for bound in shown.bounds],
        "missing": missing,
    }
