"""What `show` writes, read again: each message has to mean on each row what the text says."""
import json

from . import counting, meaning
from .fields import ASKED, ask
from .objects import name_of
from .reading import Fault, Reader, batch_of
from .telling import line_of

TITLES = ["lookup", "line", "bus", "tuple", "counts", "when", "weight"]
TITLES_OF_CONSTRAINTS = ["constraint", "line", "zero"]
RIGHT = {"lookup", "line", "weight"}


def starts_of(header):
    """Where the cells below each title begin, by the titles that are set to the left."""
    return {title: header.index(title) for title in TITLES if title not in RIGHT}


def cells_of(header, line):
    """The cells of a line: those that are set to the left begin below their titles, and numbers are parted by blanks."""
    starts = starts_of(header)
    front, weight = line[: starts["bus"]].split(), line.split()[-1]
    ends = [*list(starts.values())[1:], len(line) - len(weight)]
    middle = [line[start:end].strip() for start, end in zip(starts.values(), ends)]
    return dict(zip(TITLES, [*front, *middle, weight]))


def shown_in(output):
    """The messages and the constraints that `show` tells of each AIR."""
    airs, header, zeros = [], None, None
    for line in output.decode(errors="surrogateescape").splitlines():
        if line.startswith("  ") and line.split() == TITLES:
            header, zeros = line, None
        elif line.startswith("  ") and line.split() == TITLES_OF_CONSTRAINTS:
            zeros = line.index("zero")
        elif line.startswith("  ") and zeros:
            airs[-1][1].append((*line[:zeros].split(), line[zeros:]))
        elif line.startswith("  ") and header:
            airs[-1][0].append(cells_of(header, line))
        elif line:
            airs.append(([], []))
            header = zeros = None
    return airs


def read_again(scope, text):
    """An expression that is shown, with its names found."""
    return scope.found(Reader(text.encode(errors="surrogateescape")).sum())


def tuple_of(text):
    """The texts of the values of a tuple: commas within backquotes and parentheses part none."""
    reader = Reader(f"query m{text}\n".encode(errors="surrogateescape"))
    return reader.message().tuple


def faults_of_part(air, scope, lookup, branch, weight, cells):
    """What is wrong with a message that is shown."""
    values = [scope.found(value) for value in tuple_of(cells["tuple"])]
    count = read_again(scope, cells["counts"])
    flag = None if cells["when"] == "-" else read_again(scope, cells["when"])
    bus = "local" if lookup.bus is None else lookup.bus.decode()
    found = (cells["bus"], cells["weight"], flag is None, len(values))
    if found != (bus, f"{weight:,}", branch.flag is None, len(branch.tuple)):
        yield f"shown as {cells}"
        return
    pairs = [*zip(values, branch.tuple), (count, branch.count), *([(flag, branch.flag)] if flag else [])]
    for row in range(len(air.main.rows)):
        for again, wanted in pairs:
            if counting.value_of(again, air, row) != counting.value_of(wanted, air, row):
                yield f"row {row}: {cells} means another value than {wanted}"
                return


def faults_of_constraints(air, scope, text, shown):
    """What is wrong with the constraints of an AIR that are shown."""
    wanted = [(str(number), str(line_of(text, it.at))) for number, it in enumerate(air.constraints)]
    if [it[:2] for it in shown] != wanted:
        yield f"the constraints {shown} are shown, and not {wanted}"
        return
    for constraint, (_, _, zero) in zip(air.constraints, shown):
        if not is_alike(air, read_again(scope, zero), constraint.zero):
            yield f"{zero} means another value than {constraint.zero}"


def scope_of(air):
    """The names of an AIR's columns and public values, without its other definitions."""
    scope = meaning.Scope(meaning.Room(), air.main, air.fixed)
    for item in air.said.items:
        if item.kind == "public":
            scope.defined[item.said[1]] = ("public", item.said[2])
    return scope


def is_plain(air):
    """Whether no column of an AIR has the name of a public value, which is shown alike."""
    return not any(item.kind == "public" and item.said[1] in air.main.names for item in air.said.items)


def faults_of(text, folder, output, field=b"babybear4"):
    """What is wrong with what `show` writes of a batch that is read, and how many messages were compared."""
    ask(field)
    airs, shown = meaning.planned_of(batch_of(text), folder), shown_in(output)
    if len(airs) != len(shown):
        return [f"{len(shown)} AIRs are shown, and not {len(airs)}"], 0
    faults, count = [], 0
    for air, (lines, zeros) in zip(airs, shown):
        said = [(lookup, *it) for lookup in air.lookups for it in zip(lookup.branches, lookup.weights)]
        if len(said) != len(lines):
            faults.append(f"{len(lines)} messages are shown, and not {len(said)}")
        elif is_plain(air) and not isinstance(air.main.rows, range):
            scope = scope_of(air)
            for (lookup, branch, weight), cells in zip(said, lines):
                count += 1
                try:
                    faults += faults_of_part(air, scope, lookup, branch, weight, cells)
                except Fault as fault:
                    faults.append(f"{cells} cannot be read again: {fault.why}")
            try:
                faults += faults_of_constraints(air, scope, text, zeros)
            except Fault as fault:
                faults.append(f"{zeros} cannot be read again: {fault.why}")
        elif len(zeros) != len(air.constraints):
            faults.append(f"{len(zeros)} constraints are shown, and not {len(air.constraints)}")
    return faults, count


# --- lookups as JSON ---

SELECTORS = {"IsFirstRow": "is_first_row", "IsLastRow": "is_last_row", "IsTransition": "is_transition"}
SIGNS = {"Add": "+", "Sub": "-", "Mul": "*"}


def expression_in(said, public):
    """An expression of the library's format, with the public values of its AIR. It has one member alone."""
    ((kind, part),) = said.items()
    if kind in SIGNS:
        left, right = part
        return (SIGNS[kind], expression_in(left, public), expression_in(right, public))
    if kind == "Neg":
        return ("negative", expression_in(part, public))
    if kind != "Leaf":
        raise ValueError(kind)
    return (SELECTORS[part],) if isinstance(part, str) else leaf_in(part, public)


def leaf_in(said, public):
    ((kind, part),) = said.items()
    if kind == "Constant":
        if type(part) is not int or not 0 <= part < ASKED.characteristic:
            raise ValueError(part)
        return ("number", part)
    entry, index = part["entry"], part["index"]
    if kind != "Variable" or set(part) != {"entry", "index"}:
        raise ValueError(said)
    if entry == "Public":
        return ("public", public[index])
    ((window, place),) = entry.items()
    return ({"Main": "main", "Preprocessed": "fixed"}[window], index, place["offset"])


MEMBERS = {"kind", "elements", "multiplicities", "count_weight", "column", "flags"}


def faults_of_lookup(air, lookup, said, public):
    """What is wrong with a lookup of an AIR as JSON."""
    kind = "Local" if lookup.bus is None else {"Global": lookup.bus.decode()}
    flags = said["flags"]
    numbers = (len(said["elements"]), len(said["multiplicities"]), len(flags) if lookup.exclusive else flags)
    branches = len(lookup.branches)
    if set(said) != MEMBERS or said["kind"] != kind or said["count_weight"] != lookup.weight:
        yield f"{str(said)[:200]} is not {kind}, of weight {lookup.weight}"
    elif numbers != (branches, branches, branches if lookup.exclusive else None):
        yield f"{str(said)[:200]} has not {branches} messages"
    else:
        parts = [flags or [None] * branches, said["elements"], said["multiplicities"]]
        for branch, flag, values, count in zip(lookup.branches, *parts):
            again = [expression_in(it, public) for it in [*([flag] if flag else []), *values, count]]
            wanted = [*([branch.flag] if flag else []), *branch.tuple, branch.count]
            if len(again) != len(wanted) or any(map(lambda pair: not is_alike(air, *pair), zip(again, wanted))):
                yield f"{str(said)[:200]} means another message than {branch}"


def is_alike(air, again, wanted):
    """Whether two expressions have one value on each row."""
    rows = range(len(air.main.rows))
    return all(counting.value_of(again, air, row) == counting.value_of(wanted, air, row) for row in rows)


def faults_of_lists(airs, shown):
    """What is wrong with the lookups of each AIR as JSON, and how many were compared."""
    wanted = [(name_of(air.said.name), len(air.lookups)) for air in airs]
    if wanted != [(it["name"], len(it["lookups"])) for it in shown]:
        return ["other names or numbers of lookups"], 0
    members = [{"name", "lookups", *(["constraints"] if air.constraints else [])} for air in airs]
    zeros = [it.get("constraints", []) for it in shown]
    if members != [set(it) for it in shown] or list(map(len, zeros)) != [len(air.constraints) for air in airs]:
        return ["other members or numbers of constraints"], 0
    faults, count = [], 0
    for air, those in zip(airs, shown):
        public = [item.said[2] for item in air.said.items if item.kind == "public"]
        for lookup, said in zip(air.lookups, [] if isinstance(air.main.rows, range) else those["lookups"]):
            faults += faults_of_lookup(air, lookup, said, public)
            count += 1
        for constraint, said in zip(air.constraints, [] if isinstance(air.main.rows, range) else those.get("constraints", [])):
            if not is_alike(air, expression_in(said, public), constraint.zero):
                faults.append(f"{str(said)[:200]} means another value than {constraint.zero}")
    return faults, count


def faults_of_json(text, folder, output, field=b"babybear4"):
    """What is wrong with the lookups that `show --json` writes of a batch that is read, and how many were compared."""
    ask(field)
    if output.count(b"\n") != 1 or not output.endswith(b"\n"):
        return ["not one line"], 0
    try:
        return faults_of_lists(meaning.planned_of(batch_of(text), folder), json.loads(output))
    except (ValueError, TypeError, KeyError, IndexError, AttributeError) as why:
        return [f"{output[:300]} is not in the library's format: {why!r}"], 0
