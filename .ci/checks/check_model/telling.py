"""How a report and a refusal are written."""
from . import counting, enforcing, meaning
from .fields import ASKED, FIELDS
from .reading import MARK
from .running import apart

# How many unbalanced tuples of a bus are compared, where fewer are told.
COMPARED = 64
LONGEST_LINE = 200
NAME_BYTES = b"abcdefghijklmnopqrstuvwxyzABCDEFGHIJKLMNOPQRSTUVWXYZ0123456789_.[]"

WHY = {
    "Unclosed": "this quote is not closed on its line",
    "Strange": "this stands for nothing here",
    "LongNumber": "this number is not below 2^64",
    "Deep": "this expression has more than 1,024 layers",
    "Expression": "expected an expression",
    "Column": "expected a column",
    "Number": "expected a number",
    "Exponent": "expected an exponent from 1 to 64",
    "Header": "expected the names of columns",
    "EmptyName": "this column has no name",
    "RepeatedName": "a column before this one has the same name",
    "LargeNumber": "this number is not below the characteristic",
    "MissingCell": "this line has too few numbers",
    "ExtraCell": "this line has too many numbers",
    "File": "expected a file in double quotes",
    "Line": "expected the end of the line",
    "Name": "expected a name",
    "Bus": "expected a bus, or `local`",
    "Most": "expected `most`",
    "Verb": "expected `query`, `provide`, `send` or `receive`",
    "When": "expected `when`",
    "Item": "this begins no line of an AIR",
    "Section": "expected `bus` or `air`",
    "UnknownName": "no column, public value or definition has this name",
    "UnknownColumn": "no column has this name",
    "NoWeight": "how often this counts is not written as a number: add `at most N`, the most on one row",
    "LargeExpression": "the expressions up to here have more than 1,048,576 nodes",
    "DeepExpression": "with what its names stand for, this has more than 1,024 layers",
    "RepeatedDefinition": "a definition before this one has the same name",
    "RepeatedBus": "a bus was declared before with this name",
    "UndeclaredBus": "no bus is declared with this name",
    "TupleWidth": "this bus carries another number of values",
    "OtherBus": "this message is on another bus than the first of its group",
    "EmptyGroup": "this group has no message",
    "LookupsFile": "lookups from a file are not read",
    "BusName": "the name of a bus has to be UTF-8",
    "Weight": "these weights do not fit 64 bits",
    "NoTrace": "this AIR has no trace",
    "RepeatedTrace": "this AIR has a trace already",
    "RepeatedPreprocessed": "this AIR has a preprocessed trace already",
    "Unreadable": "this file cannot be read",
    "NoColumns": "this AIR has no trace, and says no `columns`",
    "NoHeight": "this AIR has no trace, and says no `height`",
    "RepeatedColumns": "this AIR says its columns already",
    "RepeatedHeight": "this AIR says its height already",
    "RepeatedColumn": "a column before this one has the same name",
    "Heights": "the two tables of this AIR do not have the same number of rows",
}


def why_text(why):
    return f"expected `{why[5:]}`" if why.startswith("Sign ") else WHY[why]


def shown(text):
    """Bytes of a file, with a question mark for each control character."""
    return bytes(ord("?") if byte < 32 or byte == 127 else byte for byte in text)


def characters(text):
    """How many characters some bytes have."""
    return sum(byte & 0xC0 != 0x80 for byte in text)


def grouped(number):
    return f"{number:,}".encode()


# --- refusals ---


def line_of(text, at):
    return text.count(b"\n", 0, at) + 1


def around(text, at):
    """The line of a byte without a byte-order mark at the front of the text, and how many of its bytes are before."""
    start = text.rfind(b"\n", 0, at) + 1
    end = text.find(b"\n", at)
    line = text[start : len(text) if end < 0 else end]
    before = at - start
    if start == 0 and line.startswith(MARK):
        line, before = line[len(MARK) :], max(0, before - len(MARK))
    return line, before


def refused_at(file, text, at, why, hint=b""):
    """A refusal with its place, the line there and a mark below, with a hint behind it."""
    line, before = around(text, at)
    column = characters(line[:before]) + 1
    told = b"%s:%d:%d: error: %s\n" % (shown(file), line_of(text, at), column, why_text(why).encode())
    if not line or len(line) > LONGEST_LINE:
        return told
    visible = b"\t".join(shown(part.replace(b"\r", b"")) for part in line.split(b"\t"))
    blanks = b"\t".join(b" " * characters(part) for part in line[:before].split(b"\t"))
    rest = line[before:]
    marked = len(rest) - len(rest.lstrip(NAME_BYTES))
    return told + b"%5d | %s\n      | %s%s%s\n" % (line_of(text, at), visible, blanks, b"^" * max(1, marked), hint)


def refused(file, what):
    """A refusal of a whole file."""
    return b"%s: error: %s\n" % (shown(file), what.encode())


def flags_refused(file, text, folder, air, fault):
    trace = next(item.said[1] for item in air.items if item.kind == "trace")
    lookups = [item for item in air.items if item.kind in ("message", "together", "exclusive")]
    line = line_of(text, lookups[fault.lookup].at)
    what = "1 on this row, and so is another one" if fault.several else "neither 0 nor 1 on this row"
    path = meaning.path_of(folder, trace)
    place = b"%s:%d: error: a flag of %s:%d" % (shown(path), fault.row + 2, shown(file), line)
    return b"%s is %s\n" % (place, what.encode())


# --- reports ---


def table(titles, lines, right):
    """Lines of cells below titles, each column as wide as its widest cell; some are set to the right."""
    return lines_told([[title.encode() for title in titles], *lines], right)


def lines_told(lines, right):
    widths = [max(map(characters, cells)) for cells in zip(*lines)]
    told = b""
    for line in lines:
        for column, cell in enumerate(line):
            blanks = b" " * (widths[column] - characters(cell))
            last = column == len(line) - 1
            told += b"  " + (blanks + cell if column in right else cell + (b"" if last else blanks))
        told += b"\n"
    return told


def airs_told(airs):
    lines = []
    for air in airs:
        degrees = [counting.lookup_degree(it.branches, it.exclusive) for it in air.lookups]
        packed = [degree for degree, _ in counting.packed_columns(air.lookups)]
        numbers = [len(air.main.rows), len(air.main.names), len(degrees), sum(it.weight for it in air.lookups)]
        cells = [shown(air.said.name), *map(grouped, numbers), spaced(degrees), grouped(len(packed)), spaced(packed)]
        lines.append(cells)
    titles = ["air", "rows", "columns", "lookups", "weight", "degrees", "packed", "degrees"]
    return b"AIRS (packed: within degree %d)\n" % ASKED.degree + table(titles, lines, {1, 2, 3, 4, 6})


def pack_told(text, airs):
    """The AIRs, and their packed columns."""
    lines = []
    for air in airs:
        for degree, numbers in counting.packed_columns(air.lookups):
            mark = b" (above %d)" % ASKED.degree if degree > ASKED.degree else b""
            shared = b", ".join(called(text, air.lookups[number]) for number in numbers)
            lines.append([shown(air.said.name), b"degree %d%s" % (degree, mark), shared])
    columns = b"\nCOLUMNS (within degree %d)\n" % ASKED.degree + lines_told(lines, set())
    return airs_told(airs) + (columns if lines else b"")


def called(text, lookup):
    """A lookup by the word that it begins with and its line."""
    return b"%s of line %d" % (lookup.word.encode(), line_of(text, lookup.at))


def spaced(numbers):
    return " ".join(map(str, numbers)).encode()


def heights_told(airs):
    total, ids, widest = counting.height_sum(airs), len(counting.names_of_groups(airs)), counting.widest_of(airs)
    sums = b"\nHEIGHT BOUND  weights times heights: %s of %s\n" % (grouped(total), grouped(ASKED.characteristic))
    return sums + b"              ids: %s, widest tuple: %s\n" % (grouped(ids), grouped(widest))


def group_name(airs, name):
    if isinstance(name, bytes):
        return shown(name)
    air, lookup = name
    return b"local %s %d" % (shown(airs[air].said.name), lookup)


def buses_told(airs, declared, groups):
    lines = []
    for group in groups:
        fields = declared.get(group.name, [])
        received = sum(counting.is_negative(sent.count) for sent in group.sent)
        numbers = [len(group.sent) - received, received, len(group.nets)]
        unbalanced = grouped(len(group.unbalanced)) if group.unbalanced else b"-"
        carries = b", ".join(map(shown, fields))
        lines.append([group_name(airs, group.name), carries, *map(grouped, numbers), unbalanced])
    titles = ["bus", "carries", "sent", "received", "distinct", "unbalanced"]
    return b"\nBUSES (messages whose count is not zero)\n" + table(titles, lines, {2, 3, 4, 5})


def signed(number):
    return number - ASKED.characteristic if counting.is_negative(number) else number


def near_told(fields, group, values, net):
    """The first tuple that differs in one value and is off by as much the other way, of the first ones."""
    for others, other_net, _ in group.unbalanced[: max(COMPARED, ASKED.limit)]:
        places = [place for place, pair in enumerate(zip(values, others)) if pair[0] != pair[1]]
        if len(values) == len(others) and len(places) == 1 and (net + other_net) % ASKED.characteristic == 0:
            (place,) = places
            name = shown(fields[place]) if place < len(fields) else b"value %d" % place
            told = b"           differs only in %s from (%s), which is off by as much the other way\n"
            return told % (name, tuple_told(fields, others))
    return b""


def tuple_told(fields, values):
    names = [shown(field) + b" " for field in fields] or [b""] * len(values)
    return b", ".join(b"%s%d" % pair for pair in zip(names, values))


def told_places(places):
    """The first places; if all of them send, or all receive, the first one that does otherwise in place of the last."""
    first = places[: ASKED.limit]
    signs = {counting.is_negative(sent.count) for sent in first}
    known = places[: max(COMPARED, ASKED.limit)]
    others = [sent for sent in known if {counting.is_negative(sent.count)} != signs]
    return first[:-1] + others[:1] if len(first) > 1 and len(signs) == 1 and others else first


def unbalanced_told(text, airs, declared, group):
    told, fields = b"", declared.get(group.name, [])
    for values, net, places in group.unbalanced[: ASKED.limit]:
        how = b"received or provided" if signed(net) < 0 else b"sent or queried"
        told += b"\nUNBALANCED on %s: (%s) is %s too often, by %s\n" % (
            group_name(airs, group.name), tuple_told(fields, values), how, grouped(abs(signed(net))),
        )  # fmt: skip
        for sent in told_places(places):
            air = airs[sent.air]
            lookup = air.lookups[sent.lookup]
            file = next(item.said[1] for item in air.said.items if item.kind == "trace")
            place = (grouped(signed(sent.count)), shown(file), sent.row + 2)
            told += b"%10b at %s:%d, " % place + called(text, lookup) + b"\n"
        if len(places) > ASKED.limit:
            told += b"           and %s more places\n" % grouped(len(places) - ASKED.limit)
        told += near_told(fields, group, values, net)
    if len(group.unbalanced) > ASKED.limit:
        more = grouped(len(group.unbalanced) - ASKED.limit), group_name(airs, group.name)
        told += b"\n  and %s more unbalanced tuples on %s\n" % more
    return told


def bits_told(betas, alphas):
    return b"    challenges in %s: %d bits\n" % (ASKED.challenges.encode(), counting.bits_of(betas, alphas))


def soundness_told(airs, messages, enforced):
    keys, unbalanced = counting.key_counts(airs, messages)
    widest = counting.widest_of(airs)
    numbers = tuple(map(grouped, (keys, unbalanced, widest)))
    told = b"\nSOUNDNESS\n  these traces: n = %s distinct messages, k = %s of them unbalanced, " % numbers[:2]
    told += b"widest tuple W = %s\n" % numbers[2]
    if unbalanced:
        left = counting.left_of(keys, unbalanced, widest)
        told += b"  " + left_told(left) + bits_told(*left)
    return told + all_traces_told(airs, enforced, over_fixed=True)


def left_told(left):
    return b"  all but %s betas leave at most %s alphas at which any witness is accepted\n" % tuple(map(grouped, left))


def all_traces_told(airs, enforced, over_fixed=False):
    most = counting.most_messages(airs)
    told = b"  whatever traces of these heights a prover picks: at most %s messages\n" % grouped(most)
    if most:
        left = counting.most_left(airs)
        told += b"    if they do not balance, all but %s betas leave at most %s alphas\n" % tuple(map(grouped, left))
        told += bits_told(*left)
    return told + premise_told(airs, enforced, over_fixed)


def constraints_told(text, airs):
    """Whether all constraints hold, and what is told of them on the rows."""
    count = enforcing.constraint_count(airs)
    failures = [(air, counting.failure_of(air)) for air in airs]
    told = b""
    for air, failure in failures:
        if failure:
            row, number, value = failure
            file = next(item.said[1] for item in air.said.items if item.kind == "trace")
            places = (shown(air.said.name), grouped(signed(value)), shown(file), row + 2, row)
            told += b"  %s: %s at %s:%d (row %d), " % places
            told += b"assert of line %d\n" % line_of(text, air.constraints[number].at)
    if told:
        return False, b"\nCONSTRAINTS (the first row of an AIR on which one is not zero)\n" + told
    hold = b"constraint holds" if count == 1 else b"constraints hold"
    if count:
        return True, b"\nCONSTRAINTS\n  %s %s on all rows of the traces\n" % (grouped(count), hold)
    return True, b"\nCONSTRAINTS\n  there are none\n" if enforcing.is_told(airs) else b""


def excesses_told(text, airs):
    """The counts that are above what `at most` says."""
    told, is_of_query = b"", False
    for air in airs:
        file = next((item.said[1] for item in air.said.items if item.kind == "trace"), b"")
        for lookup, excess in zip(air.lookups, counting.excesses_of(air)):
            if excess:
                number, row, count = excess
                message = lookup.parts[number].message
                places = (shown(air.said.name), grouped(signed(count)), shown(file), row + 2, row)
                told += b"  %s: %s at %s:%d (row %d), " % places
                places = (message.verb.encode(), line_of(text, message.at), grouped(message.most))
                told += b"%s of line %d, at most %s\n" % places
                is_of_query |= message.verb != "provide"
    if not told:
        return b""
    told += b"  so the height bound says nothing of these traces\n" * is_of_query
    return b"\nAT MOST (the first row on which a count is above it)\n" + told


def with_fixed(airs, front, over_fixed):
    """That fixed columns are what they are, if that counts and there are any."""
    return front + b"with these fixed columns" if over_fixed and any(air.fixed for air in airs) else b""


def where_they_hold(word, count):
    """That so many constraints hold, behind a word; nothing where there are none."""
    many = b" these %s constraints hold" % grouped(count) if count != 1 else b" this constraint holds"
    return word + many if count else b""


def premise_told(airs, enforced, over_fixed):
    """For which traces a bound holds, where it is told what constraints enforce. That may be nothing that is told."""
    if not enforcing.is_told(airs):
        return b""
    fixed = with_fixed(airs, b" ", over_fixed)
    told = b"    for all traces" + fixed
    told += where_they_hold(b", on which" if fixed else b" on which", enforcing.constraint_count(airs))
    return told + (b"\n" if enforcing.is_all(enforced) else b", as long as what is marked TRUSTED is so\n")


def enforced_told(text, airs, enforced, over_fixed=False):
    """The table of what constraints enforce."""
    told = b"  whatever traces of these heights a prover picks" + with_fixed(airs, b", ", over_fixed)
    told += where_they_hold(b", where", enforcing.constraint_count(airs)) + b":\n"
    lines, notes = [[b"air", b"lookup", b"flags", b"weight"]], [()]
    for air, of_air in zip(airs, enforced):
        for lookup, it in zip(air.lookups, of_air):
            marks = (it.flags if lookup.exclusive else None, it.weight if enforcing.has_queries(lookup) else None)
            lines.append([shown(air.said.name), called(text, lookup), *map(enforcing.MARKED.get, marks)])
            notes.append(it.notes)
    rows = lines_told(lines, set()).splitlines(keepends=True)
    return told + b"".join(row + b"".join(below) for row, below in zip(rows, notes))


def enforced_line(enforced):
    """The line that answers whether all is enforced, if that is asked."""
    if not ASKED.enforced:
        return b""
    if enforcing.is_all(enforced):
        return b"\nENFORCED: all flags and weights are shown to be enforced\n"
    return b"\nTRUSTED: not all flags and weights are shown to be enforced\n"


class Enforced:
    """A text that tells what constraints enforce, which has to be what `told` makes of what it tells: of that it is
    looked at whether it can be and is so. `is_all` is whether all has to be enforced of it, or None."""

    def __init__(self, text, airs, told, is_all, over_fixed):
        self.read = text, airs
        self.told, self.is_all, self.over_fixed = told, is_all, over_fixed

    def text(self):
        """The text where nothing is told of any lookup."""
        return self.told([[enforcing.Shown() for _ in air.lookups] for air in self.read[1]])

    def unlike(self, found):
        text, airs = self.read
        try:
            enforced = enforcing.rows_in(text, airs, found, called, characters)
            wanted = self.told(enforced)
            if wanted != found:
                return apart(wanted, found)
            for air, of_air in zip(airs, enforced):
                for lookup, it in zip(air.lookups, of_air):
                    enforcing.check_notes(text, lookup, len(air.main.rows), it)
            enforcing.check_all(airs, enforced, self.over_fixed)
        except enforcing.Untrue as why:
            return str(why)
        wrong = self.is_all is not None and enforcing.is_all(enforced) != self.is_all
        return f"status of {self.is_all}, where another answer is told" if wrong else None


def told_with(kind, text, airs, told, well, over_fixed=False):
    """What has to be written of this kind where it is told what constraints enforce, with the answer; over the fixed
    columns that there are, or any. If it is asked whether all is enforced, that makes the answer as well, and so there
    are two."""
    if not ASKED.enforced or not well:
        return [(kind(text, airs, told, None, over_fixed), well)]
    return [(kind(text, airs, told, is_all, over_fixed), is_all) for is_all in (True, False)]


# By whether all messages balance, all constraints hold, and no count is above its `at most`.
VERDICTS = {
    (True, True, True): b"\nBALANCED: every tuple of every bus and local lookup cancels\n",
    (True, False, True): b"\nNOT SATISFIED: all messages balance, but a constraint fails\n",
    (True, True, False): b"\nNOT SATISFIED: all messages balance, but a count is above its `at most`\n",
    (True, False, False): b"\nNOT SATISFIED: all messages balance, but a constraint fails and a count is above its `at most`\n",
    (False, True, True): b"\nNOT BALANCED\n",
    (False, False, True): b"\nNOT BALANCED, and a constraint fails\n",
    (False, True, False): b"\nNOT BALANCED, and a count is above its `at most`\n",
    (False, False, False): b"\nNOT BALANCED, a constraint fails, and a count is above its `at most`\n",
}


def target_told(bits):
    """The line of a target, if there is one."""
    if ASKED.target is None:
        return b""
    return b"  TARGET %s: %d bits are wanted\n" % (b"MET" if counting.is_met(bits) else b"MISSED", ASKED.target)


def most_bits(airs):
    """How many bits are left whatever the traces, or None where there are no messages."""
    return counting.bits_of(*counting.most_left(airs)) if counting.most_messages(airs) else None


def plan_told(text, airs):
    """What is told of a batch before any trace is seen, and whether the target is met and all is enforced that has to be."""
    bits = most_bits(airs)

    def told(enforced):
        front = airs_told(airs) + heights_told(airs) + b"\nSOUNDNESS\n" + all_traces_told(airs, enforced)
        if enforcing.is_told(airs):
            front += b"\nCONSTRAINTS\n" + b"  there are none\n" * (enforcing.constraint_count(airs) == 0)
            front += enforced_told(text, airs, enforced)
        return front + target_told(bits) + enforced_line(enforced)

    well = counting.is_met(bits)
    return told_with(Enforced, text, airs, told, well) if enforcing.is_told(airs) else [(told([]), well)]


def bits_table_told(messages, unbalanced, widest):
    """How many bits are left in each field, and whether the target is met in the one that is asked for."""
    numbers = tuple(map(grouped, (messages, unbalanced, widest)))
    told = b"n = %s distinct messages, k = %s of them unbalanced, widest tuple W = %s\n" % numbers
    if not unbalanced:
        told += b"  all messages balance, so there is nothing to be wrong about\n"
        return told + target_told(None), counting.is_met(None)
    left = counting.left_of(messages, unbalanced, widest)
    lines = [[it.challenges.encode(), grouped(counting.bits_of(*left, it))] for it in FIELDS.values()]
    bits = counting.bits_of(*left)
    told += left_told(left) + table(["challenges in", "bits"], lines, {1})
    return told + target_told(bits), counting.is_met(bits)


def report_told(text, airs, declared, messages):
    """A report, and whether all messages balance, all constraints hold, no count is above its `at most`, and all is
    enforced that has to be."""
    groups = counting.groups_of(airs, messages)
    of_excesses = excesses_told(text, airs)
    front = airs_told(airs) + heights_told(airs) + of_excesses + buses_told(airs, declared, groups)
    front += b"".join(unbalanced_told(text, airs, declared, group) for group in groups)
    balanced = not any(group.unbalanced for group in groups)
    hold, of_constraints = constraints_told(text, airs)
    verdict = VERDICTS[balanced, hold, not of_excesses]

    def told(enforced):
        middle = soundness_told(airs, messages, enforced) + of_constraints
        middle += enforced_told(text, airs, enforced, over_fixed=True) if enforcing.is_told(airs) else b""
        return front + middle + verdict + enforced_line(enforced)

    well = balanced and hold and not of_excesses
    if not enforcing.is_told(airs):
        return [(told([]), well)]
    return told_with(Enforced, text, airs, told, well, over_fixed=True)
