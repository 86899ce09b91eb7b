"""What a batch sends, and the figures of a report: degrees, packed columns, weights, buses and challenges. Numbers are
whole numbers modulo the characteristic, and each expression is worked out row by row."""
import collections

from .fields import ASKED

# A message: its AIR, lookup and row, by their numbers, its values and its count.
Sent = collections.namedtuple("Sent", "air lookup row tuple count")
# A bus, or a local lookup as the numbers of its AIR and of itself, with its messages whose count is not zero, and the
# tuples that do not balance, each with its net and its messages.
Group = collections.namedtuple("Group", "name sent nets unbalanced")


class FlagFault(Exception):
    """The flags of a lookup on a row, by numbers. `several` says that more than one is set."""

    def __init__(self, air, row, lookup, several):
        super().__init__(air, row, lookup)
        self.air, self.row, self.lookup, self.several = air, row, lookup, several


class Refused(Exception):
    """Why a batch is refused, where there is no place to tell."""


class Untold(Exception):
    """A batch is refused, and docs/guide/CHECK.md does not say with which words."""


# --- values ---


def value_of(expression, air, row):
    """The value of an expression on a row of an AIR."""
    kind, *parts = expression
    rows = len(air.main.rows)
    if kind in ("number", "public"):
        value = parts[0]
    elif kind in ("main", "fixed"):
        table = air.main if kind == "main" else air.fixed
        value = table.rows[(row + parts[1]) % rows][parts[0]]
    elif kind in ("is_first_row", "is_last_row", "is_transition"):
        value = {"is_first_row": row == 0, "is_last_row": row == rows - 1, "is_transition": row != rows - 1}[kind]
    elif kind == "^":
        value = value_of(parts[0], air, row) ** parts[1]
    else:
        values = [value_of(part, air, row) for part in parts]
        value = -values[0] if kind == "negative" else worked_out(kind, *values)
    return value % ASKED.characteristic


def worked_out(sign, left, right):
    return {"+": left + right, "-": left - right, "*": left * right}[sign]


def sent_of(number, air):
    """All messages of an AIR, also those with count 0, and the first fault of its flags."""
    for row in range(len(air.main.rows)):
        for index, lookup in enumerate(air.lookups):
            for branch in counting(lookup, number, air, index, row):
                values = tuple(value_of(value, air, row) for value in branch.tuple)
                yield Sent(number, index, row, values, value_of(branch.count, air, row))


def check_flags(airs):
    """The first fault of the flags of the first AIR that has one."""
    for number, air in enumerate(airs):
        for _ in sent_of(number, air):
            pass


def counting(lookup, number, air, index, row):
    """The branches of a lookup that count on a row."""
    if not lookup.exclusive:
        return lookup.branches
    flags = [value_of(branch.flag, air, row) for branch in lookup.branches]
    if any(flag > 1 for flag in flags):
        raise FlagFault(number, row, index, False)
    if sum(flags) > 1:
        raise FlagFault(number, row, index, True)
    return [branch for branch, flag in zip(lookup.branches, flags) if flag]


def failure_of(air):
    """The first row of an AIR on which a constraint is not zero, with the first such constraint by its number and its
    value there, or None."""
    for row in range(len(air.main.rows)):
        for number, constraint in enumerate(air.constraints):
            value = value_of(constraint.zero, air, row)
            if value:
                return row, number, value
    return None


def excess_of(air, lookup):
    """The first message of a lookup that counts more on a row than `at most` says, by its number, with the first such row
    and its count there; or None. A message counts if its lookup has no flags, or its own flag is 1."""
    for number, (part, branch) in enumerate(zip(lookup.parts, lookup.branches)):
        most = part.message.most
        for row in range(len(air.main.rows)) if most is not None else []:
            count = value_of(branch.count, air, row)
            is_sent = branch.flag is None or value_of(branch.flag, air, row) == 1
            if is_sent and min(count, ASKED.characteristic - count) > most:
                return number, row, count
    return None


def excesses_of(air):
    """The same of each lookup of an AIR."""
    return [excess_of(air, lookup) for lookup in air.lookups]


# --- degrees ---


def degree_of(expression):
    kind, *parts = expression
    if kind in ("number", "public", "is_transition"):
        return 0
    if kind in ("main", "fixed", "is_first_row", "is_last_row"):
        return 1
    if kind == "^":
        return degree_of(parts[0]) * parts[1]
    return (sum if kind == "*" else max)([degree_of(part) for part in parts])


def degrees_of_branch(branch):
    """The degrees of the flag, of the tuple and of the count."""
    flag = degree_of(branch.flag) if branch.flag else 0
    return flag, max((degree_of(value) for value in branch.tuple), default=0), degree_of(branch.count)


def lookup_degree(branches, exclusive):
    """The degree of the constraint of a column with these branches."""
    degrees = [degrees_of_branch(branch) for branch in branches]
    if exclusive:
        return max([1, *(flag + max(1 + values, count) for flag, values, count in degrees)])
    whole = sum(values for _, values, _ in degrees)
    return max([1 + whole, *(count + whole - values for _, values, count in degrees)])


def packed_columns(lookups):
    """The packed columns in their order, each as its degree and the numbers of its lookups."""
    alone = [number for number, lookup in enumerate(lookups) if lookup.bus is None or lookup.exclusive]
    others = [number for number in range(len(lookups)) if number not in alone]
    columns = [[number] for number in alone]
    for bus in dict.fromkeys(lookups[number].bus for number in others):
        columns += cuts_of(lookups, [number for number in others if lookups[number].bus == bus])
    return [(column_degree(lookups, column), column) for column in columns]


def column_degree(lookups, column):
    """The degree of the constraint of a column that these lookups share."""
    branches = [branch for number in column for branch in lookups[number].branches]
    return lookup_degree(branches, lookups[column[0]].exclusive)


def cuts_of(lookups, shared):
    """The lookups of a bus, cut into columns, as few as can be: each column takes as many as the degree allows."""
    cuts = []
    for number in shared:
        if cuts and column_degree(lookups, [*cuts[-1], number]) <= ASKED.degree:
            cuts[-1].append(number)
        else:
            cuts.append([number])
    assert len(shared) > 10 or len(cuts) == fewest(lookups, shared), "another cut has fewer columns"
    return cuts


def fewest(lookups, shared):
    """The fewest columns of all ways to cut a list within the degree. A lookup alone may be above it."""
    if not shared:
        return 0
    ends = range(1, len(shared) + 1)
    within = [end for end in ends if end == 1 or column_degree(lookups, shared[:end]) <= ASKED.degree]
    return 1 + min(fewest(lookups, shared[end:]) for end in within)


# --- a batch ---


def check_widths(airs):
    """One width for the tuples of each bus, and of each local lookup."""
    widths = {}
    for air in airs:
        buses = dict.fromkeys(lookup.bus for lookup in air.lookups if lookup.bus is not None)
        for bus in buses:
            for width in (len(branch.tuple) for it in air.lookups if it.bus == bus for branch in it.branches):
                if widths.setdefault(bus, width) != width:
                    raise Refused(f"bus {bus.decode()}: tuple widths {widths[bus]} and {width} differ")
    for number, air in enumerate(airs):
        for index, lookup in enumerate(air.lookups):
            first, *others = [len(branch.tuple) for branch in lookup.branches]
            other = next((width for width in others if width != first), None)
            if lookup.bus is None and other is not None:
                raise Refused(
                    f"air {number} local lookup {index}: tuple widths {first} and {other} differ; every tuple folded "
                    "into one lookup must share a payload width, or a shorter tuple can alias a longer one"
                )


def height_sum(airs):
    return sum(lookup.weight * len(air.main.rows) for air in airs for lookup in air.lookups)


def check_heights(airs):
    total = height_sum(airs)
    if total >= ASKED.characteristic:
        raise Refused(
            f"LogUp multiplicity height-bound exceeded: weighted height sum {total} reaches the "
            f"~2^{ASKED.characteristic.bit_length()} field characteristic"
        )


def group_of(airs, sent):
    lookup = airs[sent.air].lookups[sent.lookup]
    return (sent.air, sent.lookup) if lookup.bus is None else lookup.bus


def names_of_groups(airs):
    """The local lookups, and then the buses, in their order."""
    places = [(number, index, it.bus) for number, air in enumerate(airs) for index, it in enumerate(air.lookups)]
    local = [(number, index) for number, index, bus in places if bus is None]
    return local + list(dict.fromkeys(bus for _, _, bus in places if bus is not None))


def ids_of(airs):
    """The id of each local lookup and of each bus, in the order of AIRs and lookups."""
    ids = {}
    for number, air in enumerate(airs):
        for index, lookup in enumerate(air.lookups):
            ids.setdefault((number, index) if lookup.bus is None else lookup.bus, len(ids))
    return ids


def check_ids(airs):
    """Ids are distinct in the field."""
    if len(ids_of(airs)) > ASKED.characteristic:
        raise Untold


def nets_of(messages):
    """The sum of the counts of each tuple, in the order of the first messages."""
    nets = {}
    for sent in messages:
        nets[sent.tuple] = (nets.get(sent.tuple, 0) + sent.count) % ASKED.characteristic
    return nets


def groups_of(airs, messages):
    """The table of buses. Messages go by AIR, lookup and row."""
    ordered = sorted(messages, key=lambda sent: (sent.air, sent.lookup, sent.row))
    groups = []
    for name in names_of_groups(airs):
        here = [sent for sent in ordered if sent.count and group_of(airs, sent) == name]
        nets = nets_of(here)
        unbalanced = [(it, net, [sent for sent in here if sent.tuple == it]) for it, net in nets.items() if net]
        groups.append(Group(name, here, nets, unbalanced))
    return groups


def is_negative(count):
    return count > ASKED.characteristic // 2


def widest_of(airs):
    tuples = [branch.tuple for air in airs for lookup in air.lookups for branch in lookup.branches]
    return max([1, *map(len, tuples)])


def key_counts(airs, messages):
    """How many distinct messages there are, and how many of them do not balance; also of those with count 0."""
    keys = [(group_of(airs, sent), sent) for sent in messages]
    nets = collections.Counter()
    for name, sent in keys:
        nets[name, sent.tuple] += sent.count
    return len(nets), sum(net % ASKED.characteristic != 0 for net in nets.values())


def most_messages(airs):
    on_row = lambda air: sum(1 if it.exclusive else len(it.branches) for it in air.lookups)  # noqa: E731
    return sum(len(air.main.rows) * on_row(air) for air in airs)


def most_left(airs):
    """The betas and alphas at which traces that do not balance may be accepted, by the heights alone."""
    most = most_messages(airs)
    return widest_of(airs) * (most - 1), 2 * most - 1


def left_of(keys, unbalanced, widest):
    """The same, where so many of the distinct messages do not balance."""
    return widest * (unbalanced - 1), keys + unbalanced - 1


def bits_of(betas, alphas, field=ASKED):
    """The greatest number of bits by which the extension is as large as all bad choices; 0 where there is none."""
    bits = 0
    while (betas + alphas) * 2 ** (bits + 1) <= field.characteristic**field.extension:
        bits += 1
    return bits


def is_met(bits):
    """Whether so many bits are as many as are wanted. None are the bits where there is nothing to be wrong about."""
    return ASKED.target is None or bits is None or bits >= ASKED.target
