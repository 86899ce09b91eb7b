"""What the names of a batch file stand for: each AIR with its tables and lookups, by docs/guide/CHECK.md."""
import collections
import os

from .reading import Air, Bus, Fault, Table, table_of

# How many nodes all expressions of a text have together, how many layers each has, and the weight of a lookup.
MOST_NODES, MOST_LAYERS, MOST_WEIGHT = 1048576, 1024, 2**64 - 1
SELECTORS = (b"is_first_row", b"is_last_row", b"is_transition")

# An AIR over its tables. `fixed` is the preprocessed table, or None.
Whole = collections.namedtuple("Whole", "said main fixed lookups constraints")
# A lookup, which is one column. `bus` is None where it is local, and `weights` are those of its messages. A branch has
# a flag, or None, the values of its tuple and its count, as expressions whose names are found. `parts` are the same as
# they are written.
Lookup = collections.namedtuple("Lookup", "at word bus exclusive branches weight weights parts")
Branch = collections.namedtuple("Branch", "flag tuple count")
# An expression that is zero on every row, whose names are found.
Constraint = collections.namedtuple("Constraint", "at zero")


class TableFault(Exception):
    """What is wrong at a byte of a table."""

    def __init__(self, name, content, fault):
        super().__init__(name, fault)
        self.name, self.content, self.fault = name, content, fault


class NoRows(Exception):
    """A table without rows."""


# --- tables ---


def path_of(folder, name):
    """The path of a file in a folder."""
    return os.path.join(os.fsencode(folder), name)


def bytes_in(folder, name):
    """What a file holds, or None where it cannot be read, as where its name is not UTF-8."""
    try:
        name.decode()
        with open(path_of(folder, name), "rb") as file:
            return file.read()
    except (OSError, ValueError):
        return None


def table_in(folder, at, name):
    content = bytes_in(folder, name)
    if content is None:
        raise Fault(at, "Unreadable")
    try:
        return table_of(content)
    except Fault as fault:
        raise TableFault(name, content, fault) from None


def files_of(air, kind, why):
    """The file of this kind of an AIR, if it has one."""
    found = [item for item in air.items if item.kind == kind]
    if len(found) > 1:
        raise Fault(found[1].at, why)
    return found[0].said if found else None


def tables_of(folder, air):
    """The main table of an AIR, and the preprocessed one or None."""
    main = files_of(air, "trace", "RepeatedTrace")
    if main is None:
        raise Fault(air.at, "NoTrace")
    fixed = files_of(air, "preprocessed", "RepeatedPreprocessed")
    return table_in(folder, *main), table_in(folder, *fixed) if fixed else None


def one_of(air, kind, repeated, missing):
    """The one item of this kind."""
    found = [item for item in air.items if item.kind == kind]
    if len(found) > 1:
        raise Fault(found[1].at, repeated)
    if not found:
        raise Fault(air.at, missing)
    return found[0].said


def shapes_of(folder, air):
    """The same, where an AIR without a trace may say its columns and its height."""
    main = files_of(air, "trace", "RepeatedTrace")
    fixed = files_of(air, "preprocessed", "RepeatedPreprocessed")
    if main is not None:
        return table_in(folder, *main), table_in(folder, *fixed) if fixed else None
    columns = one_of(air, "columns", "RepeatedColumns", "NoColumns")
    height = one_of(air, "height", "RepeatedHeight", "NoHeight")
    names = [name for _, name in columns]
    for place, (at, name) in enumerate(columns):
        if name in names[:place]:
            raise Fault(at, "RepeatedColumn")
    return Table(names, range(height)), table_in(folder, *fixed) if fixed else None


# --- expressions ---


class Room:
    """How many nodes the expressions so far have, in all AIRs."""

    def __init__(self):
        self.taken = 0


class Scope:
    """What the names of an AIR stand for, up to an item."""

    def __init__(self, room, main, fixed):
        self.room = room
        self.columns = {name: column for column, name in enumerate(main.names)}
        self.fixed = {name: column for column, name in enumerate(fixed.names if fixed else [])}
        self.defined = {}

    def define(self, at, name, make):
        if name in self.defined:
            raise Fault(at, "RepeatedDefinition")
        self.defined[name] = make()

    def cell(self, name, offset):
        """The cell of a column, or None."""
        if name.startswith(b"pre."):
            return ("fixed", self.fixed[name[4:]], offset) if name[4:] in self.fixed else None
        return ("main", self.columns[name], offset) if name in self.columns else None

    def named(self, at, name):
        if name in self.defined:
            return self.defined[name]
        if name in SELECTORS:
            return (name.decode(),)
        cell = self.cell(name, 0)
        if cell is None:
            raise Fault(at, "UnknownName")
        return cell

    def found(self, expression):
        """An expression with its names found, if there is room for its nodes and it has not too many layers."""
        found, nodes = self.walk(expression, self.room.taken)
        if layers_of(found) > MOST_LAYERS:
            raise Fault(first_leaf(expression), "DeepExpression")
        self.room.taken += nodes
        return found

    def walk(self, said, before):
        """The same, where so many nodes were counted before; and how many nodes it has."""
        kind, *parts = said
        if kind in ("name", "next", "number"):
            return self.leaf(kind, *parts, before)
        if kind == "^":
            return self.power(*parts, before)
        nodes, found = 1, [kind]
        for part in parts:
            inner, more = self.walk(part, before + nodes)
            found.append(inner)
            nodes += more
        return tuple(found), nodes

    def leaf(self, kind, at, said, before):
        if kind == "number":
            found = ("number", said)
        elif kind == "name":
            found = self.named(at, said)
        else:
            found = self.cell(said, 1)
            if found is None:
                raise Fault(at, "UnknownColumn")
        nodes = nodes_of(found)
        if before + nodes > MOST_NODES:
            raise Fault(at, "LargeExpression")
        return found, nodes

    def power(self, base, exponent, before):
        found, nodes = self.walk(base, before)
        nodes = nodes * exponent + exponent - 1
        if before + nodes > MOST_NODES:
            raise Fault(first_leaf(base), "LargeExpression")
        return ("^", found, exponent), nodes


def first_leaf(said):
    """Where the first name or number of an expression stands."""
    while said[0] not in ("name", "next", "number"):
        said = said[1]
    return said[1]


def layers_of(found):
    """The layers of an expression, with powers as products from the left."""
    return measured(found, LAYERS, lambda it, n: it + n - 1, lambda its: 1 + max(its))


def nodes_of(found):
    """The operators, signs, numbers and cells of an expression, with powers as products."""
    return measured(found, NODES, lambda it, n: it * n + n - 1, lambda its: 1 + sum(its))


NODES, LAYERS = {}, {}


def measured(found, known, of_power, of_parts):
    """A measure of an expression, which is 1 for a leaf. It is kept of each part, as definitions share theirs."""
    kind, *parts = found
    if kind not in ("negative", "+", "-", "*", "^"):
        return 1
    if id(found) not in known:
        if kind == "^":
            measure = of_power(measured(parts[0], known, of_power, of_parts), parts[1])
        else:
            measure = of_parts([measured(part, known, of_power, of_parts) for part in parts])
        known[id(found)] = found, measure
    return known[id(found)][1]


# --- lookups ---


def weight_of(message):
    if message.verb == "provide":
        return 0
    if message.most is not None:
        return message.most
    if message.count is None:
        return 1
    if message.count[0] == "number":
        return message.count[2]
    raise Fault(message.at, "NoWeight")


def branch_of(scope, declared, first, part):
    """A branch, and its weight. Its bus has to be that of the first message of its group."""
    message = part.message
    flag = scope.found(part.flag) if part.flag else None
    if message.bus != first.bus:
        raise Fault(message.at, "OtherBus")
    if declared and message.bus is not None:
        if message.bus not in declared:
            raise Fault(message.bus_at, "UndeclaredBus")
        if len(declared[message.bus]) != len(message.tuple):
            raise Fault(message.bus_at, "TupleWidth")
    values = [scope.found(value) for value in message.tuple]
    count = scope.found(message.count) if message.count else ("number", 1)
    if message.verb in ("provide", "receive"):
        count = ("negative", count)
    return Branch(flag, values, count), weight_of(message)


def lookup_of(scope, declared, item):
    first = item.said[0].message if item.said else None
    if first is None:
        raise Fault(item.at, "EmptyGroup")
    branches, weights = [], []
    for part in item.said:
        branch, weight = branch_of(scope, declared, first, part)
        branches.append(branch)
        weights.append(weight)
    exclusive = item.kind == "exclusive"
    weight = max(weights) if exclusive else sum(weights)
    word = first.verb if item.kind == "message" else item.kind
    return Lookup(item.at, word, first.bus, exclusive, branches, weight, weights, item.said)


def constraint_of(scope, item):
    boolean, said = item.said
    if boolean:
        said = ("*", said, ("-", said, ("number", first_leaf(said), 1)))
    return Constraint(item.at, scope.found(said))


def said_of(room, declared, air, main, fixed):
    """The lookups and the constraints of an AIR."""
    scope, lookups, constraints = Scope(room, main, fixed), [], []
    for item in air.items:
        if item.kind == "let":
            at, name, said = item.said
            scope.define(at, name, lambda said=said: scope.found(said))
        elif item.kind == "public":
            at, name, number = item.said
            scope.define(at, name, lambda number=number: ("public", number))
        elif item.kind == "lookups":
            raise Fault(item.at, "LookupsFile")
        elif item.kind in ("message", "together", "exclusive"):
            lookups.append(lookup_of(scope, declared, item))
        elif item.kind == "assert":
            constraints.append(constraint_of(scope, item))
    return lookups, constraints


def check_lookups(air, lookups):
    for lookup in lookups:
        if lookup.bus is not None and not is_utf8(lookup.bus):
            raise Fault(bus_at(air, lookup), "BusName")
        if lookup.weight > MOST_WEIGHT:
            raise Fault(lookup.at, "Weight")


def is_utf8(name):
    try:
        return name.decode() is not None
    except UnicodeDecodeError:
        return False


def bus_at(air, lookup):
    """Where the bus of a lookup is first named."""
    (item,) = [item for item in air.items if item.at == lookup.at]
    return item.said[0].message.bus_at


def declared_in(sections):
    """The buses that are declared, with the names of their values."""
    declared = {}
    for bus in sections:
        if isinstance(bus, Bus):
            if bus.name in declared:
                raise Fault(bus.at, "RepeatedBus")
            declared[bus.name] = bus.fields
    return declared


def airs_of(sections, folder):
    """The AIRs of a batch over the tables in a folder: the first fault is that of their tables, then that of the
    buses, and then that of an AIR."""
    airs = [section for section in sections if isinstance(section, Air)]
    tables = [tables_of(folder, air) for air in airs]
    declared, wholes, room = declared_in(sections), [], Room()
    for air, (main, fixed) in zip(airs, tables):
        for kind, table in (("preprocessed", fixed), ("trace", main)):
            if table is not None and not table.rows:
                raise NoRows(files_of(air, kind, None)[1])
        lookups, constraints = said_of(room, declared, air, main, fixed)
        check_lookups(air, lookups)
        if fixed is not None and len(fixed.rows) != len(main.rows):
            raise Fault(air.at, "Heights")
        wholes.append(Whole(air, main, fixed, lookups, constraints))
    return wholes, declared


def planned_of(sections, folder):
    """The same before any trace is seen."""
    airs = [section for section in sections if isinstance(section, Air)]
    shapes = [shapes_of(folder, air) for air in airs]
    declared, room = declared_in(sections), Room()
    wholes = [Whole(air, *shape, *said_of(room, declared, air, *shape)) for air, shape in zip(airs, shapes)]
    for whole in wholes:
        check_lookups(whole.said, whole.lookups)
    return wholes
