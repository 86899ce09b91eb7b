"""Witnesses at a pair of challenges: their equations, their text, and whether one is accepted."""
import collections
import re

from . import counting
from .fields import ASKED, minus, of, plus, power, product_of, quotient, times, total
from .reading import value_of

# What the fraction of a lookup on a row has to satisfy: denominator * fraction = numerator. `plain` is the sum of counts
# over denominators, in which a count of 0 gives 0, or None where another count or a set flag stands over zero.
Equation = collections.namedtuple("Equation", "denominator numerator plain")
# What a witness has for an AIR: its rows, each an accumulator and fractions, and its terminal or None.
Part = collections.namedtuple("Part", "rows terminal")


class WitnessFault(Exception):
    """The lines of a witness text of which one has to be told. `is_read` says that the text may be read as well."""

    def __init__(self, lines, is_read):
        super().__init__(lines, is_read)
        self.lines, self.is_read = lines, is_read


# --- equations ---


def denominator_of(point, alpha, beta, widest):
    """The denominator of an id with the values of a tuple."""
    number, values = point
    told = plus(alpha, times(of(number + 1), power(beta, widest)))
    return minus(told, total(times(of(value), power(beta, place)) for place, value in enumerate(reversed(values))))


def flagged(flags, denominators, counts):
    """The equation of an exclusive lookup. Where a flag is 1 and all others are 0, it is that of its message."""
    rest = minus(of(1), of(sum(flags)))
    denominator = plus(rest, total(times(of(flag), it) for flag, it in zip(flags, denominators)))
    numerator = of(sum(flag * count for flag, count in zip(flags, counts)))
    return Equation(denominator, numerator, quotient(numerator, denominator) if any(denominator) else None)


def together(denominators, counts):
    """The equation of messages all of which count."""
    places = range(len(counts))
    others = [product_of(denominators[it] for it in places if it != place) for place in places]
    numerator = total(times(of(count), other) for count, other in zip(counts, others))
    divided = [(of(count), it) for count, it in zip(counts, denominators) if count]
    plain = total(quotient(*it) for it in divided) if all(any(it) for _, it in divided) else None
    return Equation(product_of(denominators), numerator, plain)


def equations_of(airs, alpha, beta):
    """For each AIR and row the equation of each lookup. Flags are not looked at."""
    ids, widest = counting.ids_of(airs), counting.widest_of(airs)
    whole = []
    for number, air in enumerate(airs):
        whole.append([])
        for row in range(len(air.main.rows)):
            whole[-1].append([])
            for index, lookup in enumerate(air.lookups):
                value = lambda it: counting.value_of(it, air, row)  # noqa: B023, E731
                point = ids[(number, index) if lookup.bus is None else lookup.bus]
                tuples = [list(map(value, branch.tuple)) for branch in lookup.branches]
                sides = [denominator_of((point, it), alpha, beta, widest) for it in tuples]
                sides = sides, [value(branch.count) for branch in lookup.branches]
                flags = [value(branch.flag) for branch in lookup.branches] if lookup.exclusive else None
                whole[-1][-1].append(flagged(flags, *sides) if lookup.exclusive else together(*sides))
    return whole


def all_of(equations):
    return [equation for rows in equations for row in rows for equation in row]


def is_open(equation):
    """Whether every fraction solves it."""
    return not any(equation.denominator) and not any(equation.numerator)


def is_solvable(equation):
    return any(equation.denominator) or not any(equation.numerator)


def fraction_of(equation):
    return of(0) if is_open(equation) else quotient(equation.numerator, equation.denominator)


def has_any(equations):
    """Whether some witness is accepted."""
    every = all_of(equations)
    if not all(map(is_solvable, every)):
        return False
    return any(map(is_open, every)) or not any(total(map(fraction_of, every)))


# --- witnesses ---


def summed(rows):
    """The witness of an AIR with these fractions."""
    if not any(rows):
        return Part([], None)
    accumulator, whole = of(0), []
    for row in rows:
        whole.append([accumulator, *row])
        accumulator = plus(accumulator, total(row))
    return Part(whole, accumulator)


def witness_of(equations):
    """The witness of plain fractions, or None where one of them has zero for its denominator."""
    if any(equation.plain is None for equation in all_of(equations)):
        return None
    return [summed([[equation.plain for equation in row] for row in rows]) for rows in equations]


def accepted_one(equations):
    """A witness that is accepted, or None: where there is a choice, the first fraction makes the sum zero."""
    if not has_any(equations):
        return None
    rest, whole = minus(of(0), total(map(fraction_of, all_of(equations)))), []
    for rows in equations:
        whole.append([])
        for row in rows:
            fractions = list(map(fraction_of, row))
            for place in (place for place, equation in enumerate(row) if is_open(equation)):
                fractions[place], rest = plus(fractions[place], rest), of(0)
            whole[-1].append(fractions)
    return list(map(summed, whole))


def holds(equations, part, row):
    """Whether a row of an AIR holds: where the accumulators begin, the fractions, and what follows from both."""
    accumulator, *fractions = part.rows[row]
    after = part.terminal if row + 1 == len(part.rows) else part.rows[row + 1][0]
    begins = row > 0 or not any(accumulator)
    solved = all(times(it.denominator, one) == it.numerator for it, one in zip(equations, fractions))
    return begins and solved and after == plus(accumulator, total(fractions))


def first_fault(equations, witness):
    """The first row that fails, as the numbers of its AIR and of itself, or None."""
    for number, (rows, part) in enumerate(zip(equations, witness)):
        for row, of_row in enumerate(rows):
            if of_row and not holds(of_row, part, row):
                return number, row
    return None


def has_shape(equations, witness):
    """Whether the numbers of AIRs, rows and columns are those of the batch."""
    if len(equations) != len(witness):
        return False
    shape = lambda rows: [len(row) + 1 for row in rows if row]  # noqa: E731
    for rows, part in zip(equations, witness):
        if shape(rows) != list(map(len, part.rows)) or any(rows) != (part.terminal is not None):
            return False
    return True


def terminal_sum(witness):
    return total(part.terminal for part in witness if part.terminal is not None)


# --- their text ---

WORD, TEXT = re.compile(rb"[0-9]+"), re.compile(rb"0|[1-9][0-9]*")


def element_text(element):
    return b",".join(b"%d" % coefficient for coefficient in element)


def element_in(text, form):
    """The element that a text says, each number of which has this form, or None."""
    numbers = text.split(b",")
    if len(numbers) != ASKED.extension or not all(map(form.fullmatch, numbers)):
        return None
    element = tuple(map(value_of, numbers))
    return element if max(element) < ASKED.characteristic else None


def text_of(witness):
    told = b""
    for number, part in enumerate(witness):
        told += b"air %d\n" % number
        told += b"".join(b" ".join(map(element_text, row)) + b"\n" for row in part.rows)
        told += b"" if part.terminal is None else b"terminal %s\n" % element_text(part.terminal)
    return told


def read_line(parts, line):
    """Takes a line in, and says whether it is one."""
    if line == b"air %d" % len(parts):
        parts.append(Part([], []))
        return True
    if not line or not parts or parts[-1].terminal:
        return False
    if line.startswith(b"terminal "):
        parts[-1].terminal.append(element_in(line[9:], TEXT))
        return parts[-1].terminal[0] is not None
    parts[-1].rows.append([element_in(word, TEXT) for word in line.split(b" ")])
    return None not in parts[-1].rows[-1]


def is_odd(part):
    """Whether the last line makes an AIR's part one that no batch has: a row of another length than the first."""
    return not part.terminal and len(part.rows) > 1 and len(part.rows[-1]) != len(part.rows[0])


def is_odd_at_end(part):
    """Whether the part is one that no batch has, as it ends: with rows and no terminal, or with none and a terminal, or
    with accumulators alone."""
    return bool(part.rows) != bool(part.terminal) or any(len(row) == 1 for row in part.rows[:1])


def read(text):
    """The witness that a text says. docs/guide/CHECK.md leaves open whether a text of odd parts is refused."""
    *lines, rest = text.split(b"\n")
    parts, odd = [], []
    for number, line in enumerate(lines, 1):
        before = len(parts)
        if not read_line(parts, line):
            raise WitnessFault([*odd, number], False)
        if len(parts) > before > 0 and is_odd_at_end(parts[-2]):
            odd += [number - 1, number]
        if is_odd(parts[-1]):
            odd.append(number)
    if rest:
        raise WitnessFault([*odd, len(lines) + 1], False)
    if parts and is_odd_at_end(parts[-1]):
        odd += [len(lines), len(lines) + 1]
    if odd:
        raise WitnessFault(odd, True)
    return [Part(part.rows, part.terminal[0] if part.terminal else None) for part in parts]
