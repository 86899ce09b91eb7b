"""The fields, what the words of a run ask for, and the arithmetic of extensions."""
import collections
import types

# A field of traces, with what its extension is called, the degree D of it, and the constant c of X^D - c.
Field = collections.namedtuple("Field", "characteristic challenges extension constant")
FIELDS = {
    b"f7": Field(7, "F7", 1, 0),
    b"babybear4": Field(2013265921, "BabyBear^4", 4, 11),
    b"koalabear4": Field(2130706433, "KoalaBear^4", 4, 3),
    b"goldilocks2": Field(2**64 - 2**32 + 1, "Goldilocks^2", 2, 7),
}
# What the words of a run ask for: the field, how many tuples and places are told, the degree of packed columns, how many
# bits are wanted, or None, and whether all has to be enforced.
ASKED = types.SimpleNamespace()


def ask(field=b"babybear4", limit=4, degree=3, target=None, enforced=False):
    options = {"limit": limit, "degree": degree, "target": target, "enforced": enforced}
    vars(ASKED).update(FIELDS[field]._asdict(), name=field.decode(), **options)


ask()

# --- elements ---

# An element of the extension is the tuple of its coefficients, lowest power first. In a product X^D is c.


def of(number):
    """A number as an element."""
    return (number % ASKED.characteristic, *[0] * (ASKED.extension - 1))


def plus(left, right):
    return tuple((one + other) % ASKED.characteristic for one, other in zip(left, right))


def minus(left, right):
    return tuple((one - other) % ASKED.characteristic for one, other in zip(left, right))


def times(left, right):
    product = [0] * (2 * ASKED.extension)
    for place, one in enumerate(left):
        for other_place, other in enumerate(right):
            product[place + other_place] += one * other
    low, high = product[: ASKED.extension], product[ASKED.extension :]
    return tuple((one + ASKED.constant * other) % ASKED.characteristic for one, other in zip(low, high))


def power(base, exponent):
    result = of(1)
    for bit in bin(exponent)[2:]:
        result = times(result, result)
        result = times(result, base) if bit == "1" else result
    return result


def quotient(left, right):
    """The quotient by an element that is not zero: the power by the number of the others is 1."""
    return times(left, power(right, ASKED.characteristic**ASKED.extension - 2))


def total(elements):
    result = of(0)
    for element in elements:
        result = plus(result, element)
    return result


def product_of(elements):
    result = of(1)
    for element in elements:
        result = times(result, element)
    return result
