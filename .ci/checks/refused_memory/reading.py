"""A plain reader of lookups over the integers modulo 7 and of indexed declarations, from JSON.

It says what a text is read as, and whether what is read is well formed.
"""
import json


class Refused(Exception):
    """A text that is no list of lookups, or no declarations."""


def members(pairs):
    """An object, whose names have to differ where they are read."""
    return {"": [name for name, _ in pairs], **dict(pairs)}


def negative_as_none(text):
    # of `-0` too: no number that is read has a sign
    return None if text.startswith("-") else int(text)


def no_constant(_text):
    raise Refused


def value_of(text):
    """The value of a text of JSON, where numbers that are not whole or have a sign are None."""
    numbers = {"parse_int": negative_as_none, "parse_float": lambda _: None, "parse_constant": no_constant}
    try:
        return json.loads(text.decode(), object_pairs_hook=members, **numbers)
    except (ValueError, RecursionError):
        raise Refused from None


def wants(condition):
    if not condition:
        raise Refused


def member(value, name, **absent):
    wants(isinstance(value, dict) and value[""].count(name) <= 1)
    if name not in value:
        wants(absent)
        return absent["absent"]
    return value[name]


def number(value, below=1 << 64):
    wants(isinstance(value, int) and not isinstance(value, bool) and value < below)
    return value


def text_of(value):
    wants(isinstance(value, str))
    return value


def items(value, read, count=None):
    wants(isinstance(value, list) and count in (None, len(value)))
    return [read(item) for item in value]


def variant(value, plain, full):
    """A variant: its name alone, or an object of one member by the reader of that name."""
    if isinstance(value, str):
        wants(value in plain)
        return value
    wants(isinstance(value, dict) and len(value[""]) == 1 and value[""][0] in full)
    name = value[""][0]
    return {name: full[name](value[name])}


def variable(value):
    offset = {name: lambda it: {"offset": number(member(it, "offset"))} for name in ("Main", "Preprocessed")}
    return {"entry": variant(member(value, "entry"), ("Public",), offset), "index": number(member(value, "index"))}


def leaf(value):
    full = {"Variable": variable, "Constant": lambda it: number(it, 7)}
    return variant(value, ("IsFirstRow", "IsLastRow", "IsTransition"), full)


def expression(value):
    pair = {name: lambda it: items(it, expression, 2) for name in ("Add", "Sub", "Mul")}
    return variant(value, (), {"Leaf": leaf, "Neg": expression, **pair})


def lookup(value):
    flags = member(value, "flags", absent=None)
    return {
        "kind": variant(member(value, "kind"), ("Local",), {"Global": text_of}),
        "elements": items(member(value, "elements"), lambda tuple_: items(tuple_, expression)),
        "multiplicities": items(member(value, "multiplicities"), expression),
        "count_weight": number(member(value, "count_weight")),
        "column": number(member(value, "column")),
        "flags": None if flags is None else items(flags, expression),
    }


def lookups(value):
    """Lookups that are read, and what is wrong with the first that is malformed, if there is one."""
    read = items(value, lookup)
    for place, it in enumerate(read):
        tuples = it["elements"]
        flags = tuples if it["flags"] is None else it["flags"]
        if it["column"] != place or not len(tuples) == len(it["multiplicities"]) == len(flags):
            return read, f"BadRecord {{ lookup: {place} }}"
    return read, None


def columns(value):
    return items(value, number)


def reader(value):
    return {
        "table": text_of(member(value, "table")),
        "position": number(member(value, "position")),
        "payload": columns(member(value, "payload")),
    }


def table(value):
    return {
        "name": text_of(member(value, "name")),
        "window": variant(member(value, "window"), ("Main", "Preprocessed"), {}),
        "columns": columns(member(value, "columns")),
    }


# How many columns a window has.
WIDTHS = {"Main": 3, "Preprocessed": 0}


def declarations(value):
    """Declarations that are read, and the name of the first thing that is wrong with them."""
    read = {"reads": items(member(value, "reads"), reader), "tables": items(member(value, "tables"), table)}
    faults = []
    for it in read["reads"]:
        faults += column_faults("EmptyPayload", it["payload"], WIDTHS["Main"], [it["position"]])
    for it in read["tables"]:
        faults += column_faults("EmptyTable", it["columns"], WIDTHS[it["window"]], [])
    return read, faults[0] if faults else None


def column_faults(empty, named, width, before):
    yield from ("ColumnOutOfRange" for it in before if it >= width)
    if not named:
        yield empty
    for place, column in enumerate(named):
        if column >= width:
            yield "ColumnOutOfRange"
        if column in named[:place]:
            yield "RepeatedColumn"


KINDS = {"lookups": lookups, "declarations": declarations}


def is_written(text, value):
    """Whether a text of JSON says this value. By texts, since a number equals one that is not whole, or true."""
    try:
        return json.dumps(json.loads(text), sort_keys=True) == json.dumps(value, sort_keys=True)
    except ValueError:
        return False


def text_fault(kind, text, line):
    """What is wrong with the answer to a text."""
    try:
        read, malformed = KINDS[kind](value_of(text))
    except Refused:
        well = line in ("refused: Syntax", "refused: Data", "refused: Eof")
    else:
        said, _, value = line.partition(": ")
        if malformed:
            well = said == "malformed" and value.startswith(malformed)
        else:
            well = said == "read" and is_written(value, read)
    return None if well else f"{kind}: {text[:200]!r}: {line[:200]}"
