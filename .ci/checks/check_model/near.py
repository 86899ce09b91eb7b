"""What helps to mend a fault: the name that was meant, off by one letter, what a bus declares, or a sign left out."""
from . import meaning, telling
from .reading import Air, Bus, Fault, tokens_of

LONGEST = 64


def is_near(left, right):
    """Whether one byte put in, taken out or changed makes one name the other. Long names, and those of one letter, are not compared."""
    if max(len(left), len(right)) > LONGEST or min(len(left), len(right)) < 2 or left == right:
        return False
    if len(left) == len(right):
        return sum(pair[0] != pair[1] for pair in zip(left, right)) == 1
    long, short = (left, right) if len(left) > len(right) else (right, left)
    return any(long[:at] + long[at + 1 :] == short for at in range(len(long)))


def name_at(text, at):
    """The name that stands at a byte of a text, with or without backquotes."""
    return next(token.text for token in tokens_of(text) if token.at == at)


def candidates(sections, folder, at, why):
    """The names that could stand at a byte of the text, in the order in which they are compared."""
    if why == "UndeclaredBus":
        return [section.name for section in sections if isinstance(section, Bus)]
    if why not in ("UnknownName", "UnknownColumn"):
        return []
    air = [section for section in sections if isinstance(section, Air) and section.at <= at][-1]
    main, fixed = meaning.shapes_of(folder, air)
    columns = [name for name in main.names if not name.startswith(b"pre.")]
    names = [*columns, *(b"pre." + name for name in (fixed.names if fixed else []))]
    if why == "UnknownName":
        known = [item for item in air.items if item.at <= at][:-1]
        names += [item.said[1] for item in known if item.kind in ("let", "public")]
    return names


def hint_of(sections, folder, text, at, why):
    """What is written behind the mark below a fault, nothing where nothing helps."""
    if why == "Sign )":
        begins_value = any(token.at == at and token.kind in ("name", "number", "(") for token in tokens_of(text))
        return b" is a comma or an operator missing before it?" if begins_value else b""
    if why == "TupleWidth":
        bus = next(section for section in sections if isinstance(section, Bus) and section.name == name_at(text, at))
        values = b"%d value%s" % (len(bus.fields), b"" if len(bus.fields) == 1 else b"s")
        return b" line %d declares %s" % (telling.line_of(text, bus.at), values)
    name = near_name(sections, folder, text, at, why)
    return b"" if name is None else b" did you mean `%s`?" % telling.shown(name)


def near_name(sections, folder, text, at, why):
    """The first name that is near the one at a byte of the text, or None."""
    try:
        names = candidates(sections, folder, at, why)
        return next((other for other in names if is_near(other, name_at(text, at))), None)
    except (Fault, meaning.TableFault):
        return None
