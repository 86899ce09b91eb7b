"""The answers as JSON: what each member has to be."""
import json

from . import counting, enforcing
from .fields import ASKED, FIELDS
from .telling import line_of, most_bits, signed, told_places, told_with


class Json:
    """An answer that has to be one object on one line."""

    def __init__(self, value):
        self.value = value

    def text(self):
        return json.dumps(self.value, ensure_ascii=False, separators=(",", ":")).encode() + b"\n"

    def unlike(self, found):
        """How a text is otherwise, or None."""
        try:
            return next(unlike(self.value, value_in(found), "the answer"), None)
        except ValueError as why:
            return str(why)


class EnforcedJson:
    """An answer that tells what constraints enforce. It has to be what `told` makes of what it tells; of that it is
    looked at whether it can be and is so."""

    def __init__(self, _text, airs, told, is_all, over_fixed):
        self.airs, self.told, self.is_all, self.over_fixed = airs, told, is_all, over_fixed

    def text(self):
        nothing = [[enforcing.Shown(None, None, [None for _ in it.parts]) for it in air.lookups] for air in self.airs]
        return Json(self.told(nothing)).text()

    def unlike(self, found):
        try:
            value = value_in(found)
            enforced = enforcing.shown_in(self.airs, value.get("airs") if isinstance(value, dict) else None)
            if wrong := next(unlike(self.told(enforced), value, "the answer"), None):
                return wrong
            enforcing.check_all(self.airs, enforced, self.over_fixed)
        except (ValueError, enforcing.Untrue) as why:
            return str(why)
        wrong = self.is_all is not None and enforcing.is_all(enforced) != self.is_all
        return f"status of {self.is_all}, where another answer is told" if wrong else None


def value_in(found):
    """The value that a text has on its one line."""
    if found.count(b"\n") != 1 or not found.endswith(b"\n"):
        raise ValueError(f"{found[:200]!r} is not one line")
    try:
        return json.loads(found.decode(), object_pairs_hook=once, parse_constant=none_such)
    except ValueError as why:
        raise ValueError(f"{found[:200]!r} is no JSON: {why}") from None


def once(pairs):
    """An object whose members have names of their own."""
    if len(dict(pairs)) < len(pairs):
        raise ValueError("a member appears twice")
    return dict(pairs)


def none_such(constant):
    raise ValueError(f"{constant} is no number")


def unlike(wanted, found, where):
    """In what a value is otherwise than it has to be, type and all."""
    if type(wanted) is not type(found):
        yield f"{where} is {found!r}, and not {wanted!r}"[:300]
    elif isinstance(wanted, dict):
        for name in [*wanted, *(name for name in found if name not in wanted)]:
            if name in wanted and name in found:
                yield from unlike(wanted[name], found[name], f"{name!r} of {where}")
            else:
                yield f"{where} has {'no' if name in wanted else 'a'} member {name!r}"
    elif isinstance(wanted, list):
        if len(wanted) != len(found):
            yield f"{where} has {len(found)} parts, and not {len(wanted)}"
        for place, pair in enumerate(zip(wanted, found)):
            yield from unlike(*pair, f"part {place} of {where}")
    elif wanted != found:
        yield f"{where} is {found!r}, and not {wanted!r}"


def object_of(**members):
    return Json({"format": 1, **members})


def name_of(name):
    """A name, or None where it is not UTF-8."""
    try:
        return name.decode()
    except UnicodeDecodeError:
        return None


def of_air(text, air, is_checked=False, enforced=None):
    columns = counting.packed_columns(air.lookups)
    said = {
        "name": name_of(air.said.name),
        "rows": len(air.main.rows),
        "columns": len(air.main.names),
        "weight": str(sum(lookup.weight for lookup in air.lookups)),
        "degrees": [counting.lookup_degree(lookup.branches, lookup.exclusive) for lookup in air.lookups],
        "packed_degrees": [degree for degree, _ in columns],
        "packed_lookups": [numbers for _, numbers in columns],
    }
    if air.constraints:
        said["constraints"] = [{"text_line": line_of(text, it.at)} for it in air.constraints]
        failure = counting.failure_of(air) if is_checked else None
        if failure:
            row, number, value = failure
            file = name_of(next(item.said[1] for item in air.said.items if item.kind == "trace"))
            failed = {"row": row, "value": str(signed(value)), "file": file, "file_line": row + 2}
            said["constraints"][number]["failure"] = failed
    if enforced is not None:
        height = len(air.main.rows)
        pairs = zip(air.lookups, enforced)
        said["enforced"] = [enforcing.object_of(lookup, it, text, height) for lookup, it in pairs]
    above = [it for it in enumerate(counting.excesses_of(air)) if it[1]] if is_checked else []
    if above:
        said["counts_above"] = [of_excess(text, air, *it) for it in above]
    return said


def of_excess(text, air, lookup, excess):
    """A count that is above what `at most` says."""
    number, row, count = excess
    message = air.lookups[lookup].parts[number].message
    return {
        "lookup": lookup,
        "message": number,
        "row": row,
        "count": str(signed(count)),
        "at_most": str(message.most),
        "file": name_of(next(item.said[1] for item in air.said.items if item.kind == "trace")),
        "file_line": row + 2,
        "text_line": line_of(text, message.at),
    }


def before_traces(text, airs, enforced, is_checked=False):
    """What is said before any trace is seen; and where constraints fail, once they are checked."""
    most = counting.most_messages(airs)
    betas, alphas = counting.most_left(airs) if most else (None, None)
    return {
        "field": ASKED.name,
        "airs": [of_air(text, air, is_checked, it) for air, it in zip(airs, told_of(airs, enforced))],
        "height_sum": str(counting.height_sum(airs)),
        "characteristic": str(ASKED.characteristic),
        "ids": len(counting.ids_of(airs)),
        "widest": counting.widest_of(airs),
        "heights": {
            "most_messages": str(most),
            "bad_betas": text_or_none(betas),
            "accepting_alphas": text_or_none(alphas),
            "bits": most_bits(airs),
        },
    }


def told_of(airs, enforced):
    """What is told that the constraints of each AIR enforce, or None."""
    return enforced if enforcing.is_told(airs) else [None] * len(airs)


def all_enforced(airs, enforced):
    """Whether all is told to be enforced, where that is told."""
    return {"enforced": enforcing.is_all(enforced)} if enforcing.is_told(airs) else {}


def made_of(airs, enforced):
    """What is told of lookups as far as it can be."""
    if not enforcing.is_told(airs):
        return []
    return [[made_of_lookup(*pair) for pair in zip(air.lookups, it)] for air, it in zip(airs, enforced)]


def made_of_lookup(lookup, it):
    flags = it.flags is True if lookup.exclusive else None
    weight = enforcing.stays_within(lookup, flags, it.bounds) if enforcing.has_queries(lookup) else None
    return it._replace(flags=flags, weight=weight)


def text_or_none(number):
    return None if number is None else str(number)


def target(bits):
    wanted = ASKED.target
    return {"target": wanted, "meets": None if wanted is None else counting.is_met(bits)}


def packed(text, airs):
    return [(object_of(airs=[of_air(text, air) for air in airs]), True)]


def planned(text, airs):
    bits = most_bits(airs)

    def told(enforced):
        made = made_of(airs, enforced)
        said = before_traces(text, airs, made)
        return {"format": 1, **said, **all_enforced(airs, made), **target(bits)}

    return answers_of(text, airs, told, counting.is_met(bits))


def answers_of(text, airs, told, well, over_fixed=False):
    """The answer, or two of which one has to be."""
    if not enforcing.is_told(airs):
        return [(Json(told([])), well)]
    return told_with(EnforcedJson, text, airs, told, well, over_fixed)


def checked(text, airs, messages):
    """The answer of `check`, and whether all messages balance, all constraints hold, and no count is above its `at most`."""
    keys, unbalanced = counting.key_counts(airs, messages)
    betas, alphas = counting.left_of(keys, unbalanced, counting.widest_of(airs)) if unbalanced else (None, None)
    traces = {
        "messages": str(keys),
        "unbalanced": str(unbalanced),
        "bad_betas": text_or_none(betas),
        "accepting_alphas": text_or_none(alphas),
        "bits": counting.bits_of(betas, alphas) if unbalanced else None,
    }
    groups = counting.groups_of(airs, messages)
    balanced = not any(group.unbalanced for group in groups)
    buses = [of_group(text, airs, group) for group in groups]
    hold = not any(map(counting.failure_of, airs))
    within = not any(map(any, map(counting.excesses_of, airs)))
    has_most = any(part.message.most is not None for air in airs for it in air.lookups for part in it.parts)
    of_rows = {"constraints_hold": hold} if any(air.constraints for air in airs) else {}
    of_rows.update({"counts_within": within} if has_most else {})

    def told(enforced):
        made = made_of(airs, enforced)
        front = {"format": 1, **before_traces(text, airs, made, is_checked=True), "traces": traces, "buses": buses}
        return {**front, "balanced": balanced, **of_rows, **all_enforced(airs, made)}

    return answers_of(text, airs, told, balanced and hold and within, over_fixed=True)


def of_group(text, airs, group):
    """A line of the table of buses."""
    is_bus = isinstance(group.name, bytes)
    received = sum(counting.is_negative(sent.count) for sent in group.sent)
    return {
        "name": name_of(group.name) if is_bus else None,
        "air": None if is_bus else group.name[0],
        "lookup": None if is_bus else group.name[1],
        "sent": len(group.sent) - received,
        "received": received,
        "distinct": len(group.nets),
        "unbalanced": len(group.unbalanced),
        "first": [of_tuple(text, airs, *it) for it in group.unbalanced[: ASKED.limit]],
    }


def of_tuple(text, airs, values, net, places):
    """A tuple that does not balance, with the first places that send or receive it."""
    return {
        "tuple": list(map(str, values)),
        "net": str(signed(net)),
        "place_count": len(places),
        "places": [of_place(text, airs[sent.air], sent) for sent in told_places(places)],
    }


def of_place(text, air, sent):
    return {
        "air": sent.air,
        "lookup": sent.lookup,
        "row": sent.row,
        "count": str(signed(sent.count)),
        "file": name_of(next(item.said[1] for item in air.said.items if item.kind == "trace")),
        "file_line": sent.row + 2,
        "text_line": line_of(text, air.lookups[sent.lookup].at),
    }


def bits(messages, unbalanced, widest):
    """The answer of `bits`, and whether the target is met."""
    left = counting.left_of(messages, unbalanced, widest) if unbalanced else None
    of_field = lambda field: counting.bits_of(*left, field) if left else None  # noqa: E731
    betas, alphas = map(str, left) if left else (None, None)
    numbers = {"messages": str(messages), "unbalanced": str(unbalanced), "width": str(widest)}
    fields = [{"field": name.decode(), "bits": of_field(field)} for name, field in FIELDS.items()]
    told = object_of(**numbers, bad_betas=betas, accepting_alphas=alphas, fields=fields, **target(of_field(ASKED)))
    return told, counting.is_met(of_field(ASKED))
