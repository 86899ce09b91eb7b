#!/usr/bin/env python3
"""A plain model of `lookup-check`: what it has to write, and its status.

usage: model.py check|plan|pack FILE [--field NAME] [--degree D] [--limit N] [--target B] [--json] [--enforced]
       model.py bits --messages N [--unbalanced K] [--width W] [--field NAME] [--target B] [--json]
       model.py witness|any FILE --alpha A --beta B [--field NAME]
       model.py accept FILE --alpha A --beta B --witness FILE [--field NAME]

It is written from docs/guide/CHECK.md and its reference, CHECK_REFERENCE.md, and shares nothing with the program. Where
they do not say how a text is worded, the pattern of it is written in place of the text. What constraints enforce the
model does not say, but of what the program says of it whether it can be.
"""
import os
import re
import sys

if __name__ == "__main__":
    sys.path.insert(0, os.path.dirname(os.path.dirname(os.path.realpath(__file__))))
    __package__ = "check_model"  # pylint: disable=redefined-builtin
sys.dont_write_bytecode = True
from . import counting, meaning, near, objects, reading, telling, witnesses  # noqa: E402
from .fields import ASKED, ask  # noqa: E402
from .running import Answer, Either  # noqa: E402

# An expression has up to 1,024 layers, and each is some calls here.
sys.setrecursionlimit(20000)

ANY_REFUSAL = re.compile(rb"[^\n]*error: [^\n]+\n")


class Told(Exception):
    """What has to be answered in place of a report."""


def refusal(errors):
    return Answer(2, b"", errors)


def told(file, text, folder, report):
    """The answer of a batch with this text, whose tables are beside it in a folder. A report gives its text and whether
    it says yes, or two of which one has to be."""
    sections = []
    try:
        sections = reading.batch_of(text)
        answers = [Answer(0 if well else 1, it, b"") for it, well in report(sections, folder, text)]
    except reading.Fault as fault:
        hint = near.hint_of(sections, folder, text, fault.at, fault.why)
        return refusal(telling.refused_at(file, text, fault.at, fault.why, hint))
    except meaning.TableFault as found:
        path = meaning.path_of(folder, found.name)
        return refusal(telling.refused_at(path, found.content, found.fault.at, found.fault.why))
    except meaning.NoRows as found:
        return refusal(telling.refused(meaning.path_of(folder, found.args[0]), "there are no rows"))
    except counting.FlagFault as fault:
        airs = [section for section in sections if isinstance(section, reading.Air)]
        return refusal(telling.flags_refused(file, text, folder, airs[fault.air], fault))
    except counting.Refused as why:
        return refusal(telling.refused(file, str(why)))
    except counting.Untold:
        return refusal(ANY_REFUSAL)
    except Told as answer_told:
        return answer_told.args[0]
    return answers[0] if len(answers) == 1 else Either(answers)


# --- reports ---


def well_formed(airs):
    """The AIRs of a batch, if they can be looked at together."""
    counting.check_widths(airs)
    counting.check_ids(airs)
    counting.check_heights(airs)
    return airs


def checked(options):
    """`check`: whether all messages balance, all constraints hold, and no count is above its `at most`."""

    def report(sections, folder, text):
        airs, declared = meaning.airs_of(sections, folder)
        well_formed(airs)
        messages = [sent for number, air in enumerate(airs) for sent in counting.sent_of(number, air)]
        if "json" in options:
            return objects.checked(text, airs, messages)
        return telling.report_told(text, airs, declared, messages)

    return report


def planned(as_text, as_json):
    """`plan` and `pack`: what holds before any trace is seen."""

    def command(options):
        of_airs = as_json if "json" in options else as_text
        return lambda sections, folder, text: of_airs(text, well_formed(meaning.planned_of(sections, folder)))

    return command


def over_challenges(judged, lawful=True):
    """`witness`, `accept` and `any`: what holds at a pair of challenges, where flags are lawful or not looked at."""

    def command(options):
        alpha, beta = (witnesses.element_in(options[name], witnesses.WORD) for name in ("alpha", "beta"))

        def report(sections, folder, _text):
            airs, _ = meaning.airs_of(sections, folder)
            well_formed(airs)
            if lawful:
                counting.check_flags(airs)
            return [judged(witnesses.equations_of(airs, alpha, beta), options)]

        return report

    return command


def witness_told(equations, options):
    found = witnesses.witness_of(equations)
    if found is None:
        raise counting.Untold
    if not os.path.isdir(os.path.dirname(options.get("out", b"")) or b"."):
        raise Told(Answer(2, b"", re.compile(rb"(.+\n)+")))
    return b"" if "out" in options else witnesses.text_of(found), True


def any_told(equations, _options):
    if witnesses.has_any(equations):
        return b"SOME WITNESS: at these challenges a witness is accepted\n", True
    return b"NO WITNESS: at these challenges none is accepted\n", False


ACCEPTED = b"ACCEPTED: the witness satisfies the constraints of all lookups, and its terminals sum to zero\n"
NOT_FOR_A_ROW = re.compile(rb"NOT ACCEPTED: (?!air \d+: constraint failed)[^\n]+\n")


def accept_told(equations, options):
    try:
        witness = witnesses.read(meaning.bytes_in(b"", options["witness"]))
    except witnesses.WitnessFault as fault:
        place = re.escape(telling.shown(options["witness"]))
        answers = [refusal(re.compile(rb"%s:%d: error: [^\n]+\n" % (place, line))) for line in fault.lines]
        raise Told(Either(answers + [Answer(1, NOT_FOR_A_ROW, b"")] * fault.is_read)) from None
    if not witnesses.has_shape(equations, witness):
        return NOT_FOR_A_ROW, False
    fault = witnesses.first_fault(equations, witness)
    if fault:
        return b"NOT ACCEPTED: air %d: constraint failed at row %d\n" % fault, False
    if any(witnesses.terminal_sum(witness)):
        return NOT_FOR_A_ROW, False
    return ACCEPTED, True


COMMANDS = {
    b"check": checked,
    b"plan": planned(telling.plan_told, objects.planned),
    b"pack": planned(lambda text, airs: [(telling.pack_told(text, airs), True)], objects.packed),
    b"witness": over_challenges(witness_told),
    b"accept": over_challenges(accept_told, lawful=False),
    b"any": over_challenges(any_told),
}

# --- words ---

ALONE = ("json", "enforced")
NEEDED = {b"pack": {"degree"}, b"bits": {"messages"}, b"witness": {"alpha", "beta"}, b"any": {"alpha", "beta"}}
NEEDED[b"accept"] = {"alpha", "beta", "witness"}


def options_of(words):
    """The options among the words of a command, and the other words. Most stand before their values."""
    options, others, words = {}, [], iter(words)
    for word in words:
        if word.startswith(b"--"):
            name = word[2:].decode()
            options[name] = b"" if name in ALONE else next(words, None)
        else:
            others.append(word)
    return options, others


def coefficients_told():
    """What an element is written with."""
    if ASKED.extension == 1:
        return b"one number below %d" % ASKED.characteristic
    joined = {2: b"two numbers joined by a comma", 4: b"four numbers joined by commas"}[ASKED.extension]
    return b"%s without blanks, each below %d" % (joined, ASKED.characteristic)


def refused_challenge(options):
    """The refusal of the first challenge that is no element, or None."""
    for name in ("alpha", "beta"):
        if name in options and witnesses.element_in(options[name], witnesses.WORD) is None:
            parts = (name.encode(), ASKED.challenges.encode(), coefficients_told(), telling.shown(options[name]))
            return refusal(b"error: '--%s' is no element of %s (%s): %s\n" % parts)
    return None


def bits_answer(options):
    messages = int(options["messages"])
    numbers = messages, int(options.get("unbalanced", messages)), int(options.get("width", 1))
    as_told = objects.bits if "json" in options else telling.bits_table_told
    bits_told, well = as_told(*numbers)
    return Answer(0 if well else 1, bits_told, b"")


def answer(words):
    """The answer of the program to these words, or None where they are none of the commands that are modelled, as they
    have to be written. It may be of patterns."""
    command, *words = words
    options, files = options_of(words)
    if len(files) != (command != b"bits") or command not in (*COMMANDS, b"bits"):
        return None
    if None in options.values() or NEEDED.get(command, set()) - set(options):
        return None
    field = {"field": options["field"]} if "field" in options else {}
    numbers = {name: int(options[name]) for name in ("degree", "limit", "target") if name in options}
    ask(**field, **numbers, enforced="enforced" in options)
    if command == b"bits":
        return bits_answer(options)
    (file,) = files
    text = meaning.bytes_in(b"", file)
    for name in (file, options.get("witness")):
        if name is not None and meaning.bytes_in(b"", name) is None:
            return refusal(telling.refused(name, "cannot be read"))
    if refused := refused_challenge(options):
        return refused
    return told(file, text, file[: file.rfind(b"/") + 1], COMMANDS[command](options))


def main():
    found = answer(list(map(os.fsencode, sys.argv[1:]))) if sys.argv[1:] else None
    if found is None:
        print(__doc__.strip())
        return 3
    if isinstance(found, Either):
        print(*found.answers, sep="\n")
        return found.answers[0].status
    for stream, part in ((sys.stdout, found.output), (sys.stderr, found.errors)):
        stream.buffer.write(written(part))
    return found.status


def written(part):
    """A text, or one that says what has to be written."""
    if isinstance(part, bytes):
        return part
    if isinstance(part, re.Pattern):
        return part.pattern + b"\n"
    return part.text()


if __name__ == "__main__":
    sys.exit(main())
