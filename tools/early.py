"""Answers that need no program: words that are refused, or that ask for help, and files that are not there. They are just
what the programs answer, which .ci/checks/launcher.sh tests."""
import os
import re

from cases import cases_of
from files import files_below, text_of

TOP = os.path.dirname(os.path.dirname(os.path.realpath(__file__)))
MACHINES = ("range", "bus", "exclusive")
COUNTS = {"one": 1, "two": 2, "four": 4}
ENTRY = re.compile(r'name: "(\w+)".*challenge_form:\s+"(\w+) numbers?[^"]* below (\d+)"', re.DOTALL)


def offered_fields():
    """The fields: how many numbers a challenge has, and what they are below."""
    files = sorted(files_below(f"{TOP}/crates/field_list/src"))
    entries = filter(None, (ENTRY.search(text_of(it)) for it in files))
    return {it[1]: (COUNTS[it[2]], int(it[3])) for it in entries}


FIELDS = offered_fields()

# The options of lookup-check, but for `--progress`, which tells steps first. For each command those that it has to be
# given, and those that it may be.
OPTIONS = {"--field": "|".join(FIELDS), "--json": "", **dict.fromkeys(("--limit", "--degree", "--target"), "[0-9]{1,9}")}
OPTIONS.update(dict.fromkeys(("--alpha", "--beta", "--out", "--witness"), "[^-].*"))
CHALLENGES = {"--alpha", "--beta"}
COMMANDS = {
    "check": (set(), {"--field", "--limit", "--degree", "--json"}),
    "plan": (set(), {"--field", "--degree", "--json", "--target"}),
    "pack": ({"--degree"}, {"--field", "--json"}),
    "show": (set(), {"--field", "--json"}),
    "witness": (CHALLENGES, {"--field", "--out"}),
    "accept": (CHALLENGES | {"--witness"}, {"--field"}),
    "any": (CHALLENGES, {"--field"}),
}


def is_challenge(word, field):
    count, below = FIELDS[field]
    numbers = word.split(",")
    return len(numbers) == count and all(re.fullmatch("[0-9]+", it) and int(it) < below for it in numbers)


def refusal(words):
    """Why lookup-run refuses words, or None."""
    if len(words) != 4 or any(re.search("[\udc80-\udcff]", it) for it in words):
        return "usage: lookup-run MACHINE FIELD ALPHA BETA"
    machine, field, *challenges = words
    if machine not in MACHINES:
        return f"unknown machine: {machine}"
    if field not in FIELDS:
        return f"unknown field: {field}"
    return next((f"bad challenge: {it}" for it in challenges if not is_challenge(it, field)), None)


def files_asked(words):
    """The files that lookup-check reads first for these words. None of them where words may be refused before."""
    command, *rest = words or [""]
    if command not in COMMANDS:
        return []
    needed, optional = COMMANDS[command]
    given, files = {}, []
    while rest:
        word = rest.pop(0)
        if not word.startswith("-"):
            files.append(word)
            continue
        value = rest.pop(0) if rest and OPTIONS.get(word) else ""
        if word in given or word not in needed | optional or not re.fullmatch(OPTIONS[word], value):
            return []
        given[word] = value
    if len(files) != 1 or not needed <= given.keys():
        return []
    return files + [given[it] for it in ("--witness",) if it in given]


def answer(program, words):
    """The status, the output and the errors of a program, where they are known from the words. Else None."""
    if program == "lookup_run":
        why = refusal(words)
        return (2, b"", os.fsencode(f"error: {why}\n")) if why else None
    for _, case, status in cases_of(f"{TOP}/cases/check/words.txt"):
        if case.words == list(map(os.fsencode, words)):
            return status, case.output, case.errors
    for file in files_asked(words):
        if not os.path.exists(file) or os.path.isdir(file):
            return 2, b"", os.fsencode(f"{file}: error: cannot be read\n")
    return None
