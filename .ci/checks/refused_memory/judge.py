"""The judge of the lines that a group of calls writes where memory is refused.

A line `CALL: ANSWER` is the same as with all memory, or is the call's refusal for memory, by `calls.txt`. Another
line has one of these names, and says what a call is made on, or what the last call left:

    input       never changed
    before      what a builder holds: all that was accepted so far, and no more; so is `after`
    left        what a builder holds: after a refusal the first items of each of its lists
    count       after a refusal at most what it is else
    filled      after a refusal the empty list
"""
import os
import re

NEVER = "-"
STATES = ("input", "before", "after", "left", "count", "filled")


def parted(line):
    """The name of a line, and the answer or the value."""
    name, _, value = line.partition(": ")
    return name, value


def listed(lines):
    """The calls of each group of a list, each with its refusal for memory, or NEVER."""
    groups, calls = {}, None
    for line in map(str.rstrip, lines):
        if line.startswith("["):
            calls = groups[line[1:-1]] = {}
        elif line and not line.startswith("#"):
            call, refusal = parted(line)
            calls[call] = refusal
    return groups


def apart(line, good):
    """Both lines, from where they begin to differ."""
    at = len(os.path.commonprefix([line, good]))
    start = max(0, at - 60)
    return f"{line.partition(': ')[0]}: {'..' * (start > 0)}{line[start : at + 100]}, and not {good[start : at + 100]}"


# What of a printed value tells where its lists begin and end, and a number of assertions.
TOKEN = re.compile(r'"(?:[^"\\]|\\.)*"|[][(){},]')
COUNT = re.compile(r"\bcount: (\d+)")


def lists_of(value):
    """A printed value without what is in its lists, and the items of each list. Lists in an item are part of it.
    Two values are parted alike, so it does not matter to which part a bracket or the space after a comma goes."""
    rest, lists, depth, start = "", [], 0, 0
    for token in TOKEN.finditer(value):
        letter, place = token[0], token.start()
        if depth == 0 and letter == "[":
            rest += value[start : place + 1]
            lists.append([])
            depth, start = 1, place + 1
        elif depth:
            if depth == 1 and letter in ",]":
                item = value[start:place].strip()
                lists[-1] += [item] if item else []
                start = place + (letter == ",")
            depth += (letter in "[({") - (letter in "])}")
    return rest + value[start:], lists


def begins(value, whole):
    """Whether a printed value is another one with fewer items at the end of its lists, and a lower count of them."""
    (rest, lists), (rest_of_whole, lists_of_whole) = lists_of(value), lists_of(whole)
    counts = zip(map(int, COUNT.findall(rest)), map(int, COUNT.findall(rest_of_whole)))
    same = COUNT.sub("", rest) == COUNT.sub("", rest_of_whole) and all(count <= most for count, most in counts)
    return same and all(items == all_of[: len(items)] for items, all_of in zip(lists, lists_of_whole))


class Judge:
    """Compares the lines of a run with the ample ones."""

    def __init__(self, ample, refusals):
        self.ample, self.refusals = ample, refusals
        # at each line that shows a builder, what it holds after none of its calls, after one, and so on; the list is
        # as good at any other line, where it is not read
        self.held, self.firsts, states = {}, set(), []
        for place, (name, value) in enumerate(map(parted, ample)):
            if name == "before" and states[-1:] != [value]:
                states = [value]
                self.firsts.add(place)
            elif name == "after":
                states.append(value)
            self.held[place] = states

    def faults(self, lines, seen):
        """What is wrong with the lines. Adds to `seen` each call that is refused."""
        # `accepted` is counted anew from the first line that shows a builder
        refused, accepted = False, 0
        for place, (line, good) in enumerate(zip(lines, self.ample)):
            (name, value), (wanted, whole), same = parted(line), parted(good), line == good
            if name != wanted:
                yield apart(line, good)
                return
            if name not in STATES:
                refused = not same
                accepted += same
                if refused:
                    seen.append(name)
                well = same or value == self.refusals.get(name) != NEVER
            elif name in ("before", "after"):
                accepted = 0 if place in self.firsts else accepted
                good = f"{name}: {self.held[place][accepted]}"
                well = line == good
            elif name == "filled" and refused:
                well = value == "[]"
            elif name == "left" and refused:
                well = begins(value, whole)
            elif name == "count" and refused:
                well = int(value) <= int(whole)
            else:
                well = same
            if not well:
                yield apart(line, good)
