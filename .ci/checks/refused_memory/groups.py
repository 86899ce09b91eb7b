"""The groups of calls of the program `gate_memory`, with each request for memory refused in turn."""
import collections

from .judge import NEVER, STATES, Judge, listed, parted
from .runs import HERE, swept

with open(f"{HERE}/calls.txt", encoding="utf-8") as file:
    GROUPS = listed(file)
# The status of a group whose inputs can't be made.
NO_INPUTS = 3


def faults_of_run(judge, ran, later, seen):
    """What is wrong with a run in which a request is refused."""
    lines, here = ran.output.decode().splitlines(), []
    yield from judge.faults(lines, here)
    seen.update(here)
    # where it is one request, it is that of one call or of an input
    if len(here) > (ran.status == 0) and not later:
        yield f"more than one call is refused: {here}"
    wanted = 0 if len(lines) == len(judge.ample) else NO_INPUTS
    if ran.status != wanted or len(lines) > len(judge.ample):
        yield f"status {ran.status} after {len(lines)} lines of {len(judge.ample)}"
    if ran.live:
        yield f"{ran.live} blocks are not freed"
    if ran.errors:
        yield f"errors: {ran.errors!r}"


def faults_of_ample(ran, refusals):
    """What is wrong with a run with all memory. A call that can be refused has to accept one of its inputs there."""
    if ran.status or ran.errors or ran.live:
        yield f"status {ran.status}, {ran.live} blocks are not freed: {ran.errors!r}"
    answers = collections.defaultdict(list)
    for name, value in map(parted, ran.output.decode().splitlines()):
        if name not in STATES:
            answers[name].append(value)
    for name in sorted(set(answers) ^ set(refusals)):
        yield f"{name}: not in both the list and the group"
    for call, refusal in refusals.items():
        if refusal in answers[call]:
            yield f"with all memory: {call}: {refusal}"
        if refusal != NEVER and all(it.startswith("Err(") for it in answers[call]):
            yield f"with all memory: {call} accepts nothing"


def never_refused(groups, seen):
    """The calls of groups that have a refusal, and that were not refused."""
    for group, refusals in groups.items():
        for call, refusal in refusals.items():
            if refusal != NEVER and not seen[group][call]:
                yield f"{group}: {call} is never refused"


def faults_of_group(refusals, ample, runs, later, seen):
    """What is wrong with the runs of a group: with all memory, and then with each request refused in turn, up to the
    run that meets no refusal."""
    yield from faults_of_ample(ample, refusals)
    judge = Judge(ample.output.decode().splitlines(), refusals)
    *refusing, last = runs
    for number, ran in enumerate(refusing, 1):
        what = f"request {number}{' and all later ones' if later else ''} refused"
        yield from (f"{what}: {fault[:500]}" for fault in faults_of_run(judge, ran, later, seen))
    if last != ample:
        yield "the run that meets no refusal is not the ample one"


def group_swept(shim, program, group, later):
    """The runs of a group: how many there were, what is wrong, and how often each call of it was refused. The self
    test does not come here; without one of the three the sweep itself breaks off."""
    refusals, seen = GROUPS[group], {group: collections.Counter()}
    ample, *runs = swept(shim, program, [group], later=later)
    faults = list(faults_of_group(refusals, ample, runs, later, seen[group]))
    return len(runs), faults, seen
