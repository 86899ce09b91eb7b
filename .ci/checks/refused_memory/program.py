"""The runs of `lookup_run` that cases/ lists, with each request for memory refused in turn."""
import functools
import os

from cases import cases_of

from .runs import HERE, swept

TOP = os.path.dirname(os.path.dirname(os.path.dirname(HERE)))
REFUSED = (2, b"", b"error: out of memory\n")


@functools.cache
def cases():
    """The runs of cases/, with the status that each has to end with."""
    files = sorted(name for name in os.listdir(f"{TOP}/cases") if name.endswith(".txt"))
    return [it for name in files for it in cases_of(f"{TOP}/cases/{name}")]


def case_swept(shim, program, place, later):
    """The runs of a case: how many there were, what is wrong, and nothing else."""
    _, case, status = cases()[place]
    ample, *runs = swept(shim, program, case.words, case.input, later)
    wanted = (status, case.output, case.errors)
    well = (ample.status, ample.output, ample.errors) == wanted and not ample.live
    faults = [] if well else [f"with all memory: {ample}"]
    met = 0
    for number, ran in enumerate(runs, 1):
        answer = (ran.status, ran.output, ran.errors)
        met += answer == REFUSED
        if answer not in (wanted, REFUSED) or ran.live or ran.refused == 0 and answer != wanted:
            faults.append(f"request {number} refused: {str(ran)[:500]}")
    if runs[1:] and not met:
        faults.append("no run is out of memory")
    return len(runs), faults, {}
