"""Runs of the program beside those of the model, and the stored cases."""
import functools
import os

from cases import cases_of

from .model import answer
from .running import FILE, Answer, answer_of, differences, written

TOP = os.path.dirname(os.path.dirname(os.path.dirname(os.path.dirname(os.path.realpath(__file__)))))


def bytes_of(path):
    with open(f"{TOP}/{path}", "rb") as file:
        return file.read()


def modelled(folder, words):
    """What the model answers in a folder."""
    before = os.getcwd()
    os.chdir(folder)
    try:
        return answer(words) if words else None
    finally:
        os.chdir(before)


def run_compared(program, folder, words, what=""):
    """The faults of a run with these words, by the model."""
    wanted, found = modelled(folder, words), answer_of(program, words, folder)
    return [f"{what or words}: {it}" for it in differences(wanted, found)]


def compared(program, folder, what, files, words=("check",)):
    """The faults of a run over these files, one of which is the batch, by the model."""
    written(folder, files)
    return run_compared(program, folder, [*map(str.encode, words), FILE.encode()], what)


# --- cases ---


@functools.cache
def cases():
    """The runs of cases/check, each with its place and the answer that it has to give."""
    names = sorted(os.listdir(f"{TOP}/cases/check"))
    found = [(name, *it) for name in names for it in cases_of(f"{TOP}/cases/check/{name}")]
    return [(f"{name}:{place}", case, status) for name, place, case, status in found]


def wanted_of(case, status):
    return Answer(status, case.output, case.errors)
