"""The built program, run within limits, and what is wrong with how it ends."""
import collections
import os
import re
import resource
import subprocess
import tempfile

SECONDS, BYTES = 10, 500_000_000
# Any time that no run comes near on a busy machine, as its processor time is limited.
PATIENCE = 120
FILE = "batch.lookups"

# What is written is a text here. In an answer that is wanted it may be a pattern of which it has to be, or what has a
# method `unlike` that says how a text is otherwise.
Answer = collections.namedtuple("Answer", "status output errors")
# Answers of which any one is right.
Either = collections.namedtuple("Either", "answers")


def limit():
    resource.setrlimit(resource.RLIMIT_CPU, (SECONDS, SECONDS))
    resource.setrlimit(resource.RLIMIT_AS, (BYTES, BYTES))
    resource.setrlimit(resource.RLIMIT_CORE, (0, 0))


def answer_of(program, words, folder=None):
    """What a run writes, and its status: below zero where a signal ends it."""
    how = {"stdin": subprocess.DEVNULL, "capture_output": True, "timeout": PATIENCE, "check": False}
    ran = subprocess.run([program, *words], cwd=folder, preexec_fn=limit, **how)
    return Answer(ran.returncode, ran.stdout, ran.stderr)


def written(folder, files):
    """Writes files to a folder, and takes away those that were there."""
    for name in os.listdir(folder):
        os.remove(os.path.join(folder, name))
    for name, content in files.items():
        with open(os.path.join(os.fsencode(folder), os.fsencode(name)), "wb") as file:
            file.write(content)


def room():
    return tempfile.TemporaryDirectory(prefix="check_texts-")


# --- the judge ---


def apart(wanted, found):
    """Both texts, from a little before they begin to differ."""
    at = len(os.path.commonprefix([wanted, found]))
    start = max(0, at - 40)
    return f"{found[start : at + 120]!r}, and not {wanted[start : at + 120]!r}"


def unlike(wanted, found):
    """How a text is otherwise than it has to be, or None."""
    if isinstance(wanted, bytes):
        return None if wanted == found else apart(wanted, found)
    if isinstance(wanted, re.Pattern):
        return None if wanted.fullmatch(found) else f"{found[:200]!r}, and not as {wanted.pattern!r}"
    return wanted.unlike(found)


def differences(wanted, found):
    """What a run does otherwise than it has to."""
    if isinstance(wanted, Either):
        each = [list(differences(answer, found)) for answer in wanted.answers]
        yield from each[0] if all(each) else []
    elif found.status != wanted.status:
        yield f"status {found.status}, and not {wanted.status}; errors {found.errors[:200]!r}"
    elif output := unlike(wanted.output, found.output):
        yield f"output {output}"
    elif errors := unlike(wanted.errors, found.errors):
        yield f"errors {errors}"


def unlawful(found):
    """What is wrong with a run, whatever it has to write: a report has status 0 or 1, and a refusal 2."""
    told = {0: (True, False), 1: (True, False), 2: (False, True)}.get(found.status)
    if told is None:
        yield f"status {found.status}; errors {found.errors[:200]!r}"
    elif told != (bool(found.output), bool(found.errors)):
        yield f"status {found.status} with output {found.output[:100]!r} and errors {found.errors[:100]!r}"
