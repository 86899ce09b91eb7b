"""The runs of cases/, as they are written there (cases/README.md says what a file holds)."""
import os
import re
import shlex
import subprocess

ESCAPES = {"t": b"\t", "r": b"\r", "\\": b"\\"}


class Malformed(Exception):
    """What is wrong with a line of a file."""


def bytes_of(text):
    """The bytes of a text with escapes."""
    if not re.fullmatch(r"(?:[^\\]|\\(?:t|r|\\|x[0-9a-fA-F]{2}))*", text):
        raise Malformed("an escape that is none")
    found = b""
    for plain, escape in re.findall(r"([^\\]+)|\\(t|r|\\|x[0-9a-fA-F]{2})", text):
        found += plain.encode() or ESCAPES.get(escape) or bytes([int(escape[1:], 16)])
    return found


class Case:
    """One run: its words and its input, and what it has to write."""

    def __init__(self, words):
        # the shell's own quotes part the words before their escapes are read
        self.words = [bytes_of(word) for word in shlex.split(words.replace("\\", "\\\\"))]
        self.input = self.output = self.errors = b""

    def add(self, mark, text):
        """Takes in a line of the case."""
        if mark in ("<", "<-"):
            self.input += bytes_of(text) + b"\n" * (mark == "<")
        elif mark == ">":
            self.output += bytes_of(text) + b"\n"
        elif mark == "!":
            self.errors += bytes_of(text) + b"\n"
        else:
            raise Malformed("no line of a case")

    def fault(self, program, status):
        """What the program does otherwise, or None."""
        words = [os.fsencode(program), *self.words]
        ran = subprocess.run(words, input=self.input, capture_output=True, timeout=60, check=False)
        for name, found, wanted in [
            ("status", ran.returncode, status),
            ("output", ran.stdout, self.output),
            ("errors", ran.stderr, self.errors),
        ]:
            if found != wanted:
                return f"{name} {found!r}, and not {wanted!r}"
        return None


def cases_of(file):
    """The runs of a file: where each begins, the run and the status that it has to end with; or where a line is
    malformed, and why in place of both."""
    case, place = None, 0
    with open(file, encoding="utf-8") as lines:
        for number, line in enumerate(lines, 1):
            mark, _, text = line.rstrip("\n").partition(" ")
            try:
                if mark == "$":
                    if case:
                        yield place, None, "has no status"
                    case, place = Case(text), number
                elif mark == "=" and case:
                    yield place, case, int(text)
                    case = None
                elif case and (mark or text):
                    case.add(mark, text)
                elif mark != "#" and line.strip():
                    raise Malformed("no line of a case")
            except (Malformed, ValueError) as why:
                yield number, None, why
    if case:
        yield place, None, "has no status"
