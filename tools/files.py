"""Files: the text of one, those below a folder, and the sum of a crate's."""
import os
import subprocess

TOP = os.path.dirname(os.path.dirname(os.path.realpath(__file__)))


def text_of(path):
    with open(path, encoding="utf-8") as file:
        return file.read()


def files_below(folder):
    """The paths of all files of a folder and those in it, in order."""
    return sorted(f"{at}/{name}" for at, _, names in os.walk(folder) for name in names)


def sum_of_sources(crate):
    """The sum of the sources of a crate and those below it."""
    words = [f"{TOP}/tools/sources-sum", crate]
    return subprocess.run(words, check=True, stdout=subprocess.PIPE, text=True).stdout.strip()
