"""Edits that give functions wrong bodies: where they are written, and the functions that they are made in.

An edit is a line `file: src/NAME.rt`, and then pairs of lines `old:` and `new:`. Each `old:` text stands once in that
file. crates/CRATE/must-fail/NAME.edit has one edit. wrong-bodies/CRATE.edits has many, each below a line `## NAME`, in the
order of their names.
"""
import os
import re

from files import files_below, text_of

TOP = os.path.dirname(os.path.dirname(os.path.realpath(__file__)))
# The line above an edit of many.
HEADING = re.compile(r"^## (\w+)$", re.MULTILINE)


class Unreadable(Exception):
    """Why an edit, or a file of edits, can't be read, or an edit can't be made."""


def with_edits():
    """The crates that wrong-bodies/ has edits of."""
    names = os.listdir(f"{TOP}/wrong-bodies")
    return sorted(name.removesuffix(".edits") for name in names if name.endswith(".edits"))


def wrong_bodies(crate):
    """A crate's edits in wrong-bodies/: their texts by name."""
    path = f"wrong-bodies/{crate}.edits"
    if crate not in with_edits():
        return {}
    above, *found = HEADING.split(read(path))
    names, texts = found[::2], found[1::2]
    if above.strip():
        raise Unreadable(f"{path}: no part of an edit: {above.strip().splitlines()[0][:60]}")
    for name, below in zip(names, names[1:]):
        if name >= below:
            raise Unreadable(f"{path}: {below} stands below {name}: the names stand in order, each once")
    return {name: text.strip("\n") + "\n" for name, text in zip(names, texts)}


def must_fail(crate):
    """A crate's edits in must-fail/: their texts by name."""
    paths = [os.path.relpath(path, TOP) for path in files_below(f"{TOP}/crates/{crate}/must-fail")]
    for path in paths:
        if not path.endswith(".edit"):
            raise Unreadable(f"{path}: not an edit")
    return {os.path.basename(path).removesuffix(".edit"): read(path) for path in paths}


def read(path):
    try:
        return text_of(f"{TOP}/{path}")
    except (OSError, UnicodeDecodeError) as why:
        raise Unreadable(f"{path}: {why}") from why


class Edit:
    """An edit: its pairs of texts, and the function that it is made in, or None where that is no function."""

    def __init__(self, text, own):
        self.text, self.pairs = text, []
        self.read()
        self.applied(own)
        file, old, _ = self.pairs[0]
        self.span = function_at(file, own[file], own[file][: own[file].index(old)].count("\n") + 1)

    def read(self):
        file = old = None
        for line in self.text.split("\n"):
            if line.startswith("file: "):
                file = line[len("file: ") :].strip()
                if not file.startswith("src/") or os.path.normpath(file) != file:
                    raise Unreadable("it names no file below src/")
            elif line.startswith("old: "):
                old = line[len("old: ") :]
            elif line.startswith("new:"):
                if file is None or old is None:
                    raise Unreadable("a `new:` line stands before any `file:` or `old:` line")
                self.pairs.append((file, old, line[len("new:") :].removeprefix(" ")))
                old = None
            elif line.strip():
                raise Unreadable(f"a line that is no part of an edit: {line[:60]}")
        if not self.pairs:
            raise Unreadable("it has no pair of `old:` and `new:`")

    def applied(self, texts):
        """The texts with this edit made in them."""
        texts = dict(texts)
        for file, old, new in self.pairs:
            found = texts.get(file, "").count(old)
            if found != 1:
                raise Unreadable(f"an `old:` text stands in {file} {found} times, and not once")
            texts[file] = texts[file].replace(old, new)
        return texts


class Function:
    """A function of the source: its file, its lines, and the names that a check gives it."""

    def __init__(self, file, first, last, names):
        self.file, self.first, self.last, self.names = file, first, last, names

    def has(self, file, line):
        return file == self.file and self.first <= line <= self.last

    def is_named(self, path):
        """Whether a path that a check prints, below the crate, is this function's, or of a closure in it."""
        module, owner, name = self.names
        parts = path.split("::")
        if parts[: len(module)] != module:
            return False
        rest = parts[len(module) :]
        if owner:
            return len(rest) > 1 and rest[0].startswith(owner) and rest[1] == name
        return rest[:1] == [name]


ITEM = re.compile(r"(\s*)(///|#\[|}|(?:pub(?:\([^)]*\))? )?(?:final |const |unsafe |extern \"C\" )*(?:fn|impl|trait|struct|enum|const|static|type|mod|use|ghost)\b)")
HEAD = re.compile(r"(\s*)(?:pub(?:\([^)]*\))? )?(?:final |const |unsafe |extern \"C\" )*fn (\w+)")
OWNER = re.compile(r"(?:pub(?:\([^)]*\))? )?(?:unsafe )?(impl|trait)\b(.*)")


def function_at(file, source, line):
    """The function whose lines have this one, or None."""
    lines, found, owner = source.split("\n"), None, ""
    for at, text in enumerate(lines[:line], 1):
        owned = OWNER.match(text)
        if owned:
            owner = owner_of(owned[1], owned[2])
        head = HEAD.match(text)
        if head:
            found = (at, head[1], head[2], owner if head[1] else "")
    if not found:
        return None
    first, indent, name, owner = found
    last = len(lines)
    for at in range(first, len(lines)):
        item = ITEM.match(lines[at])
        if item and len(item[1]) <= len(indent) and lines[at] != indent + "}":
            last = at
            break
    if line > last:
        return None
    module = [part for part in file[len("src/") : -len(".rt")].split("/") if part not in ("lib", "main", "mod")]
    return Function(file, first, last, (module, owner, name))


def owner_of(word, text):
    """The name that a check gives an impl or a trait: a type's own name, that and its trait's, or the trait's."""
    text = re.sub(r"^\s*<(?:[^<>]|<(?:[^<>]|<[^<>]*>)*>)*>", "", text) if word == "impl" else text
    of, has_for, to = text.partition(" for ")
    plain = [re.match(r"\s*(?:\w+::)*(\w*)", part)[1] for part in (to, of)]
    return "".join(plain) if has_for and word == "impl" else plain[1]
