"""Random batches, with their tables: most of them can be read, and some are spoilt."""
import random
import re

from .fields import FIELDS

COLUMNS = ["a", "b", "c", "height", "at", "next", "times", "two words", "limb[3]", "x.y", "most", "when", "pre.x", "é"]
BUSES = ["m", "gaps", "query", "local", "b[0]", "två"]
PLAIN = re.compile(r"[A-Za-z_][A-Za-z0-9_.\[\]]*")


class Batch:
    """A text, and its tables by name, over a field."""

    def __init__(self, draw, field):
        self.draw, self.files = draw, {}
        self.characteristic = FIELDS[field].characteristic
        # there the weights times the heights are below 7
        self.is_small = field == b"f7"
        self.widths = {}
        self.declares = draw.random() < 0.5
        airs = [self.air(number) for number in range(draw.choice([0, 1, 1, 1, 2, 2, 3]))]
        buses = [self.declared(bus) for bus in self.widths] if self.declares else []
        sections = airs + buses if draw.random() < 0.3 else buses + airs
        self.text = "\n".join(sections) + ("\n" if draw.random() < 0.9 else "")

    def named(self, name):
        """A name as it is written."""
        bare = PLAIN.fullmatch(name) and name != "local"
        return name if bare and self.draw.random() < 0.9 else f"`{name}`"

    def declared(self, bus):
        fields = ", ".join(self.named(f"{bus}{place}") for place in range(self.widths[bus]))
        return f"bus {self.named(bus)}({fields})"

    # --- tables ---

    def number(self):
        largest = self.characteristic - 1
        return self.draw.choice(["0", "1", "2", "3", "-1", "0", "1", f"{largest}", "005", "-0", f"{largest // 2}"])

    def table(self, name, columns, rows):
        """A table, in which the columns `f0` and `f1` are flags."""
        lines = [",".join(columns)]
        for _ in range(rows):
            row = [self.number() for _ in columns]
            flags = self.draw.choice(["00", "01", "10"])
            row = [flags[int(it[1])] if it in ("f0", "f1") else cell for it, cell in zip(columns, row)]
            lines.append(",".join(row))
        end = "\r\n" if self.draw.random() < 0.1 else "\n"
        self.files[name] = (end.join(lines) + (end if self.draw.random() < 0.9 else "")).encode()

    # --- expressions ---

    def atom(self):
        draw = self.draw.random()
        if draw < 0.545:
            return self.named(self.draw.choice(self.names))
        if draw < 0.55:
            return self.named(self.misspelt(self.draw.choice(self.names)))
        if draw < 0.65:
            return f"next({self.named(self.draw.choice(self.cells))})"
        if draw < 0.72:
            return self.draw.choice(["is_first_row", "is_last_row", "is_transition"])
        if draw < 0.9:
            return self.draw.choice(["0", "1", "2", "3", f"{self.characteristic}", "18446744073709551615"])
        return f"({self.sum(1)})"

    def misspelt(self, name):
        """A name with a letter that is otherwise, missing or too many."""
        at, letter = self.draw.randrange(len(name)), self.draw.choice("abx_é")
        front, rest = name[:at], name[at + 1 :]
        return self.draw.choice([front + letter + rest, front + rest, front + letter + name[at:]])

    def factor(self):
        text = self.atom()
        if self.draw.random() < 0.1:
            text += f"^{self.draw.choice([1, 2, 3, 7])}"
        return "-" + text if self.draw.random() < 0.1 else text

    def sum(self, most=3):
        text = self.factor()
        for _ in range(self.draw.choice([0, 0, 0, 1, 1, most])):
            text += self.draw.choice([" + ", " - ", "*", " * ", "-", "\t+ "]) + self.factor()
        return text

    # --- items ---

    def message(self, bus, exclusive=False):
        width = self.widths.setdefault(bus, self.draw.choice([1, 1, 2, 3])) if bus else self.local_width
        verb = self.draw.choice(["query", "provide", "send", "receive"])
        text = f"{verb} {'local' if bus is None else self.named(bus)}({', '.join(self.sum() for _ in range(width))})"
        if self.is_small and self.draw.random() < 0.8:
            return f"{text} times {self.draw.choice(['1', '2', self.sum()])} at most 0"
        if self.draw.random() < 0.4:
            count = self.draw.choice(["2", "0", "3", self.sum()])
            text += f" times {count}"
            if not count.isdigit() or self.draw.random() < 0.2:
                text += f" at most {self.draw.choice([0, 1, 5, 1000])}"
        return text

    def bus(self):
        return self.draw.choice(self.buses) if self.draw.random() < 0.85 else None

    def group(self):
        bus, kind = self.bus(), self.draw.choice(["together", "exclusive"])
        lines = []
        for place in range(self.draw.choice([1, 2, 2, 3] if kind == "together" else [1, 2])):
            flag = f"when {self.flag(place)} " if kind == "exclusive" else ""
            lines.append(f"        {flag}{self.message(bus)}\n")
        return f"{kind} {{\n{''.join(lines)}    }}"

    def flag(self, place):
        if self.draw.random() < 0.1:
            return self.sum()
        if "f0" in self.cells:
            return f"f{place}"
        return ["is_first_row", "1 - is_first_row"][place]

    def pair(self):
        """Messages that cancel."""
        bus = self.draw.choice(self.buses)
        width = self.widths.setdefault(bus, self.draw.choice([1, 2]))
        tuple_text = ", ".join(self.sum() for _ in range(width))
        count = self.draw.choice([" times 0 at most 0", " times 0 at most 0", " times 1 at most 0"]) if self.is_small else ""
        return f"send {self.named(bus)}({tuple_text}){count}\n    receive {self.named(bus)}({tuple_text}){count}"

    def definition(self):
        name = self.draw.choice(["s", "t", "u", "v", *COLUMNS[:3]])
        if name in self.given:
            return "# nothing"
        said = f"let {name} = {self.sum()}"
        if self.draw.random() < 0.4:
            said = f"public {name} = {self.draw.choice([0, 1, 5, 2013265922])}"
        self.given.add(name)
        self.names.append(name)
        return said

    def assertion(self):
        """A constraint, which more often than not holds."""
        if self.draw.random() < 0.4:
            return f"assert {self.draw.choice(['', 'bool '])}{self.sum()}"
        said = self.sum()
        zero = f"assert ({said}) - ({said})"
        lone = ["assert is_transition * is_last_row", "assert bool is_first_row", "assert bool is_transition^7"]
        return self.draw.choice([zero, "assert 0", "assert bool 1", *lone])

    def item(self):
        draw = self.draw.random()
        if draw < 0.08:
            return self.assertion()
        if draw < 0.16:
            return self.definition()
        if draw < 0.3:
            return self.group()
        if draw < 0.36:
            return self.draw.choice(["height 4", "columns (a, b)", "", "# a comment", "  # `another", "\t"])
        return self.pair() if draw < (0.95 if self.balanced else 0.45) else self.message(self.bus())

    def air(self, number):
        draw = self.draw
        self.buses, self.given, self.balanced = draw.sample(BUSES, 2), set(), draw.random() < 0.4
        self.local_width = draw.choice([1, 2])
        columns = draw.sample(COLUMNS, draw.choice([1, 2, 3])) + (["f0", "f1"] if draw.random() < 0.6 else [])
        rows = draw.choice([1, 2, 2, 2, 3] if self.is_small else [1, 2, 3, 4, 8])
        traced = draw.random() < 0.93
        if traced:
            self.table(f"t{number}.csv", columns, rows)
        self.cells = [it for it in columns if not it.startswith("pre.")] or ["f0"]
        said = ", ".join(map(self.named, columns))
        items = [f'trace "t{number}.csv"'] if traced else [f"height {rows}", f"columns ({said})"]
        if draw.random() < 0.3:
            fixed = draw.sample(["x", "y", "fixed col"], draw.choice([1, 2]))
            self.table(f"p{number}.csv", fixed, rows)
            self.cells += [f"pre.{it}" for it in fixed]
            items.append(f'preprocessed "p{number}.csv"')
        self.names = list(self.cells)
        items += [self.item() for _ in range(draw.choice([0, 1, 2, 3, 4, 6]))]
        if draw.random() < 0.1:
            draw.shuffle(items)
        body = "".join(f"    {item}\n" for item in items)
        return f"air {self.named(draw.choice(['rows', 'cpu', 'table é', 'air']))} {{\n{body}}}"


TOKEN = re.compile(r'`[^`\n]*`|"[^"\n]*"|[A-Za-z_][A-Za-z0-9_.\[\]]*|[0-9]+|\n|[^\s]')
WORDS = "bus air assert bool query send times at most next local when let together exclusive trace public lookups x 0 65"
TOKENS = [*'(){},=+-*^"`#\n$', *WORDS.split(), "18446744073709551616", '"t0.csv"', '"none.csv"', "`x"]


def with_lines(draw, text):
    """A text with a line dropped, doubled, exchanged or put in."""
    lines = text.split("\n")
    place, other = draw.randrange(len(lines)), draw.randrange(len(lines))
    how = draw.randrange(5)
    if how == 0:
        del lines[place]
    elif how == 1:
        lines.insert(place, lines[place])
    elif how == 2:
        lines[place], lines[other] = lines[other], lines[place]
    elif how == 3:
        lines.insert(place, lines[other])
    else:
        lines.insert(place, draw.choice(LINES))
    return "\n".join(lines)


LINES = [
    'trace "t0.csv"', 'trace "none.csv"', 'preprocessed "t0.csv"', 'lookups "x.json"', "let a = 1", "public b = 1",
    "together {", "}", "exclusive {}", "together {}", "exclusive {", "bus m(x)", "bus gaps(x, y)", "query m(0)",
    "query m(1, 2)", "query gaps(1) times a", "query local(1) times 18446744073709551615", "when 1 query m(1)",
    "together {\nquery m(1)\nquery local(1)\n}", "together {\nquery local(1)\nquery local(1, 2)\n}", "air x {",
    "air y {\n}", 'air z {\ntrace "t0.csv"\n}', "height 3", "columns (a, a)",
    "assert a - a", "assert bool a", "assert bool", "assert 0 * (x)", "assert bool bool", "assert `bool`",
]  # fmt: skip


def spoilt(draw, text):
    """A text with a token or a byte dropped, doubled, exchanged or put in."""
    spans = [found.span() for found in TOKEN.finditer(text)] or [(0, 0)]
    (start, end), (other, last) = sorted([draw.choice(spans), draw.choice(spans)])
    how = draw.randrange(9)
    if how > 5:
        return with_lines(draw, text)
    if how == 0:
        return text[:start] + text[end:]
    if how == 1:
        return text[:end] + " " + text[start:end] + text[end:]
    if how == 2 and end <= other:
        return text[:start] + text[other:last] + text[end:other] + text[start:end] + text[last:]
    if how == 3:
        return text[:start] + draw.choice(TOKENS) + text[end:]
    if how == 4:
        return text[:end] + " " + draw.choice(TOKENS) + " " + text[end:]
    at = draw.randrange(len(text) + 1)
    return text[:at] + draw.choice("\x00\x7f\r\t\n é😀#\"`a0(") + text[at + draw.randrange(2) :]


CELLS = [
    b"", b"x", b"-", b"--1", b" 1", b"1 ", b"+1", b"2013265921", b"-2013265921", b"9" * 40, b'"1"', b"\xff", b"1\r", b"0x1",
]  # fmt: skip


def spoilt_table(draw, table):
    """A table with a cell, a line or a byte that is otherwise."""
    lines = table.split(b"\n")
    place = draw.randrange(len(lines))
    cells = lines[place].split(b",")
    how = draw.randrange(8)
    if how < 2:
        cells[draw.randrange(len(cells))] = draw.choice(CELLS)
    elif how == 2:
        cells.append(draw.choice([b"", b"5"]))
    elif how == 3:
        cells.pop()
    lines[place] = b",".join(cells)
    if how == 4:
        lines.insert(place, b"")
    elif how == 5:
        lines = lines[: draw.choice([0, 1, place])]
    elif how == 6:
        header = lines[0]
        lines[0] = draw.choice([b"\xef\xbb\xbf" + header, b"", b",", b"a,a", b"a,", header + b",a", header + b"\r"])
    changed = b"\n".join(lines)
    if how == 7:
        at = draw.randrange(len(changed) + 1)
        changed = changed[:at] + draw.choice([b"\n", b",", b"\r", b"\x00", b"-"]) + changed[at + draw.randrange(2) :]
    return changed


def words_of_seed(seed):
    """The command of a seed, with its options."""
    draw = random.Random(f"words {seed}")
    words = [draw.choice(["check"] * 5 + ["plan", "pack"])]
    if draw.random() < 0.2:
        words += ["--field", draw.choice([*FIELDS]).decode()]
    if draw.random() < 0.15 or words[0] == "pack":
        words += ["--degree", str(draw.choice([2, 3, 4, 6]))]
    if words[0] == "check" and draw.random() < 0.15:
        words += ["--limit", str(draw.choice([1, 2, 9]))]
    if words[0] != "pack" and draw.random() < 0.15:
        words += ["--enforced"]
    return words


def field_in(words):
    """The field that is among these words."""
    return words[words.index("--field") + 1].encode() if "--field" in words else b"babybear4"


def batch_of_seed(seed, field=b"babybear4"):
    """The text and the tables of a seed, for a field."""
    draw = random.Random(seed)
    batch = Batch(draw, field)
    text, files = batch.text, batch.files
    for _ in range(draw.choice([0, 0, 1, 1, 2]) if seed % 2 else 0):
        text = spoilt(draw, text)
    if files and draw.random() < 0.2:
        name = draw.choice(sorted(files))
        files[name] = spoilt_table(draw, files[name])
    mark = b"\xef\xbb\xbf" if draw.random() < 0.05 else b""
    return mark + text.encode(), files
