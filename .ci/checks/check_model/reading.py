"""Reads a batch file and a table, as docs/guide/CHECK_REFERENCE.md says."""
import collections
import re

from .fields import ASKED

LARGEST_NUMBER, MOST_LAYERS, LARGEST_EXPONENT = 2**64 - 1, 1024, 64
MARK = b"\xef\xbb\xbf"


class Fault(Exception):
    """What is wrong at a byte of a text."""

    def __init__(self, at, why):
        super().__init__(at, why)
        self.at, self.why = at, why


# --- tokens ---

# `at` is where a fault of the token stands, and `text` what a name or a file says.
Token = collections.namedtuple("Token", "kind at text quoted", defaults=(b"", False))
NAME, NUMBER = re.compile(rb"[A-Za-z_][A-Za-z0-9_.\[\]]*"), re.compile(rb"[0-9]+")
QUOTES = {b"`": "name", b'"': "file"}


def line_end(text, at):
    """Where the line of a byte ends."""
    end = text.find(b"\n", at)
    return len(text) if end < 0 else end


def value_of(digits):
    """The number of some digits, or one that is too large. Python reads no number of many thousand digits."""
    digits = digits.lstrip(b"0") or b"0"
    return int(digits) if len(digits) < 100 else 10**100


def quoted_at(text, at):
    """The token in the quotes that begin here, and where it ends."""
    quote = text[at : at + 1]
    end = text.find(quote, at + 1, line_end(text, at))
    if end < 0:
        raise Fault(at, "Unclosed")
    return Token(QUOTES[quote], at + 1, text[at + 1 : end], True), end + 1


def tokens_of(text):
    """The tokens of a text, with one for each end of a line that is no blank, and one for the end of the text."""
    tokens, depth, at = [], 0, len(MARK) if text.startswith(MARK) else 0
    while at < len(text):
        byte = text[at : at + 1]
        name, number = NAME.match(text, at), NUMBER.match(text, at)
        if byte in b" \t\r":
            at += 1
        elif byte == b"#":
            at = line_end(text, at)
        elif byte == b"\n":
            if depth == 0:
                tokens.append(Token("line", at))
            at += 1
        elif byte in QUOTES:
            token, at = quoted_at(text, at)
            tokens.append(token)
        elif name:
            tokens.append(Token("name", at, name[0]))
            at = name.end()
        elif number:
            if value_of(number[0]) > LARGEST_NUMBER:
                raise Fault(at, "LongNumber")
            tokens.append(Token("number", at, value_of(number[0])))
            at = number.end()
        elif byte in b"(){},=+-*^":
            depth = max(0, depth + (byte == b"(") - (byte == b")"))
            tokens.append(Token(byte.decode(), at))
            at += 1
        else:
            raise Fault(at, "Strange")
    return [*tokens, Token("end", len(text))]


# --- the grammar ---

Bus = collections.namedtuple("Bus", "at name fields")
Air = collections.namedtuple("Air", "at name items")
Item = collections.namedtuple("Item", "at kind said")
# `bus` is None where a message is local; `count` and `most` are None where they are left out.
Message = collections.namedtuple("Message", "at verb bus_at bus tuple count most")
# A message in a group, with its flag where the group is exclusive.
Part = collections.namedtuple("Part", "flag message")

VERBS = (b"query", b"provide", b"send", b"receive")
SIGNS = {"+", "-", "*", "^"}


class Reader:
    """Reads a text by the grammar, from its first token on."""

    def __init__(self, text):
        self.tokens, self.place = tokens_of(text), 0

    def now(self):
        return self.tokens[self.place]

    def take(self):
        token = self.now()
        self.place += token.kind != "end"
        return token

    def is_word(self, *words):
        """Whether one of these words is next. A name in backquotes is no word."""
        token = self.now()
        return token.kind == "name" and not token.quoted and token.text in words

    def take_if(self, kind):
        return self.take() if self.now().kind == kind else None

    def want(self, kind, why):
        if self.now().kind != kind:
            raise Fault(self.now().at, why)
        return self.take()

    def sign(self, sign):
        self.want(sign, f"Sign {sign}")

    def line(self):
        if self.now().kind != "end":
            self.want("line", "Line")

    def empty_lines(self):
        while self.take_if("line"):
            pass

    # --- sections and items ---

    def batch(self):
        sections = []
        self.empty_lines()
        while self.now().kind != "end":
            if self.is_word(b"bus"):
                self.take()
                name = self.want("name", "Name")
                sections.append(Bus(name.at, name.text, [field for _, field in self.names()]))
            elif self.is_word(b"air"):
                self.take()
                name = self.want("name", "Name")
                sections.append(Air(name.at, name.text, self.block(self.item, "Item")))
            else:
                raise Fault(self.now().at, "Section")
            self.line()
            self.empty_lines()
        return sections

    def names(self):
        """Names in parentheses, each with its place."""
        self.sign("(")
        names = [self.want("name", "Name")]
        while self.take_if(","):
            names.append(self.want("name", "Name"))
        self.sign(")")
        return [(name.at, name.text) for name in names]

    def block(self, part, why):
        """Parts on lines of their own, in braces."""
        self.sign("{")
        parts = []
        self.empty_lines()
        while not self.take_if("}"):
            if self.now().kind == "end":
                raise Fault(self.now().at, why)
            parts.append(part())
            self.line()
            self.empty_lines()
        return parts

    def item(self):
        token = self.now()
        kind = token.text.decode() if token.kind == "name" and not token.quoted else ""
        if kind in ("trace", "preprocessed", "lookups"):
            self.take()
            file = self.want("file", "File")
            return Item(token.at, kind, (file.at, file.text))
        if kind == "height":
            self.take()
            return Item(token.at, kind, self.want("number", "Number").text)
        if kind == "columns":
            self.take()
            return Item(token.at, kind, self.names())
        if kind in ("public", "let"):
            self.take()
            name = self.want("name", "Name")
            self.sign("=")
            said = self.sum() if kind == "let" else self.want("number", "Number").text
            return Item(token.at, kind, (name.at, name.text, said))
        if kind == "assert":
            self.take()
            boolean = self.is_word(b"bool")
            if boolean:
                self.take()
            return Item(token.at, kind, (boolean, self.sum()))
        if kind == "together":
            self.take()
            return Item(token.at, kind, self.block(lambda: Part(None, self.message()), "Verb"))
        if kind == "exclusive":
            self.take()
            return Item(token.at, kind, self.block(self.flagged, "When"))
        if self.is_word(*VERBS):
            return Item(token.at, "message", [Part(None, self.message())])
        raise Fault(token.at, "Item")

    def flagged(self):
        if not self.is_word(b"when"):
            raise Fault(self.now().at, "When")
        self.take()
        flag = self.sum()
        return Part(flag, self.message())

    def message(self):
        if not self.is_word(*VERBS):
            raise Fault(self.now().at, "Verb")
        verb = self.take()
        local = self.is_word(b"local")
        bus = self.want("name", "Bus")
        self.sign("(")
        values = [self.sum()]
        while self.take_if(","):
            values.append(self.sum())
        self.sign(")")
        count = most = None
        if self.is_word(b"times"):
            self.take()
            count = self.sum()
            if self.is_word(b"at"):
                self.take()
                if not self.is_word(b"most"):
                    raise Fault(self.now().at, "Most")
                self.take()
                most = self.want("number", "Number").text
        return Message(verb.at, verb.text.decode(), bus.at, None if local else bus.text, values, count, most)

    # --- expressions ---

    # An expression is a tuple: its kind, and what it is made of. A sum, a product, a factor and an atom take a layer
    # each, and so do an operator and a sign.

    def layer(self, layers):
        if layers <= 0:
            raise Fault(self.now().at, "Deep")
        return layers - 1

    def sum(self, layers=MOST_LAYERS):
        layers = self.layer(layers)
        left = self.product(layers)
        while self.now().kind in ("+", "-"):
            operator = self.take()
            layers = self.layer(layers)
            left = (operator.kind, left, self.product(layers))
        return left

    def product(self, layers):
        layers = self.layer(layers)
        left = self.factor(layers)
        while self.take_if("*"):
            layers = self.layer(layers)
            left = ("*", left, self.factor(layers))
        return left

    def factor(self, layers):
        layers = self.layer(layers)
        if self.take_if("-"):
            return ("negative", self.factor(layers))
        atom = self.atom(layers)
        if self.take_if("^"):
            exponent = self.want("number", "Number")
            if not 1 <= exponent.text <= LARGEST_EXPONENT:
                raise Fault(exponent.at, "Exponent")
            return ("^", atom, exponent.text)
        return atom

    def atom(self, layers):
        layers = self.layer(layers)
        token = self.now()
        if self.take_if("number"):
            return ("number", token.at, token.text)
        if self.take_if("("):
            inner = self.sum(layers)
            self.sign(")")
            return inner
        if self.take_if("name"):
            if token.text != b"next" or token.quoted or not self.take_if("("):
                return ("name", token.at, token.text)
            column = self.want("name", "Column")
            self.sign(")")
            return ("next", column.at, column.text)
        raise Fault(token.at, "Expression")


def batch_of(text):
    return Reader(text).batch()


# --- tables ---

Table = collections.namedtuple("Table", "names rows")
CELL = re.compile(rb"-?[0-9]+")


def lines_of(text):
    """The lines of a table, each with where it begins. What follows the last end of a line is one, if anything does."""
    at = 0
    while at < len(text):
        end = line_end(text, at)
        line = text[at:end]
        yield at, line[:-1] if line.endswith(b"\r") else line
        at = end + 1


def cells_of(at, line):
    """The cells of a line, each with where it begins."""
    for cell in line.split(b","):
        yield at, cell
        at += len(cell) + 1


def header_of(at, line):
    names = []
    for place, name in cells_of(at, line):
        if not name:
            raise Fault(place, "EmptyName")
        if name in names:
            raise Fault(place, "RepeatedName")
        names.append(name)
    return names


def row_of(at, line, width):
    row = []
    for place, cell in cells_of(at, line):
        if len(row) == width:
            raise Fault(place, "ExtraCell")
        if not CELL.fullmatch(cell):
            raise Fault(place, "Number")
        number = value_of(cell.lstrip(b"-"))
        if number >= ASKED.characteristic:
            raise Fault(place, "LargeNumber")
        row.append((-number if cell.startswith(b"-") else number) % ASKED.characteristic)
    if len(row) < width:
        raise Fault(at + len(line), "MissingCell")
    return row


def table_of(text):
    lines = list(lines_of(text))
    if text.startswith(MARK):
        lines[0] = len(MARK), lines[0][1][len(MARK) :]
    if not lines or not lines[0][1]:
        raise Fault(0, "Header")
    names = header_of(*lines[0])
    return Table(names, [row_of(at, line, len(names)) for at, line in lines[1:]])
