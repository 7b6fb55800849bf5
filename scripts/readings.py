"""The readings of a source and of an input, written from the rules of the language apart from the crates.

They say of any bytes what the program has to answer: which tokens a source has or with what it is refused, at which token no program goes on, and which arrays an input
has or with what it is refused. `hostile_texts.py` compares the program with them.
"""
import re
import sys

# A nest of 200 brackets goes through ten calls for each.
sys.setrecursionlimit(10_000)
RESERVED = set("int bool true false inline return if else while do for with genarray modarray fold step width dim shape reshape min max".split())
SIGNS = "<= >= == != && || += -= *= /= %= ++ -- ( ) { } [ ] , ; : ? . = + - * / % ! < >".split()
MOST_TOKENS, MOST_OPEN, MOST_ELEMENTS, GREATEST = 200_000, 200, 16_777_216, 2_147_483_647


class Refused(Exception):
    """A refusal, with its code and its place."""

    def __init__(self, code, *place):
        super().__init__(code, *place)
        self.code, self.place = code, place

    def line(self):
        """The line of text of the refusal of a source."""
        return f"refused {self.code} at {self.place[0]}:{self.place[1]}\n"


BLANK = re.compile(rb"(?:[ \t\r\n]|//[^\n]*|/\*.*?\*/)*", re.DOTALL)
TOKEN = re.compile(rb"[A-Za-z_][A-Za-z0-9_]*|[0-9]+|" + b"|".join(re.escape(sign.encode()) for sign in SIGNS))


def site(source, at):
    """The line and the column of a place, both from 1, columns in bytes."""
    return source.count(b"\n", 0, at) + 1, at - source.rfind(b"\n", 0, at)


def tokens(source):
    """The tokens of a source with their places, without the end; or Refused."""
    found, at = [], 0
    while True:
        at = BLANK.match(source, at).end()
        if at == len(source):
            return found
        if source.startswith(b"/*", at):
            raise Refused("L5", *site(source, at))
        token = TOKEN.match(source, at)
        if not token:
            raise Refused("L1", *site(source, at))
        text = token.group().decode()
        if len(found) == MOST_TOKENS:
            raise Refused("L4", *site(source, at))
        if text[0].isdigit() and int(text.lstrip("0")[:11] or "0") > GREATEST:
            raise Refused("L2", *site(source, at))
        if len(text) > 64 and not text[0].isdigit():
            raise Refused("L3", *site(source, at))
        found.append((text, at))
        at = token.end()


class Grammar:
    """Goes through the tokens of a source by the grammar. Where no program goes on with a token it is refused at this token."""

    def __init__(self, source):
        self.source = source
        self.tokens = [*tokens(source), ("", len(source))]
        self.at = self.open = 0

    def now(self):
        return self.tokens[self.at][0]

    def refuse(self, code="P1"):
        raise Refused(code, *site(self.source, self.tokens[self.at][1]))

    def is_name(self):
        text = self.now()
        return bool(re.match("[A-Za-z_]", text)) and text not in RESERVED

    def step(self):
        text = self.now()
        self.open += (text in ("(", "[", "{")) - (text in (")", "]", "}"))
        if self.open > MOST_OPEN:
            self.refuse("P2")
        self.at += 1

    def takes(self, *texts):
        """Whether one of these comes next, which is then taken."""
        if self.now() not in texts or not self.now():
            return False
        self.step()
        return True

    def need(self, *texts):
        if not self.takes(*texts):
            self.refuse()

    def name(self):
        if not self.is_name():
            self.refuse()
        self.step()

    def number(self):
        if not self.now()[:1].isdigit():
            self.refuse()
        self.step()

    def listed(self, one):
        """One or more, with commas."""
        one()
        while self.takes(","):
            one()

    def program(self):
        while self.now():
            self.function()

    def function(self):
        self.takes("inline")
        self.listed(self.type)
        self.name()
        self.need("(")
        if self.now() != ")":
            self.listed(self.param)
        self.need(")")
        self.need("{")
        self.statements("return")
        self.need("return")
        self.need("(")
        self.listed(self.expression)
        for text in (")", ";", "}"):
            self.need(text)

    def param(self):
        self.type()
        self.name()

    def type(self):
        self.need("int", "bool")
        if self.takes("["):
            if not self.takes("+", "*") and self.now() != "]":
                self.extents()
            self.need("]")

    def extents(self):
        one = (lambda: self.need(".")) if self.now() == "." else self.number
        one()
        for _ in range(7):
            if not self.takes(","):
                return
            one()

    def statements(self, end):
        while self.now() != end:
            self.statement()

    def block(self):
        self.need("{")
        self.statements("}")
        self.need("}")

    def in_brackets(self):
        self.need("(")
        self.expression()
        self.need(")")

    def statement(self):
        if self.takes("if"):
            self.in_brackets()
            self.block()
            if self.takes("else"):
                if self.now() == "if":
                    self.statement()
                else:
                    self.block()
        elif self.takes("while"):
            self.in_brackets()
            self.block()
        elif self.takes("do"):
            self.block()
            self.need("while")
            self.in_brackets()
            self.need(";")
        elif self.takes("for"):
            self.loop_head()
            self.block()
        else:
            self.assign()
            self.need(";")

    def loop_head(self):
        self.need("(")
        self.assign()
        self.need(";")
        self.expression()
        self.need(";")
        self.assign()
        self.need(")")

    def assign(self):
        self.name()
        if self.takes("++", "--"):
            return
        if self.takes("["):
            self.listed(self.expression)
            self.need("]")
            self.need("=")
        elif not self.takes("=", "+=", "-=", "*=", "/=", "%="):
            while self.takes(","):
                self.name()
            self.need("=")
        self.expression()

    def expression(self):
        self.binary(0)
        if self.takes("?"):
            self.expression()
            self.need(":")
            self.expression()

    LEVELS = [["||"], ["&&"], ["==", "!="], ["<", "<=", ">", ">="], ["+", "-"], ["*", "/", "%"]]

    def binary(self, level):
        if level == len(self.LEVELS):
            return self.prefix()
        self.binary(level + 1)
        while self.takes(*self.LEVELS[level]):
            self.binary(level + 1)

    def prefix(self):
        while self.takes("-", "!"):
            pass
        self.primary()
        while self.takes("["):
            self.listed(self.expression)
            self.need("]")

    def primary(self):
        if self.is_name():
            self.step()
            if self.takes("("):
                self.listed_till(")")
        elif self.takes("dim", "shape"):
            self.in_brackets()
        elif self.takes("reshape", "min", "max"):
            self.need("(")
            self.expression()
            self.need(",")
            self.expression()
            self.need(")")
        elif self.takes("with"):
            self.with_loop()
        elif self.now() == "(":
            self.in_brackets()
        elif self.takes("["):
            self.listed_till("]")
        elif not self.takes("true", "false"):
            self.number()

    def listed_till(self, end):
        if self.now() != end:
            self.listed(self.expression)
        self.need(end)

    def with_loop(self):
        self.need("{")
        while self.now() != "}":
            self.generator()
        self.need("}")
        self.need(":")
        operation = self.now()
        self.need("genarray", "modarray", "fold")
        self.need("(")
        if operation == "fold":
            self.need("+", "*", "min", "max", "&&", "||")
            self.need(",")
        self.expression()
        if operation == "genarray" and self.takes(","):
            self.expression()
        self.need(")")

    def generator(self):
        self.need("(")
        self.bound()
        self.need("<=", "<")
        if self.takes("["):
            self.listed(self.name)
            self.need("]")
        else:
            self.name()
        self.need("<=", "<")
        self.bound()
        for word in ("step", "width"):
            if self.takes(word):
                self.binary(4)
        self.need(")")
        if self.now() == "{":
            self.block()
        self.need(":")
        self.expression()
        self.need(";")

    def bound(self):
        if not self.takes("."):
            self.binary(4)


def source_refusal(source):
    """The refusal of a source by its tokens or its grammar, as a line, or None. Sources whose height matters are not for this."""
    try:
        Grammar(source).program()
    except Refused as refused:
        return refused.line()
    return None


SPACE = rb"[ \t]*"
INT, TRUTH = rb"-?[0-9]+", rb"(?:true|false)"


def line_form(base, element):
    extents = rb"(?:[0-9]+(?:" + SPACE + rb"," + SPACE + rb"[0-9]+)*)?"
    elements = rb"(?:" + element + rb"(?:[ \t]+" + element + rb")*)?"
    parts = [b"", b"(" + base + b")", rb"\[", b"(" + extents + b")", rb"\]", b":", b"(" + elements + b")", b""]
    return re.compile(SPACE.join(parts), re.DOTALL)


FORMS = [line_form(b"int", INT), line_form(b"bool", TRUTH)]


def number_of(text):
    """A number of any length. Of one that is far too large only that it is."""
    digits = text.lstrip(b"-").lstrip(b"0") or b"0"
    size = int(digits) if len(digits) < 20 else 10**20
    return -size if text.startswith(b"-") else size


def array_of(line, number, base):
    """The array of a line of an input: its line as it is printed."""
    found = [form.fullmatch(line) for form in FORMS]
    form = found[0] or found[1]
    if not form:
        raise Refused("I1", number)
    own, extents, elements = form.groups()
    shape = [number_of(it.strip(b" \t")) for it in extents.split(b",")] if extents.strip(b" \t") else []
    items = elements.replace(b"\t", b" ").split(b" ")
    items = [item for item in items if item]
    values = [number_of(item) for item in items] if own == b"int" else items
    if any(extent > GREATEST for extent in shape):
        raise Refused("I3", number)
    if own == b"int" and not all(-GREATEST - 1 <= value <= GREATEST for value in values):
        raise Refused("I3", number)
    product = 1
    for extent in shape:
        product *= extent
    if len(shape) > 8 or len(values) > MOST_ELEMENTS:
        raise Refused("I6", number)
    if product != len(values):
        raise Refused("I4", number)
    if own.decode() != base:
        raise Refused("I5", number)
    shown = "".join(f" {value}" if own == b"int" else f" {value.decode()}" for value in values)
    return f"{base}[{','.join(map(str, shape))}]:{shown}\n"


def input_answer(text, bases):
    """What a program that gives its parameters of these bases back answers to an input: its text and its status."""
    lines = [line[:-1] if line.endswith(b"\r") else line for line in text.split(b"\n")]
    lines = [(number, line) for number, line in enumerate(lines, 1) if line.strip(b" \t")]
    if len(lines) != len(bases):
        return "refused I2\n", 3
    try:
        return "".join(array_of(line, number, base) for (number, line), base in zip(lines, bases)), 0
    except Refused as refused:
        return f"refused {refused.code} at line {refused.place[0]}\n", 3
