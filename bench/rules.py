"""Syntax and check of docs/language.md once more, in Python: the line that `check` must print for a text.

It is written from that page alone, in another way than the program, so that the two can be compared. `meaning.py` runs
the tree that the parser makes.
"""

import re

from programs import ok

KEYWORDS = set(
    b"store table function page let set if else while for in echo status return do or and not true false null "
    b"transact insert select from update delete expect where".split()
)
BUILT_INS = {
    b"len": 1, b"str": 1, b"escape": 1, b"num": 1, b"slice": 3, b"append": 2, b"kind": 1, b"param": 1, b"method": 0,
    b"path": 0, b"body": 0, b"read": 1, b"write": 2, b"get": 2, b"put": 3, b"remove": 2, b"clock": 0, b"random": 1,
}
OF_STORES = {b"get", b"put", b"remove"}
COMPARERS = {b"==", b"!=", b"<", b"<=", b">", b">="}
MOST = 64
TOKEN = re.compile(
    rb"(?P<blank>[ \t\r\n]+|#[^\n]*)|(?P<name>[A-Za-z_][A-Za-z0-9_]*)|(?P<number>[0-9]+)"
    rb'|(?P<text>"(?:[^"\\\n]|\\["\\nt]|\\x[0-9a-fA-F]{2})*")|(?P<sign>[=!<>]=|[;,(){}\[\]=<>+*/%-])'
)
ESCAPE = re.compile(rb"\\(?:x(..)|(.))", re.DOTALL)


class Fault(Exception):
    """A fault of syntax: its kind and its place."""


class Statement(tuple):
    """The tree of a statement, which knows its place."""

    def __new__(cls, at, parts):
        statement = super().__new__(cls, parts)
        statement.at = at
        return statement


def content(text):
    """What a text stands for."""
    plain = {b"n": b"\n", b"t": b"\t"}
    return ESCAPE.sub(lambda m: bytes([int(m[1], 16)]) if m[1] else plain.get(m[2], m[2]), text[1:-1])


def token_of(kind, text):
    """Its sort and what it stands for; none beyond its limit."""
    if kind == "name" and text not in KEYWORDS:
        return ("name", text) if len(text) <= 64 else None
    if kind == "number":
        digits = text.lstrip(b"0")
        return ("number", text) if len(digits) < 19 or len(digits) == 19 and int(digits) < 2**63 else None
    if kind == "text":
        return ("text", content(text)) if len(content(text)) <= 65_535 else None
    return "word", text


def tokens_of(text):
    """The tokens, each with its place, and the fault that ends them: where the file ends it is of kind 2."""
    tokens, at, depth = [], 0, 0
    while at < len(text):
        match = TOKEN.match(text, at)
        if not match:
            return tokens, Fault(1, at)
        kind, here = match.lastgroup, match[0]
        if kind != "blank":
            token = token_of(kind, here)
            if token is None:
                return tokens, Fault(3, at)
            if here in (b"(", b"[", b"{"):
                if depth == MOST:
                    return tokens, Fault(2, at)
                depth += 1
            elif here in (b")", b"]", b"}"):
                depth -= 1
            tokens.append((*token, at))
        at = match.end()
    return tokens, Fault(2, at)


class Parser:
    """Makes a tree of tuples.

    A declaration and a statement begin with their word. An expression is its sort, its place and its parts, and then:
    of a "row" the signs between the parts, of "prefixed" its signs, of both the places of these signs; of "indexed" the
    places of its brackets, of a "value" what it is. Its sort can also be "bracket" or "list"; of a "variable", a "call" and a "transact" a name, a name with arguments, or
    statements stand in place of the parts. Those are the table, the columns that are selected or tested, the columns
    that are set, the expressions in their order, how many values an `insert` has, their word and the comparers.
    """

    def __init__(self, text):
        self.tokens, self.end = tokens_of(text)
        self.length = len(text)
        self.next = 0

    def peek(self):
        """The word that stands next, if any."""
        kind, text, _ = self.tokens[self.next] if self.next < len(self.tokens) else ("", None, 0)
        return text if kind == "word" else None

    def place(self):
        if self.next == len(self.tokens):
            raise self.end
        return self.tokens[self.next][2]

    def fail(self):
        raise Fault(2, self.place())

    def take(self, kind, *wanted):
        """What the token of this sort stands for, with its place."""
        at = self.place()
        is_kind, text, _ = self.tokens[self.next]
        if is_kind != kind or wanted and text not in wanted:
            self.fail()
        self.next += 1
        return text, at

    def word(self, *wanted):
        return self.take("word", *wanted)[0]

    def skips(self, *words):
        """Whether one of these words stood next; it is taken."""
        if self.peek() in words:
            self.next += 1
            return True
        return False

    def listed(self, part, end):
        """At least one part, with commas between, up to this word."""
        parts = [part()]
        while not self.skips(end):
            self.word(b",")
            parts.append(part())
        return parts

    def maybe_listed(self, part, end):
        return [] if self.skips(end) else self.listed(part, end)

    def name(self):
        return self.take("name")

    # ---- declarations and statements

    def program(self):
        declarations = []
        while self.next < len(self.tokens) or self.end.args != (2, self.length):
            declarations.append(self.declaration())
        return declarations

    def declaration(self):
        word = self.word(b"store", b"table", b"function", b"page")
        if word == b"page":
            return word, self.take("text"), self.block()
        name = self.name()
        if word == b"store":
            self.word(b";")
            return word, name
        self.word(b"(")
        if word == b"table":
            columns = self.listed(self.name, b")")
            self.word(b";")
            return word, name, columns
        return word, name, self.maybe_listed(self.name, b")"), self.block()

    def block(self):
        self.word(b"{")
        statements = []
        while not self.skips(b"}"):
            statements.append(self.statement())
        return statements

    def statement(self):
        return Statement(self.place(), self.statement_parts())

    def statement_parts(self):
        word = self.word(b"let", b"set", b"if", b"while", b"for", b"echo", b"status", b"return", b"do")
        if word in (b"if", b"while"):
            value, body = self.expression(), self.block()
            return word, value, body, self.block() if word == b"if" and self.skips(b"else") else []
        if word == b"for":
            name = self.name()
            self.word(b"in")
            return word, name, self.expression(), self.block()
        name = None
        if word in (b"let", b"set"):
            name = self.name()
            self.word(b"=")
        value = self.expression()
        self.word(b";")
        return word, name, value

    # ---- expressions

    def row(self, part, *signs, most=MOST):
        first = part()
        others, between, places = [], [], []
        while self.peek() in signs and len(others) < most:
            places.append(self.place())
            between.append(self.word())
            others.append(part())
        return ("row", first[1], [first, *others], between, places) if others else first

    def expression(self):
        return self.row(self.conjunction, b"or")

    def conjunction(self):
        return self.row(self.comparison, b"and")

    def comparison(self):
        return self.row(self.sum, *COMPARERS, most=1)

    def sum(self):
        return self.row(self.term, b"+", b"-")

    def term(self):
        return self.row(self.prefixed, b"*", b"/", b"%")

    def prefixed(self):
        at, signs, places = self.place(), [], []
        while len(signs) < MOST and self.peek() in (b"not", b"-"):
            places.append(self.place())
            signs.append(self.word())
        inner = self.indexed()
        return ("prefixed", at, [inner], signs, places) if signs else inner

    def indexed(self):
        first = self.atom()
        indices, places = [], []
        while len(indices) < MOST and self.peek() == b"[":
            places.append(self.place())
            self.word(b"[")
            indices.append(self.expression())
            self.word(b"]")
        return ("indexed", first[1], [first, *indices], places) if indices else first

    def atom(self):
        at = self.place()
        kind, text, _ = self.tokens[self.next]
        if kind == "word" and text not in (b"true", b"false", b"null", b"(", b"[", b"transact"):
            self.fail()
        self.next += 1
        if kind == "name":
            if self.skips(b"("):
                return "call", at, text, self.maybe_listed(self.expression, b")")
            return "variable", at, text
        if text == b"(" and kind == "word":
            inner = self.expression()
            self.word(b")")
            return "bracket", at, [inner]
        if text == b"[" and kind == "word":
            return "list", at, self.maybe_listed(self.expression, b"]")
        if text == b"transact" and kind == "word":
            self.word(b"{")
            parts = [self.part()]
            while not self.skips(b"}"):
                parts.append(self.part())
            return "transact", at, parts
        constants = {b"true": True, b"false": False, b"null": None}
        return "value", at, [], int(text) if kind == "number" else text if kind == "text" else constants[text]

    def part(self):
        word = self.word(b"insert", b"select", b"update", b"delete", b"expect")
        if word == b"insert":
            table = self.name()
            self.word(b"(")
            values = self.listed(self.expression, b")")
            self.word(b";")
            return table, [], [], values, len(values), word, []
        columns, sets, values, comparers = [], [], [], []
        if word == b"select":
            columns = self.listed(self.name, b"from")
        elif word == b"expect":
            values.append(self.expression())
            self.word(b"from")
        table = self.name()
        if word == b"update":
            self.word(b"set")
            self.assigned(sets, values)
            while self.skips(b","):
                self.assigned(sets, values)
        if self.skips(b"where"):
            self.test(columns, values, comparers)
            while self.skips(b"and"):
                self.test(columns, values, comparers)
        self.word(b";")
        return table, columns, sets, values, None, word, comparers

    def assigned(self, sets, values):
        sets.append(self.name())
        self.word(b"=")
        values.append(self.expression())

    def test(self, columns, values, comparers):
        columns.append(self.name())
        comparers.append(self.word(*COMPARERS))
        values.append(self.sum())


class Checker:
    """Gathers the faults of a program, each as its place and its kind."""

    def __init__(self, program):
        self.faults = []
        self.functions, self.stores, self.tables = {}, {}, {}
        pages = {}
        for word, (name, at), *rest in program:
            mine = {b"store": self.stores, b"table": self.tables, b"function": self.functions, b"page": pages}[word]
            if name in mine or word == b"function" and name in BUILT_INS:
                self.faults.append((at, 6 if word == b"page" else 2))
            mine.setdefault(name, rest[0] if rest else None)
            if word == b"table":
                self.declare(rest[0], set())
        for word, _, *rest in program:
            if word == b"page":
                self.block(rest[0], set())
            elif word == b"function":
                self.block(rest[1], self.declare(rest[0], set()))

    def unless(self, holds, at, kind):
        if not holds:
            self.faults.append((at, kind))

    def declare(self, names, known):
        """These names too, of which each is new."""
        known = set(known)
        for name, at in names:
            self.unless(name not in known, at, 2)
            known.add(name)
        return known

    def block(self, statements, known):
        for statement in statements:
            word = statement[0]
            if word in (b"if", b"while"):
                self.expression(statement[1], known)
                self.block(statement[2], known)
                self.block(statement[3], known)
            elif word == b"for":
                self.expression(statement[2], known)
                self.block(statement[3], self.declare([statement[1]], known))
            else:
                self.expression(statement[2], known)
                if word == b"let":
                    known = self.declare([statement[1]], known)
                elif word == b"set":
                    self.unless(statement[1][0] in known, statement[1][1], 1)

    def expression(self, tree, known):
        sort, at = tree[:2]
        if sort == "variable":
            self.unless(tree[2] in known, at, 1)
        elif sort == "call":
            self.call(at, tree[2], tree[3], known)
        elif sort == "transact":
            for part in tree[2]:
                self.part(*part[:5], known)
        else:
            for inner in tree[2]:
                self.expression(inner, known)

    def call(self, at, name, arguments, known):
        if name in BUILT_INS:
            self.unless(len(arguments) == BUILT_INS[name], at, 3)
        elif name in self.functions:
            self.unless(len(arguments) == len(self.functions[name]), at, 3)
        else:
            self.faults.append((at, 1))
        if name in OF_STORES and arguments:
            first, *arguments = arguments
            self.unless(first[0] == "variable" and first[2] in self.stores, first[1], 4)
        for argument in arguments:
            self.expression(argument, known)

    def part(self, table, columns, sets, values, count, known):
        name, at = table
        if name in self.tables:
            there = [column for column, _ in self.tables[name]]
            self.unless(count in (None, len(there)), at, 3)
            for column, place in columns + sets:
                self.unless(column in there, place, 4)
            for column, place in sets:
                self.unless(column != there[0], place, 5)
        else:
            self.faults.append((at, 4))
        for value in values:
            self.expression(value, known)


def line_of(text):
    """The line for a program's text."""
    try:
        parser = Parser(text)
        program = parser.program()
    except Fault as fault:
        return b"program: syntax %d at %d\n" % fault.args
    faults = Checker(program).faults
    if faults:
        at, kind = min(faults)
        return b"program: check %d at %d\n" % (kind, at)
    words = [declaration[0] for declaration in program]
    return ok(*(words.count(word) for word in (b"page", b"function", b"store", b"table")))
