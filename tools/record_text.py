"""Records as lines of text, for `pack` and `show`, in Python 3. A line is a record, but for a log, whose entries stand after it.

    trace       request ID METHOD PATH NAME=VALUE .. body BODY
                response ID STATUS BODY
    schedule    arrive ID
                act ID
                act ID CHOICE
                depart ID
    report      count ID COUNT
                log register NAME, log store NAME, log tables, log clock or log dice
                entry ID NUMBER ACT
                entry ID NUMBER ACT choice CHOICE
                group ID ID ..

A text is written between quotes, as in a program; a method, a path, and a parameter's name and value also without quotes,
where they are made of letters, digits and `_ . ~ / % + -`. `body BODY` is left out where the body is empty. A value is
`null`, `true`, `false`, a number, a text or `[VALUE, ..]`. An act is `read`, `write VALUE`, `get KEY`, `put KEY VALUE`,
`remove KEY`, `now`, `roll BOUND` or `transact { .. }`, whose statements are those of a program, with numbers in place of
the names of tables and columns. Empty lines, and lines that begin with `#`, are passed over.
"""

import re

from records import COMPARERS, check

TOKEN = re.compile(
    r'[ \t\r]*(?:(?P<text>"(?:[^"\\\n]|\\["\\nt]|\\x[0-9a-fA-F]{2})*")|(?P<sign>[=!<>]=|[\[\](){},;=<>])'
    r"|(?P<word>[A-Za-z0-9_.~/%+-]+))"
)
BARE = re.compile(rb"[A-Za-z0-9_.~/%+-]+")
NUMBER = re.compile(r"-?(?:0|[1-9][0-9]*)")
ESCAPE = re.compile(r"\\(?:x(..)|(.))")
SPECIAL = {0x22: '\\"', 0x5C: "\\\\", 0x0A: "\\n", 0x09: "\\t"}
CONSTANTS = {"null": None, "true": True, "false": False}


class Wrong(Exception):
    """What is wrong with a line."""


# ---- records as text

def text_of(content):
    return '"' + "".join(SPECIAL.get(byte) or (chr(byte) if 0x20 <= byte < 0x7F else f"\\x{byte:02x}") for byte in content) + '"'


def bare_of(content):
    return content.decode() if BARE.fullmatch(content) else text_of(content)


def value_of(value):
    if isinstance(value, tuple):
        return f"[{listed(map(value_of, value))}]"
    if isinstance(value, bytes):
        return text_of(value)
    constants = [name for name, constant in CONSTANTS.items() if value is constant]
    return constants[0] if constants else str(value)


def listed(parts):
    return ", ".join(map(str, parts))


def phrase(*words):
    """These words, but for empty ones."""
    return " ".join(str(word) for word in words if word != "")


def statement_of(statement):
    kind, *parts = statement
    if kind == "insert":
        table, values = parts
        return f"insert {table} ({listed(map(value_of, values))});"
    tests = " and ".join(f"{column} {comparer} {value_of(value)}" for column, comparer, value in parts.pop())
    where = "where" if tests else ""
    if kind == "select":
        table, columns = parts
        return phrase("select", listed(columns), "from", table, where, tests) + ";"
    if kind == "update":
        table, changes = parts
        sets = listed(f"{column} = {value_of(value)}" for column, value in changes)
        return phrase("update", table, "set", sets, where, tests) + ";"
    if kind == "delete":
        return phrase("delete", parts[0], where, tests) + ";"
    return phrase("expect", parts[0], "from", parts[1], where, tests) + ";"


def act_of(act):
    kind, *parts = act
    if kind == "transact":
        return phrase("transact {", *map(statement_of, parts[0]), "}")
    return phrase(kind, *map(value_of, parts))


def lines_of(record):
    """The lines of one record."""
    kind, *parts = record
    if kind == "request":
        number, method, path, parameters, body = parts
        pairs = [f"{bare_of(name)}={bare_of(value)}" for name, value in parameters]
        return [phrase(kind, number, bare_of(method), bare_of(path), *pairs, f"body {text_of(body)}" if body else "")]
    if kind == "response":
        number, status, body = parts
        return [phrase(kind, number, status, text_of(body))]
    if kind == "act":
        number, choice = parts
        return [phrase(kind, number, "" if choice is None else choice)]
    if kind == "log":
        name, entries = parts
        return [phrase(kind, name[0], *map(text_of, name[1:])), *map(entry_of, entries)]
    if kind == "group":
        return [phrase(kind, *parts[0])]
    return [phrase(kind, *parts)]


def entry_of(entry):
    number, operation, act, choice = entry
    return phrase("entry", number, operation, act_of(act), "" if choice is None else f"choice {choice}")


# ---- text as records

def plain(escape):
    """The letter that an escape stands for."""
    return chr(int(escape[1], 16)) if escape[1] else {"n": "\n", "t": "\t"}.get(escape[2], escape[2])


class Line:
    """Takes tokens from a line."""

    def __init__(self, line):
        self.tokens, at = [], 0
        end = len(line.rstrip(" \t\r"))
        while at < end:
            match = TOKEN.match(line, at)
            if not match:
                raise Wrong(f"nothing that may stand here begins with {line[at:].strip()[:1]}")
            self.tokens.append((match.lastgroup, match[match.lastgroup]))
            at = match.end()
        self.next = 0

    def peek(self):
        """The sign or word that stands next, if any."""
        kind, text = self.tokens[self.next] if self.next < len(self.tokens) else ("", None)
        return None if kind == "text" else text

    def has_more(self):
        return self.next < len(self.tokens)

    def take(self, what, *kinds):
        """The next token, which is of one of these kinds."""
        if not self.has_more() or self.tokens[self.next][0] not in kinds:
            raise Wrong(f"{what} is missing")
        self.next += 1
        return self.tokens[self.next - 1]

    def skips(self, word):
        """Whether this sign or word stood next; it is taken."""
        if self.peek() != word:
            return False
        self.next += 1
        return True

    def wants(self, word):
        if not self.skips(word):
            raise Wrong(f"{word} is missing")

    def one_of(self, what, names):
        _, word = self.take(what, "word", "sign")
        if word not in names:
            raise Wrong(f"{word} is no {what.split()[-1]}")
        return word

    def number(self, what="a number"):
        _, word = self.take(what, "word")
        if not NUMBER.fullmatch(word):
            raise Wrong(f"{word} is no number")
        return int(word)

    def text(self, what="a text"):
        _, text = self.take(what, "text")
        return ESCAPE.sub(plain, text[1:-1]).encode("latin-1")

    def bare(self, what):
        if self.has_more() and self.tokens[self.next][0] == "word":
            return self.take(what, "word")[1].encode()
        return self.text(what)

    def listed(self, part):
        parts = [part()]
        while self.skips(","):
            parts.append(part())
        return parts

    def value(self):
        if self.skips("["):
            members = [] if self.peek() == "]" else self.listed(self.value)
            self.wants("]")
            return tuple(members)
        if self.has_more() and self.tokens[self.next][0] == "text":
            return self.text()
        if self.peek() in CONSTANTS:
            return CONSTANTS[self.take("a value", "word")[1]]
        return self.number("a value")

    # ---- acts

    def test(self):
        return self.number("a column"), self.one_of("a comparer", COMPARERS), self.value()

    def tests(self):
        tests = []
        if self.skips("where"):
            tests.append(self.test())
            while self.skips("and"):
                tests.append(self.test())
        self.wants(";")
        return tests

    def change(self):
        column = self.number("a column")
        self.wants("=")
        return column, self.value()

    def statement(self):
        kind = self.one_of("a statement", ["insert", "select", "update", "delete", "expect"])
        if kind == "insert":
            table = self.number("a table")
            self.wants("(")
            values = [] if self.peek() == ")" else self.listed(self.value)
            self.wants(")")
            self.wants(";")
            return kind, table, values
        if kind == "select":
            columns = [] if self.peek() == "from" else self.listed(lambda: self.number("a column"))
            self.wants("from")
            return kind, self.number("a table"), columns, self.tests()
        if kind == "update":
            table = self.number("a table")
            self.wants("set")
            changes = [] if self.peek() in ("where", ";") else self.listed(self.change)
            return kind, table, changes, self.tests()
        if kind == "delete":
            return kind, self.number("a table"), self.tests()
        count = self.number("a count")
        self.wants("from")
        return kind, count, self.number("a table"), self.tests()

    def act(self):
        kind = self.one_of("an act", ["read", "write", "get", "put", "remove", "transact", "now", "roll"])
        if kind == "transact":
            self.wants("{")
            statements = []
            while not self.skips("}"):
                statements.append(self.statement())
            return kind, statements
        key = [self.text("a key")] if kind in ("get", "put", "remove") else []
        value = [self.value()] if kind in ("write", "put") else []
        bound = [self.number("a bound")] if kind == "roll" else []
        return kind, *key, *value, *bound

    # ---- records

    def request(self, kind):
        number, method, path = self.number("an id"), self.bare("a method"), self.bare("a path")
        parameters, body = [], b""
        while self.has_more():
            name = self.bare("a parameter")
            if name == b"body" and self.peek() != "=":
                body = self.text("a body")
                break
            self.wants("=")
            parameters.append((name, self.bare("a value")))
        return kind, number, method, path, parameters, body

    def response(self, kind):
        return kind, self.number("an id"), self.number("a status"), self.text("a body")

    def moment(self, kind):
        number = self.number("an id")
        return (kind, number, self.number() if self.has_more() else None) if kind == "act" else (kind, number)

    def count(self, kind):
        return kind, self.number("an id"), self.number("a count")

    def log(self, kind):
        name = self.one_of("an object", ["register", "store", "tables", "clock", "dice"])
        return kind, (name, self.text("a name")) if name in ("register", "store") else (name,), []

    def group(self, kind):
        numbers = [self.number("an id")]
        while self.has_more():
            numbers.append(self.number("an id"))
        return kind, numbers

    def entry(self):
        number, operation, act = self.number("an id"), self.number("an operation's number"), self.act()
        return number, operation, act, self.number("a choice") if self.skips("choice") else None


RECORDS = {
    "trace": {"request": Line.request, "response": Line.response},
    "schedule": {"arrive": Line.moment, "act": Line.moment, "depart": Line.moment},
    "report": {"count": Line.count, "log": Line.log, "entry": Line.entry, "group": Line.group},
}


def records_of(kind, text):
    """The records of a text, or the number of its first wrong line and what is wrong with it."""
    records, before = [], dict.fromkeys(["request", "count", "log", "group"], 0)
    for at, row in enumerate(text.decode("latin-1").split("\n"), 1):
        if not row.strip(" \t\r") or row.startswith("#"):
            continue
        try:
            add(kind, records, before, Line(row))
        except Wrong as wrong:
            return None, (at, str(wrong))
    return records, None


def add(kind, records, before, line):
    """Adds the record of a line, or the entry to its log."""
    word = line.one_of("a record", RECORDS[kind])
    if word == "entry":
        if not records or records[-1][0] != "log":
            raise Wrong("an entry stands after a log")
        entry = line.entry()
        record = "log", records[-1][1], [entry]
    else:
        record = RECORDS[kind][word](line, word)
    if line.has_more():
        raise Wrong(f"{line.tokens[line.next][1]} is more than the record has")
    if not check(kind, record, dict(before, log=0) if word == "entry" else before):
        raise Wrong("a number, a text or a value is beyond its limit, or no such record may stand here")
    if word == "entry":
        records[-1][2].append(entry)
        return
    records.append(record)
    if word in before:
        before[word] += 1
