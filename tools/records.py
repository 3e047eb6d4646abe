"""The three binary files of docs/formats.md, in Python 3: which records their bytes spell, and which bytes spell records.

A trace is a list of ("request", id, method, path, parameters, body) and ("response", id, status, body); a schedule one of
("arrive", id), ("act", id, choice) and ("depart", id); a report one of ("count", id, count), ("log", object, entries) and
("group", ids). Texts are bytes. A value is None, False, True, a whole number, bytes or a tuple of values. A choice is a
whole number or None. An object is ("register", name), ("store", name), ("tables",), ("clock",) or ("dice",). An entry is
(id, number, act, choice). An act is a tuple of its name and its operands; one of transact has a list of statements:
("insert", table, values), ("select", table, columns, tests), ("update", table, changes, tests), ("delete", table, tests)
and ("expect", count, table, tests). A test is (column, comparer, value), a change (column, value).
"""

import struct

MAGICS = {b"SSCOTRC1": "trace", b"SSCORPT1": "report", b"SSCOSCH1": "schedule"}
COMPARERS = ["==", "!=", "<", "<=", ">", ">="]
OBJECTS = ["register", "store", "tables", "clock", "dice"]
ACTS = ["read", "write", "get", "put", "remove", "transact", "now", "roll"]
STATEMENTS = ["insert", "select", "update", "delete", "expect"]
OF_REPORTS = ["count", "log", "group"]
MOST_REQUESTS = 65_536
MOST_TEXT = 65_535
MOST_PARAMETERS = 1_024
MOST_SIZE = 65_536
MOST_NESTING = 16


class Unreadable(Exception):
    """The place of the first bad record."""


class Bad(Exception):
    """These bytes spell no field, or the record may not stand there."""


def size(value):
    if isinstance(value, bytes):
        return 1 + len(value)
    return 1 + sum(map(size, value)) if isinstance(value, tuple) else 1


# ---- from bytes

class Reader:
    """Takes fields from a part of a file."""

    def __init__(self, data, at, end):
        self.data, self.at, self.end = data, at, end

    def take(self, length):
        """Where so many bytes begin, which are passed."""
        at = self.at
        if self.end - at < length:
            raise Bad
        self.at += length
        return at

    def number(self, form):
        return struct.unpack_from(form, self.data, self.take(struct.calcsize(form)))[0]

    def u8(self):
        return self.number(">B")

    def u16(self):
        return self.number(">H")

    def u32(self):
        return self.number(">I")

    def i64(self):
        return self.number(">q")

    def inside(self):
        """A reader of the bytes whose length stands next."""
        length = self.u32()
        at = self.take(length)
        return Reader(self.data, at, at + length)

    def bytes(self):
        part = self.inside()
        return self.data[part.at : part.end]

    def text(self):
        text = self.bytes()
        if len(text) > MOST_TEXT:
            raise Bad
        return text

    def named(self, names):
        """The one of these names whose number, from 1 on, stands next."""
        number = self.u8()
        if not 1 <= number <= len(names):
            raise Bad
        return names[number - 1]

    def many(self, part, most=None):
        count = self.u32()
        if most is not None and count > most:
            raise Bad
        return [part() for _ in range(count)]

    def value(self, nesting=0):
        value = self.any_value(nesting)
        if nesting == 0 and size(value) > MOST_SIZE:
            raise Bad
        return value

    def any_value(self, nesting):
        kind = self.u8()
        if kind < 3:
            return (None, False, True)[kind]
        if kind == 3:
            return self.i64()
        if kind == 4:
            return self.bytes()
        if kind == 5 and nesting < MOST_NESTING:
            return tuple(self.many(lambda: self.value(nesting + 1), MOST_SIZE))
        raise Bad

    def choice(self):
        kind = self.u8()
        if kind > 1:
            raise Bad
        return self.i64() if kind else None

    # ---- records

    def trace(self, before):
        kind = self.named(["request", "response"])
        number = self.u32()
        if kind == "response":
            return kind, number, self.u16(), self.bytes()
        if before["request"] == MOST_REQUESTS:
            raise Bad
        method, path = self.text(), self.text()
        parameters = self.many(lambda: (self.text(), self.text()), MOST_PARAMETERS)
        return kind, number, method, path, parameters, self.text()

    def schedule(self, before):
        kind = self.named(["arrive", "act", "depart"])
        number = self.u32()
        return (kind, number, self.choice()) if kind == "act" else (kind, number)

    def report(self, before):
        kind = self.named(OF_REPORTS)
        if any(before[later] for later in OF_REPORTS[OF_REPORTS.index(kind) + 1 :]):
            raise Bad
        if kind == "count":
            return kind, self.u32(), self.u32()
        if kind == "log":
            return kind, self.object(), self.many(self.entry)
        numbers = self.many(self.u32)
        if not numbers:
            raise Bad
        return kind, numbers

    def object(self):
        kind = self.named(OBJECTS)
        return (kind, self.bytes()) if kind in ("register", "store") else (kind,)

    def entry(self):
        return self.u32(), self.u32(), self.act(), self.choice()

    def act(self):
        kind = self.named(ACTS)
        operands = {
            "write": [self.value], "get": [self.bytes], "put": [self.bytes, self.value], "remove": [self.bytes],
            "transact": [lambda: self.many(self.statement)], "roll": [self.i64],
        }.get(kind, [])
        return kind, *(operand() for operand in operands)

    def statement(self):
        kind = self.named(STATEMENTS)
        count = [self.i64()] if kind == "expect" else []
        table = self.u32()
        parts = {"insert": self.value, "select": self.u32, "update": lambda: (self.u32(), self.value())}
        many = [self.many(parts[kind])] if kind in parts else []
        tests = [] if kind == "insert" else [self.many(self.test)]
        return kind, *count, table, *many, *tests

    def test(self):
        return self.u32(), self.named(COMPARERS), self.value()


def read(data, kind=None):
    """The records of a file of this kind, or else of the kind that its magic says."""
    magic = MAGICS.get(data[:8])
    if magic is None or kind not in (None, magic):
        raise Unreadable(0)
    records, before, at = [], dict.fromkeys(["request", *OF_REPORTS], 0), 8
    while at < len(data):
        try:
            payload = Reader(data, at, len(data)).inside()
            record = getattr(payload, magic)(before)
            if payload.at < payload.end:
                raise Bad
        except Bad:
            raise Unreadable(at) from None
        if record[0] in before:
            before[record[0]] += 1
        records.append(record)
        at = payload.at
    return records


# ---- to bytes

def u8(number):
    return struct.pack(">B", number)


def u32(number):
    return struct.pack(">I", number)


def i64(number):
    return struct.pack(">q", number)


def spelled(data):
    """A byte string or a record: its length, then its bytes."""
    return u32(len(data)) + data


def joined(parts, spelling):
    return u32(len(parts)) + b"".join(map(spelling, parts))


def value_bytes(value):
    if value is None or isinstance(value, bool):
        return u8((None, False, True).index(value))
    if isinstance(value, int):
        return b"\x03" + i64(value)
    return b"\x04" + spelled(value) if isinstance(value, bytes) else b"\x05" + joined(value, value_bytes)


def choice_bytes(choice):
    return b"\x00" if choice is None else b"\x01" + i64(choice)


def pair_bytes(pair):
    return spelled(pair[0]) + spelled(pair[1])


def test_bytes(test):
    column, comparer, value = test
    return u32(column) + u8(COMPARERS.index(comparer) + 1) + value_bytes(value)


def statement_bytes(statement):
    kind, *parts = statement
    front = u8(STATEMENTS.index(kind) + 1)
    if kind == "expect":
        front += i64(parts.pop(0))
    front += u32(parts.pop(0))
    spellings = {"insert": value_bytes, "select": u32, "update": lambda change: u32(change[0]) + value_bytes(change[1])}
    if kind in spellings:
        front += joined(parts.pop(0), spellings[kind])
    return front + b"".join(joined(tests, test_bytes) for tests in parts)


def act_bytes(act):
    kind, *parts = act
    front = u8(ACTS.index(kind) + 1)
    if kind == "transact":
        return front + joined(parts[0], statement_bytes)
    if kind == "roll":
        return front + i64(parts[0])
    if kind in ("get", "put", "remove"):
        front += spelled(parts.pop(0))
    return front + b"".join(map(value_bytes, parts))


def entry_bytes(entry):
    number, operation, act, choice = entry
    return u32(number) + u32(operation) + act_bytes(act) + choice_bytes(choice)


def payload(record):
    kind, *parts = record
    if kind == "log":
        name, entries = parts
        front = u8(OBJECTS.index(name[0]) + 1) + b"".join(map(spelled, name[1:]))
        return b"\x02" + front + joined(entries, entry_bytes)
    if kind == "group":
        return b"\x03" + joined(parts[0], u32)
    front = u8({"request": 1, "arrive": 1, "count": 1, "response": 2, "act": 2, "depart": 3}[kind]) + u32(parts.pop(0))
    if kind == "count":
        return front + u32(parts[0])
    if kind == "act":
        return front + choice_bytes(parts[0])
    if kind == "response":
        return front + struct.pack(">H", parts[0]) + spelled(parts[1])
    if kind == "request":
        method, path, parameters, body = parts
        return front + spelled(method) + spelled(path) + joined(parameters, pair_bytes) + spelled(body)
    return front


def check(kind, record, before):
    """Whether a record may stand in a file of this kind, after so many requests, counts, logs and groups."""
    try:
        data = payload(record)
        reader = Reader(data, 0, len(data))
        return getattr(reader, kind)(before) == record and reader.at == len(data)
    except (Bad, struct.error):
        return False


def write(kind, records):
    """The bytes of a file of this kind. Its records are not looked at."""
    magic = next(magic for magic, name in MAGICS.items() if name == kind)
    return magic + b"".join(spelled(payload(record)) for record in records)
