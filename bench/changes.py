"""Changes of a trace and its report, for `bench/fuzz_audit`: each touches one thing, and what comes of it needn't be a fault."""

import struct

from meaning import records

LAST = 2**63 - 1
MOST_ID = 2**32 - 1
LONGEST = b"k" * 1024
LONG = LONGEST + b"k"
VALUES = [None, True, False, 0, 1, -1, LAST, b"", b"a", b"\x00\xff", (), (1, b"x"), (None, (1,))]
STATEMENTS = [
    ("insert", 0, [b"a"]), ("insert", 1, [b"a", 1, None]), ("insert", 1, [b"a"]), ("insert", 0, [1]), ("insert", 0, [LONG]),
    ("insert", 0, [LONGEST]), ("insert", 0, []), ("select", 1, [0, 2], []), ("select", 1, [], []), ("select", 0, [1], []),
    ("select", 2, [0], []), ("update", 1, [(1, 7)], [(0, "==", b"a")]), ("update", 1, [(0, b"b")], []), ("update", 1, [], []),
    ("update", 0, [(1, 7)], []), ("delete", 0, []), ("delete", 1, [(3, "<", 5)]), ("delete", MOST_ID, []),
    ("expect", 1, 1, [(2, "!=", None)]), ("expect", -1, 0, []), ("expect", 0, 2, []),
]
"""Some don't fit the tables of `Running`."""
NAMES = [
    ("register", b"a"), ("register", b"b"), ("register", b"\"\\\n\t\x00\xff"), ("register", LONG), ("register", LONGEST),
    ("store", b"s0"), ("store", b"s1"), ("store", b"none"), ("tables",), ("clock",), ("dice",),
]
ALIKE = {"get": "remove", "remove": "get", "read": "now", "now": "read"}


class Impossible(Exception):
    """There is nothing that could be changed in this way."""


class Files:
    """The records of a trace and of its report, which may be changed."""

    def __init__(self, trace, report):
        self.trace = records.read(trace, "trace")
        report = records.read(report, "report")
        self.counts = [parts for kind, *parts in report if kind == "count"]
        self.logs = [parts for kind, *parts in report if kind == "log"]
        self.groups = [parts[0] for kind, *parts in report if kind == "group"]
        self.ids = [number for kind, number, *_ in self.trace if kind == "request"]

    def written(self):
        report = [("count", *count) for count in self.counts] + [("log", *log) for log in self.logs]
        report += [("group", group) for group in self.groups]
        return records.write("trace", self.trace), records.write("report", report)


# ---- one of several things

def pick(source, things):
    if not things:
        raise Impossible
    return source.choice(things)


def place(source, things, least=1):
    if len(things) < least:
        raise Impossible
    return source.randrange(len(things))


def exchange(source, things):
    """Exchanges two neighbours."""
    at = place(source, things[1:])
    things[at], things[at + 1] = things[at + 1], things[at]


def any_id(source, files):
    foreign = [0, 1, 7, MOST_ID, max(files.ids, default=0) + 1]
    return pick(source, foreign if source.random() < 0.4 else files.ids)


def other_number(source, number):
    return source.choice([number + 1, number + 1, number - 1, number - 1, 0, 1, MOST_ID])


def entry(source, files):
    """The entries of a log, and a place among them."""
    entries = pick(source, [entries for _, entries in files.logs if entries])
    return entries, source.randrange(len(entries))


def with_part(entries, at, part, value):
    entry = list(entries[at])
    entry[part] = value
    entries[at] = tuple(entry)


# ---- entries and logs

def entry_dropped(source, files):
    entries, at = entry(source, files)
    del entries[at]


def entry_doubled(source, files):
    entries, at = entry(source, files)
    to = pick(source, [entries, pick(source, files.logs)[1]])
    to.insert(source.randrange(len(to) + 1), entries[at])


def entries_exchanged(source, files):
    exchange(source, entry(source, files)[0])


def entries_exchanged_and_lowered(source, files):
    """Two neighbours, of which the second one then has a choice that is too low as well."""
    entries = pick(source, [entries for _, entries in files.logs if len(entries) > 1 and entries[0][3] is not None])
    at = source.randrange(len(entries) - 1)
    entries[at], entries[at + 1] = entries[at + 1], entries[at]
    with_part(entries, at + 1, 3, -1)


def log_mixed(source, files):
    """Its entries in another order; those of a request stay in theirs."""
    entries = pick(source, [entries for _, entries in files.logs if len(entries) > 1])
    waiting = {}
    for entry in entries:
        waiting.setdefault(entry[0], []).append(entry)
    numbers = [entry[0] for entry in entries]
    source.shuffle(numbers)
    entries[:] = [waiting[number].pop(0) for number in numbers]


def entry_moved(source, files):
    entries, at = entry(source, files)
    to = pick(source, [entries, pick(source, files.logs)[1]])
    taken = entries.pop(at)
    to.insert(source.randrange(len(to) + 1), taken)


def entry_alone(source, files):
    """It moves to a log of its own."""
    entries, at = entry(source, files)
    files.logs.insert(source.randrange(len(files.logs) + 1), [source.choice(NAMES), [entries.pop(at)]])


def entry_of_another(source, files):
    entries, at = entry(source, files)
    with_part(entries, at, 0, any_id(source, files))


def entry_numbered(source, files):
    entries, at = entry(source, files)
    with_part(entries, at, 1, other_number(source, entries[at][1]))


def act_at_random(source):
    value, key = source.choice(VALUES), source.choice([b"a", b"b", LONG, LONGEST])
    statements = [source.choice(STATEMENTS) for _ in range(source.randrange(3))]
    return source.choice([
        ("read",), ("write", value), ("get", key), ("put", key, value), ("remove", key), ("transact", statements), ("now",),
        ("roll", source.choice([0, 1, 6, -1, LAST])),
    ])


def act_replaced(source, files):
    entries, at = entry(source, files)
    with_part(entries, at, 2, act_at_random(source))


def entry_replaced(source, files):
    """By one in which all parts may be wrong at once."""
    entries, at = entry(source, files)
    number, count, act, choice = entries[at]
    entries[at] = (
        source.choice([number, any_id(source, files)]), source.choice([count, other_number(source, count)]),
        source.choice([act, act, act_at_random(source)]), source.choice([choice, None, 0, LAST]),
    )


def statement_replaced(source, files):
    """A statement of a transaction, or one more."""
    transactions = [(entries, at) for _, entries in files.logs for at, entry in enumerate(entries) if entry[2][0] == "transact"]
    entries, at = pick(source, transactions)
    statements = list(entries[at][2][1])
    where = source.randrange(len(statements) + 1)
    statements[where : where + source.randrange(2)] = [source.choice(STATEMENTS)]
    with_part(entries, at, 2, ("transact", statements))


def leaf_changed(source, part):
    """With one of its leaves changed, or with a member of a list more or less."""
    if isinstance(part, (list, tuple)) and part:
        at = source.randrange(len(part))
        if isinstance(part, list) and source.random() < 0.2:
            return part[:at] + source.choice([[], [part[at]] * 2]) + part[at + 1 :]
        return type(part)([*part[:at], leaf_changed(source, part[at]), *part[at + 1 :]])
    if isinstance(part, list):
        return part
    if isinstance(part, str):
        return source.choice(records.COMPARERS) if part in records.COMPARERS else ALIKE.get(part, part)
    if isinstance(part, bytes):
        return source.choice([part + b"x", part[:-1], b"a", LONG, LONGEST])
    if isinstance(part, int) and not isinstance(part, bool):
        return source.choice([part + 1, part - 1, 0, LAST])
    return source.choice(VALUES)


def act_changed(source, files):
    entries, at = entry(source, files)
    with_part(entries, at, 2, leaf_changed(source, entries[at][2]))


def choice_changed(source, files):
    chosen = [(entries, at) for _, entries in files.logs for at, entry in enumerate(entries) if entry[3] is not None]
    entries, at = pick(source, chosen) if chosen and source.random() < 0.8 else entry(source, files)
    act, choice = entries[at][2:]
    near = [] if choice is None else [choice + 1, choice - 1] * 2
    near += [act[1], act[1] - 1] if act[0] == "roll" else []
    with_part(entries, at, 3, source.choice([None, 0, 1, -1, LAST, -LAST - 1, *near]))


def operation_added(source, files):
    """One operation more than a request issues, with its entry and its count."""
    count = pick(source, files.counts)
    count[1] += 1
    name, entries = pick(source, files.logs)
    act, choice = source.choice(entries)[2:] if entries else (("read",), None)
    past = [at for at, entry in enumerate(entries) if entry[0] == count[0]]
    entries.insert(source.randint(past[-1] + 1 if past else 0, len(entries)), (count[0], count[1], act, choice))


def log_dropped(source, files):
    del files.logs[place(source, files.logs)]


def log_doubled(source, files):
    name, entries = pick(source, files.logs)
    files.logs.insert(source.randrange(len(files.logs) + 1), [name, list(entries)])


def logs_exchanged(source, files):
    exchange(source, files.logs)


def log_cut(source, files):
    """What stands from a place on has a log of its own."""
    at = place(source, files.logs)
    name, entries = files.logs[at]
    cut = source.randrange(len(entries) + 1)
    files.logs[at : at + 1] = [[name, entries[:cut]], [source.choice([name, *NAMES]), entries[cut:]]]


def log_named(source, files):
    pick(source, files.logs)[0] = source.choice(NAMES)


def log_added(source, files):
    files.logs.insert(source.randrange(len(files.logs) + 1), [source.choice(NAMES), []])


# ---- counts

def count_changed(source, files):
    count = pick(source, files.counts)
    count[1] = other_number(source, count[1])


def count_of_another(source, files):
    pick(source, files.counts)[0] = any_id(source, files)


def count_dropped(source, files):
    del files.counts[place(source, files.counts)]


def count_doubled(source, files):
    files.counts.insert(source.randrange(len(files.counts) + 1), list(pick(source, files.counts)))


def count_added(source, files):
    files.counts.insert(source.randrange(len(files.counts) + 1), [any_id(source, files), source.randrange(3)])


def counts_exchanged(source, files):
    exchange(source, files.counts)


# ---- groups

def group_split(source, files):
    at = place(source, files.groups)
    group = files.groups[at]
    cut = source.randrange(len(group) + 1)
    files.groups[at : at + 1] = [group[:cut], group[cut:]]


def groups_joined(source, files):
    one, other = files.groups.pop(place(source, files.groups, 2)), pick(source, files.groups)
    other[:] = source.choice([one + other, other + one])


def groups_exchanged(source, files):
    exchange(source, files.groups)


def group_dropped(source, files):
    del files.groups[place(source, files.groups)]


def group_doubled(source, files):
    files.groups.append(list(pick(source, files.groups)))


def member_dropped(source, files):
    group = pick(source, files.groups)
    del group[place(source, group)]


def member_doubled(source, files):
    one, other = pick(source, files.groups), pick(source, files.groups)
    other.insert(source.randrange(len(other) + 1), source.choice(one))


def member_moved(source, files):
    one, other = pick(source, files.groups), pick(source, files.groups)
    member = one.pop(place(source, one))
    other.insert(source.randrange(len(other) + 1), member)
    if not one:
        files.groups.remove(one)


def member_changed(source, files):
    group = pick(source, files.groups)
    group[place(source, group)] = any_id(source, files)


def member_added(source, files):
    group = pick(source, files.groups)
    group.insert(source.randrange(len(group) + 1), any_id(source, files))


def members_exchanged(source, files):
    exchange(source, pick(source, files.groups))


# ---- the trace

def response(source, files):
    """The place of a response."""
    return pick(source, [at for at, event in enumerate(files.trace) if event[0] == "response"])


def response_changed(source, files):
    at = response(source, files)
    kind, number, status, body = files.trace[at]
    bodies = [body + b"1", body[:-1], b"", b"fault 1\n"]
    answer = source.choice([(status + 1, body), (500, body), *((status, body) for body in bodies)])
    files.trace[at] = kind, number, *answer


def responses_exchanged(source, files):
    """Two responses change their bodies and statuses."""
    one, other = response(source, files), response(source, files)
    front, back = files.trace[one], files.trace[other]
    files.trace[one], files.trace[other] = front[:2] + back[2:], back[:2] + front[2:]


def request_changed(source, files):
    at = pick(source, [at for at, event in enumerate(files.trace) if event[0] == "request"])
    kind, number, method, path, parameters, body = files.trace[at]
    more = [*parameters, (source.choice([b"a", b"b"]), source.choice([b"", b"1", b"x"]))]
    files.trace[at] = kind, number, *source.choice([
        (b"PUT", path, parameters, body), (method, b"/0", parameters, body), (method, b"/1", parameters, body),
        (method, b"/none", parameters, body), (method, path, parameters[1:], body), (method, path, more[::-1], body),
        (method, path, parameters, body + b"x"),
    ])


def events_exchanged(source, files):
    exchange(source, files.trace)


def event_moved(source, files):
    event = files.trace.pop(place(source, files.trace))
    files.trace.insert(source.randrange(len(files.trace) + 1), event)


def event_dropped(source, files):
    del files.trace[place(source, files.trace)]


def event_doubled(source, files):
    files.trace.insert(source.randrange(len(files.trace) + 1), pick(source, files.trace))


def event_of_another(source, files):
    at = place(source, files.trace)
    kind, _, *parts = files.trace[at]
    files.trace[at] = kind, any_id(source, files), *parts


def request_dropped(source, files):
    """With its response; the report says what it said."""
    number = pick(source, files.ids)
    files.trace = [event for event in files.trace if event[1] != number]


# ---- any of them

OFTEN = [
    entries_exchanged, log_mixed, entry_moved, act_replaced, entry_replaced, statement_replaced, act_changed, choice_changed,
    operation_added, log_named, groups_joined, member_moved, response_changed, request_changed, events_exchanged, event_moved,
]
SELDOM = [
    entries_exchanged_and_lowered, entry_dropped, entry_doubled, entry_alone, entry_of_another, entry_numbered, log_dropped,
    log_doubled, logs_exchanged, log_cut, log_added, count_changed, count_of_another, count_dropped, count_doubled,
    count_added, counts_exchanged, group_split, groups_exchanged, group_dropped, group_doubled, member_dropped,
    member_doubled, member_changed, member_added, members_exchanged, responses_exchanged, event_dropped, event_doubled,
    event_of_another, request_dropped,
]
CHANGES = OFTEN * 4 + SELDOM


def bytes_changed(source, data):
    """One byte changed, taken away or put in, or the end cut off."""
    at = source.randrange(len(data))
    byte = bytes([source.choice([data[at] ^ 1 << source.randrange(8), source.randrange(256)])])
    return source.choice([data[:at] + byte + data[at + 1 :], data[:at] + data[at + 1 :], data[:at] + byte + data[at:], data[:at]])


def changed(source, trace, report):
    """What was done, and the bytes of both files after it."""
    if source.random() < 0.08:
        return "a byte of the report", trace, bytes_changed(source, report)
    if source.random() < 0.02:
        return "a byte of the trace", bytes_changed(source, trace), report
    while True:
        change = source.choice(CHANGES)
        try:
            files = Files(trace, report)
            change(source, files)
            return change.__name__.replace("_", " "), *files.written()
        except (Impossible, struct.error):
            pass
