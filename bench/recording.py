"""Recordings, for `bench/fuzz_record` and `bench/fuzz_audit`: files at random, and the trace and the report of a second reading
of docs/language.md and docs/formats.md. `meaning.py` runs the pages; turns, the seats' generators, logs and groups are made here.
"""

import json
import os
import struct

from meaning import List, Objects, Program, Run, is_within_limits, objects_of, records
from programs import Running, busy

SEATS = 16
LAST = 2**63 - 1
INPUTS = ["program", "state", "jobs", "turns"]
VALUES = ["null", "true", "0", "-1", str(LAST), '""', '"a"', '{"hex":"00ff"}', "[]", '[1,"x",[null]]']
CONTENTS = ["", "1", "-5", "007", "x", "<&>", str(LAST)]


# ---- the numbers of a seat: ChaCha with 8 rounds

def turned(number, by):
    return ((number << by) | (number >> (32 - by))) & 0xFFFFFFFF


def mixed(block, a, b, c, d):
    for one, other, by in ((a, d, 16), (c, b, 12), (a, d, 8), (c, b, 7)):
        block[one] = (block[one] + block[b if one == a else d]) & 0xFFFFFFFF
        block[other] = turned(block[other] ^ block[one], by)


def words_of(seed, seat):
    """The words of 32 bits, one after the other."""
    key = struct.unpack("<8I", struct.pack("<Q24x", seed))
    count = 0
    while True:
        start = [0x61707865, 0x3320646E, 0x79622D32, 0x6B206574, *key, count & 0xFFFFFFFF, count >> 32, seat, 0]
        block = start[:]
        for _ in range(4):
            for column in range(4):
                mixed(block, column, 4 + column, 8 + column, 12 + column)
            for column in range(4):
                mixed(block, column, 4 + (column + 1) % 4, 8 + (column + 2) % 4, 12 + (column + 3) % 4)
        yield from ((one + other) & 0xFFFFFFFF for one, other in zip(block, start))
        count += 1


# ---- a recording

class Pathed(Run):
    """A run that knows its path."""

    kind = None

    def answer(self, value):
        if not is_within_limits(value):
            self.kind = "answer"
        super().answer(value)

    def leave(self, value):
        if not self.callers:
            self.kind = "normal"
        super().leave(value)

    def way(self):
        page = self.path if self.path in self.program.pages else None
        return page, tuple(self.decisions), self.steps, self.kind or self.response[1]


def plain(value):
    """A value as records have it."""
    return tuple(map(plain, value.members)) if isinstance(value, List) else value


def statement(program, form):
    word, table, *parts = form
    word, number = word.decode(), list(program.tables).index(table)
    if word == "insert":
        return word, number, [plain(value) for value in parts[0]]
    tests = [(column, comparer.decode(), plain(value)) for column, comparer, value in parts[-1]]
    if word == "delete":
        return word, number, tests
    if word == "expect":
        return word, parts[0], number, tests
    taken = [(column, plain(value)) for column, value in parts[0]] if word == "update" else list(parts[0])
    return word, number, taken, tests


def object_and_act(program, operation):
    """The name of the object, and the act, as records have them."""
    name, *operands = operation
    word = name.decode()
    if word == "transact":
        return ("tables",), (word, [statement(program, form) for form in operands[0]])
    if word == "clock":
        return ("clock",), ("now",)
    if word == "random":
        return ("dice",), ("roll", operands[0])
    kind = "register" if word in ("read", "write") else "store"
    holder, *rest = operands
    return (kind, holder), (word, *(plain(value) for value in rest))


class Recording:
    """A recording of which each reading of the clock is below its last value, and so is that one."""

    def __init__(self, program, state, seed):
        self.program = Program(program)
        empty = Objects(self.program.stores, self.program.tables)
        self.objects = objects_of(state, self.program, empty, List, is_within_limits)
        self.words = [words_of(seed, seat) for seat in range(SEATS)]
        self.open = [None] * SEATS
        self.trace, self.counts, self.logs, self.groups = [], [], {}, {}

    def choice(self, seat, operation):
        if operation[0] == b"clock":
            return self.objects.clock
        if operation[0] == b"random":
            high, low = next(self.words[seat]), next(self.words[seat])
            return (high << 32 | low) % operation[1]
        return None

    def turn(self, seat, jobs):
        if self.open[seat] is None:
            if jobs:
                request, number = jobs.pop(0), len(self.counts)
                self.trace.append(("request", number, *request))
                self.counts.append(0)
                self.open[seat] = number, Pathed(self.program, *request)
            return
        number, run = self.open[seat]
        if run.operation:
            choice = self.choice(seat, run.operation)
            name, act = object_and_act(self.program, run.operation)
            self.counts[number] += 1
            self.logs.setdefault(name, []).append((number, self.counts[number], act, choice))
            run.answer(self.objects.apply(run.operation, choice))
        else:
            self.trace.append(("response", number, *run.response))
            self.groups.setdefault(run.way(), []).append(number)
            self.open[seat] = None

    def all(self, jobs, turns):
        """The trace, the report and the number of groups."""
        jobs, at = list(jobs), 0
        while jobs or any(self.open):
            self.turn(turns[at] if at < len(turns) else (at - len(turns)) % SEATS, jobs)
            at += 1
        report = [("count", number, count) for number, count in enumerate(self.counts)]
        report += [("log", name, entries) for name, entries in self.logs.items()]
        report += [("group", members) for members in self.groups.values()]
        return records.write("trace", self.trace), records.write("report", report), len(self.groups)


# ---- files at random

def state_at_random(source, clock):
    pairs = lambda: ",".join(f'["{name}",{source.choice(VALUES)}]' for name in "abc" if source.random() < 0.5)
    rows = lambda width: ",".join(
        f'["{name}"{"".join("," + source.choice(VALUES) for _ in range(width))}]' for name in "abcd" if source.random() < 0.6
    )
    tables = f'"tables":{{"t0":[{rows(0)}],"t1":[{rows(2)}]}}'
    return f'{{"registers":[{pairs()}],"stores":{{"s0":[{pairs()}],"s1":[{pairs()}]}},{tables},"clock":{clock}}}'


def request_at_random(source):
    parameters = [(source.choice("abc"), source.choice(CONTENTS)) for _ in range(source.randrange(4))]
    return source.choice(["GET", "POST"]), source.choice(["/0", "/0", "/1", "/1", "/none"]), parameters, source.choice(["", "a=1"])


def job_of(request):
    method, path, parameters, body = request
    return {"method": method, "path": path, "params": parameters, "body": body}


def as_bytes(request):
    method, path, parameters, body = request
    return method.encode(), path.encode(), [(name.encode(), value.encode()) for name, value in parameters], body.encode()


class Inputs:
    """The inputs of a recording at random, of which the clock stands at this last value."""

    def __init__(self, source, clock=LAST):
        self.program = Running(source.randrange(1 << 30), source.choice([0, 1, 1, 5])).program()
        self.state = state_at_random(source, clock).encode()
        self.requests = [request_at_random(source) for _ in range(source.choice([0, 1, 2, 4, 8, 20]))]
        self.turns = [source.randrange(source.choice([2, SEATS])) for _ in range(source.choice([0, 0, 5, 40]))]
        self.seed = source.choice([0, 1, source.randrange(1 << 64)])

    def write(self, folder):
        jobs = json.dumps([job_of(request) for request in self.requests]).encode()
        for name, data in zip(INPUTS, [self.program, self.state, jobs, json.dumps(self.turns).encode()]):
            with open(os.path.join(folder, name), "wb") as file:
                file.write(data)

    def words(self, workers=None):
        """Those by which it is recorded: by its turns, or by so many workers."""
        way = ["--workers", str(workers)] if workers else ["--turns", "turns"]
        return ["record", *INPUTS[:3], "trace", "report", *way, "--seed", str(self.seed)]

    def recorded(self, turns=None):
        """The trace, the report and the number of groups, by the second reading: by its turns, or by these."""
        return Recording(self.program, self.state, self.seed).all(map(as_bytes, self.requests), self.turns if turns is None else turns)


class BusyInputs(Inputs):
    """The same of pages that do little else than operations, for requests of which few or many are open at once."""

    def __init__(self, source, clock):
        super().__init__(source, clock)
        self.program = busy(source)
        self.requests = [request_at_random(source) for _ in range(source.randint(1, 12))]
        seats = source.choice([1, 2, 3, SEATS])
        self.turns = [source.randrange(seats) for _ in range(source.choice([0, 20, 200]))]
