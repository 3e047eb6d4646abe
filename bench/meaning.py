"""What a program does, and what `replay` must print: docs/language.md and docs/formats.md once more, in Python.

It is written from these pages alone, in another way than the program, so that the two can be compared: the tree of
`rules.py` is made into flat code, which runs up to the next operation and goes on from there.

A value is None, a bool, a whole number, bytes or a `List`. An operation is its built-in's name with its operands; one of
a transaction has a list of statements, each with its word, its table and what it takes.
"""

import os
import sys

sys.dont_write_bytecode = True
sys.path.insert(0, os.path.join(os.path.dirname(os.path.dirname(os.path.realpath(__file__))), "tools"))
import records
from rules import BUILT_INS, OF_STORES, Parser, line_of
from states import StateFault, objects_of

sys.setrecursionlimit(20_000)
MOST_STEPS = 100_000
MOST_OPERATIONS = 1_000
MOST_DEPTH = 64
MOST_BODY = 262_144
MOST_NAME = 1_024
LEAST_NUMBER, MOST_NUMBER = -(2**63), 2**63 - 1
OPERATIONS = {b"read", b"write", b"clock", b"random"} | OF_STORES
OF_REQUESTS = {b"param", b"method", b"path", b"body"}


class Fault(Exception):
    """A fault of a run: its number."""


# ---- values

class List:
    """The list of some values."""

    __slots__ = ("members", "size", "nesting")

    def __init__(self, members):
        self.members = members
        self.size = 1 + sum(map(size_of, members))
        self.nesting = 1 + max(map(nesting_of, members), default=0)

    def with_last(self, value):
        longer = List.__new__(List)
        longer.members = (*self.members, value)
        longer.size = self.size + size_of(value)
        longer.nesting = max(self.nesting, 1 + nesting_of(value))
        return longer


def size_of(value):
    return 1 + len(value) if type(value) is bytes else value.size if type(value) is List else 1


def nesting_of(value):
    return value.nesting if type(value) is List else 0


def is_within_limits(value):
    return size_of(value) <= 65_536 and nesting_of(value) <= 16


def ordered(value):
    """What is compared in place of a value."""
    if type(value) is List:
        return 4, [ordered(member) for member in value.members]
    return [type(None), bool, int, bytes].index(type(value)), value


def within(value):
    if not is_within_limits(value):
        raise Fault(5)
    return value


def number(value):
    if not LEAST_NUMBER <= value <= MOST_NUMBER:
        raise Fault(2)
    return value


def are(kind, *values):
    """Each value must be of this kind."""
    for value in values:
        if type(value) is not kind:
            raise Fault(1)


def printed(value):
    if type(value) is List:
        raise Fault(1)
    if value is None or type(value) is bytes:
        return value or b""
    return str(value).lower().encode()


# ---- operators and built-ins, which give a value or a fault

def add(a, b):
    if type(a) is not type(b) or type(a) not in (int, bytes, List):
        raise Fault(1)
    if type(a) is List:
        return within(List(a.members + b.members))
    return number(a + b) if type(a) is int else within(a + b)


def subtract(a, b):
    are(int, a, b)
    return number(a - b)


def multiply(a, b):
    are(int, a, b)
    return number(a * b)


def divide(a, b):
    are(int, a, b)
    if b == 0:
        raise Fault(3)
    quotient = abs(a) // abs(b)
    return number(quotient if (a < 0) == (b < 0) else -quotient)


def remainder(a, b):
    return a - b * divide(a, b)


def negative(a):
    are(int, a)
    return number(-a)


def opposite(a):
    are(bool, a)
    return not a


def compares(sign):
    holds = HOLDS[sign]

    def compare(a, b):
        if sign not in (b"==", b"!=") and (type(a) is not type(b) or type(a) not in (int, bytes)):
            raise Fault(1)
        return holds(ordered(a), ordered(b))

    return compare


def member(x, i):
    if type(x) not in (List, bytes) or type(i) is not int:
        raise Fault(1)
    members = x if type(x) is bytes else x.members
    if not 0 <= i < len(members):
        raise Fault(4)
    return members[i : i + 1] if type(x) is bytes else members[i]


def length(v):
    if type(v) not in (List, bytes):
        raise Fault(1)
    return len(v) if type(v) is bytes else len(v.members)


def escape(t):
    are(bytes, t)
    for sign, name in [(b"&", b"amp"), (b"<", b"lt"), (b">", b"gt"), (b'"', b"quot"), (b"'", b"#39")]:
        t = t.replace(sign, b"&" + name + b";")
    return within(t)


def number_of(t):
    are(bytes, t)
    digits = t[1:] if t[:1] == b"-" else t
    if not 1 <= len(digits) <= 19 or digits.strip(b"0123456789") or not LEAST_NUMBER <= int(t) <= MOST_NUMBER:
        return None
    return int(t) if printed(int(t)) == t else None


def part(x, a, b):
    if type(x) not in (List, bytes) or type(a) is not int or type(b) is not int:
        raise Fault(1)
    members = x if type(x) is bytes else x.members
    if not 0 <= a <= b <= len(members):
        raise Fault(4)
    return members[a:b] if type(x) is bytes else List(members[a:b])


def append(l, v):
    are(List, l)
    return within(l.with_last(v))


def kind(v):
    return {type(None): b"null", bool: b"bool", int: b"number", bytes: b"text", List: b"list"}[type(v)]


HOLDS = {
    b"==": lambda a, b: a == b, b"!=": lambda a, b: a != b, b"<": lambda a, b: a < b, b"<=": lambda a, b: a <= b,
    b">": lambda a, b: a > b, b">=": lambda a, b: a >= b,
}
PREFIXES = {b"not": opposite, b"-": negative}
OPERATORS = {b"+": add, b"-": subtract, b"*": multiply, b"/": divide, b"%": remainder} | {
    sign: compares(sign) for sign in HOLDS
}
FUNCTIONS = {
    b"len": length, b"str": lambda v: within(printed(v)), b"escape": escape, b"num": number_of, b"slice": part,
    b"append": append, b"kind": kind,
}


# ---- operations: first what a run wants, then what it does

def is_name(value):
    """A register's name or a key."""
    are(bytes, value)
    if len(value) > MOST_NAME:
        raise Fault(5)


def operation_of(name, store, operands):
    if name == b"random":
        are(int, *operands)
        if operands[0] < 1:
            raise Fault(9)
    elif name != b"clock":
        is_name(operands[0])
    return name, *([store] if store else []), *operands


def transaction_of(statements):
    """The operation, where each statement has its operands."""
    for word, _, taken, *_ in statements:
        if word == b"insert":
            is_name(taken[0])
        elif word == b"expect":
            are(int, taken)
    return b"transact", statements


class Objects:
    """What all requests share. A table is a map from keys to rows, which are lists."""

    def __init__(self, stores, tables):
        self.registers = {}
        self.stores = {name: {} for name in stores}
        self.tables = {name: {} for name in tables}
        self.clock = 0

    def is_plausible(self, operation, choice):
        if operation[0] == b"clock":
            return choice is not None and choice >= self.clock
        if operation[0] == b"random":
            return choice is not None and 0 <= choice < operation[1]
        return choice is None

    def apply(self, operation, choice):
        """The answer."""
        name, *operands = operation
        if name == b"transact":
            return self.transact(*operands)
        if name == b"clock":
            self.clock = choice
        if name in (b"clock", b"random"):
            return choice
        cells = self.stores[operands.pop(0)] if name in OF_STORES else self.registers
        if name in (b"write", b"put"):
            cells[operands[0]] = operands[1]
        elif name == b"remove":
            cells.pop(operands[0], None)
        else:
            return cells.get(operands[0])
        return None

    def transact(self, statements):
        """The list of answers, or null with all tables as they were."""
        answers, changed = [], []
        for word, table, *taken in statements:
            rows = self.tables[table]
            if word == b"insert":
                key = taken[0][0]
                answer, aborts = None, key in rows
                if not aborts:
                    self.change(changed, rows, key, list(taken[0]))
            else:
                keys = passing(rows, taken[-1])
                aborts = word == b"expect" and len(keys) != taken[0]
                answer = None if word == b"expect" else len(keys)
                if word == b"select":
                    answer = List(tuple(List(tuple(rows[key][column] for column in taken[0])) for key in keys))
                elif word in (b"update", b"delete"):
                    for key in keys:
                        self.change(changed, rows, key, updated(rows[key], taken[0]) if word == b"update" else None)
            if aborts:
                for rows, key, row in reversed(changed):
                    self.change([], rows, key, row)
                return None
            answers.append(answer)
        return List(tuple(answers))

    def change(self, changed, rows, key, row):
        """Puts a row at a key, or takes it away, and notes what was there."""
        changed.append((rows, key, rows.pop(key, None)))
        if row is not None:
            rows[key] = row


def updated(row, changes):
    row = list(row)
    for column, value in changes:
        row[column] = value
    return row


def passing(rows, tests):
    """The keys of the rows that pass, in order. Where a key is asked for, no other row is looked at."""
    asked = [value for column, sign, value in tests if column == 0 and sign == b"==" and type(value) is bytes]
    keys = [key for key in asked[:1] if key in rows] if asked else sorted(rows)
    return [
        key for key in keys
        if all(HOLDS[sign](ordered(rows[key][column]), ordered(value)) for column, sign, value in tests)
    ]


# ---- programs as flat code: each instruction says whether it is charged, what it does, with what, and where it stands: the
# place of its statement, and its own, that of an operator, a call or another node

class Body:
    """The code of a page or of a function."""

    def __init__(self, program, statements):
        self.program, self.code = program, []
        self.statement = self.node = None
        self.block(statements)
        self.add(False, Run.fall)

    def add(self, charged, action, *taken):
        self.code.append((charged, action, taken, (self.statement, self.node)))
        return len(self.code) - 1

    def land(self, at):
        """The jump at this place goes to what comes next."""
        charged, action, taken, places = self.code[at]
        self.code[at] = charged, action, (*taken, len(self.code)), places

    def block(self, statements):
        outer = self.statement, self.node
        for statement in statements:
            word, *parts = statement
            self.statement = self.node = statement.at
            if word in (b"if", b"while"):
                self.branch(word, *parts)
            elif word == b"for":
                self.turns(*parts)
            else:
                self.expression(parts[1])
                self.add(True, getattr(Run, f"{word.decode()}_"), *([parts[0][0]] if parts[0] else []))
        self.statement, self.node = outer

    def branch(self, word, value, body, other):
        top = len(self.code)
        self.expression(value)
        test = self.add(True, Run.decide)
        self.block(body)
        if word == b"while":
            self.add(False, Run.jump, top)
        elif other:
            end = self.add(False, Run.jump)
            self.land(test)
            self.block(other)
            self.land(end)
            return
        self.land(test)

    def turns(self, name, value, body):
        self.expression(value)
        self.add(False, Run.begin)
        top = self.add(True, Run.turn, name[0])
        self.block(body)
        self.add(False, Run.jump, top)
        self.land(top)

    def expression(self, tree):
        outer, self.node = self.node, tree[1]
        getattr(self, tree[0])(*tree[2:])
        self.node = outer

    def value(self, _, value):
        self.add(True, Run.push, value)

    def variable(self, name):
        self.add(True, Run.load, name)

    def bracket(self, parts):
        self.expression(parts[0])

    def list(self, members):
        for inner in members:
            self.expression(inner)
        self.add(True, Run.make, len(members), lambda *values: within(List(values)))

    def prefixed(self, parts, signs, places):
        self.expression(parts[0])
        for sign, self.node in zip(reversed(signs), reversed(places)):
            self.add(True, Run.make, 1, PREFIXES[sign])

    def row(self, parts, signs, places):
        first, *others = parts
        self.expression(first)
        for sign, self.node, other in zip(signs, places, others):
            if sign in (b"and", b"or"):
                test = self.add(True, Run.skip, sign == b"or")
                self.expression(other)
                self.land(test)
            else:
                self.expression(other)
                self.add(True, Run.make, 2, OPERATORS[sign])

    def indexed(self, parts, places):
        first, *indices = parts
        self.expression(first)
        for self.node, index in zip(places, indices):
            self.expression(index)
            self.add(True, Run.make, 2, member)

    def call(self, name, arguments):
        store = None
        if name in OF_STORES and name not in self.program.functions:
            (_, _, store), *arguments = arguments
        for argument in arguments:
            self.expression(argument)
        if name in self.program.functions:
            self.add(True, Run.call, name)
        elif name in OPERATIONS:
            self.add(True, Run.issue, len(arguments), lambda *operands: operation_of(name, store, operands))
        elif name in OF_REQUESTS:
            self.add(True, Run.ask, len(arguments), name)
        else:
            self.add(True, Run.make, BUILT_INS[name], FUNCTIONS[name])

    def transact(self, parts):
        forms, count = [], 0
        for (table, _), columns, sets, values, _, word, comparers in parts:
            for value in values:
                self.expression(value)
            numbers = [self.program.tables[table].index(name) for name, _ in columns]
            changed = [self.program.tables[table].index(name) for name, _ in sets]
            selected, tested = numbers[: len(numbers) - len(comparers)], numbers[len(numbers) - len(comparers) :]
            forms.append((word, table, selected, changed, list(zip(tested, comparers)), len(values)))
            count += len(values)

        def operation(*operands):
            rest = list(operands)
            return transaction_of([statement_of(form, [rest.pop(0) for _ in range(form[-1])]) for form in forms])

        self.add(True, Run.issue, count, operation)


def statement_of(form, operands):
    """A statement with its operands in their places."""
    word, table, selected, changed, tested, _ = form
    if word == b"insert":
        return word, table, operands
    front = operands[: len(operands) - len(tested)]
    tests = [(*test, value) for test, value in zip(tested, operands[len(front) :])]
    if word == b"delete":
        return word, table, tests
    taken = {b"select": selected, b"update": list(zip(changed, front)), b"expect": front[0] if front else None}
    return word, table, taken[word], tests


class Program:
    """A valid program: its stores, the columns of its tables, its functions' parameters, and the code of each body."""

    def __init__(self, text):
        declared = {word: {} for word in (b"store", b"table", b"function", b"page")}
        for word, (name, _), *parts in Parser(text).program():
            declared[word][name] = parts
        self.stores = list(declared[b"store"])
        self.tables = {name: [column for column, _ in parts[0]] for name, parts in declared[b"table"].items()}
        self.functions = {name: [given for given, _ in parts[0]] for name, parts in declared[b"function"].items()}
        self.bodies = {name: Body(self, parts[1]).code for name, parts in declared[b"function"].items()}
        self.pages = {name: Body(self, parts[0]).code for name, parts in declared[b"page"].items()}


class Run:
    """A request on its page, up to the next operation or to its end."""

    def __init__(self, program, method, path, parameters, body):
        self.program = program
        self.method, self.path, self.parameters, self.content = method, path, parameters, body
        self.stack, self.callers, self.variables, self.at = [], [], {}, 0
        self.steps, self.decisions, self.issued = 0, [], 0
        self.status, self.echoed, self.length = 200, [], 0
        self.operation = self.response = None
        self.fault = 0
        self.code = program.pages.get(path)
        if self.code is None:
            self.end(404, b"no page\n")
        self.go()

    def go(self):
        """Until there is an operation or a response."""
        try:
            while not self.operation and not self.response:
                charged, action, taken, _ = self.code[self.at]
                if charged:
                    if self.steps == MOST_STEPS:
                        raise Fault(6)
                    self.steps += 1
                    self.spends(action, taken)
                self.at += 1
                action(self, *taken)
        except Fault as fault:
            self.fail(*fault.args)

    def spends(self, action, taken):
        """Is told each step, before what it is spent on is done."""

    def answer(self, value):
        self.operation = None
        if is_within_limits(value):
            self.stack.append(value)
            self.go()
        else:
            self.fail(5)

    def fail(self, fault):
        self.fault = fault
        self.end(500, b"fault %d\n" % fault)

    def end(self, status, body):
        self.response = status, body

    def operands(self, count):
        at = len(self.stack) - count
        taken = self.stack[at:]
        del self.stack[at:]
        return taken

    # ---- instructions

    def push(self, value):
        self.stack.append(value)

    def load(self, name):
        self.stack.append(self.variables[name])

    def make(self, count, function):
        self.stack.append(function(*self.operands(count)))

    def ask(self, count, name):
        """What the request says."""
        operands = self.operands(count)
        are(bytes, *operands)
        if name == b"param":
            found = next((value for given, value in self.parameters if given == operands[0]), None)
        else:
            found = {b"method": self.method, b"path": self.path, b"body": self.content}[name]
        self.stack.append(found)

    def issue(self, count, operation):
        operation = operation(*self.operands(count))
        if self.issued == MOST_OPERATIONS:
            raise Fault(7)
        self.issued += 1
        self.operation = operation

    def call(self, name):
        if len(self.callers) == MOST_DEPTH:
            raise Fault(8)
        names = self.program.functions[name]
        variables = dict(zip(names, self.operands(len(names))))
        self.callers.append((self.code, self.at, self.variables, len(self.stack)))
        self.code, self.at, self.variables = self.program.bodies[name], 0, variables

    def leave(self, value):
        if not self.callers:
            return self.end(self.status, b"".join(self.echoed))
        self.code, self.at, self.variables, height = self.callers.pop()
        self.stack[height:] = [value]

    def fall(self):
        self.leave(None)

    def return_(self):
        self.leave(self.stack.pop())

    def jump(self, to):
        self.at = to

    def noted(self, value):
        are(bool, value)
        self.decisions.append(value)
        return value

    def decide(self, other):
        if not self.noted(self.stack.pop()):
            self.at = other

    def skip(self, deciding, to):
        if self.noted(self.stack[-1]) == deciding:
            self.at = to
        else:
            self.stack.pop()

    def begin(self):
        self.stack.append([self.stack.pop(), 0])

    def turn(self, name, end):
        value, at = self.stack[-1]
        are(List, value)
        if self.noted(at < len(value.members)):
            self.variables[name] = value.members[at]
            self.stack[-1][1] += 1
        else:
            self.stack.pop()
            self.at = end

    def let_(self, name):
        self.variables[name] = self.stack.pop()

    set_ = let_

    def echo_(self):
        text = printed(self.stack.pop())
        if self.length + len(text) > MOST_BODY:
            raise Fault(5)
        self.echoed.append(text)
        self.length += len(text)

    def status_(self):
        value = self.stack.pop()
        are(int, value)
        if not 200 <= value <= 599 or value in (204, 205, 304):
            raise Fault(4)
        self.status = value

    def do_(self):
        self.stack.pop()


# ---- replay

class Differs(Exception):
    """The number of a reason."""


def unbalanced(trace):
    """The id that names the fault of a trace, if it has one."""
    seen, open_ones = set(), {}
    for kind, number, *_ in trace:
        if kind == "request":
            if number in seen:
                return number
            seen.add(number)
            open_ones[number] = None
        elif number in open_ones:
            del open_ones[number]
        else:
            return number
    return next(iter(open_ones), None)


class Replay:
    def __init__(self, program, objects, trace):
        self.program, self.objects = program, objects
        self.requests, self.responses, self.before = {}, {}, {}
        self.order = [number for kind, number, *_ in trace if kind == "response"]
        for kind, number, *parts in trace:
            if kind == "request":
                self.requests[number], self.before[number] = parts, len(self.responses)
            else:
                self.responses[number] = tuple(parts)
        self.runs, self.departed, self.past = {}, set(), 0

    def take(self, kind, number, choice=None):
        """One moment, which differs or not."""
        if number not in self.requests:
            raise Differs(2)
        getattr(self, kind)(number, *([choice] if kind == "act" else []))

    def arrive(self, number):
        if number in self.runs:
            raise Differs(3)
        if self.past < self.before[number]:
            raise Differs(4)
        self.runs[number] = Run(self.program, *self.requests[number])

    def open_run(self, number):
        if number not in self.runs or number in self.departed:
            raise Differs(5)
        return self.runs[number]

    def act(self, number, choice):
        run = self.open_run(number)
        if not run.operation:
            raise Differs(6)
        if not self.objects.is_plausible(run.operation, choice):
            raise Differs(7)
        run.answer(self.objects.apply(run.operation, choice))

    def depart(self, number):
        run = self.open_run(number)
        if run.operation:
            raise Differs(8)
        if run.response != self.responses[number]:
            raise Differs(9)
        self.runs[number] = None
        self.departed.add(number)
        while self.past < len(self.order) and self.order[self.past] in self.departed:
            self.past += 1


def finding(program, objects, trace, schedule):
    """The line of a balanced trace and a schedule that was read."""
    replay = Replay(program, objects, trace)
    for at, moment in enumerate(schedule):
        try:
            replay.take(*moment)
        except Differs as reason:
            return b"differs %d: moment %d request %d\n" % (*reason.args, at, moment[1])
    for number in replay.requests:
        if number not in replay.departed:
            return b"differs 10: request %d\n" % number
    return b"agrees: moments %d\n" % len(schedule)


class Faulty(Exception):
    """The line of an input at fault."""


def inputs_of(program, state, trace):
    """The program, the objects and the events that these bytes spell."""
    line = line_of(program)
    if not line.startswith(b"ok"):
        raise Faulty(line)
    program = Program(program)
    try:
        objects = objects_of(state, program, Objects(program.stores, program.tables), List, is_within_limits)
        trace = records.read(trace, "trace")
    except StateFault as kind:
        raise Faulty(b"state: kind %d\n" % kind.args) from None
    except records.Unreadable as place:
        raise Faulty(b"trace: unreadable at %d\n" % place.args) from None
    number = unbalanced(trace)
    if number is not None:
        raise Faulty(b"trace: not balanced at request %d\n" % number)
    return program, objects, trace


def line_of_replay(program, state, trace, schedule):
    """The line for the bytes of four files."""
    try:
        return finding(*inputs_of(program, state, trace), records.read(schedule, "schedule"))
    except Faulty as fault:
        return fault.args[0]
    except records.Unreadable as place:
        return b"differs 1: unreadable at %d\n" % place.args
