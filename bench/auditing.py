"""What `audit` must print and write: docs/formats.md once more, in Python.

It is written from that page alone, in another way than the program, so that the two can be compared: the pages run by
`meaning.py`, each operation is done in the order of its log, and what is least is looked for among all.

A node of the order is the place of its request in the trace with its number; the departure has the count's next one.
"""

from meaning import MOST_NAME, Faulty, List, Run, inputs_of, records
from record_text import text_of
from recording import object_and_act

ACTS = {
    "register": ["read", "write"], "store": ["get", "put", "remove"], "tables": ["transact"], "clock": ["now"],
    "dice": ["roll"],
}
OF_CHANCE = ["now", "roll"]


class Rejected(Exception):
    """The number of a reason, and its fields."""


# ---- the names of things

def request(number):
    return f"request {number}"


def operation(number, count):
    return f"request {number} operation {count}"


def name_of(name):
    return " ".join([name[0], *map(text_of, name[1:])])


# ---- entries: which fit the program, and what they do

def fits(program, name, act, choice):
    """Whether an entry of this log fits the program."""
    sort, word = name[0], act[0]
    if word not in ACTS[sort] or (word in OF_CHANCE) != (choice is not None):
        return False
    if sort == "register":
        return len(name[1]) <= MOST_NAME
    if sort == "store":
        return name[1] in program.stores and len(act[1]) <= MOST_NAME
    if sort == "dice":
        return act[1] >= 1
    widths = [len(columns) for columns in program.tables.values()]
    return sort == "clock" or bool(act[1]) and all(statement_fits(widths, statement) for statement in act[1])


def statement_fits(widths, statement):
    word, *parts = statement
    table, *parts = parts[1:] if word == "expect" else parts
    if table >= len(widths):
        return False
    if word == "insert":
        values = parts[0]
        return len(values) == widths[table] and isinstance(values[0], bytes) and len(values[0]) <= MOST_NAME
    columns = [column for column, *_ in parts[-1]]
    if word in ("select", "update"):
        taken = parts[0] if word == "select" else [column for column, _ in parts[0]]
        if not taken or word == "update" and 0 in taken:
            return False
        columns += taken
    return all(column < widths[table] for column in columns)


def value_of(value):
    return List(tuple(map(value_of, value))) if isinstance(value, tuple) else value


def operation_of(program, name, act):
    """What an entry does, as `meaning.py` has it."""
    word, *operands = act
    if word == "transact":
        return b"transact", [statement_of(list(program.tables), statement) for statement in operands[0]]
    if word == "now":
        return (b"clock",)
    if word == "roll":
        return b"random", operands[0]
    return word.encode(), *name[1:], *map(value_of, operands)


def statement_of(tables, statement):
    word, *parts = statement
    count = [parts.pop(0)] if word == "expect" else []
    table = tables[parts.pop(0)]
    if word == "insert":
        return b"insert", table, [value_of(value) for value in parts[0]]
    tests = [(column, sign.encode(), value_of(value)) for column, sign, value in parts.pop()]
    if word == "update":
        parts = [[(column, value_of(value)) for column, value in parts[0]]]
    return word.encode(), table, *count, *parts, tests


# ---- the marks of a member

BAD = "bad"
ISSUING = "issuing"


def is_same(a, b):
    """Whether two values are equal."""
    if a is b:
        return True
    if type(a) is List and type(b) is List:
        return len(a.members) == len(b.members) and all(map(is_same, a.members, b.members))
    return type(a) is type(b) and type(a) is not List and a == b


def is_shared(first, step):
    """Whether a member's step is spent on just what the first member's is. No operation is like another."""
    if ISSUING in (first, step):
        return False
    (asked, values), (asked_here, values_here) = first, step
    return asked == asked_here and len(values) == len(values_here) and all(map(is_same, values, values_here))


class Member(Run):
    """A run that leaves marks, and notes what each step is spent on: an operation, or these values, and perhaps the request."""

    def __init__(self, program, asked):
        self.marks, self.spent_on = [], []
        super().__init__(program, *asked)

    def spends(self, action, taken):
        if action is Run.push:
            values = []
        elif action is Run.load:
            values = [self.variables[taken[0]]]
        elif action in (Run.make, Run.ask, Run.issue):
            values = self.stack[len(self.stack) - taken[0] :]
        elif action is Run.call:
            values = self.stack[len(self.stack) - len(self.program.functions[taken[0]]) :]
        else:
            values = [self.stack[-1][0] if action is Run.turn else self.stack[-1]]
        self.spent_on.append((self.asked() if action is Run.ask else None, values))

    def asked(self):
        return self.method, self.path, self.parameters, self.content

    def issues(self):
        """The last step is spent on an operation."""
        self.spent_on[-1] = ISSUING

    def noted(self, value):
        self.marks.append(super().noted(value))
        return value

    def follow(self, entry_of):
        """Runs on against the entries, each of which is its object, its act and its answer."""
        while self.operation:
            self.issues()
            name, act = object_and_act(self.program, self.operation)
            has_name, has_act, answer = entry_of(self.issued) or (None, None, None)
            if (has_name, has_act) != (name, records.act_bytes(act)):
                self.marks.append(BAD)
                return
            self.marks.append("operation")
            self.answer(answer)
        self.marks.append(("end", self.steps, self.fault))

    def mark(self, place):
        page = self.path if self.path in self.program.pages else None
        return page, self.marks[place]


# ---- the audit

class Audit:
    runs = Member

    def __init__(self, program, objects, trace, report):
        self.program, self.objects = program, objects
        self.asked, self.answered, self.came, self.went = {}, {}, {}, {}
        for at, (kind, number, *parts) in enumerate(trace):
            (self.asked if kind == "request" else self.answered)[number] = parts
            (self.came if kind == "request" else self.went)[number] = at
        self.requests = list(self.asked)
        self.given_counts = [parts for kind, *parts in report if kind == "count"]
        self.logs = [parts for kind, *parts in report if kind == "log"]
        self.groups = [parts[0] for kind, *parts in report if kind == "group"]
        self.counts = {}
        """How many operations each request issued, by the report."""
        self.entries = {}
        """The choice of each operation."""

    def all(self):
        """What is evaluated, the steps of all requests, and the schedule, where no reason holds."""
        self.check_logs_and_counts()
        for name, entries in self.logs:
            for position, entry in enumerate(entries):
                self.check_entry(name, entries, position, entry)
        self.check_operations()
        order = self.order()
        self.check_members()
        answers = self.answers()
        costs = [self.check_group(number, members, answers) for number, members in enumerate(self.groups)]
        evaluated, plain = (sum(cost[kind] for cost in costs) for kind in (0, 1))
        return evaluated, plain, [self.moment(node) for node in order]

    # ---- counts, entries and members

    def check_logs_and_counts(self):
        names = [name for name, _ in self.logs]
        numbers = [number for number, _ in self.given_counts]
        for at, name in enumerate(names):
            if name in names[:at]:
                raise Rejected(2, name_of(name))
        self.check_numbers(numbers, 3, 4, 5)
        self.counts = dict(self.given_counts)

    def check_numbers(self, numbers, twice, foreign, missing):
        """Each request stands among these once, and nothing else does; the reasons otherwise, of which the least comes first."""
        faults = [(twice, number) for at, number in enumerate(numbers) if number in numbers[:at]][:1]
        faults += [(foreign, number) for number in numbers if number not in self.asked][:1]
        faults += [(missing, number) for number in self.requests if number not in numbers][:1]
        if faults:
            reason, number = min(faults)
            raise Rejected(reason, request(number))

    def check_entry(self, name, entries, position, entry):
        number, count, act, choice = entry
        before = entries[position - 1] if position else None
        least = before[3] if before else self.objects.clock
        reasons = [
            (6, lambda: not fits(self.program, name, act, choice)),
            (7, lambda: number not in self.asked),
            (8, lambda: not 1 <= count <= self.counts[number]),
            (9, lambda: (number, count) in self.entries),
            (11, lambda: before and before[0] == number and before[1] >= count),
            (12, lambda: act[0] == "now" and choice < least or act[0] == "roll" and not 0 <= choice < act[1]),
        ]
        for reason, holds in reasons:
            if holds():
                raise Rejected(reason, f"{name_of(name)} position {position}")
        self.entries[number, count] = choice

    def check_operations(self):
        for number in self.requests:
            for count in range(1, self.counts[number] + 1):
                if (number, count) not in self.entries:
                    raise Rejected(10, operation(number, count))

    def check_members(self):
        self.check_numbers([number for group in self.groups for number in group], 15, 14, 16)

    # ---- the order of events

    def right_before(self, number):
        """The requests that precede this one in time, and between which and it no request lies."""
        past = [other for other in self.requests if self.went[other] < self.came[number]]
        return [other for other in past if not any(self.went[other] < self.came[between] for between in past)]

    def predecessors(self):
        """Of each node those from which an edge leads to it."""
        places = {number: place for place, number in enumerate(self.requests)}
        last = {number: (places[number], self.counts[number] + 1) for number in self.requests}
        before = {}
        for number, (place, end) in last.items():
            before[place, 0] = {last[other] for other in self.right_before(number)}
            before.update(((place, count), {(place, count - 1)}) for count in range(1, end + 1))
        for _, entries in self.logs:
            for (one, its, *_), (next_one, its_next, *_) in zip(entries, entries[1:]):
                if one != next_one:
                    before[places[next_one], its_next].add((places[one], its))
        return before

    def order(self):
        """The nodes in the order of the schedule: again and again the least that may come, which is the next one of its request."""
        before, taken, order = self.predecessors(), set(), []
        nexts = [(place, 0) for place in range(len(self.requests))]
        while len(order) < len(before):
            node = next((node for node in nexts if node in before and before[node] <= taken), None)
            if node is None:
                raise Rejected(13, self.cycle(before, set(before) - taken))
            taken.add(node)
            order.append(node)
            nexts[node[0]] = node[0], node[1] + 1
        return order

    def cycle(self, before, remaining):
        """The cycle that the walk finds among the nodes that remain."""
        node, walk = min(remaining), []
        while node not in walk:
            walk.append(node)
            node = min(before[node] & remaining)
        nodes = walk[walk.index(node) :][::-1]
        at = nodes.index(min(nodes))
        return "cycle " + " ".join(map(self.node_name, nodes[at:] + nodes[:at]))

    def node_name(self, node):
        number, count = self.requests[node[0]], node[1]
        return f"{number}.{'end' if count > self.counts[number] else count}"

    def moment(self, node):
        number, count = self.requests[node[0]], node[1]
        if count == 0:
            return "arrive", number
        return ("depart", number) if count > self.counts[number] else ("act", number, self.entries[number, count])

    # ---- groups

    def answers(self):
        """The object, the act and the answer of each entry. Each log is done from its first entry to its last."""
        answers = {}
        for name, entries in self.logs:
            for number, count, act, choice in entries:
                answer = self.objects.apply(operation_of(self.program, name, act), choice)
                answers[number, count] = name, records.act_bytes(act), answer
        return answers

    def members_of(self, numbers, answers):
        """The members of a group, run against the entries."""
        members = []
        for number in numbers:
            member = self.runs(self.program, self.asked[number])
            member.follow(lambda count: answers.get((number, count)))
            members.append(member)
        return members

    def check_group(self, group, numbers, answers):
        """What is evaluated for it, and the steps of its members."""
        members = self.members_of(numbers, answers)
        for place in range(min(len(member.marks) for member in members)):
            for number, member in zip(numbers, members):
                if member.marks[place] == BAD:
                    raise Rejected(18, operation(number, member.issued))
            if any(member.mark(place) != members[0].mark(place) for member in members):
                raise Rejected(17, f"group {group} mark {place}")
        for number, member in zip(numbers, members):
            if member.issued < self.counts[number]:
                raise Rejected(19, operation(number, member.issued + 1))
        for number, member in zip(numbers, members):
            if list(member.response) != self.answered[number]:
                raise Rejected(20, request(number))
        return self.cost(numbers, members), sum(member.steps for member in members)

    def cost(self, numbers, members):
        """How many nodes are evaluated for a group without fault: one a step where all members take the same, else one for each."""
        steps = zip(*(member.spent_on for member in members))
        return sum(1 if all(is_shared(step[0], other) for other in step) else len(step) for step in steps)


def audit_of(program, state, trace, report):
    """The status, the line, and the schedule where there is one, for the bytes of four files."""
    try:
        program, objects, trace = inputs_of(program, state, trace)
        audit = Audit(program, objects, trace, records.read(report, "report"))
        evaluated, plain, schedule = audit.all()
    except Faulty as fault:
        return 3, fault.args[0], None
    except records.Unreadable as place:
        return 1, b"rejected 1: unreadable at %d\n" % place.args, None
    except Rejected as reason:
        return 1, f"rejected {reason.args[0]}: {reason.args[1]}\n".encode(), None
    counts = len(audit.requests), len(audit.groups), evaluated, plain
    return 0, b"accepted: requests %d, groups %d, evaluated %d, plain %d\n" % counts, records.write("schedule", schedule)
