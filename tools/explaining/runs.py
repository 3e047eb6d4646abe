"""Runs that note where they stand, audits that keep their runs, and what is told of a run that failed."""

import heapq

from layout import listed, shown_value, wrapped
from record_text import text_of

from auditing import Audit, Member, Rejected, name_of, request
from meaning import (
    MOST_BODY, MOST_DEPTH, MOST_NAME, MOST_OPERATIONS, MOST_STEPS, Fault, List, Run, is_within_limits, nesting_of, ordered,
    size_of,
)
from rules import Parser

MOST_VARIABLES = 8


class Watched(Run):
    """A run that notes its operations with their answers, the place of each decision and operation, and the last step."""

    notes_steps = False

    def __init__(self, *given):
        self.operations, self.mark_places = [], []
        self.standing, self.taken, self.action, self.given = (None, None), [], None, ()
        self.too_large = None
        super().__init__(*given)

    def go(self):
        try:
            while not self.operation and not self.response:
                charged, self.action, self.given, self.standing = self.code[self.at]
                if charged:
                    self.taken = self.wanted()
                    if self.steps == MOST_STEPS:
                        raise Fault(6)
                    self.steps += 1
                    if self.notes_steps:
                        self.note_step()
                self.at += 1
                self.action(self, *self.given)
                if self.operation:
                    self.note_operation()
        except Fault as fault:
            self.fail(*fault.args)

    def wanted(self):
        """The operands of the next instruction."""
        action, given = self.action, self.given
        if action is Run.load:
            return [self.variables[given[0]]]
        if action is Run.turn:
            return [self.stack[-1][0]]
        if action is Run.push:
            return []
        count = len(self.program.functions[given[0]]) if action is Run.call else given[0] if action in COUNTED else 1
        return self.stack[len(self.stack) - count :]

    def noted(self, value):
        super().noted(value)
        self.mark_places.append(self.standing)
        return value

    def note_operation(self):
        self.operations.append([self.operation, self.standing, None])
        self.mark_places.append(self.standing)

    def answer(self, value):
        self.operations[-1][2] = value
        if not is_within_limits(value):
            self.too_large = value
        super().answer(value)


COUNTED = (Run.make, Run.issue, Run.ask)


class WatchedMember(Watched, Member):
    """A member of a group that does the same. What its steps are spent on isn't kept."""

    def issues(self):
        pass


class Step:
    """A step of the first member of a group, and whether the others had the same operands at it."""

    __slots__ = ("operands", "is_same", "issues")

    def __init__(self, operands):
        self.operands, self.is_same, self.issues = operands, True, False


class Stepped(WatchedMember):
    """A member whose steps are laid beside those of the first one."""

    notes_steps = True

    def __init__(self, program, asked, steps, is_first):
        self.shape, self.is_first, self.request = steps, is_first, asked
        super().__init__(program, asked)

    def note_step(self):
        operands = [ordered(value) for value in self.taken] + ([self.request] if self.action is Run.ask else [])
        if self.is_first:
            self.shape.append(Step(operands))
        else:
            step = self.shape[self.steps - 1]
            step.is_same = step.is_same and step.operands == operands

    def note_operation(self):
        super().note_operation()
        self.shape[self.steps - 1].issues = True


# ---- audits

class KeptAudit(Audit):
    """An audit that keeps the answers and its runs, and takes little more time for many requests than for few."""

    runs = WatchedMember

    def __init__(self, *given):
        super().__init__(*given)
        self.replied, self.members = {}, {}

    def answers(self):
        self.replied = super().answers()
        return self.replied

    def members_of(self, numbers, answers):
        members = super().members_of(numbers, answers)
        self.members.update(zip(numbers, members))
        return members

    def cost(self, numbers, members):
        """The same, with the steps of one member at a time laid beside those of the first."""
        if len(numbers) == 1:
            return members[0].steps
        steps = []
        for at, number in enumerate(numbers):
            stepped = Stepped(self.program, self.asked[number], steps, at == 0)
            stepped.follow(lambda count: self.replied.get((number, count)))
        return sum(len(numbers) if step.issues or not step.is_same else 1 for step in steps)

    def check_logs_and_counts(self):
        seen = set()
        for name, _ in self.logs:
            if name in seen:
                raise Rejected(2, name_of(name))
            seen.add(name)
        self.check_numbers([number for number, _ in self.given_counts], 3, 4, 5)
        self.counts = dict(self.given_counts)

    def check_numbers(self, numbers, twice, foreign, missing):
        seen, again = set(), []
        for number in numbers:
            again += [number] if number in seen else []
            seen.add(number)
        faults = [(twice, number) for number in again[:1]]
        faults += [(foreign, number) for number in numbers if number not in self.asked][:1]
        faults += [(missing, number) for number in self.requests if number not in seen][:1]
        if faults:
            reason, number = min(faults)
            raise Rejected(reason, request(number))

    def predecessors(self):
        """As the audit has them; the requests right before another are gathered in one walk over the trace."""
        self.just_before, past, latest = {}, [], -1
        events = [(at, True, number) for number, at in self.came.items()] + [(at, False, number) for number, at in self.went.items()]
        for _, comes, number in sorted(events):
            if not comes:
                past.append(number)
                latest = max(latest, self.came[number])
                continue
            self.just_before[number] = []
            for other in reversed(past):
                if self.went[other] < latest:
                    break
                self.just_before[number].append(other)
        return super().predecessors()

    def right_before(self, number):
        return self.just_before[number]

    def order(self):
        before = self.predecessors()
        after, left = {}, {node: len(nodes) for node, nodes in before.items()}
        for node, nodes in before.items():
            for other in nodes:
                after.setdefault(other, []).append(node)
        ready, order = [node for node, count in left.items() if not count], []
        heapq.heapify(ready)
        while ready:
            node = heapq.heappop(ready)
            order.append(node)
            for other in after.get(node, []):
                left[other] -= 1
                if not left[other]:
                    heapq.heappush(ready, other)
        if len(order) < len(before):
            raise Rejected(13, self.cycle(before, set(before) - set(order)))
        return order


# ---- where things stand in a program

class Outline:
    """The declarations of a program with their places."""

    def __init__(self, text):
        self.text = text
        self.declared = [(at, word, name) for word, (name, at), *_ in Parser(text.data).program()]

    def owner(self, at):
        """The page or the function in which a place is."""
        found = [(word, name) for begins, word, name in self.declared if begins <= at]
        word, name = found[-1]
        return f"page {text_of(name)}" if word == b"page" else f"function `{name.decode()}`"

    def body(self, at):
        """The text of the page or the function in which a place is."""
        begins = max(place for place, *_ in self.declared if place <= at)
        return self.text.data[begins : min([place for place, *_ in self.declared if place > at], default=None)]

    def page(self, path):
        """Where a page is declared."""
        return next((self.text.at(at) for at, word, name in self.declared if word == b"page" and name == path), None)

    def in_line(self, places):
        """Where a statement is, and its front."""
        statement, node = places
        if statement is None:
            return "the end of the body"
        return f"{self.text.at(statement)} `{self.text.statement(statement)}`"


# ---- a run that failed

TAKES = {
    b"+": "takes two numbers, two texts or two lists", b"-": "takes numbers", b"*": "takes two numbers", b"/": "takes two numbers",
    b"%": "takes two numbers", b"not": "takes a boolean, `true` or `false`", b"<": "takes two numbers or two texts",
    b"<=": "takes two numbers or two texts", b">": "takes two numbers or two texts", b">=": "takes two numbers or two texts",
    b"and": "takes a boolean on its left", b"or": "takes a boolean on its left",
    b"[": "takes a list or a text, and a number in the brackets",
    b"len": "takes a text or a list", b"str": "takes anything but a list", b"escape": "takes a text", b"num": "takes a text",
    b"slice": "takes a list or a text, and two numbers", b"append": "takes a list, and a value", b"param": "takes a text",
    b"read": "takes a register's name, which is a text", b"write": "takes a register's name, which is a text, and a value",
    b"get": "takes a store and a key, which is a text", b"put": "takes a store, a key, which is a text, and a value",
    b"remove": "takes a store and a key, which is a text", b"random": "takes a number", b"if": "takes a boolean, `true` or `false`",
    b"while": "takes a boolean, `true` or `false`", b"for": "takes a list", b"echo": "takes anything but a list",
    b"status": "takes a number",
    b"transact": "takes keys that are texts in `insert`, and counts that are numbers in `expect`",
}
ADVICE_OF_NULL = {
    b"read": "a register that nobody has written", b"get": "a key that isn't in the store",
    b"param": "a parameter that the request doesn't have", b"num": "a text that isn't a number's printed form",
}
OF_BOOLEANS = (b"not", b"and", b"or", b"if", b"while")
FAULT_NAMES = [
    "", "type", "overflow", "zero divisor", "index or range", "too large", "out of steps", "too many operations", "call depth",
    "random bound",
]


def why_failed(run, word):
    """A sentence on the fault that ended a run, at this word."""
    fault, taken = run.fault, run.taken
    values = [shown_value(value, 40) for value in taken]
    given = f"; its operand{' here is' if len(taken) == 1 else 's here are'} {listed(values)}" if taken else ""
    sign = f"`{word.decode('latin-1')}`"
    if fault == 1:
        return f"{sign} {TAKES.get(word, 'takes another kind of value')}{given}"
    if fault == 2:
        return f"the result of {sign} isn't from -9223372036854775808 to 9223372036854775807{given}"
    if fault == 3:
        return f"{sign} divides by 0{given}"
    if fault == 4:
        return out_of_range(run, word, values)
    if fault == 5:
        return too_large(run, word, values)
    if fault == 6:
        return f"{MOST_STEPS:,} steps are spent: a loop that goes on and on, or too much work for one request"
    if fault == 7:
        return f"{MOST_OPERATIONS:,} operations were issued before, and a request may issue no more"
    if fault == 8:
        return f"{sign} is called at depth {MOST_DEPTH}: the function calls itself without end, or too deep"
    return f"`random` takes a number from 1 on{given}"


def out_of_range(run, word, values):
    if run.action is Run.status_:
        return f"a status is from 200 to 599 and not 204, 205 or 304; here it is {values[0]}"
    length, kind = length_of(run.taken[0]), "a text" if isinstance(run.taken[0], bytes) else "a list"
    if word == b"slice":
        return f"`slice(x, a, b)` wants 0 <= a <= b <= len(x); here a is {values[1]}, b is {values[2]}, and the length {length}"
    has = f"has indices from 0 to {length - 1}" if length else "has none"
    return f"the index is {values[1]}, and {kind} of length {length} {has}"


def length_of(value):
    return len(value.members if isinstance(value, List) else value)


def too_large(run, word, values):
    if run.too_large is not None:
        return (
            f"the answer has size {size_of(run.too_large):,} and nesting {nesting_of(run.too_large)}; at most 65,536 and 16 are "
            "allowed (a selected column stands in three lists)"
        )
    if run.action is Run.echo_:
        return f"the body would pass {MOST_BODY:,} bytes: {run.length:,} stand there already"
    if run.action is Run.issue:
        return f"a register's name or a key has at most {MOST_NAME:,} bytes"
    sizes = " and ".join(f"{size_of(value):,}" for value in run.taken)
    return (
        f"the value that `{word.decode('latin-1')}` makes has a size over 65,536 or a nesting over 16 (of the operands the sizes "
        f"are {sizes})"
    )


def failed(outline, run):
    """The lines on where a run failed, and with what."""
    statement, node = run.standing
    text = outline.text
    if statement is None:
        return wrapped(f"fault {run.fault} ({FAULT_NAMES[run.fault]}) at the end of the body: {why_failed(run, b'the end')}.")
    word = text.word(node)
    lines = [f"{text.at(node)}: fault {run.fault} ({FAULT_NAMES[run.fault]}) in {outline.owner(node)}", *text.marked(node, len(word))]
    why = why_failed(run, word)
    lines += wrapped(f"{why[0].upper()}{why[1:]}.")
    lines += null_advice(run, text) + kind_advice(run, word) + rows_advice(run, outline)
    lines += variables_of(run)
    for code, at, *_ in reversed(run.callers[-3:]):
        lines.append(f"called from {outline.in_line(code[at - 1][3])}")
    return lines


def null_advice(run, text):
    """Where a null among the operands may come from."""
    if run.fault != 1 or not any(value is None for value in run.taken):
        return []
    row, failing = text.line(run.standing[0]), text.word(run.standing[1])
    there = {name: cause for name, cause in ADVICE_OF_NULL.items() if name + b"(" in row and name != failing}
    names, causes = [f"`{name.decode()}`" for name in there], list(there.values())
    if failing in OF_BOOLEANS:
        return wrapped("Whether there is a value tells `x == null`, or `x != null`.")
    gives = f"{listed(names)} {'gives' if len(names) == 1 else 'give'}"
    return wrapped(f"null is what {gives} for {listed(causes, joint='or')}.") if causes else []


def kind_advice(run, word):
    """How a value of another kind is made one that is taken."""
    kinds = {type(value) for value in run.taken}
    if run.fault != 1:
        return []
    if word == b"+" and kinds == {bytes, int} or word == b"escape" and kinds == {int}:
        return wrapped("Of a number `str(n)` makes a text.")
    if word in OF_BOOLEANS and int in kinds:
        return wrapped("A number is no condition: compare it, as `n != 0`.")
    if word == b"for" and kinds == {int}:
        return wrapped("To count write `let i = 0; while i < n { .. set i = i + 1; }`.")
    if word == b"[" and len(run.taken) == 2 and isinstance(run.taken[1], bytes):
        return wrapped("A member of a list is told by its place, from 0 on, and so is a column of a row: `row[0]` is the first.")
    if word == b"transact" and any(isinstance(value, int) for value in run.taken):
        return wrapped("The first column of a table is its key, and that is a text: of a number `str(n)` makes one.")
    return []


def rows_advice(run, outline):
    """What the answer of a transaction looks like, where a list isn't as it was taken to be and the body has a transaction."""
    is_list = bool(run.taken) and isinstance(run.taken[0], List) and run.fault in (1, 4)
    if not is_list or b"transact" not in outline.body(run.standing[0]):
        return []
    return wrapped(
        "(A `transact` gives a list of answers, one for each of its table statements. That of a `select` is the list of its rows, "
        "which is empty where no row passes: `rows[0]` are the rows of the first one, `rows[0][0]` is the first row, "
        "`rows[0][0][0]` its first column.)"
    )


def variables_of(run):
    """The variables of the body that failed."""
    if not run.variables:
        return ["No variable had a value then."]
    shown = [f"{name.decode()} = {shown_value(value, 40)}" for name, value in list(run.variables.items())[:MOST_VARIABLES]]
    more = f" and {len(run.variables) - MOST_VARIABLES} more" if len(run.variables) > MOST_VARIABLES else ""
    return wrapped(f"Variables then: {'; '.join(shown)}{more}.", "    ")
