"""Explains `differs K ..`: what the moment does, and what its request's run wanted there."""

from layout import counted, cut, difference, listed, response_text, shown_value, tupled, width, wrapped
from record_text import act_of, bare_of, lines_of, text_of
from runs import Outline, Watched, failed

from meaning import Differs, Replay
from recording import object_and_act

MOST_OPERATIONS = 6
MOST_NAME = 60
MOST_ACT = 60


def asked_line(number, parts):
    """A request with its method, path and parameters."""
    return cut(lines_of(("request", number, *parts))[0], width() - 4)


def object_name(name):
    return " ".join([name[0], *(cut(text_of(part), MOST_NAME) for part in name[1:])])


def operation_text(program, operation):
    """An operation with its object."""
    return on_object(program, *object_and_act(program, operation))


def on_object(program, name, act):
    """An act as a program writes it, with its object."""
    return with_object(name, cut(act_of(tuple_act(act, program)), MOST_ACT))


def with_object(name, text):
    return f"{text} on {object_name(name)}" if name[0] in ("register", "store") else text


def whole_act(program, name, act):
    """An act in its whole length, with its object."""
    return with_object(name, act_of(tuple_act(act, program)))


def tuple_act(act, program=None):
    """An act as tools/record_text.py has it; with a program tables and columns have their names."""
    word, *operands = act
    if word != "transact":
        return word, *(tupled(operand) for operand in operands)
    return word, [named_statement(program, *statement) for statement in operands[0]]


def named_statement(program, word, *parts):
    """A table statement whose values are tuples."""
    count = [parts[0]] if word == "expect" else []
    table, *rest = parts[len(count) :]
    tables = list(program.tables.items()) if program else []
    name, columns = tables[table] if table < len(tables) else (table, [])
    column = lambda number: columns[number].decode() if number < len(columns) else number
    changed = {
        "insert": lambda values: list(map(tupled, values)), "select": lambda numbers: list(map(column, numbers)),
        "update": lambda changes: [(column(number), tupled(value)) for number, value in changes],
    }
    first = [changed[word](rest[0])] if word in changed else []
    tests = [] if word == "insert" else [[(column(number), sign, tupled(value)) for number, sign, value in rest[-1]]]
    return word, *count, name.decode() if isinstance(name, bytes) else name, *first, *tests


WRITES = (b"write", b"put", b"remove")


def name_of_cell(operation):
    """The register or the key of a store that an operation is about."""
    name, *parts = operation
    if name in (b"read", b"write"):
        return b"register", parts[0]
    return (b"store", *parts[:2]) if name in (b"get", b"put", b"remove") else (name,)


def is_read(operation):
    return operation[0] in (b"read", b"get")


class Watching(Replay):
    """A replay whose runs are watched, and that knows at which moment each thing was."""

    def __init__(self, *given):
        super().__init__(*given)
        self.moments, self.arrived, self.left, self.watched = {}, {}, {}, {}
        self.writers, self.origins, self.now = {}, {}, 0

    def arrive(self, number):
        super().arrive(number)
        self.arrived[number] = self.now
        self.runs[number] = self.watched[number] = Watched(self.program, *self.requests[number])

    def act(self, number, choice):
        operation = self.watched[number].operation if number in self.watched else None
        super().act(number, choice)
        self.moments.setdefault(number, []).append(self.now)
        cell = name_of_cell(operation)
        self.origins[number, len(self.moments[number])] = self.writers.get(cell, "the state")
        if operation[0] in WRITES:
            self.writers[cell] = f"request {number} at moment {self.now}"

    def depart(self, number):
        super().depart(number)
        self.left[number] = self.now


class Explained:
    """A schedule up to the moment that differs."""

    def __init__(self, found):
        self.found, self.schedule = found, found.schedule
        self.outline = Outline(found.text())
        self.replay = Watching(found.program, found.fresh_objects(), found.trace)
        self.reason = 10
        for self.now, self.moment in enumerate(self.schedule):
            self.replay.now = self.now
            try:
                self.replay.take(*self.moment)
            except Differs as reason:
                self.reason = reason.args[0]
                return

    def number(self):
        if self.reason == 10:
            return next(number for number in self.replay.requests if number not in self.replay.departed)
        return self.moment[1]

    def lines(self):
        """The whole explanation."""
        number, replay = self.number(), self.replay
        lines = self.head()
        if number in replay.requests:
            lines += request_lines(self.outline, self.found.program, number, replay.requests[number])
        reasons = {
            2: self.foreign, 3: self.arrives_again, 4: self.too_early, 5: self.not_open, 6: self.at_end, 7: self.wrong_choice,
            8: self.wants_more, 9: self.other_response, 10: self.never_departs,
        }
        return lines + reasons[self.reason](number)

    def head(self):
        schedule, trace = self.found.command.label("schedule"), self.found.command.label("trace")
        if self.reason == 10:
            return wrapped(f"{schedule} ends after {counted(len(self.schedule), 'moment')}, and not all requests of {trace} have departed.")
        return wrapped(f"{schedule}, moment {self.now} of {len(self.schedule)} (counted from 0): `{lines_of(self.moment)[0]}`.")

    # ---- the reasons

    def foreign(self, number):
        ids = list(self.replay.requests)
        there = f"has {listed(ids)}" if ids else "has no request at all"
        return wrapped(f"No request of {self.found.command.label('trace')} has the id {number}; the trace {there}. Do the schedule "
                       "and the trace belong together?")

    def arrives_again(self, number):
        return wrapped(f"Request {number} arrived already, at moment {self.replay.arrived[number]}, and a request arrives once.")

    def too_early(self, number):
        replay = self.replay
        waiting = [other for other in replay.order[: replay.before[number]] if other not in replay.departed]
        places = {event[:2]: at for at, event in enumerate(self.found.trace, 1)}
        lines = wrapped(f"In {self.found.command.label('trace')} request {number} came (record {places['request', number]}) after "
                        "the response of request "
                        f"{waiting[0]} (record {places['response', waiting[0]]}), so {waiting[0]} departs before {number} arrives.")
        others = f" Nor have {listed(waiting[1:])}." if waiting[1:] else ""
        return lines + wrapped(f"At this moment request {waiting[0]} {self.stage(waiting[0])}.{others}")

    def stage(self, number):
        """How far a request is."""
        if number not in self.replay.arrived:
            return "hasn't even arrived"
        if number in self.replay.left:
            return f"has departed, at moment {self.replay.left[number]}"
        run = self.replay.watched[number]
        after = f"has arrived and done {counted(run.issued - bool(run.operation), 'operation')}, but not departed"
        if not run.operation:
            return f"{after}: its run is at its end"
        return f"{after}: its run wants `{operation_text(self.found.program, run.operation)}` next"

    def not_open(self, number):
        does = "acts" if self.moment[0] == "act" else "departs"
        if number in self.replay.left:
            return wrapped(f"Request {number} {does} here, and it departed already, at moment {self.replay.left[number]}.")
        later = next((at for at, moment in enumerate(self.schedule) if at > self.now and moment == ("arrive", number)), None)
        comes = f": it arrives later, at moment {later}." if later is not None else ", nor does it later."
        return wrapped(f"Request {number} {does} here, and it hasn't arrived{comes}")

    def at_end(self, number):
        run = self.replay.watched[number]
        lines = wrapped(f"Request {number} acts here, and its run wants no operation any more: it "
                        f"{how_it_ended(run, self.found.program)}. It departs now.")
        return lines + self.done_by(number) + (failed(self.outline, run) if run.fault else [])

    def wrong_choice(self, number):
        run, choice = self.replay.watched[number], self.moment[2]
        wants = f"Its run wants `{operation_text(self.found.program, run.operation)}`, at {self.outline.in_line(run.operations[-1][1])}"
        return wrapped(f"{wants}. {choice_fault(run.operation, choice, self.replay.objects.clock)}.")

    def wants_more(self, number):
        run = self.replay.watched[number]
        lines = wrapped(f"Request {number} departs here, and its run still wants operation {run.issued}, "
                        f"`{operation_text(self.found.program, run.operation)}`, "
                        f"at {self.outline.in_line(run.operations[-1][1])}.")
        return lines + self.done_by(number)

    def other_response(self, number):
        run, traced = self.replay.watched[number], self.replay.responses[number]
        lines = response_lines(run.response, traced, self.found.command.label("trace"))
        lines += failed(self.outline, run) if run.fault else []
        return lines + self.done_by(number) + (
            wrapped("What it read is what earlier moments wrote: two operations in another order may be the cause, or another start "
                    "of the objects.") if run.operations else
            wrapped("It did no operation, so no order of moments gives another response: the program or the trace is another one."))

    def never_departs(self, number):
        left = [other for other in self.replay.requests if other not in self.replay.departed]
        lines = wrapped(f"Request {number} {self.stage(number)}.") + self.done_by(number)
        if left[1:]:
            lines += wrapped(f"{counted(len(left) - 1, 'other request')} of the trace {'has' if len(left) == 2 else 'have'} not "
                             f"departed either: {listed(left[1:])}.")
        return lines + wrapped("The schedule may have been cut between two records.")

    def done_by(self, number):
        """What a request did so far, with its moments."""
        run = self.replay.watched.get(number)
        moments = self.replay.moments.get(number, [])
        if run is None or not moments:
            return []
        origins = [self.replay.origins[number, count] for count in range(1, len(moments) + 1)]
        done = [(f"moment {at}", *rest) for at, *rest in zip(moments, run.operations, origins)]
        return operation_lines(self.found.program, self.outline, done)


def operation_lines(program, outline, done):
    """Operations with their answers and statements, the last ones of them."""
    lines = ["Its operations before:"]
    if len(done) > MOST_OPERATIONS:
        lines.append(f"    ({len(done) - MOST_OPERATIONS} earlier ones)")
    for when, (operation, places, answer), origin in done[-MOST_OPERATIONS:]:
        gives = f"gave {shown_value(answer)}" if operation[0] not in WRITES else ""
        gives += f" (of {origin})" if is_read(operation) else ""
        lines += in_lines(f"    {when} ({outline.text.at(places[0])}): {operation_text(program, operation)}", gives)
    return lines


def in_lines(line, more):
    """A line with more behind it, or below where it is too long."""
    if not more or len(line) + 1 + len(more) <= width():
        return [cut(f"{line} {more}".rstrip())]
    return [cut(line), cut(f"        {more}")]


def request_lines(outline, program, number, parts):
    """A request and its page."""
    path = parts[1]
    page = outline.page(path)
    answers = f"Its page begins at {page}." if page else f"No page has this path, {bare_of(path)}, so its response is 404 `no page`."
    if page is None and b"?" in path:
        answers += " (A path isn't parsed: what stands behind the `?` should be parameters.)"
    return [f"    {asked_line(number, parts)}", *wrapped(answers)]


def how_it_ended(run, program):
    if run.path not in program.pages:
        return "has no page, and so no operation"
    return f"ended by fault {run.fault}" if run.fault else f"ended after {counted(run.issued, 'operation')}"


def choice_fault(operation, choice, clock):
    """Why this choice isn't one of the operation."""
    if operation[0] not in (b"clock", b"random"):
        return f"Such an operation has no choice, and the moment has the choice {choice}"
    if choice is None:
        return "It takes a number as its choice, what the clock read or what was rolled, and the moment has none"
    if operation[0] == b"clock":
        return f"The moment's choice is {choice}, and the clock's last value was {clock}: it never falls"
    return f"The moment's choice is {choice}, and it is from 0 to {operation[1] - 1}"


def response_lines(computed, traced, trace):
    """The computed response against the traced one."""
    if computed[1] == traced[1]:
        return [f"Computed is the status {computed[0]}, traced in {trace} is {traced[0]}; the bodies are the same."]
    lines = [f"Computed is {response_text(computed)}.", f"Traced in {trace} is {response_text(traced)}."]
    if max(body.count(b"\n") for body in (computed[1], traced[1])) > 1 or max(len(computed[1]), len(traced[1])) > width() - 30:
        lines.append(f"The bodies (- computed, + traced), which part at byte {first_other(computed[1], traced[1])}:")
        lines += difference(computed[1], traced[1])
    return lines


def first_other(one, other):
    return next((at for at, (a, b) in enumerate(zip(one, other)) if a != b), min(len(one), len(other)))


def explain(found):
    return Explained(found).lines()
