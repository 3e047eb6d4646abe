"""Explains `rejected K ..`: the records of the report that are meant, and what they should say."""

from layout import beside, counted, cut, is_are, listed, nth, width, wrapped
from record_text import entry_of, text_of
from replays import object_name, on_object, operation_lines, operation_text, request_lines, response_lines, tuple_act, whole_act
from runs import KeptAudit, Outline, failed

from auditing import ACTS, OF_CHANCE, name_of, statement_fits
from meaning import MOST_NAME
from recording import object_and_act

MOST_MEMBERS = 6
MOST_TOLD = 4
TAKES = {
    "register": "`read` and `write`", "store": "`get`, `put` and `remove`", "tables": "`transact`", "clock": "`now`", "dice": "`roll`",
}


class Explained:
    """A report up to the reason for which it is rejected."""

    def __init__(self, found):
        self.found, self.audit, self.reason = found, found.audit, found.why.args[0]
        self.name, self.trace = found.command.label("report"), found.command.label("trace")
        self.outline = Outline(found.text())
        self.fields = found.why.args[1].split(" ")

    def lines(self):
        reasons = {
            2: self.two_logs, 3: self.two_counts, 4: self.foreign_count, 5: self.no_count, 6: self.unfit, 7: self.foreign_entry,
            8: self.beyond_count, 9: self.entered_twice, 10: self.no_entry, 11: self.not_rising, 12: self.implausible, 13: self.cycle,
            14: self.foreign_member, 15: self.member_twice, 16: self.no_group, 17: self.parted, 18: self.other_operation,
            19: self.left_over, 20: self.other_response,
        }
        return reasons[self.reason]()

    def number(self):
        """The request that the line names."""
        return int(self.fields[1])

    def records(self, kind):
        """The records of a kind with their numbers among all, from 1."""
        return [(at, parts) for at, (one, *parts) in enumerate(self.found.report, 1) if one == kind]

    def request(self, number):
        return request_lines(self.outline, self.found.program, number, self.audit.asked[number])

    def foreign(self, number, where):
        ids = self.audit.requests
        there = f"has {listed(ids)}" if ids else "has no request at all"
        return wrapped(f"{self.name}, {where}: {self.trace} has no request {number}; it {there}. Do the two files come from one recording?")

    # ---- counts and logs

    def two_logs(self):
        seen = set()
        for at, (name, _) in self.records("log"):
            if name in seen:
                break
            seen.add(name)
        logs = [(at, entries) for at, (one, entries) in self.records("log") if one == name]
        many = [f"record {at} with {counted(len(entries), 'entry', 'entries')}" for at, entries in logs]
        return wrapped(f"{self.name}: {object_name(name)} has {counted(len(logs), 'log')}, {listed(many)}. An object has one log, "
                       "in which all of its entries stand in their order.")

    def two_counts(self):
        number = self.number()
        counts = [f"record {at} says {count}" for at, (one, count) in self.records("count") if one == number]
        return wrapped(f"{self.name}: request {number} is counted {counted(len(counts), 'time')}: {listed(counts)}. Each request is "
                       "counted once.") + self.request(number)

    def foreign_count(self):
        number = self.number()
        return self.foreign(number, f"record {next(at for at, (one, _) in self.records('count') if one == number)}, a count")

    def no_count(self):
        number = self.number()
        has_count = dict(self.audit.given_counts)
        missing = [one for one in self.audit.requests if one not in has_count]
        entries = sum(entry[0] == number for _, entries in self.audit.logs for entry in entries)
        lines = wrapped(f"{self.name} has no count of request {number}, which is in {self.trace}: each request has one, also where "
                        "it did no operation.") + self.request(number)
        if missing[1:]:
            lines += wrapped(f"Nor is there one of {listed(missing[1:])}.")
        has = f"The logs have {counted(entries, 'entry', 'entries')} of it" if entries else "The logs have no entry of it"
        return lines + wrapped(f"{has}. The report may have been cut between two records, or be that of another trace.")

    # ---- entries

    def entry(self):
        """The log, the position and the entry that the line names."""
        position = int(self.fields[-1])
        wanted = " ".join(self.fields[:-2])
        for name, entries in self.audit.logs:
            if name_of(name) == wanted:
                return name, entries, position, entries[position]
        raise AssertionError(wanted)

    def entry_head(self):
        name, entries, position, entry = self.entry()
        at = next(at for at, (one, _) in self.records("log") if one == name)
        return [*wrapped(f"{self.name}, record {at}, the log of {object_name(name)}, position {position} of {len(entries)} (counted "
                         "from 0):"), f"    {self.shown(entry)}"]

    def shown(self, entry):
        number, count, act, choice = entry
        return cut(entry_of((number, count, tuple_act(act), choice)), width() - 4)

    def unfit(self):
        name, _, _, (_, _, act, choice) = self.entry()
        why = why_unfit(self.found.program, name, act, choice)
        told = wrapped(f"It doesn't fit the program: {why}.") + wrapped("Do the program and the report belong together?")
        return self.entry_head() + told

    def foreign_entry(self):
        return self.entry_head() + self.foreign(self.entry()[3][0], "this entry")

    def beyond_count(self):
        _, _, _, (number, count, *_) = self.entry()
        most = self.audit.counts[number]
        if count == 0:
            why = "Operations are counted from 1, and this entry says 0"
        else:
            why = (
                f"The report counts {counted(most, 'operation')} of request {number}, and this is its operation {count}: the "
                "count is too low, or the entry is one too many"
            )
        return self.entry_head() + wrapped(f"{why}.") + self.request(number)

    def entered_twice(self):
        name, _, position, (number, count, *_) = self.entry()
        lines = self.entry_head() + wrapped(f"Operation {count} of request {number} has an entry already:")
        for other, entries in self.audit.logs:
            for at, entry in enumerate(entries):
                if entry[:2] == (number, count) and (other, at) != (name, position):
                    lines.append(cut(f"    {object_name(other)}, position {at}: {self.shown(entry)}"))
                    return lines + self.request(number)
        return lines

    def no_entry(self):
        number, count = int(self.fields[1]), int(self.fields[3])
        has = sorted(one for rid, one in self.audit.entries if rid == number)
        lines = wrapped(f"{self.name} counts {counted(self.audit.counts[number], 'operation')} of request {number}, and no log has "
                        f"its operation {count}; "
                        f"{'entries are there of ' + listed(has) if has else 'there is no entry of it at all'}.") + self.request(number)
        return lines + self.page_wants(number, count) + wrapped("Either the count is too high, or an entry is missing.")

    def page_wants(self, number, count):
        """The operation that the page wants at this number, where the entries before give it its answers."""
        member = self.audit.members_of([number], self.fresh().answers())[0]
        if member.issued < count:
            ends = f"ended by fault {member.fault}" if member.fault else "is at its end"
            return wrapped(f"By the entries that there are its page issues {counted(member.issued, 'operation')} and then {ends}.")
        operation, places, _ = member.operations[count - 1]
        return wrapped(f"By the entries that there are its page wants `{operation_text(self.found.program, operation)}` there, at "
                       f"{self.outline.in_line(places)}.")

    def fresh(self):
        """The audit on objects that no operation has changed."""
        return KeptAudit(self.found.program, self.found.fresh_objects(), self.found.trace, self.found.report)

    def not_rising(self):
        _, entries, position, (number, count, *_) = self.entry()
        before = entries[position - 1]
        return self.entry_head() + ["The entry right before it:", f"    {self.shown(before)}"] + wrapped(
            f"Both are of request {number}, whose operations were done in the order of their numbers: {count} can't come after "
            f"{before[1]}.") + self.request(number)

    def implausible(self):
        _, entries, position, (_, _, act, choice) = self.entry()
        if act[0] == "roll":
            return self.entry_head() + wrapped(f"A roll with the bound {act[1]} gives a number from 0 to {act[1] - 1}, and this one "
                                               f"gave {choice}.")
        before = f"the entry before it read {entries[position - 1][3]}" if position else f"the state begins with {self.audit_clock()}"
        return self.entry_head() + wrapped(f"The clock never falls: this entry read {choice}, and {before}.")

    def audit_clock(self):
        return f"the clock at {self.found.fresh_objects().clock}"

    # ---- the order

    def cycle(self):
        nodes = self.fields[1:]
        lines = wrapped(f"No order of events keeps the program, the logs and the time of the trace: of these {len(nodes)} each "
                        "comes before the next, and the last before the first.")
        for at, (one, other) in enumerate(zip(nodes, [*nodes[1:], nodes[0]])):
            lines += wrapped(f"  {one} ({self.node(one)})", "      ") if not at else []
            lines += wrapped(f"    before {other} ({self.node(other)}): {self.edge(one, other)}", "        ")
        for number in dict.fromkeys(int(node.split(".")[0]) for node in nodes):
            lines.append(f"    {request_lines(self.outline, self.found.program, number, self.audit.asked[number])[0].strip()}")
        return lines + wrapped(self.cycle_hint(nodes))

    def node(self, node):
        number, count = node.split(".")
        if count == "0":
            return f"request {number} arrives"
        if count == "end":
            return f"request {number} departs"
        name, position, entry = self.of_operation(int(number), int(count))
        return cut(on_object(self.found.program, name, entry[2]), 60)

    def of_operation(self, number, count):
        """The log, the position and the entry of an operation."""
        if not hasattr(self, "places"):
            self.places = {entry[:2]: (name, at, entry) for name, entries in self.audit.logs for at, entry in enumerate(entries)}
        return self.places.get((number, count))

    def edge(self, one, other):
        """Why the first node comes before the second."""
        (number, count), (next_number, next_count) = one.split("."), other.split(".")
        if number == next_number:
            return f"the order of request {number} itself"
        if count == "end" and next_count == "0":
            went, came = self.audit.went[int(number)] + 1, self.audit.came[int(next_number)] + 1
            return f"time; in {self.trace} response {number} is record {went}, request {next_number} record {came}"
        name, position, _ = self.of_operation(int(number), int(count))
        return f"the log of {object_name(name)}, positions {position} and {position + 1}"

    def cycle_hint(self, nodes):
        edges = list(zip(nodes, [*nodes[1:], nodes[0]]))
        of_logs = [(one, other) for one, other in edges if is_of_log(one, other)]
        if len(of_logs) == 1 and len(of_logs) < len(edges):
            return (
                f"The trace is taken as true: so the log that has {of_logs[0][0]} before {of_logs[0][1]} has its entries in a "
                "wrong order."
            )
        return "The trace is taken as true: so at least one of the logs named here has its entries in a wrong order."

    # ---- groups

    def foreign_member(self):
        number = self.number()
        at, group = next((at, group) for group, (at, (numbers,)) in enumerate(self.records("group")) if number in numbers)
        return self.foreign(number, f"record {at}, group {group}")

    def member_twice(self):
        number = self.number()
        groups = [(group, at, numbers.count(number)) for group, (at, (numbers,)) in enumerate(self.records("group")) if number in numbers]
        where = [f"group {group} (record {at}{f', {many} times' if many > 1 else ''})" for group, at, many in groups]
        told = wrapped(f"{self.name}: request {number} stands in {listed(where)}. Each request stands in one group, once.")
        return told + self.request(number)

    def no_group(self):
        number = self.number()
        inside = {one for group in self.audit.groups for one in group}
        missing = [one for one in self.audit.requests if one not in inside]
        lines = wrapped(f"{self.name} has request {number} in none of its {counted(len(self.audit.groups), 'group')}: each request "
                        "of the trace stands in one.") + self.request(number)
        lines += wrapped(f"Nor do {listed(missing[1:])} stand in one.") if missing[1:] else []
        return lines + wrapped("The report may have been cut between two records.")

    def group_of(self, number):
        return next((group, numbers) for group, numbers in enumerate(self.audit.groups) if number in numbers)

    def parted(self):
        group, mark = int(self.fields[1]), int(self.fields[3])
        numbers = self.audit.groups[group]
        members = {number: self.audit.members[number] for number in numbers}
        same = {}
        for number in numbers:
            same.setdefault(self.mark(members[number], mark), []).append(number)
        lines = wrapped(f"{self.name}, group {group} of {counted(len(numbers), 'member')}: they part at mark {mark} (decisions, "
                        "operations and the end are marks, counted from 0).")
        if mark:
            lines += wrapped(f"The {counted(mark, 'mark')} before {is_are(mark)} the same.")
        for what, ones in list(same.items())[:MOST_MEMBERS]:
            lines += wrapped(f"  {listed([f'request {one}' for one in ones], MOST_TOLD)}: {what}", "      ")
        for ones in list(same.values())[:3]:
            lines += self.request(ones[0])[:1]
        return lines + wrapped("A group holds requests of one course alone: the same page, decisions, steps and end. Put them into "
                               "a group for each course.")

    def mark(self, member, place):
        """What a member's mark says."""
        page, mark = member.mark(place)
        if page is None:
            return f"no page has the path {text_of(member.path)}"
        of_page = f", on page {text_of(page)}" if place == 0 else ""
        if mark == "operation":
            return (
                f"operation {sum(one == 'operation' for one in member.marks[: place + 1])}, at "
                f"{self.outline.in_line(member.mark_places[place])}{of_page}"
            )
        if mark in (True, False) and not isinstance(mark, tuple):
            return f"a decision that is {str(mark).lower()}, at {self.outline.in_line(member.mark_places[place])}{of_page}"
        _, steps, fault = mark
        how = f"by fault {fault}, at {self.outline.in_line(member.standing)}" if fault else "without a fault"
        return f"the end, after {counted(steps, 'step')}, {how}{of_page}"

    def other_operation(self):
        number, count = int(self.fields[1]), int(self.fields[3])
        member = self.audit.members[number]
        operation, places, _ = member.operations[count - 1]
        name, act = object_and_act(self.found.program, operation)
        group, _ = self.group_of(number)
        lines = [f"Request {number}, of group {group}:", *self.request(number)]
        lines += wrapped(f"Operation {count} of its page, at {self.outline.in_line(places)}, is")
        lines += self.both_acts(number, count, name, act)
        if count == 1:
            return lines + wrapped("It is the first operation of the request, so the program and the request alone decide it: do "
                                   "the program and the report belong together?")
        depends = "the answers before, and so on the entries above them in their logs, and on the state"
        return lines + self.before(number, member, count) + wrapped(f"What the page does there depends on {depends}.")

    def both_acts(self, number, count, name, act):
        """What the page does, and what the report says of it."""
        program, entry = self.found.program, self.of_operation(number, count)
        if entry is None:
            counts = counted(self.audit.counts[number], "operation")
            none = wrapped(f"and {self.name} has no entry for it: it counts {counts} of this request.")
            return [f"    {on_object(program, name, act)}", *none]
        other, position, (_, _, its_act, _) = entry
        ours, theirs = beside(whole_act(program, name, act), whole_act(program, other, its_act), width() - 4)
        what = part_that_differs(name, act, other, its_act)
        where = f"and its entry in {self.name}, at position {position} of the log of {object_name(other)}, has {what}:"
        return [f"    {ours}", *wrapped(where), f"    {theirs}"]

    def before(self, number, member, count):
        done = [(f"operation {at}", one, self.origin(number, at)) for at, one in enumerate(member.operations[: count - 1], 1)]
        return operation_lines(self.found.program, self.outline, done) if done else []

    def origin(self, number, count):
        """Whose entry wrote what this one reads."""
        name, position, entry = self.of_operation(number, count)
        key = entry[2][1] if name[0] == "store" else None
        for other, its_count, act, _ in reversed(dict(self.audit.logs)[name][:position]):
            if act[0] in ("write", "put", "remove") and (key is None or act[1] == key):
                return f"request {other}, its operation {its_count}"
        return "the state"

    def left_over(self):
        number, count = int(self.fields[1]), int(self.fields[3])
        member, most = self.audit.members[number], self.audit.counts[number]
        lines = [f"Request {number}, of group {self.group_of(number)[0]}:", *self.request(number)]
        ends = f"ended by fault {member.fault}" if member.fault else "was at its end"
        lines += wrapped(f"Its page issued {counted(member.issued, 'operation')} and then {ends}; {self.name} counts {most}. The "
                         "first that is left:")
        name, position, entry = self.of_operation(number, count)
        lines.append(cut(f"    {object_name(name)}, position {position}: {self.shown(entry)}"))
        lines += failed(self.outline, member) if member.fault else []
        lines += self.before(number, member, len(member.operations) + 1)
        too_many = f"the count of request {number} is too high and its entries from {count} on are too many"
        return lines + wrapped(f"Either {too_many}, or its page is another one.")

    def other_response(self):
        number = self.number()
        member = self.audit.members[number]
        lines = [f"Request {number}, of group {self.group_of(number)[0]}:", *self.request(number)]
        lines += response_lines(member.response, tuple(self.audit.answered[number]), self.trace)
        lines += failed(self.outline, member) if member.fault else []
        lines += self.before(number, member, len(member.operations) + 1)
        if member.operations:
            return lines + wrapped("All its operations are as the report says. So the response in the trace isn't what this program "
                                   "answers, or an entry above those of this request, in one of these logs, isn't what happened, or "
                                   "the state was another.")
        return lines + wrapped("It did no operation, so the program alone gives its response: the traced one is another program's, "
                               "or was changed.")


def is_of_log(one, other):
    """Whether an edge of a cycle is one of a log, and not of a request's own order or of time."""
    return one.split(".")[0] != other.split(".")[0] and not (one.endswith(".end") and other.endswith(".0"))


def part_that_differs(name, act, other, its_act):
    if name != other:
        return "another object"
    if act[0] != its_act[0]:
        return "another act"
    return "other operands"


def why_unfit(program, name, act, choice):
    """Which of the rules for entries this one breaks."""
    sort, word = name[0], act[0]
    if word not in ACTS[sort]:
        return f"{object_name(name)} takes {TAKES[sort]}, and no `{word}`"
    if word in OF_CHANCE and choice is None:
        return f"`{word}` has a number as its choice, and this entry has none"
    if word not in OF_CHANCE and choice is not None:
        return f"`{word}` has no choice, and this entry has {choice}"
    if sort == "register":
        return f"the register's name has {len(name[1]):,} bytes, and at most {MOST_NAME:,} are allowed"
    if sort == "store":
        if name[1] not in program.stores:
            there = [f"`{one.decode()}`" for one in program.stores]
            return f"the program declares no {object_name(name)}" + (f", but {listed(there)}" if there else "")
        return f"the key has {len(act[1]):,} bytes, and at most {MOST_NAME:,} are allowed"
    if sort == "dice":
        return f"the bound {act[1]} is below 1"
    return why_statement_unfit(program, act[1])


def why_statement_unfit(program, statements):
    widths = [len(columns) for columns in program.tables.values()]
    if not statements:
        return "the transaction has no table statement"
    at, statement = next((at, one) for at, one in enumerate(statements, 1) if not statement_fits(widths, one))
    return f"its {nth(at)} table statement, {why_one_unfit(program, statement)}"


def why_one_unfit(program, statement):
    word, *parts = statement
    table, *parts = parts[1:] if word == "expect" else parts
    names = list(program.tables)
    if table >= len(names):
        return f"`{word}`, names table {table}, and the program has {counted(len(names), 'table')} (counted from 0)"
    name, columns = names[table].decode(), list(program.tables.values())[table]
    if word == "insert":
        values = parts[0]
        if len(values) != len(columns):
            return f"`insert` into table {table} ({name}), has {counted(len(values), 'value')} for {counted(len(columns), 'column')}"
        return f"`insert` into table {table} ({name}), has a key that is no text of at most {MOST_NAME:,} bytes"
    if word in ("select", "update") and not parts[0]:
        return f"`{word}` of table {table} ({name}), names no column"
    if word == "update" and any(column == 0 for column, _ in parts[0]):
        return f"`update` of table {table} ({name}), sets column 0, which is the key"
    return f"`{word}` of table {table} ({name}), names a column that isn't there: it has {counted(len(columns), 'column')} (counted from 0)"


def explain(found):
    return Explained(found).lines()
