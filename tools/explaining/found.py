"""What the files of a command give: its line by the second reading of the rules in bench/, and all that was read on the way.

The files are read as docs/formats.md says under "The order of reading, and which fault is told". A line of `record` is looked
for in the two files that it wrote.
"""

import os
import stat

from json_files import JsonFault, read_jobs, read_turns
from layout import Text
from runs import KeptAudit
from states import StateFault, objects_of

from auditing import Rejected
from meaning import List, Objects, Program, finding, is_within_limits, line_of, records, unbalanced

MOST_BYTES = {"schedule": 1_073_807_360}
MOST_FILE = 1_073_741_824
MOST_ANSWER = 262_200
"""No record of a response has more bytes."""
MOST_ENTRIES = 1_000 * 10_000_000
"""No request's entries in the logs have more bytes: these are 1,000, and one of a transaction may have many values."""


class Unread(Exception):
    """The role of a file that can't be read, and what the system says."""


class Told(Exception):
    """The line that an input gives."""


class Found:
    def __init__(self, command):
        self.command = command
        self.data, self.line, self.why = {}, None, None
        self.program = self.objects = self.trace = self.report = self.schedule = self.jobs = self.audit = self.made = None
        self.turns = []

    def find(self):
        """Reads the inputs and comes to the line."""
        try:
            for role in self.command.inputs:
                self.data[role] = self.read(role)
                getattr(self, f"take_{role}")(self.data[role])
            self.line = LINES[self.command.name](self)
        except Told as told:
            self.line = told.args[0]
        return self

    def text(self):
        return Text(self.command.label("program"), self.data["program"])

    def read(self, role, names=None):
        name = (names or self.command.inputs)[role]
        try:
            if size_of_file(name) > MOST_BYTES.get(role, MOST_FILE):
                raise Told(f"{role}: too long")
            with open(name, "rb") as file:
                data = file.read(MOST_BYTES.get(role, MOST_FILE) + 1)
        except FileNotFoundError:
            raise Told(f"{role}: absent") from None
        except (OSError, ValueError) as failure:
            raise Unread(role, name, failure) from None
        if len(data) > MOST_BYTES.get(role, MOST_FILE):
            raise Told(f"{role}: too long")
        return data

    # ---- inputs

    def take_program(self, data):
        line = line_of(data).decode().strip()
        if not line.startswith("ok"):
            raise Told(line)
        self.said, self.program = line, Program(data)

    def fresh_objects(self):
        """The objects as the state has them."""
        empty = Objects(self.program.stores, self.program.tables)
        return objects_of(self.data["state"], self.program, empty, List, is_within_limits)

    def take_state(self, data):
        try:
            self.objects = self.fresh_objects()
        except StateFault as kind:
            raise Told(f"state: kind {kind.args[0]}") from None

    def take_requests(self, data):
        self.jobs = self.json("requests", read_jobs, data)

    def take_turns(self, data):
        self.turns = self.json("turns", read_turns, data)

    def json(self, role, reads, data):
        try:
            return reads(data)
        except JsonFault as fault:
            raise Told(f"{role}: kind {fault.args[0]}") from None

    def take_trace(self, data):
        try:
            self.trace = records.read(data, "trace")
        except records.Unreadable as place:
            raise Told(f"trace: unreadable at {place}") from None
        number = unbalanced(self.trace)
        if number is not None:
            raise Told(f"trace: not balanced at request {number}")

    def take_report(self, data):
        try:
            self.report = records.read(data, "report")
        except records.Unreadable as place:
            raise Told(f"rejected 1: unreadable at {place}") from None

    def take_schedule(self, data):
        try:
            self.schedule = records.read(data, "schedule")
        except records.Unreadable as place:
            raise Told(f"differs 1: unreadable at {place}") from None

    # ---- commands

    def check(self):
        return self.said

    def replay(self):
        return finding(self.program, self.fresh_objects(), self.trace, self.schedule).decode().strip()

    def audit_line(self):
        """The line of an audit of the trace and the report, and why it is that one."""
        self.audit = KeptAudit(self.program, self.fresh_objects(), self.trace, self.report)
        try:
            evaluated, plain, self.made = self.audit.all()
        except Rejected as reason:
            self.why = reason
            return f"rejected {reason.args[0]}: {reason.args[1]}"
        return f"accepted: requests {len(self.audit.requests)}, groups {len(self.audit.groups)}, evaluated {evaluated}, plain {plain}"

    def asked(self):
        return [parts for kind, _, *parts in self.trace if kind == "request"]

    def record(self):
        """The line that the written files give, or why they are none of these jobs."""
        for role in ("trace", "report"):
            try:
                self.data[role] = self.read(role, self.command.outputs)
                getattr(self, f"take_{role}")(self.data[role])
            except Told as told:
                return f"another: of what it wrote, {told.args[0].replace('rejected 1', 'report')}"
        asked = [(method, path, list(params), body) for method, path, params, body in self.asked()]
        # Of several workers each takes the next job, but which of them has its request arrive first isn't fixed.
        if asked != self.jobs and (self.command.workers() == 1 or sorted(asked) != sorted(self.jobs)):
            return "another: the trace that stands there has other requests than these jobs"
        line = self.audit_line()
        if not line.startswith("accepted"):
            return f"another: the trace and the report that stand there aren't of one recording ({line})"
        return f"recorded: requests {len(self.audit.requests)}, groups {len(self.audit.groups)}"

    def is_line(self, line):
        """Whether the program may print this line for the files."""
        return line == self.line or self.may_be_too_long(line)

    def may_be_too_long(self, line):
        """Whether what `record` is to write may pass its limit: a trace by its greatest responses, a report by its operations."""
        if self.command.name != "record" or line not in ("trace: too long", "report: too long") or self.jobs is None:
            return False
        most = sum(map(size_of_job, self.jobs)) + len(self.jobs) * MOST_ANSWER
        return (most if line.startswith("trace") else len(self.jobs) * MOST_ENTRIES) > MOST_FILE


LINES = {"check": Found.check, "replay": Found.replay, "audit": Found.audit_line, "record": Found.record}


def size_of_job(job):
    """How many bytes the record of its request takes, or more."""
    method, path, params, body = job
    return 100 + len(method) + len(path) + len(body) + sum(8 + len(name) + len(value) for name, value in params)


def size_of_file(name):
    """The length of a regular file; of anything else nothing is known before it is read."""
    status = os.stat(name)
    return status.st_size if stat.S_ISREG(status.st_mode) else 0
