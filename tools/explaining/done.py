"""Summaries for the lines that need no mending: what a program has, and what its requests did."""

import difflib

from layout import counted, cut, listed, wrapped
from record_text import text_of
from replays import Watching, asked_line, object_name
from runs import Outline, failed

from recording import object_and_act

MOST_ROWS = 12
MOST_FAILED = 8
MOST_MISSING = 3
WORDS = ["page", "function", "store", "table"]


def rows_of(rows):
    """Rows of a table, each a figure and what it is of; of many the greatest."""
    rows = sorted(rows, key=lambda row: (-row[0], row[1]))
    lines = [cut(f"    {number:>7,}  {what}") for number, what in rows[:MOST_ROWS]]
    return lines + ([f"             and {len(rows) - MOST_ROWS} more sorts"] if len(rows) > MOST_ROWS else [])


# ---- check

def checked(found):
    """The declarations of a program, with their places."""
    text = found.text()
    outline = Outline(text)
    lines = [f"{text.name} is a program without a fault."]
    for word in WORDS:
        ones = [(at, name) for at, sort, name in outline.declared if sort == word.encode()]
        things = [f"{described(found.program, word, name)} (line {text.line_of(at)})" for at, name in ones]
        lines += wrapped(f"  {counted(len(ones), word)}: {listed(things, MOST_ROWS)}.", "      ") if ones else []
    paths = [name for at, sort, name in outline.declared if sort == b"page" and not name.startswith(b"/")]
    lines += wrapped(f"(Page {text_of(paths[0])} begins with no `/`, and a path over HTTP always does.)") if paths else []
    return lines


def described(program, word, name):
    if word == "page":
        return cut(text_of(name), 40)
    if word == "table":
        return f"{name.decode()} ({', '.join(column.decode() for column in program.tables[name])})"
    return f"{name.decode()}({', '.join(one.decode() for one in program.functions[name])})" if word == "function" else name.decode()


# ---- runs

class Summary:
    """What requests did: their pages, statuses and operations."""

    def __init__(self, found):
        self.program, self.outline = found.program, Outline(found.text())
        self.pages, self.objects, self.failed, self.missing = {}, {}, {}, {}

    def add(self, number, run, response):
        if run.path not in self.program.pages:
            self.missing.setdefault(run.path, number)
        page = text_of(run.path) if run.path in self.program.pages else f"no page ({text_of(run.path)})"
        key = f"{page} with {response[0]}" + (f", fault {run.fault}" if run.fault else "")
        self.pages[key] = self.pages.get(key, 0) + 1
        if run.fault:
            self.failed.setdefault((run.fault, run.standing), []).append((number, run))
        for operation, *_ in run.operations:
            self.add_act(*object_and_act(self.program, operation))

    def add_act(self, name, act):
        acts = self.objects.setdefault(object_name(name), {})
        acts[act[0]] = acts.get(act[0], 0) + 1

    def lines(self, asked):
        lines = ["Requests by page and status:", *rows_of([(number, what) for what, number in self.pages.items()])] if self.pages else []
        if self.objects:
            lines += ["Operations by object:", *rows_of([acts_row(name, acts) for name, acts in self.objects.items()])]
        return lines + self.missing_lines() + self.failed_lines(asked)

    def missing_lines(self):
        """Why a path has no page, of the first few."""
        lines = []
        for path in list(self.missing)[:MOST_MISSING]:
            front, sign, _ = path.partition(b"?")
            like = close_paths(front, self.program.pages)
            is_meant = f" Is {listed([text_of(page) for page in like], joint='or')} meant?" if like else ""
            more = " What stands behind a `?` isn't parsed: it goes into the job's `params`." if sign else ""
            lines += wrapped(f"No page has the path {text_of(path)}.{is_meant}{more}")
        if self.missing:
            paths = listed([text_of(page) for page in sorted(self.program.pages)], MOST_ROWS)
            lines += wrapped(f"(A page answers the very path that it names, and there are no variables in paths. Pages: {paths}.)")
        return lines

    def failed_lines(self, asked):
        """Where runs failed, each place once."""
        lines = []
        for ones in list(self.failed.values())[:MOST_FAILED]:
            number, run = ones[0]
            lines += wrapped(f"{counted(len(ones), 'run')} failed here, {'that' if len(ones) == 1 else 'the first'} of request {number}:")
            lines += [f"    {asked_line(number, asked[number])}", *failed(self.outline, run)]
        if len(self.failed) > MOST_FAILED:
            lines.append(f"({counted(len(self.failed) - MOST_FAILED, 'more place')} where runs failed.)")
        return lines


def close_paths(path, pages):
    """Those paths of pages that are this one, or much like it."""
    if path in pages:
        return [path]
    names = {page.decode("latin-1"): page for page in pages}
    return [names[name] for name in difflib.get_close_matches(path.decode("latin-1"), names, 2, 0.75)]


def acts_row(name, acts):
    """How many operations an object had, and how many of each act."""
    return sum(acts.values()), f"{name}: {', '.join(f'{act} {number:,}' for act, number in acts.items())}"


def replayed(found):
    """What a schedule that agrees did."""
    replay = Watching(found.program, found.fresh_objects(), found.trace)
    for replay.now, moment in enumerate(found.schedule):
        replay.take(*moment)
    summary = Summary(found)
    for number, run in replay.watched.items():
        summary.add(number, run, run.response)
    many = len(replay.requests)
    each = f"each of its {many:,} requests" if many > 1 else "its 1 request"
    schedule, trace = found.command.label("schedule"), found.command.label("trace")
    lines = wrapped(f"{schedule} explains {trace}: {each} is answered as the trace says, and the times of the trace are kept.")
    if not replay.requests:
        return [f"{schedule} explains {trace}, which has no request."]
    lines.append(f"Most requests that were open at once: {most_open(found.schedule)}.")
    return lines + summary.lines(replay.requests)


def most_open(schedule):
    now = most = 0
    for kind, *_ in schedule:
        now += (kind == "arrive") - (kind == "depart")
        most = max(most, now)
    return most


def audited(found, line):
    """What an accepted report says."""
    report, trace = found.command.label("report"), found.command.label("trace")
    lines = wrapped(f"{report} is a report by which {trace} could have come from {found.command.label('program')}" +
                    (f"; the order of it all stands in {found.command.label('schedule')}." if found.command.name == "audit" else "."))
    return lines + summary_of(found) + shared(found, line)


def recorded(found, line):
    """What was recorded."""
    report, trace = found.command.label("report"), found.command.label("trace")
    lines = wrapped(f"{trace} and {report} are of one recording of the {counted(len(found.jobs), 'job')} of "
                    f"{found.command.label('requests')}.")
    return lines + summary_of(found) + workers_advice(found)


def workers_advice(found):
    """Where runs failed, that one request may not see what another one is to change."""
    is_failed = any(found.audit.members[number].fault for number in found.audit.requests)
    workers = found.command.workers()
    if not is_failed or len(found.jobs) < 2 or workers < 2:
        return []
    return wrapped(f"(Up to {workers} jobs are open at once: one that comes behind another in the file may run before that one has changed "
                   "anything. What is to be there from the start stands in the state; without `--workers` they run one after the other.)")


def summary_of(found):
    audit = found.audit
    summary = Summary(found)
    for number in audit.requests:
        run = audit.members[number]
        summary.add(number, run, run.response)
    sizes = {}
    for group in audit.groups:
        sizes[len(group)] = sizes.get(len(group), 0) + 1
    groups = [f"{number:,} with {counted(size, 'member')}" for size, number in sorted(sizes.items())]
    return summary.lines(audit.asked) + (wrapped(f"Groups by size: {listed(groups, MOST_ROWS)}.", "    ") if groups else [])


def shared(found, line):
    """How much of the run was done for several requests at once."""
    evaluated, plain = (int(part.split(" ")[-1]) for part in line.split(", ")[2:])
    told = f"The runs take {counted(plain, 'step')}, of which {evaluated:,} were evaluated"
    if not plain:
        return []
    if evaluated < plain:
        return wrapped(f"{told}: {100 - 100 * evaluated // plain}% were shared, since members of a group did them with the same operands.")
    is_grouped = any(len(group) > 1 for group in found.audit.groups)
    why = "no step of a group has the same operands in several members" if is_grouped else "each group has one member"
    return wrapped(f"{told}: nothing was shared, since {why}.")
