"""Explains `unreadable at N`, of a trace, a report or a schedule, and `trace: not balanced at request R`."""

from layout import counted, cut, is_are, listed, width, wrapped
from record_text import lines_of

from meaning import records
from records import ACTS, COMPARERS, MAGICS, MOST_REQUESTS, OBJECTS, OF_REPORTS, STATEMENTS, Bad, Reader

SORTS = {
    "trace": ["a request", "a response"], "report": ["a count", "a log", "a group"],
    "schedule": ["an arrival", "an operation", "a departure"],
}
NAMED = {
    ("request", "response"): "the record's sort", ("arrive", "act", "depart"): "the record's sort", tuple(OF_REPORTS): "the record's sort",
    tuple(OBJECTS): "the object's sort", tuple(ACTS): "the act's sort", tuple(STATEMENTS): "the table statement's sort",
    tuple(COMPARERS): "the comparer",
}
A_VALUE = "a value is null, false, true, a number, a text or a list (a byte from 0 to 5), of size 65,536 and nesting 16 at most"


class Telling(Reader):
    """A reader that says what is wrong with a record, at the first field that is."""

    def __init__(self, data, at, end):
        super().__init__(data, at, end)
        self.wrong = None

    def say(self, at, what):
        if self.wrong is None:
            self.wrong = at, what

    def take(self, length):
        if self.end - self.at < length:
            self.say(self.at, f"{counted(length, 'byte')} should stand here, and the record has {self.end - self.at} more")
        return super().take(length)

    def bytes(self):
        """A text behind its length."""
        at, part = self.at, None
        length = self.u32()
        if self.end - self.at < length:
            self.say(at, f"a text of {length:,} bytes should stand here, and the record has {self.end - self.at:,} more")
        part = self.take(length)
        return self.data[part : part + length]

    def text(self):
        return self.or_say(super().text, lambda at: f"a text of a request has more than {65_535:,} bytes")

    def named(self, names):
        many = ", ".join(f"{number} {name}" for number, name in enumerate(names, 1))
        what = NAMED.get(tuple(names), "a sort")
        return self.or_say(lambda: Reader.named(self, names), lambda at: f"{what} is the byte {self.data[at]}; it is one of {many}")

    def many(self, part, most=None):
        at = self.at
        try:
            return super().many(part, most)
        except Bad:
            count = int.from_bytes(self.data[at : at + 4], "big")
            self.say(at, f"{count:,} of them should stand here" + (f", and {most:,} may" if most else ""))
            raise

    def value(self, nesting=0):
        return self.or_say(lambda: Reader.value(self, nesting), lambda at: A_VALUE)

    def choice(self):
        return self.or_say(super().choice, lambda at: f"a choice begins with the byte 0 (none) or 1 (a number), and not {self.data[at]}")

    def or_say(self, reads, what):
        at = self.at
        try:
            return reads()
        except Bad:
            if at < len(self.data):
                self.say(at, what(at))
            raise


def places_of(data, kind):
    """Where each record begins, up to the first bad one, and the place of that one."""
    try:
        count, end = len(records.read(data, kind)), None
    except records.Unreadable as place:
        count, end = None, place.args[0]
    places, at = [], 8
    while at < len(data) and at != end:
        places.append(at)
        at += 4 + int.from_bytes(data[at : at + 4], "big")
    return places, end


def unreadable(found, role, at):
    name, data = found.command.label(role), found.data[role]
    if at == 0:
        return no_magic(name, data, role)
    places, _ = places_of(data, role)
    before = records.read(data[:at], role)
    lines = wrapped(f"{name}: record {len(before) + 1}, which begins at byte {at}, can't be read; {sound(len(before))}.")
    lines.append(f"    {hex_of(data[at : at + 24])}")
    lines += wrapped(f"{what_is_wrong(data, at, role, before)}.")
    if before:
        lines += ["The last sound one is:", f"    {cut(lines_of(before[-1])[0], width() - 4)}"]
    return lines + wrapped(hint(data, at, before))


def sound(count):
    return "no record stands before it" if not count else f"the {counted(count, 'record')} before it {is_are(count)} sound"


def hex_of(data):
    return " ".join(f"{byte:02x}" for byte in data) or "(nothing)"


def no_magic(name, data, role):
    magic = next(magic for magic, kind in MAGICS.items() if kind == role)
    lines = wrapped(f"{name} is no {role}: it doesn't begin with the 8 bytes {magic.decode()}, but with")
    lines.append(f"    {hex_of(data[:16])}")
    kind = MAGICS.get(data[:8])
    if kind:
        return lines + wrapped(f"These are those of a {kind}: are the names in their order?")
    if not data:
        return lines + ["It is empty."]
    if data[:1] in b"{[":
        return lines + ["It looks like JSON: are the names in their order?"]
    first = data.split(None, 1)[0] if data.split() else b""
    if first in (b"request", b"response", b"count", b"log", b"group", b"arrive", b"act", b"depart"):
        return lines + wrapped(f"It looks like the text of tools/show: `tools/pack {role} {name} OUT` makes a {role} of it.")
    return lines


def what_is_wrong(data, at, role, before):
    """A sentence on the record at this place."""
    left = len(data) - at
    if left < 4:
        return f"Its length is a field of 4 bytes, and the file ends behind {left}"
    length = int.from_bytes(data[at : at + 4], "big")
    kinds = SORTS[role]
    sort = data[at + 4 : at + 5]
    begins = f"begins as {kinds[sort[0] - 1]}" if sort and 1 <= sort[0] <= len(kinds) else "begins as none of " + listed(kinds, joint="or")
    if left - 4 < length:
        if not sort:
            return f"Its length is {length:,}, and the file ends behind it"
        return f"Its length is {length:,}, and {left - 4:,} bytes follow: the file is cut off, or the length is wrong. It {begins}"
    if not length:
        return "Its length is 0, and each record has a first byte at least"
    count = {kind: sum(record[0] == kind for record in before) for kind in ["request", *OF_REPORTS]}
    reader = Telling(data, at + 4, at + 4 + length)
    try:
        record = getattr(reader, role)(count)
        return (
            f"It is {kinds[sort[0] - 1]}, `{cut(lines_of(record)[0], 60)}`, which takes {reader.at - at - 4} bytes; its length "
            f"says {length}"
        )
    except Bad:
        pass
    place = misplaced(role, sort, count)
    if place:
        return place
    where, what = reader.wrong or (at + 4, "it is spelled as none may be")
    return f"It {begins}. At byte {where}: {what}"


def misplaced(role, sort, count):
    if role == "trace" and sort == b"\x01" and count["request"] == MOST_REQUESTS:
        return f"It is the 65,537th request, and a trace has {MOST_REQUESTS:,} at most"
    if role == "report" and sort in (b"\x01", b"\x02"):
        later = [kind for kind in OF_REPORTS[sort[0] :] if count[kind]]
        if later:
            return f"It is a {OF_REPORTS[sort[0] - 1]} behind a {later[-1]}: first stand all counts, then all logs, then all groups"
    return None


def hint(data, at, before):
    left = len(data) - at
    if left < 4 or left - 4 < int.from_bytes(data[at : at + 4], "big"):
        return (
            "Take the whole file anew, or cut it to its first " + f"{at} bytes, where it is sound (what it then says may be "
            "another matter)."
        )
    return "Make it anew: `tools/show` prints such files as text, from which `tools/pack` makes them."


# ---- balance

def unbalanced(found, number):
    """What is wrong with the records of this request."""
    name, trace = found.command.label("trace"), found.trace
    of_it = [(at, record) for at, record in enumerate(trace, 1) if record[1] == number]
    lines = wrapped(f"{name}: {why_unbalanced(of_it, number)}.")
    lines.append(f"Of the {counted(len(trace), 'record')} {'this is' if len(of_it) == 1 else 'these are'} of request {number}:")
    for at, record in of_it[:6]:
        lines.append(cut(f"    record {at}: {lines_of(record)[0]}"))
    return lines + ([f"    and {len(of_it) - 6} more"] if len(of_it) > 6 else [])


def why_unbalanced(of_it, number):
    came, is_open = False, False
    for at, (kind, *_) in of_it:
        if kind == "request":
            if came:
                return f"record {at} is a second request with the id {number}; each request has an id of its own"
            came = is_open = True
        elif is_open:
            is_open = False
        elif came:
            return f"record {at} answers request {number} a second time"
        elif any(kind == "request" for _, (kind, *_) in of_it):
            return f"record {at} answers request {number} before it came"
        else:
            return f"record {at} is a response, and no request has the id {number}"
    return f"request {number} is never answered; the trace may be cut off, or have been taken before the answer went out"
