"""How explanations look: places of a text with a mark under them, values, short differences, and lines that fit."""

import difflib
import os
import re
import sys
import textwrap

from record_text import text_of, value_of

PLAIN_WIDTH = 100
MOST_LINES = 12
TOKEN = re.compile(
    rb'[A-Za-z_][A-Za-z0-9_]*|[0-9]+|"(?:[^"\\\n]|\\.)*"?|[=!<>]=|[^\x80-\xff]|[\x80-\xff]+', re.DOTALL
)


def width():
    """How many columns a line may have."""
    try:
        return max(40, os.get_terminal_size(sys.stdout.fileno()).columns)
    except (OSError, ValueError):
        return PLAIN_WIDTH


def cut(line, most=None):
    """The line, or its front where it is too long."""
    most = most or width()
    return line if len(line) <= most else line[: most - 3] + "..."


def wrapped(text, indent=""):
    """The lines of a sentence or more."""
    return textwrap.wrap(text, width(), subsequent_indent=indent, break_on_hyphens=False) or [""]


def listed(things, most=8, joint="and"):
    """Some things in a row of words."""
    things = [str(thing) for thing in things]
    if len(things) > most:
        return f"{', '.join(things[:most])} and {len(things) - most} more"
    return things[0] if len(things) == 1 else f"{', '.join(things[:-1])} {joint} {things[-1]}" if things else "none"


def counted(number, one, many=None):
    return f"{number:,} {one if number == 1 else many or one + 's'}"


def is_are(number):
    return "is" if number == 1 else "are"


def nth(number):
    """A number of order, from 1 on."""
    ending = "th" if number % 100 in (11, 12, 13) else {1: "st", 2: "nd", 3: "rd"}.get(number % 10, "th")
    return f"{number:,}{ending}"


def tupled(value):
    """A value as tools/record_text.py has it."""
    members = value if isinstance(value, (list, tuple)) else getattr(value, "members", None)
    return value if members is None else tuple(map(tupled, members))


def shown_value(value, most=60):
    """A value as a program writes it, cut where it is long."""
    if isinstance(value, bytes) and len(value) > most:
        return f"{cut(text_of(value[:most]), most)} (a text of {len(value):,} bytes)"
    text = value_of(tupled(value))
    return text if len(text) <= most else cut(text, most)


def kind_of(value):
    kinds = {type(None): "null", bool: "a boolean", int: "a number", bytes: "a text"}
    return kinds.get(type(value), "a list")


def as_text(content):
    """Bytes as letters that can be printed."""
    return text_of(content)[1:-1].replace('\\"', '"').replace("\\\\", "\\")
STATEMENT = re.compile(rb'(?:(?:if|while|for)\b(?:[^"{]|"(?:[^"\\\n]|\\.)*")*|(?:[^";{]|"(?:[^"\\\n]|\\.)*"|\{[^}]*\})*;?)')
"""The front of an `if`, a `while` or a `for`, or else a statement up to its semicolon, with the braces of a transaction."""


class Text:
    """A text with its file's name, of which places are shown."""

    def __init__(self, name, data):
        self.name, self.data = name, data

    def line_start(self, at):
        return self.data.rfind(b"\n", 0, at) + 1

    def line_of(self, at):
        return self.data.count(b"\n", 0, at) + 1

    def indent(self, at):
        """How many blanks and tabs the line of a place begins with."""
        row = self.line(at)
        return len(row) - len(row.lstrip(b" \t"))

    def at(self, at):
        """FILE:LINE:COLUMN, both from 1, the column in bytes."""
        return f"{self.name}:{self.line_of(at)}:{at - self.line_start(at) + 1}"

    def line(self, at):
        """The bytes of the line in which a place is."""
        end = self.data.find(b"\n", at)
        return self.data[self.line_start(at) : len(self.data) if end < 0 else end].rstrip(b"\r")

    def word(self, at):
        """What stands at a place, up to the end of its word."""
        match = TOKEN.match(self.data, at)
        return match[0] if match else b""

    def marked(self, at, length=1):
        """The line of a place, with a mark under so many bytes."""
        front, row = self.data[self.line_start(at) : at], self.line(at)
        whole = letters(row)
        begin, under = len(letters(front)), max(1, len(letters(self.data[at : at + length].split(b"\n")[0].rstrip(b"\r"))))
        most = width() - 4
        dropped = 0
        if len(whole) > most:
            dropped = max(0, min(begin - most // 2, len(whole) - most + 3))
        text = ("..." if dropped else "") + whole[dropped:]
        begin += (3 if dropped else 0) - dropped
        under = min(under, max(1, most - begin))
        return [f"    {cut(text, most)}", f"    {' ' * begin}{'^' * under}"]

    def shown(self, at, length=None):
        """The place, then its line with the mark under its word."""
        return [f"{self.at(at)}", *self.marked(at, length or len(self.word(at)) or 1)]

    def rest_of_line(self, at, most=60):
        """What stands from a place on in its line."""
        return cut(letters(self.data[at : self.line_start(at) + len(self.line(at))]).strip(), most)

    def statement(self, at, most=60):
        """A statement in one line, without its blocks."""
        end = STATEMENT.match(self.data, at).end()
        return cut(letters(b" ".join(self.data[at:end].split())), most)


def letters(row):
    """A line of a program for the terminal: a letter for each byte or letter that can be printed."""
    text = row.decode("utf-8", "replace") if is_utf8(row) else row.decode("latin-1")
    return "".join(" " if letter == "\t" else letter if letter.isprintable() else "?" for letter in text)


def is_utf8(row):
    try:
        row.decode()
    except UnicodeDecodeError:
        return False
    return True


def response_text(response):
    status, body = response
    return f"{status} {cut(text_of(body), width() - 20)}"


def difference(one, other):
    """Two bodies as a short diff: what was computed with -, what is traced with +."""
    left, right = rows_of(one), rows_of(other)
    lines = [line for line in difflib.unified_diff(left, right, "computed", "traced", n=1, lineterm="") if line[:2] not in ("--", "++")]
    if one != other and left == right:
        lines = [f"-{row}" for row in left] + [f"+{row}" for row in right]
    shown = [cut(close_to_change(line, lines), width() - 4) for line in lines[:MOST_LINES]]
    return [f"    {line}" for line in shown] + ([f"    ({len(lines) - MOST_LINES} lines more)"] if len(lines) > MOST_LINES else [])


def beside(one, other, most):
    """Two texts, each cut to so many columns, from a little before where they differ."""
    same = len(os.path.commonprefix([one, other]))
    begin = same - 20 if max(len(one), len(other)) > most and same > 40 else 0
    return [cut(("..." if begin else "") + text[begin:], most) for text in (one, other)]


def close_to_change(line, lines):
    """A long line from near where it differs from the line against which it stands."""
    against = [other for other in lines if other[:1] in "+-" and other[:1] != line[:1]]
    if line[:1] not in "+-" or len(line) < width() - 4 or len(against) != 1:
        return line
    same = len(os.path.commonprefix([line[1:], against[0][1:]]))
    return f"{line[0]}...{line[1:][max(0, same - 20):]}" if same > 40 else line


def rows_of(body):
    """The lines of a body; one that has no line feed at its end says so."""
    rows = [as_text(row) for row in body.split(b"\n")]
    return rows[:-1] if body.endswith(b"\n") else [*rows[:-1], f"{rows[-1]} (no line feed)" if len(rows) > 1 else rows[-1]]
