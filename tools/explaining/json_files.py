"""The JSON files of docs/formats.md, read for their faults: each has its kind, where it is, and what is wrong."""

import json
import math
import re

from layout import Text, counted, cut, kind_of, listed, nth, wrapped
from states import MOST_NAME, MOST_OPEN, Broken, Pairs, StateFault, json_of

from meaning import List, is_within_limits, nesting_of, size_of

HEX = re.compile("(?:[0-9a-f]{2})*")
MOST_JOBS = 65_536
MOST_TEXT = 65_535
MOST_PARAMETERS = 1_024
MOST_SEAT = 15
JOB = ["path", "method", "params", "body"]
STATE = ["registers", "stores", "tables", "clock"]
CUT = 40
A_VALUE = "a value is null, true, false, a whole number, a text or an array"
PARAMETERS = 'parameters are an array of pairs, as in [["n","1"]]'
PARAMETER = "a parameter is a pair of texts [name, value]"


class JsonFault(Exception):
    """The kind of the first fault that is told, where it is, and what is wrong."""


def sort_of(tree):
    """What a piece of JSON is, in a word or two."""
    if isinstance(tree, Pairs):
        return "an object"
    if isinstance(tree, Broken):
        return f"the number {float(tree)!r} (a whole one of 64 bits is taken, without a point and an exponent)"
    if isinstance(tree, bool) or tree is None:
        return json.dumps(tree)
    kinds = {int: f"the number {tree}" if isinstance(tree, int) else "", str: "a text", list: "an array"}
    return kinds[type(tree)]


def is_array(tree):
    return isinstance(tree, list) and not isinstance(tree, Pairs)


def is_whole(tree):
    return isinstance(tree, int) and not isinstance(tree, bool)


def spelled(tree):
    """A piece as JSON, cut."""
    def plain(part):
        if isinstance(part, Pairs):
            return {name: plain(value) for name, value in part}
        return [plain(inner) for inner in part] if isinstance(part, list) else part

    return cut(json.dumps(plain(tree), ensure_ascii=False), CUT)


class Where:
    """A place in a file, which is spelled only where a fault is."""

    def __init__(self, spell):
        self.spell = spell

    def __str__(self):
        return self.spell()


class Faults:
    """Walks a tree of JSON and gathers the faults."""

    def __init__(self):
        self.found = []

    def note(self, kind, where, what):
        self.found.append((kind, str(where), what))

    def unless(self, holds, kind, where, what):
        if not holds:
            self.note(kind, where, what() if callable(what) else what)
        return holds

    def array(self, tree, where, form="[..]"):
        return self.unless(is_array(tree), 2, where, lambda: f"an array stands here, {form}, and not {sort_of(tree)}")

    def object(self, tree, where):
        return self.unless(isinstance(tree, Pairs), 2, where, lambda: f"an object stands here, {{..}}, and not {sort_of(tree)}")

    def members(self, tree, known, where):
        """The members, of which each is known."""
        for name, part in dict(tree).items():
            if self.unless(name in known, 2, where, lambda: unknown(name, known)):
                yield name, part

    # ---- texts and values

    def text(self, tree, where, what):
        """The bytes of a text, if it is one."""
        if isinstance(tree, str):
            return tree.encode()
        members = dict(tree) if isinstance(tree, Pairs) else {}
        if list(members) == ["hex"] and isinstance(members["hex"], str) and HEX.fullmatch(members["hex"]):
            return bytes.fromhex(members["hex"])
        self.note(2, where, f"{what} is a text, and not {not_a_text(tree)}")
        return None

    def value(self, tree, where):
        value = self.any_value(tree, where)
        if not is_within_limits(value):
            self.note(4, where, f"the value has size {size_of(value):,} and nesting {nesting_of(value)}; at most 65,536 and 16 are allowed")
        return value

    def any_value(self, tree, where):
        if is_array(tree):
            return List(tuple(self.any_value(inner, Where(lambda: f"{where}, member {at}")) for at, inner in enumerate(tree, 1)))
        if isinstance(tree, str) or isinstance(tree, Pairs) and is_hex(tree):
            return self.text(tree, where, "this")
        self.unless(tree is None or isinstance(tree, int), 2, where, lambda: f"{A_VALUE}, and not {not_a_text(tree)}")
        return None if isinstance(tree, Pairs) else tree

    def name(self, name, where, what):
        self.unless(len(name) <= MOST_NAME, 4, where, lambda: f"{what} has {len(name):,} bytes, and at most {MOST_NAME:,} are allowed")

    # ---- a state

    def state(self, tree, program):
        if not self.object(tree, "the whole file"):
            return
        readers = {"registers": self.registers, "stores": self.stores, "tables": self.tables, "clock": self.clock}
        for name, part in self.members(tree, STATE, "the state's own members"):
            readers[name](part, program)

    def registers(self, tree, program):
        self.cells(tree, "register", "`registers`", "the name of a register")

    def stores(self, tree, program):
        for name, cells in dict(tree).items() if self.object(tree, "`stores`") else []:
            where = f"store `{cut(name, CUT)}`"
            self.unless(name.encode() in program.stores, 3, where, lambda: undeclared("store", name, program.stores))
            self.cells(cells, "key", where, f"a key of store `{cut(name, CUT)}`")

    def cells(self, tree, noun, where, what):
        first = {}
        form = '[["name", value], ..]' if noun == "register" else '[["key", value], ..]'
        for at, pair in enumerate(tree, 1) if self.array(tree, where, form) else []:
            here = Where(lambda: f"{where}, the {nth(at)} entry `{spelled(pair)}`")
            if not self.array(pair, here) or not self.unless(len(pair) == 2, 2, here, lambda: wrong_pair(pair)):
                continue
            self.value(pair[1], here)
            name = self.text(pair[0], here, what)
            if name is not None:
                self.name(name, here, what)
                self.unless(name not in first, 5, here, lambda: f"this {noun} is given twice: the {nth(first[name])} entry has it already")
                first.setdefault(name, at)

    def tables(self, tree, program):
        for name, rows in dict(tree).items() if self.object(tree, "`tables`") else []:
            where = f"table `{cut(name, CUT)}`"
            declared = self.unless(name.encode() in program.tables, 3, where, lambda: undeclared("table", name, list(program.tables)))
            self.rows(rows, where, program.tables[name.encode()] if declared else None)

    def rows(self, tree, where, columns):
        first = {}
        columns_of = [column.decode() for column in columns or []] or [".."]
        form = f"[{', '.join(columns_of)}] with a value for each column"
        for at, row in enumerate(tree, 1) if self.array(tree, where, f"[{form}, ..]") else []:
            here = Where(lambda: f"{where}, the {nth(at)} row `{spelled(row)}`")
            if not self.array(row, here, form):
                continue
            values = [self.value(part, here) for part in row]
            if columns is not None:
                self.row(values, here, columns, first, at)

    def row(self, values, here, columns, first, at):
        self.unless(len(values) == len(columns), 5, here, lambda: wrong_width(values, columns))
        if values and not isinstance(values[0], bytes):
            self.note(5, here, f"the first column, `{columns[0].decode()}`, is the key, which is a text and not "
                               f"{kind_of(values[0])}: put quotes round it")
        elif values:
            self.name(values[0], here, "the key")
            self.unless(values[0] not in first, 5, here, lambda: f"this key is given twice: the {nth(first[values[0]])} row has it already")
            first.setdefault(values[0], at)

    def clock(self, tree, program):
        if self.unless(is_whole(tree), 2, "`clock`", lambda: f"the clock is a whole number, and not {sort_of(tree)}"):
            self.unless(tree >= 0, 4, "`clock`", "the clock isn't below 0")

    # ---- jobs and turns

    def jobs(self, tree):
        jobs = []
        if not self.array(tree, "the whole file"):
            return jobs
        self.unless(len(tree) <= MOST_JOBS, 4, "the whole file", f"there are {len(tree):,} jobs, and at most {MOST_JOBS:,} are allowed")
        for number, job in enumerate(tree):
            jobs.append(self.job(job, Where(lambda: f"job {number} (the {nth(number + 1)}) `{spelled(job)}`")))
        return jobs

    def job(self, tree, where):
        job = {"method": b"GET", "path": b"", "params": [], "body": b""}
        if not self.object(tree, where):
            return job
        self.unless("path" in dict(tree), 2, where, 'it has no member `path`: each job has one, as in {"path":"/hit"}')
        for name, part in self.members(tree, JOB, where):
            here = Where(lambda: f"{where}, `{name}`")
            job[name] = self.params(part, here) if name == "params" else self.limited(part, here, f"the {name}")
        return job

    def limited(self, tree, where, what):
        text = self.text(tree, where, what)
        too_many = lambda: f"{what} has {len(text):,} bytes, and at most {MOST_TEXT:,} are allowed"
        self.unless(text is None or len(text) <= MOST_TEXT, 4, where, too_many)
        return text

    def params(self, tree, where):
        pairs = []
        if not self.unless(is_array(tree), 2, where, lambda: f"{PARAMETERS}, and not {sort_of(tree)}"):
            return pairs
        self.unless(len(tree) <= MOST_PARAMETERS, 4, where, f"it has {len(tree):,} parameters, and at most {MOST_PARAMETERS:,} are allowed")
        for at, pair in enumerate(tree, 1):
            here = Where(lambda: f"{where}, the {nth(at)} parameter")
            if self.unless(is_array(pair) and len(pair) == 2, 2, here, lambda: f"{PARAMETER}, and not `{spelled(pair)}`"):
                pairs.append((self.limited(pair[0], here, "the name"), self.limited(pair[1], here, "the value")))
        return pairs

    def turns(self, tree):
        turns = []
        for at, turn in enumerate(tree, 1) if self.array(tree, "the whole file") else []:
            where = Where(lambda: f"the {nth(at)} turn")
            if self.unless(is_whole(turn), 2, where, lambda: f"a turn is a whole number, and not {sort_of(turn)}"):
                self.unless(0 <= turn <= MOST_SEAT, 4, where, lambda: f"a turn is a seat from 0 to {MOST_SEAT}, and not {turn}")
                turns.append(turn)
        return turns


def wrong_pair(pair):
    return f"an entry is a pair [name, value], and this one has {counted(len(pair), 'member')}"


def wrong_width(values, columns):
    names = ", ".join(column.decode() for column in columns)
    return f"a row has one value for each of {counted(len(columns), 'column')} ({names}), and this one has {len(values)}"


def is_hex(tree):
    return list(dict(tree)) == ["hex"] and isinstance(dict(tree)["hex"], str) and bool(HEX.fullmatch(dict(tree)["hex"]))


def not_a_text(tree):
    if isinstance(tree, Pairs) and "hex" in dict(tree):
        return f"`{spelled(tree)}`: behind `hex` stand pairs of the digits 0 to 9 and a to f, in small letters"
    return sort_of(tree) + (", so put quotes round it" if is_whole(tree) else "")


def unknown(name, known):
    more = "; parameters stand under `params`" if name in ("parameters", "query", "param") and "params" in known else ""
    return f"there is no member `{cut(name, CUT)}`, but {listed([f'`{one}`' for one in known], joint='or')}{more}"


def undeclared(noun, name, there):
    has = f"but {listed([f'`{one.decode()}`' for one in there])}" if there else f"and no {noun} at all"
    return (
        f"the program declares no {noun} `{cut(name, CUT)}`, {has}; a line `{noun} "
        f"{cut(name, CUT)}{' (..)' if noun == 'table' else ''};` in it would"
    )


# ---- no JSON at all

def broken_json(name, data):
    """Why a file is no JSON text, with the place where it is known."""
    at, length, why = why_broken(data)
    place = [] if at is None else Text(name, data).shown(at, length)
    return place + wrapped(why)


def why_broken(data):
    """Where a text stops being JSON, if that is one place, how long it is, and a sentence on it."""
    if not data.strip():
        return None, 0, f"The file is empty; write {LEAST_FILE}, where there is nothing to say."
    try:
        letters = data.decode()
        json.loads(letters, parse_constant=refused, parse_int=str)
    except UnicodeDecodeError as fault:
        return fault.start, 1, f"Byte {fault.start} isn't of UTF-8, in which JSON is written."
    except json.JSONDecodeError as fault:
        return where_broken(data, letters, fault)
    except RecursionError:
        return None, 0, TOO_DEEP
    except ValueError as fault:
        return None, 0, f"`{fault}` is no JSON: there is no such number."
    return broken_literal(letters)


def where_broken(data, letters, fault):
    what = MESSAGES.get(fault.msg, fault.msg[0].lower() + fault.msg[1:])
    if fault.pos >= len(letters.rstrip()):
        return max(0, len(data.rstrip()) - 1), 1, f"The file ends too early, behind this: a bracket or a quote isn't closed ({what})."
    return len(letters[: fault.pos].encode()), 1, f"No JSON goes on here: {what}.{advice_at(letters, fault)}"


def broken_literal(letters):
    """A text or a number that `serde_json` doesn't take."""
    for match in LITERAL.finditer(letters):
        at, length = len(letters[: match.start()].encode()), len(match[0].encode())
        if match[0][0] == '"' and has_half_pair(match[0]):
            return at, length, "This text has half of a pair of \\ud800 to \\udfff, which stands for no letter."
        if match[0][0] != '"' and math.isinf(float(match[0])):
            return at, length, "This number is too great for a double."
    return None, 0, TOO_DEEP


LITERAL = re.compile(r'"(?:[^"\\]|\\.)*"|-?\d+(?:\.\d+)?(?:[eE][+-]?\d+)?')
TOO_DEEP = f"More than {MOST_OPEN} arrays and objects stand inside each other."
LEAST_FILE = "`{}` for a state, `[]` for requests or turns"
MESSAGES = {
    "Expecting value": "a value is missing before it, or it is spelled as none may be",
    "Extra data": "the text is at its end before it, and one value stands in a file",
    "Expecting property name enclosed in double quotes": "the name of a member is missing, in double quotes",
    "Expecting ',' delimiter": "a comma or a closing bracket is missing", "Expecting ':' delimiter": "a colon is missing",
}


def refused(name):
    raise ValueError(name)


def has_half_pair(literal):
    try:
        return any("\ud800" <= letter <= "\udfff" for letter in json.loads(literal, strict=False))
    except ValueError:
        return False


def advice_at(letters, fault):
    here, before = letters[fault.pos : fault.pos + 1], letters[: fault.pos].rstrip()[-1:]
    if here in "]}" and before == ",":
        return " The comma before it is one too many."
    if here == "'":
        return ' Texts stand between double quotes ".".'
    if "property name" in fault.msg and before == ",":
        return " The comma before it is one too many."
    if "delimiter" in fault.msg:
        return ""
    if "control character" in fault.msg:
        return " A line feed in a text is written \\n, a tab \\t."
    if here == "/" or here == "#":
        return " JSON has no comments."
    return " Members' names stand between double quotes." if "property name" in fault.msg else ""


# ---- what the commands take of these files

def least(faults):
    """Raises the fault that is told, if there is one."""
    if faults.found:
        raise JsonFault(*min(faults.found, key=lambda fault: fault[0]))


def read_jobs(data):
    """The jobs: method, path, parameters and body of each."""
    faults = Faults()
    jobs = faults.jobs(tree_of(data))
    least(faults)
    return [(job["method"], job["path"], job["params"], job["body"]) for job in jobs]


def read_turns(data):
    faults = Faults()
    turns = faults.turns(tree_of(data))
    least(faults)
    return turns


def state_faults(data, program):
    """The faults of a state of this program."""
    faults = Faults()
    faults.state(tree_of(data), program)
    return faults.found


def tree_of(data):
    try:
        return json_of(data)
    except StateFault:
        raise JsonFault(1, "the whole file", "it is no JSON") from None
