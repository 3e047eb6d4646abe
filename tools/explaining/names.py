"""Explains `program: check K at N`: what the name or thing is called, what there is in its place, and how to mend it."""

import difflib

from layout import Text, counted, is_are, letters, listed, wrapped
from runs import Outline

from rules import BUILT_INS, OF_STORES, Checker, Parser, content

FORMS = {
    "len": "len(v)", "str": "str(v)", "escape": "escape(t)", "num": "num(t)", "slice": "slice(x, a, b)", "append": "append(l, v)",
    "kind": "kind(v)", "param": "param(t)", "method": "method()", "path": "path()", "body": "body()", "read": "read(n)",
    "write": "write(n, v)", "get": "get(s, k)", "put": "put(s, k, v)", "remove": "remove(s, k)", "clock": "clock()", "random": "random(n)",
}
OTHERS = {
    "True": "true", "False": "false", "None": "null", "nil": "null", "undefined": "null", "NULL": "null", "TRUE": "true", "FALSE": "false",
    "length": "len", "strlen": "len", "count": "len", "size": "len", "int": "num", "parseInt": "num", "atoi": "num", "number": "num",
    "string": "str", "String": "str", "tostring": "str", "toString": "str", "push": "append", "substr": "slice", "substring": "slice",
    "typeof": "kind", "type": "kind", "rand": "random", "now": "clock", "time": "clock", "html": "escape", "htmlspecialchars": "escape",
    "query": "param", "arg": "param", "request": "param", "delete": "remove", "set": "put", "print": "echo", "load": "read",
    "store": "write",
}


def form_of(name):
    """How a built-in function is called."""
    return FORMS.get(name, f"{name}(..)")


class Telling(Checker):
    """A checker that notes which names were known where, where each was declared, and each call."""

    def __init__(self, program):
        self.known_at, self.declared_at, self.calls, self.inserts, self.columns_of = {}, {}, {}, {}, {}
        self.knows = set()
        super().__init__(program)

    def unless(self, holds, at, kind):
        if not holds:
            self.known_at.setdefault(at, set(self.knows))
        super().unless(holds, at, kind)

    def declare(self, names, known):
        for name, at in names:
            self.declared_at.setdefault(name, []).append(at)
        return super().declare(names, known)

    def expression(self, tree, known):
        self.knows = known
        super().expression(tree, known)
        self.knows = known

    def call(self, at, name, arguments, known):
        self.calls[at] = name, len(arguments)
        if arguments:
            self.calls.setdefault(arguments[0][1], (name, None))
        super().call(at, name, arguments, known)

    def part(self, table, columns, sets, values, count, known):
        self.knows = known
        self.inserts[table[1]] = count
        for _, place in columns + sets:
            self.columns_of[place] = table[0]
        super().part(table, columns, sets, values, count, known)


class Faulty:
    """The fault of a check that is told."""

    def __init__(self, name, data, at):
        self.text, self.at = Text(name, data), at
        parser = Parser(data)
        self.program = parser.program()
        self.tokens = parser.tokens
        self.checker = Telling(self.program)
        self.outline = Outline(self.text)
        self.here = next(number for number, token in enumerate(self.tokens) if token[2] == at)
        self.word = self.text.word(at)
        self.name = letters(self.word)

    def before(self, offset=1):
        at = self.here - offset
        return self.text.word(self.tokens[at][2]) if 0 <= at else b""

    def after(self):
        return self.text.word(self.tokens[self.here + 1][2]) if self.here + 1 < len(self.tokens) else b""

    def declaration(self):
        """The declaration in which the place is, and where it begins."""
        found = None
        for declaration in self.program:
            if declaration[1][1] <= self.at:
                found = declaration
        return found


def explain(found, kind, at):
    faulty = Faulty(found.command.label("program"), found.data["program"], at)
    explainers = {1: unknown_name, 2: declared_twice, 3: wrong_number, 4: unknown_thing, 5: key_column, 6: page_twice}
    lines = faulty.text.shown(at)
    for part in explainers[kind](faulty):
        lines += wrapped(part) if isinstance(part, str) else part
    others = len(set(faulty.checker.faults)) - 1
    if others:
        lines.append(f"({counted(others, 'other fault')} of this sort {'comes' if others == 1 else 'come'} behind it.)")
    return lines


def close_to(name, names):
    """Those names that are much like this one."""
    found = difflib.get_close_matches(name, names, 2, 0.7)
    return f" Is {listed([f'`{one}`' for one in found], joint='or')} meant?" if found else ""


def texts(names):
    return [letters(name) for name in names]


def all_of(noun, names, none):
    """What there is of a sort."""
    return f"{noun} {listed([f'`{name}`' for name in sorted(names)])}" if names else none


def place_of(faulty, at):
    return f"{faulty.text.at(at)} `{faulty.text.rest_of_line(faulty.text.line_start(at))}`"


# ---- kind 1

def unknown_name(faulty):
    if faulty.after() == b"(" and faulty.before() not in (b"set", b"let"):
        return unknown_function(faulty)
    known = texts(faulty.checker.known_at.get(faulty.at, ()))
    there = f"; known {is_are(len(known))} {listed([f'`{name}`' for name in sorted(known)])}" if known else ", nor any other"
    told = f"No variable `{faulty.name}` is known here, in {faulty.outline.owner(faulty.at)}{there}.{close_to(faulty.name, known)}"
    return [told, *why_unknown(faulty)]


def why_unknown(faulty):
    """Where the name is declared, if somewhere, or what it is instead."""
    name = faulty.word
    if faulty.name in OTHERS and OTHERS[faulty.name] in ("true", "false", "null"):
        return [f"It is written `{OTHERS[faulty.name]}` here."]
    inside = column_of(faulty)
    if inside:
        return [inside]
    if faulty.before() == b"(" and faulty.before(2) in (b"param", b"read", b"write"):
        call = letters(faulty.before(2))
        return [f"`{call}` takes a name as a text, in quotes: `{call}(\"{faulty.name}\"{', ..' if call == 'write' else ''})`."]
    if faulty.before() == b"set" and (name in faulty.checker.stores or name in faulty.checker.tables):
        return set_thing(faulty)
    if faulty.before() == b"set":
        places = faulty.checker.declared_at.get(name, [])
        own = [f"`set` changes a variable that there is; where `{faulty.name}` begins write `let {faulty.name} = ..;`."]
        return own + (elsewhere(faulty, places) if places else [])
    places = faulty.checker.declared_at.get(name, [])
    if places:
        return elsewhere(faulty, places)
    if name in faulty.checker.functions or name in BUILT_INS:
        return [f"`{faulty.name}` is a function, and no value: a call has brackets, `{form_of(faulty.name)}`."]
    if name in faulty.checker.stores:
        return [f"`{faulty.name}` is a store, and no value: `get({faulty.name}, key)` reads a cell of it."]
    if name in faulty.checker.tables:
        return [f"`{faulty.name}` is a table, and no value: `transact {{ select .. from {faulty.name}; }}` reads its rows."]
    return [f"Write `let {faulty.name} = ..;` before it, in this block or one round it; or quotes, if the text \"{faulty.name}\" is meant; "
            f"or `param(\"{faulty.name}\")`, if a parameter of the request is."]


def set_thing(faulty):
    """A store or a table that is set as if it were a variable."""
    if faulty.word in faulty.checker.stores:
        return [f"`{faulty.name}` is a store, and no variable: `do put({faulty.name}, key, value);` sets a cell of it."]
    return [f"`{faulty.name}` is a table, and no variable: its rows change in a transaction, `do transact {{ update {faulty.name} set c = 1 "
            "where ..; };`."]


def elsewhere(faulty, places):
    """A name that is declared at another place, where it isn't known here."""
    begins = faulty.declaration()[1][1]
    ends = min([declaration[1][1] for declaration in faulty.program if declaration[1][1] > faulty.at], default=len(faulty.text.data))
    inside = [at for at in places if begins <= at < ends]
    if not inside:
        owners = sorted({faulty.outline.owner(at) for at in places})
        return [f"It is declared in {listed(owners)}: a variable is known in its own page or function alone. A function gets it as "
                "an argument; from one request to another a register or a store keeps it."]
    at = max([at for at in inside if at < faulty.at], default=min(inside))
    if at > faulty.at:
        why = "It is declared later"
    elif is_own_let(faulty, at):
        why = "It isn't known in its own `let`, before that is at its end: there stands a first value, as 0, or what `read` gives"
    else:
        why = "It is declared in a block that is over: put its `let` before that block, and `set` it inside"
    return [f"{why}.", [f"    {place_of(faulty, at)}"]]


def is_own_let(faulty, at):
    number = next(number for number, token in enumerate(faulty.tokens) if token[2] == at)
    return all(token[1] != b";" for token in faulty.tokens[number : faulty.here])


def column_of(faulty):
    """A column's name on the right side of a test or a change, where no column is read."""
    if faulty.before() in (b"==", b"!=", b"<", b"<=", b">", b">=", b"=", b"+", b"-", b"*"):
        for place, table in faulty.checker.columns_of.items():
            columns = [name for name, _ in faulty.checker.tables.get(table) or []]
            if place < faulty.at and faulty.word in columns and b";" not in faulty.text.data[place : faulty.at]:
                return read_first(letters(table), faulty.name)
    return None


def read_first(table, name):
    return (
        f"It is a column of `{table}`, and on the right side no column is read: what stands there is computed once, before any row is "
        f"looked at. Read it first: `let {name} = transact {{ select {name} from {table} where ..; }}[0][0][0];`. Then `{name}` on the "
        f"right is this variable, and with the test `where .. and {name} == {name}` nothing is changed where another request was faster "
        "(docs/language.md, \"Tables and transactions\")."
    )


def unknown_function(faulty):
    functions = texts(faulty.checker.functions)
    other = OTHERS.get(faulty.name)
    told = [f"No function `{faulty.name}` is declared, and none is built in.{close_to(faulty.name, functions + texts(BUILT_INS))}"]
    if other in FORMS:
        told.append(f"For this there is `{FORMS[other]}`.")
    elif other == "echo":
        told.append("To add a text to the answer write the statement `echo ..;`.")
    if faulty.name in ("isset", "empty", "defined", "exists"):
        told.append("Whether there is a value tells `x == null`, or `x != null`.")
    if faulty.name in ("header", "redirect", "cookie", "session"):
        told.append("A page sees and makes no headers and cookies: it makes a status and a body.")
    told.append(f"{all_of('Declared are', functions, 'The program declares no function')}; built in are {', '.join(FORMS.values())}.")
    return told


# ---- kind 2

def declared_twice(faulty):
    declaration, name = faulty.declaration(), faulty.word
    word = declaration[0]
    if declaration[1][1] == faulty.at:
        if word == b"function" and name in BUILT_INS:
            return [f"`{faulty.name}` is built in, `{form_of(faulty.name)}`: a function takes another name."]
        first = next(one for one in faulty.program if one[0] == word and one[1][0] == name)
        told = f"A {word.decode()} `{faulty.name}` is declared already: take another name, or take one of the two away."
        return [told, [f"    {place_of(faulty, first[1][1])}"]]
    places = [at for at in faulty.checker.declared_at.get(name, []) if declaration[1][1] <= at < faulty.at]
    told = [[f"    {place_of(faulty, places[-1])}"]] if places else []
    if word == b"table":
        return [f"Table `{letters(declaration[1][0])}` has a column `{faulty.name}` already: take another name."]
    if word == b"function" and any(at == faulty.at for _, at in declaration[2]):
        return [f"Function `{letters(declaration[1][0])}` has a parameter `{faulty.name}` already: take another name."]
    if faulty.before() == b"for":
        return [f"A variable `{faulty.name}` is known here already: the `for` takes another name.", *told]
    return [f"A variable `{faulty.name}` is known here already (nothing is hidden by a second `let`): write `set {faulty.name} = "
            "..;`, or take another name.", *told]


# ---- kind 3

def wrong_number(faulty):
    name = faulty.word
    if faulty.at in faulty.checker.inserts:
        columns = [column for column, _ in faulty.checker.tables[name]]
        count = faulty.checker.inserts[faulty.at]
        return [f"Table `{faulty.name}` has {counted(len(columns), 'column')}, "
                f"{listed([f'`{letters(column)}`' for column in columns])}, and this `insert` gives "
                f"{counted(count, 'value')}: give one for each column, in their order (`null` where there is nothing to say)."]
    _, count = faulty.checker.calls[faulty.at]
    if name in BUILT_INS:
        store = ", of which the first is a store's name" if name in OF_STORES else ""
        return [f"`{form_of(faulty.name)}` takes {counted(BUILT_INS[name], 'argument')}{store}, and this call gives "
                f"{count}.{more_on(faulty.name)}"]
    parameters = [parameter for parameter, _ in faulty.checker.functions[name]]
    where = next(one[1][1] for one in faulty.program if one[0] == b"function" and one[1][0] == name)
    takes = f"{counted(len(parameters), 'argument')}" + (f" ({', '.join(texts(parameters))})" if parameters else "")
    return [f"Function `{faulty.name}` takes {takes}, and this call gives {count}:", [f"    {place_of(faulty, where)}"]]


def more_on(name):
    return {
        "param": " A parameter that isn't there is null: for another value write an `if`.",
        "slice": " For the rest of x write `slice(x, a, len(x))`.", "random": " It gives a number from 0 to n-1.",
        "append": " For several values write `l + [a, b]`.",
    }.get(name, "")


# ---- kind 4

def unknown_thing(faulty):
    checker = faulty.checker
    if faulty.at in checker.columns_of:
        table = checker.columns_of[faulty.at]
        columns = texts(name for name, _ in checker.tables[table])
        return [f"Table `{letters(table)}` has no column `{faulty.name}`.{close_to(faulty.name, columns)} It has "
                f"{listed([f'`{name}`' for name in columns])}."]
    if faulty.at in checker.inserts:
        tables = texts(checker.tables)
        return [f"No table `{faulty.name}` is declared.{close_to(faulty.name, tables)} "
                f"{all_of('Declared are', tables, 'The program declares no table')}.",
                f"A line `table {faulty.name} (KEY, ..);` anywhere in the file declares it."]
    stores = texts(checker.stores)
    call = letters(checker.calls[faulty.at][0]) if faulty.at in checker.calls else "get"
    if faulty.word[:1] == b'"' and content(faulty.word) in checker.stores:
        name = letters(content(faulty.word))
        return [f"The first argument of `{call}` is the bare name of a store: write `{name}`, without quotes."]
    shown = faulty.name if faulty.word[:1] == b'"' else f"`{faulty.name}`"
    told = f"The first argument of `{call}` is the bare name of a store, and no store {shown} is declared."
    bare = letters(content(faulty.word)) if faulty.word[:1] == b'"' else faulty.name
    is_name = bare.isidentifier() and bare.isascii()
    unquoted = f", and then `{bare}` stands here without quotes" if bare != faulty.name else ""
    more = [f"A line `store {bare};` anywhere in the file declares it{unquoted}."] if is_name else []
    if faulty.word in checker.tables:
        more = [f"`{faulty.name}` is a table: its rows are read and changed in a `transact`."]
    return [f"{told}{close_to(bare, stores)} {all_of('Declared are', stores, 'The program declares no store')}.", *more]


# ---- kinds 5 and 6

def key_column(faulty):
    table = letters(faulty.checker.columns_of[faulty.at])
    return [f"`{faulty.name}` is the first column of table `{table}`, which is its key, and a key isn't changed by an `update`.",
            "Take the row away and put another in its place, in one transaction: `transact "
            f"{{ delete {table} where {faulty.name} == ..; insert {table} (..); }}`."]


def page_twice(faulty):
    path = content(faulty.word)
    first = next(one for one in faulty.program if one[0] == b"page" and one[1][0] == path)
    return ["A page of this path is there already, and a path has one page, for all methods: make one of the two, where `method()` "
            "tells which it was; or another path.",
            [f"    {place_of(faulty, first[1][1])}"]]
