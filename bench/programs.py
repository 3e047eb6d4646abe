"""Programs that `bench/check` makes and the scripts of bench/ that run files at random. All but those of `Careless` are valid."""

import random

BUILT_INS = [
    ("len", 1), ("str", 1), ("escape", 1), ("num", 1), ("slice", 3), ("append", 2), ("kind", 1), ("param", 1),
    ("method", 0), ("path", 0), ("body", 0), ("read", 1), ("write", 2), ("clock", 0), ("random", 1),
]
OF_STORES = [("get", 1), ("put", 2), ("remove", 1)]
WORDS = ["user", "order", "total", "page", "name", "list", "row", "count", "price", "date", "mail", "note"]
COLUMNS = ["id", "title", "owner", "amount", "state"]
COMPARERS = ["==", "!=", "<", "<=", ">", ">="]
CONTENTS = [
    "", "a", "hits", "<li>", "</li>", "Hello, ", "no such page", "<a href=\\\"/list\\\">back</a>", "line\\n", "\\ttab",
    "C:\\\\temp", "\\x00\\xfF", "caf\u00e9", "a longer text that a page might show to the people who read it",
]


class Maker:
    """Makes a module of a program: a store, a table, functions and pages, with `@` for its number."""

    def __init__(self, seed):
        self.random = random.Random(seed)
        self.functions = []
        self.known = []
        self.made = 0

    def chance(self, percent):
        return self.random.randrange(100) < percent

    def pick(self, things):
        return self.random.choice(things)

    def new_name(self):
        self.made += 1
        return f"{self.pick(WORDS)}_{self.made}"

    # ---- expressions

    def text(self):
        return f'"{self.pick(CONTENTS)}"'

    def number(self):
        return str(self.pick([0, 1, 2, 10, 60, 255, 1000, 65535, 9223372036854775807]))

    def literal(self):
        return self.pick([self.text, self.number, lambda: self.pick(["true", "false", "null"])])()

    def variable(self):
        return self.pick(self.known) if self.known else self.literal()

    def expressions(self, count, depth):
        return ", ".join(self.expression(depth) for _ in range(count))

    def call(self, depth):
        if self.functions and self.chance(40):
            name, count = self.pick(self.functions)
            return f"{name}({self.expressions(count, depth)})"
        if self.chance(30):
            name, count = self.pick(OF_STORES)
            return f"{name}(store_@, {self.expressions(count, depth)})"
        name, count = self.pick(BUILT_INS)
        return f"{name}({self.expressions(count, depth)})"

    def atom(self, depth):
        if depth <= 0 or self.chance(55):
            return self.variable() if self.chance(65) else self.literal()
        return self.pick([
            lambda: self.call(depth - 1),
            lambda: self.call(depth - 1),
            lambda: f"({self.expression(depth - 1)})",
            lambda: f"[{self.expressions(self.random.randrange(4), depth - 1)}]",
        ])()

    def indexed(self, depth):
        return self.atom(depth) + (f"[{self.sum(depth - 1)}]" if depth > 0 and self.chance(8) else "")

    def prefixed(self, depth):
        return (self.pick(["not ", "-"]) if self.chance(5) else "") + self.indexed(depth)

    def row(self, part, signs, percent, depth):
        parts = [part(depth)]
        while self.chance(percent) and len(parts) < 6:
            parts += [self.pick(signs), part(depth)]
        return " ".join(parts)

    def term(self, depth):
        return self.row(self.prefixed, ["*", "/", "%"], 6, depth)

    def sum(self, depth):
        return self.row(self.term, ["+", "+", "-"], 20, depth)

    def comparison(self, depth):
        return self.sum(depth) + (f" {self.pick(COMPARERS)} {self.sum(depth)}" if self.chance(15) else "")

    def conjunction(self, depth):
        return self.row(self.comparison, ["and"], 4, depth)

    def expression(self, depth=2):
        return self.row(self.conjunction, ["or"], 3, depth)

    # ---- transactions

    def where(self):
        if self.chance(30):
            return ""
        tests = [f"{self.pick(COLUMNS)} {self.pick(COMPARERS)} {self.sum(1)}" for _ in range(self.random.randint(1, 2))]
        return " where " + " and ".join(tests)

    def part(self):
        return self.pick([
            lambda: f"insert table_@ ({self.expressions(len(COLUMNS), 1)});",
            lambda: f"select {', '.join(self.random.sample(COLUMNS, 2))} from table_@{self.where()};",
            lambda: f"update table_@ set {self.pick(COLUMNS[1:])} = {self.expression(1)}{self.where()};",
            lambda: f"delete table_@{self.where()};",
            lambda: f"expect {self.expression(1)} from table_@{self.where()};",
        ])()

    def transact(self):
        return f"transact {{ {' '.join(self.part() for _ in range(self.random.randint(1, 3)))} }}"

    # ---- statements

    def value(self):
        return self.transact() if self.chance(8) else self.expression()

    def block(self, indent, nesting, first=None):
        """The statements of a block, in which a name may be known from the start."""
        outer = list(self.known)
        self.known += [first] if first else []
        lines = [self.statement(indent + "  ", nesting) for _ in range(self.random.randint(1, 4))]
        self.known = outer
        return "{\n" + "".join(lines) + indent + "}"

    def branch(self, indent, nesting):
        test = self.expression(1)
        other = f" else {self.block(indent, nesting)}" if self.chance(40) else ""
        return f"if {test} {self.block(indent, nesting)}{other}"

    def turns(self, indent, nesting):
        name, of = self.new_name(), self.expression(1)
        return f"for {name} in {of} {self.block(indent, nesting, name)}"

    def let(self):
        name, value = self.new_name(), self.value()
        self.known.append(name)
        return f"let {name} = {value};"

    def statement(self, indent, nesting):
        if nesting > 0 and self.chance(20):
            body = self.pick([
                self.branch,
                self.branch,
                self.turns,
                lambda indent, nesting: f"while {self.expression(1)} {self.block(indent, nesting)}",
            ])(indent, nesting - 1)
        else:
            body = self.pick([
                self.let,
                self.let,
                lambda: f"set {self.pick(self.known)} = {self.value()};" if self.known else self.let(),
                lambda: f"echo {self.expression()};",
                lambda: f"echo {self.text()} + {self.expression(1)};",
                lambda: f"do {self.value()};",
                lambda: f"status {self.expression(0)};",
                lambda: f"return {self.expression()};",
            ])()
        comment = f"{indent}# {' '.join(self.pick(WORDS) for _ in range(6))}\n" if self.chance(8) else ""
        return f"{comment}{indent}{body}\n"

    # ---- declarations

    def function(self, number):
        names = [self.new_name() for _ in range(self.random.randint(0, 3))]
        self.known = list(names)
        body = self.block("", 2)
        self.functions.append((f"function_{number}_@", len(names)))
        return f"function function_{number}_@({', '.join(names)}) {body}\n"

    def page(self, number):
        self.known = []
        return f'page "/{self.pick(WORDS)}/{number}/@" {self.block("", 3)}\n'

    def module(self):
        """The text, and how many pages and functions it has beside one store and one table."""
        functions, pages = self.random.randint(1, 3), self.random.randint(2, 4)
        parts = [f"# Module @.\nstore store_@;\ntable table_@ ({', '.join(COLUMNS)});\n"]
        parts += [self.function(number) for number in range(functions)]
        parts += [self.page(number) for number in range(pages)]
        return "\n".join(parts) + "\n", pages, functions


class Careless(Maker):
    """Makes whole programs, in which a name, a count or a path is wrong now and then, so often of 100 times."""

    def __init__(self, seed, percent):
        super().__init__(seed)
        self.percent = percent
        self.functions = [(f"f{number}", self.random.randint(0, 3)) for number in range(3)]
        self.stores = ["s0", "s1"]
        self.tables = {"t0": ["k"], "t1": ["k", "v", "w"]}

    def slips(self):
        return self.chance(self.percent)

    def any_name(self):
        return self.pick(["a", "b", "c", "d", "e", "f0", "f1", "s0", "t0", "k", "v", "len", "get", "none"])

    def new_name(self):
        free = [name for name in ["a", "b", "c", "d", "e", "f0", "s0", "t0", "len"] if name not in self.known]
        return self.any_name() if self.slips() or not free else self.pick(free)

    def variable(self):
        return self.any_name() if self.slips() else super().variable()

    def call(self, depth):
        name, count = self.pick(self.functions + BUILT_INS + [(name, count + 1) for name, count in OF_STORES])
        count += self.random.randint(-1, 1) if self.slips() else 0
        arguments = [self.expression(depth) for _ in range(count)]
        if name in dict(OF_STORES) and arguments and not self.slips():
            arguments[0] = self.pick(self.stores)
        return f"{self.any_name() if self.slips() else name}({', '.join(arguments)})"

    def column(self, table, others=()):
        return self.any_name() if self.slips() or not table else self.pick(table[1:] or table if others else table)

    def tests(self, table):
        if self.chance(40):
            return ""
        tests = [f"{self.column(table)} {self.pick(COMPARERS)} {self.sum(1)}" for _ in range(self.random.randint(1, 2))]
        return " where " + " and ".join(tests)

    def part(self):
        name = self.any_name() if self.slips() else self.pick(["t0", "t1"])
        table = self.tables.get(name, [])
        count = max(1, len(table) + (self.random.randint(-1, 1) if self.slips() else 0))
        return self.pick([
            lambda: f"insert {name} ({self.expressions(count, 1)});",
            lambda: f"select {self.column(table)}, {self.column(table)} from {name}{self.tests(table)};",
            lambda: f"update {name} set {self.column(table, True)} = {self.expression(1)}{self.tests(table)};",
            lambda: f"delete {name}{self.tests(table)};",
            lambda: f"expect {self.expression(1)} from {name}{self.tests(table)};",
        ])()

    def named_block(self, count):
        """So many parameters, and a body."""
        self.known = []
        names = []
        for _ in range(count):
            names.append(self.new_name())
            self.known.append(names[-1])
        return f"({', '.join(names)}) {self.block('', 2)}\n"

    def program(self):
        parts = [f"store {name};\n" for name in self.stores]
        parts += [f"table {name} ({', '.join(columns)});\n" for name, columns in self.tables.items()]
        parts += [f"function {name}{self.named_block(count)}" for name, count in self.functions]
        parts += [f"page \"/{number}\" {self.named_block(0)[3:]}" for number in range(2)]
        if self.slips():
            parts.append(f"function {self.any_name()}{self.named_block(self.random.randint(0, 2))}")
        if self.slips():
            parts.append(self.pick(["store s0;", "store get;", "table t1 (v, v);", 'page "\\x2f1" { }', "table q (k, k);"]))
        self.random.shuffle(parts)
        return "".join(parts).encode()


class Running:
    """Makes valid programs that run on: the kind of an operand is wrong so often of 100 times only.

    They have the pages `/0` and `/1`, the stores `s0` and `s1`, and the tables `t0 (k)` and `t1 (k, v, w)`; they use the
    registers, keys and parameters of `NAMES`.
    """

    NAMES = ["a", "b", "c"]
    NUMBERS = [0, 1, 2, 3, 7, 10, 200, 255, 65535, 4294967296, 9223372036854775807]
    TABLES = {"t0": ["k"], "t1": ["k", "v", "w"]}
    FUNCTIONS = """function twice(x) { return x + x; }
function deep(n) { if n < 1 { return 0; } return deep(n - 1) + 1; }
function long(t, n) { let i = 0; while i < n { set t = t + t; set i = i + 1; } return t; }
function nested(l, n) { for x in [1, 2, 3, 4, 5, 6] { if x <= n { set l = [l]; } } return l; }
function none(x) { do x; }
"""

    def __init__(self, seed, percent):
        self.random = random.Random(seed)
        self.percent = percent
        self.known, self.made = [], 0

    def chance(self, percent):
        return self.random.randrange(100) < percent

    def pick(self, things):
        return self.random.choice(things)

    # ---- expressions of a kind

    def of(self, kind, depth):
        if self.chance(self.percent):
            kind = self.pick(["number", "text", "truth", "list", "any"])
        variables = [name for name, is_kind in self.known if is_kind == kind]
        if variables and self.chance(45):
            return self.pick(variables)
        return getattr(self, kind)(depth - 1)

    def row(self, kind, signs, depth):
        parts = [self.of(kind, depth)]
        for _ in range(self.random.randint(1, 3)):
            parts += [self.pick(signs), self.of(kind, depth)]
        return f"({' '.join(parts)})"

    def number(self, depth):
        if depth <= 0 or self.chance(40):
            return str(self.pick(self.NUMBERS[:6] if self.chance(80) else self.NUMBERS))
        return self.pick([
            lambda: self.row("number", ["+", "-", "*"], depth),
            lambda: self.row("number", ["+", "-", "*", "/", "%"], depth),
            lambda: f"(-{self.of('number', depth)})",
            lambda: f"len({self.of(self.pick(['text', 'list']), depth)})",
            lambda: f"num({self.pick([self.of('text', depth), self.parameter()])})",
            lambda: f"twice({self.of('number', depth)})",
            lambda: f"deep({self.pick([0, 1, 5, 62, 63, 64])})",
            lambda: f"random({self.of('number', depth)})",
            lambda: "clock()",
        ])()

    def place(self):
        return "0" if self.chance(70) else self.of("number", 1)

    def parameter(self):
        return f'param("{self.pick(self.NAMES)}")'

    def text(self, depth):
        if depth <= 0 or self.chance(30):
            return f'"{self.pick(CONTENTS + self.NAMES)}"'
        return self.pick([
            lambda: f"({self.of('text', depth)} + {self.of('text', depth)})",
            lambda: f"str({self.of(self.pick(['number', 'text', 'truth']), depth)})",
            lambda: f"escape({self.of('text', depth)})",
            lambda: f"slice({self.of('text', depth)}, 0, {self.pick([0, 1, 2, 5])})",
            lambda: f"({self.of('text', depth)} + path())[{self.place()}]",
            lambda: f"kind({self.of('any', depth)})",
            lambda: f"long({self.of('text', depth)}, {self.pick([1, 3, 10, 16])})",
            lambda: self.pick(["method()", "path()", "body()"]),
            self.parameter,
        ])()

    def truth(self, depth):
        if depth <= 0 or self.chance(20):
            return self.pick(["true", "false"])
        kind = self.pick(["number", "text"])
        return self.pick([
            lambda: f"({self.of(kind, depth)} {self.pick(COMPARERS)} {self.of(kind, depth)})",
            lambda: f"({self.of('any', depth)} {self.pick(COMPARERS[:2])} {self.of('any', depth)})",
            lambda: f"(not {self.of('truth', depth)})",
            lambda: self.row("truth", ["and", "or"], depth),
        ])()

    def list(self, depth):
        if depth <= 0 or self.chance(40):
            return f"[{', '.join(self.of('any', 0) for _ in range(self.random.randrange(4)))}]"
        return self.pick([
            lambda: f"({self.of('list', depth)} + {self.of('list', depth)})",
            lambda: f"append({self.of('list', depth)}, {self.of('any', depth)})",
            lambda: f"slice({self.of('list', depth)}, 0, {self.pick([0, 1, 2])})",
            lambda: f"nested({self.of('list', depth)}, {self.pick([1, 3, 6])})",
        ])()

    def any(self, depth):
        if depth <= 0 or self.chance(20):
            return self.pick(["null", "true", "[]", '""', "0", '"a"', "[null, [1]]"])
        return self.pick([
            lambda: self.of(self.pick(["number", "text", "truth", "list"]), depth),
            lambda: f"append({self.of('list', depth)}, {self.of('any', depth)})[{self.place()}]",
            lambda: f"none({self.of('any', depth)})",
            self.operation,
            self.operation,
        ])()

    def name(self):
        return f'"{self.pick(self.NAMES)}"' if self.chance(80) else self.of("text", 1)

    def operation(self):
        return self.pick([
            lambda: f"read({self.name()})",
            lambda: f"write({self.name()}, {self.of('any', 1)})",
            lambda: f"get({self.pick(['s0', 's1'])}, {self.name()})",
            lambda: f"put({self.pick(['s0', 's1'])}, {self.name()}, {self.of('any', 1)})",
            lambda: f"remove({self.pick(['s0', 's1'])}, {self.name()})",
            self.transact,
            self.transact,
        ])()

    def where(self, columns):
        if self.chance(25):
            return ""
        tests = [f"k {self.pick(COMPARERS)} {self.name()}"] if self.chance(60) else []
        tests += [f"{self.pick(columns)} {self.pick(COMPARERS)} {self.of('any', 1)}" for _ in range(self.random.randrange(2))]
        return " where " + " and ".join(tests) if tests else ""

    def part(self):
        name = self.pick(["t0", "t1", "t1"])
        columns = self.TABLES[name]
        values = ", ".join(self.of("any", 1) for _ in columns[1:])
        chosen = ", ".join(self.pick(columns) for _ in range(self.random.randint(1, 3)))
        sets = ", ".join(f"{self.pick(['v', 'w'])} = {self.of('any', 1)}" for _ in range(self.random.randint(1, 2)))
        return self.pick([
            lambda: f"insert {name} ({self.name()}{', ' if values else ''}{values});",
            lambda: f"select {chosen} from {name}{self.where(columns)};",
            lambda: f"update t1 set {sets}{self.where(self.TABLES['t1'])};",
            lambda: f"delete {name}{self.where(columns)};",
            lambda: f"expect {self.random.randrange(3)} from {name}{self.where(columns)};",
        ])()

    def transact(self):
        return f"transact {{ {' '.join(self.part() for _ in range(self.random.randint(1, 3)))} }}"

    # ---- statements

    def block(self, nesting, first=None, most=4):
        outer = list(self.known)
        self.known += [first] if first else []
        text = " ".join(self.statement(nesting) for _ in range(self.random.randint(1, most)))
        self.known = outer
        return f"{{ {text} }}"

    def new_name(self):
        self.made += 1
        return f"x{self.made}"

    def let(self, _):
        kind, name = self.pick(["number", "text", "truth", "list", "any"]), self.new_name()
        text = f"let {name} = {self.of(kind, 3)};"
        self.known.append((name, kind))
        return text

    def set(self, nesting):
        settable = [known for known in self.known if known[1] != "counter"]
        if not settable:
            return self.let(nesting)
        name, kind = self.pick(settable)
        return f"set {name} = {self.of(kind, 3)};"

    def branch(self, nesting):
        test = self.of("truth", 2)
        other = f" else {self.block(nesting)}" if self.chance(50) else ""
        return f"if {test} {self.block(nesting)}{other}"

    def turns(self, nesting):
        name, value = self.new_name(), self.of("list", 2)
        return f"for {name} in {value} {self.block(nesting, (name, 'any'))}"

    def repeat(self, nesting):
        name = self.new_name()
        self.known.append((name, "counter"))
        body = self.block(nesting)
        return f"let {name} = 0; while {name} < {self.pick([0, 1, 3, 20])} {{ set {name} = {name} + 1; {body[1:]}"

    def statement(self, nesting):
        if self.random.randrange(400) == 0:
            return self.pick(["while true { }", 'while true { do read("a"); }', 'while true { do transact { delete t0; }; }'])
        if nesting > 0 and self.chance(30):
            return self.pick([self.branch, self.branch, self.turns, self.repeat])(nesting - 1)
        return self.pick([
            self.let,
            self.let,
            self.set,
            lambda _: f"echo {self.of(self.pick(['number', 'text', 'truth']), 3)};",
            lambda _: f"echo {self.of(self.pick(['number', 'text', 'truth']), 3)};",
            lambda _: f"do {self.operation()};",
            lambda _: f"do {self.operation()};",
            lambda _: f"status {self.pick([200, 201, 404, 500, 599] if self.chance(97) else [199, 204, 205, 304, 600])};",
            lambda _: f"return {self.of('any', 1)};" if self.chance(15) else "echo 1;",
        ])(nesting)

    def program(self):
        parts = ["store s0; store s1;\n", "table t0 (k); table t1 (k, v, w);\n", self.FUNCTIONS]
        for number in range(2):
            self.known = []
            parts.append(f'page "/{number}" {self.block(3, most=12)}\n')
        self.random.shuffle(parts)
        return "".join(parts).encode()


OPERATIONS = [
    'do write("a", x);', 'do write("b", [x]);', 'set x = read("a");', 'set y = read("b");', 'do put(s0, "a", y);',
    'set x = get(s0, "a");', 'do remove(s0, "a");', 'do put(s1, "b", x);', 'set y = get(s1, "b");', "set y = clock();", "echo clock();",
    "echo random(6);", "set x = random(2);", 'set y = transact { insert t1 ("c", x, 1); };',
    'do transact { update t1 set v = x where k == "a"; };', "set y = transact { select k, v from t1 where w != null; };",
    'do transact { delete t1 where k == "c"; insert t0 ("c"); };',
    'set x = transact { expect 1 from t1 where k == "a"; delete t1 where k == "a"; };', 'if x == null { do write("a", 0); }',
    'if x == 1 { echo read("a") == null; } else { do write("b", 2); }', "echo kind(x);", "echo x == y;",
    'set x = read(str(param("c")));',
]
ENDS = ["", 'set y = num(param("b")) + 9223372036854775807;', 'set x = num(param("a")) + 1; set y = num(param("b")) + 1;']
"""Of these two end by faults that differ in their number or in their steps alone."""


def busy(source):
    """A program of the objects of `Running`, of which two pages do little else than operations."""
    pages = []
    for number in range(2):
        body = " ".join(source.choices(OPERATIONS, k=source.randint(1, 9)))
        pages.append(f'page "/{number}" {{ let x = param("a"); let y = null; {body} {source.choice(ENDS)} }}\n')
    return f"store s0; store s1; table t0 (k); table t1 (k, v, w);\n{''.join(pages)}".encode()


def ok(pages, functions, stores=0, tables=0):
    return b"ok: pages %d, functions %d, stores %d, tables %d\n" % (pages, functions, stores, tables)


def ordinary(size, seed=1, kinds=64):
    """A program of exactly so many bytes, in which so many kinds of modules come again and again; and its line."""
    modules = [Maker(f"{seed} {kind}").module() for kind in range(kinds)]
    parts, left, pages, functions, made = [], size, 0, 0, 0
    while True:
        text, has_pages, has_functions = modules[made % kinds]
        part = text.replace("@", str(made)).encode()
        if len(part) > left:
            break
        parts.append(part)
        left, pages, functions, made = left - len(part), pages + has_pages, functions + has_functions, made + 1
    return b"".join(parts) + b"#" * left, ok(pages, functions, made, made)


def small_pages(count):
    return b"".join(b'page "/p%d" { echo %d; }\n' % (number, number) for number in range(count)), ok(count, 0)


def dense(size):
    """A page of lists of one number: no ordinary program, since it has a node of the tree for each two bytes."""
    front, back = b'page "/a" { echo [', b"1]; }"
    lists = b"[1]," * ((size - len(front) - len(back)) // 4)
    return front + lists + back + b"#" * (size - len(front) - len(lists) - len(back)), ok(1, 0)


def calling_functions(count):
    """Each function calls the next one and one far off."""
    lines = []
    for number in range(count):
        near, far = (number + 1) % count, number * 7919 % count
        lines.append(b"function f%d(x) { return f%d(x) + f%d(x); }\n" % (number, near, far))
    return b"".join(lines), ok(0, count)
