"""Explains `program: syntax K at N`: what stands there, what may stand there, and what to write in its place."""

import re

from layout import Text, counted, cut, is_are, letters, listed, wrapped
from syntax_advice import advice, lacking_brace

from rules import COMPARERS, KEYWORDS, MOST, TOKEN, Fault, Parser, content

EXPRESSION = "an expression"
SORTS = {"name": "a name", "text": "a text", "number": "a number"}
STATEMENTS = [b"let", b"set", b"if", b"while", b"for", b"echo", b"status", b"return", b"do"]
DECLARATIONS = [b"store", b"table", b"function", b"page"]
PARTS = [b"insert", b"select", b"update", b"delete", b"expect"]
SUMS = [b"+", b"-", b"*", b"/", b"%"]
CLOSING = {b")": b"(", b"]": b"[", b"}": b"{"}


class Expecting(Parser):
    """A parser that notes what it looks for at each token, and inside which forms it is."""

    def __init__(self, text):
        self.text = text
        self.tried, self.full, self.inside = {}, {}, []
        super().__init__(text)

    def want(self, *things):
        tried = self.tried.setdefault(self.next, [])
        tried += [thing for thing in things if thing not in tried]

    def take(self, kind, *wanted):
        self.want(*(wanted or [SORTS[kind]] if kind in SORTS else wanted))
        return super().take(kind, *wanted)

    def word(self, *wanted):
        word = super().word(*wanted)
        if wanted == (b"]",):
            self.want(b"[")
        return word

    def skips(self, *words):
        self.want(*words)
        return super().skips(*words)

    def row(self, part, *signs, most=MOST):
        count = 0

        def watched():
            nonlocal count
            tree = part()
            count += 1
            if count <= most:
                self.want(*signs)
            elif self.peek() in signs:
                self.full[self.next] = signs, most
            return tree

        return super().row(watched, *signs, most=most)

    def atom(self):
        self.want(EXPRESSION)
        tree = super().atom()
        self.want(b"[")
        return tree

    def form(self, sort, reads):
        self.inside.append((sort, self.next))
        tree = reads()
        self.inside.pop()
        return tree

    def declaration(self):
        return self.form("declaration", super().declaration)

    def statement(self):
        return self.form("statement", super().statement)

    def block(self):
        return self.form("block", super().block)

    def part(self):
        return self.form("part", super().part)


class Failed:
    """Where a program's text can't go on."""

    def __init__(self, name, data):
        self.text = Text(name, data)
        self.parser = Expecting(data)
        try:
            self.parser.program()
        except Fault as fault:
            self.kind, self.at = fault.args
        self.tokens = self.parser.tokens
        self.here = self.parser.next
        self.tried = self.parser.tried.get(self.here, [])

    def raw(self, number):
        """The token with this number, as it is written."""
        if not 0 <= number < len(self.tokens):
            return b""
        return TOKEN.match(self.text.data, self.tokens[number][2])[0]

    def word(self, offset=0):
        return self.raw(self.here + offset)

    def sort(self, offset=0):
        """`name`, `number`, `text` or `word`, or nothing where there is no token."""
        at = self.here + offset
        return self.tokens[at][0] if 0 <= at < len(self.tokens) else ""

    def place(self, offset=0):
        return self.tokens[self.here + offset][2]

    def open_form(self, sort):
        """The number of the first token of the innermost form of this sort, and this token."""
        for form, number in reversed(self.parser.inside):
            if form == sort:
                return number, self.raw(number)
        return None, b""

    def innermost(self):
        return self.parser.inside[-1] if self.parser.inside else ("program", 0)

    def open_brackets(self):
        """The places of the brackets that are open before this token."""
        places = []
        for kind, word, at in self.tokens[: self.here]:
            if kind == "word" and word in CLOSING.values():
                places.append(at)
            elif kind == "word" and word in CLOSING and places:
                places.pop()
        return places

    def odd_brace(self):
        """The first `}` at the front of a line that is indented otherwise than the line of its `{`, and that `{`."""
        places = []
        for kind, word, at in self.tokens[: self.here]:
            if kind == "word" and word in CLOSING.values():
                places.append(at)
            elif kind == "word" and word in CLOSING and places:
                opened = places.pop()
                indent = self.text.indent(at)
                if word == b"}" and at == self.text.line_start(at) + indent and indent != self.text.indent(opened):
                    return at, opened
        return None


def explain(found, kind, at):
    failed = Failed(found.command.label("program"), found.data["program"])
    explainers = {1: no_token, 2: cannot_go_on, 3: beyond_limit}
    return explainers[kind](failed)


# ---- kind 1

def no_token(failed):
    text, at = failed.text, failed.at
    byte = text.data[at : at + 1]
    if byte == b'"':
        return unfinished_text(text, at)
    word = text.word(at)
    here = letters(word) if word.strip() else f"the byte {byte[0]} (0x{byte[0]:02x})"
    lines = [*text.shown(at, len(word)), *wrapped(f"No token begins with `{here}`." if word.strip() else f"No token begins with {here}.")]
    return lines + wrapped(SIGNS.get(byte, of_other_bytes(text, at)))


def of_point(text, at):
    """A point: of a number, of a range, or before a field."""
    before, after = text.data[at - 1 : at], text.data[at + 1 : at + 2]
    if b'"' in (text.data[:at].rstrip()[-1:], text.data[at + 1 :].lstrip()[:1]) or before.isspace() and after.isspace():
        return 'Texts are joined by `+`: `"a" + "b"`.'
    if after == b".":
        return (
            "There are no ranges. Walk over a list, `for x in list { .. }`, or count: `let i = 0; while i < n { .. set i = i + 1; }` "
            "in place of `for i in 0..n { .. }`."
        )
    if before.isdigit() and after.isdigit():
        return "Numbers are whole: count the smallest unit, as cents in place of `1.5`."
    field = re.match(rb"[A-Za-z_]\w*", text.data[at + 1 :])
    name = re.search(rb"[A-Za-z_]\w*$", text.data[:at])
    if field and name and field[0] in (b"length", b"size", b"count", b"len"):
        return f"Values have no fields and no methods: in place of `{letters(name[0] + b'.' + field[0])}` write `len({letters(name[0])})`."
    return (
        "Values have no fields and no methods: write `len(x)` in place of `x.length`, `x[0]` for a place in a list, `set l = append(l, "
        "v);` in place of `l.push(v)`, a `for` in place of `map` and `join`, and the column alone in place of `t.column`."
    )


def of_colon(text, at):
    front = text.data[text.line_start(at) : at]
    if re.search(rb"\b(?:let|set)\s+\w+\s*$|\b(?:function|table)\b[^{]*$", front):
        return "Variables, parameters and columns have no types: the name alone stands here."
    if re.search(rb"\b(?:if|while|for|else)\b[^{]*$", front):
        return "The block stands in braces: `if .. { .. }`."
    return (
        "There are no labels and no maps `{a: 1}`, and no `? :`. In place of a map write a list whose places you know, or a store; in "
        "place of `? :` an `if`."
    )


def of_other_bytes(text, at):
    if text.data[at : at + 1] == b".":
        return of_point(text, at)
    if text.data[at : at + 1] == b":":
        return of_colon(text, at)
    if text.data[at] < 0x80:
        return (
            "It may stand in a text or in a comment alone. In a program stand names, numbers, texts, keywords and the signs "
            f"{SIGNS_THERE}."
        )
    if at == 0 and text.data.startswith(b"\xef\xbb\xbf"):
        return "The file begins with a byte order mark: save it as UTF-8 without one."
    letter = letters(text.word(at))[:1]
    if letter in LIKE_SIGNS:
        return f"In its place write {LIKE_SIGNS[letter]}."
    return "Outside texts and comments only letters of ASCII stand: `a` to `z`, `A` to `Z`, digits, `_` and signs."


SIGNS_THERE = "`;` `,` `(` `)` `{` `}` `[` `]` `=` `==` `!=` `<` `<=` `>` `>=` `+` `-` `*` `/` `%`"
LIKE_SIGNS = {**dict.fromkeys("\u201c\u201d\u2018\u2019", 'a straight quote, `"`'), "\u00a0": "a space", "\u2013": "`-`"}
SIGNS = {
    b"!": "In its place write `not`, as in `not x`; of the signs with `!` there is `!=` alone. (`not` takes `true` or `false` and nothing "
    "else: whether there is a value tells `x == null`.)",
    b"'": 'Texts stand between double quotes: `"a"`.',
    b"`": 'Texts stand between double quotes: `"a"`; values are joined by `+`, as in `"n is " + str(n)`.',
    b"&": "In its place write `and`. (Texts are joined by `+`.)",
    b"|": "In its place write `or`.",
    b"?": "There is no `? :` and no `??`. Write `let x = 1; if .. { set x = 2; }`; for another value in place of null "
          "`let x = read(\"n\"); if x == null { set x = 0; }`.",
    b"$": "A name has no sign in front: `x`, and not `$x`. Values are joined by `+`.",
    b"@": "A name is made of letters, digits and `_`.",
    b"^": "There is no power and no sign for bits.",
    b"~": "There are no signs for bits.",
    b"\\": "A backslash stands in texts alone; a statement may go on in the next line without one.",
}


def unfinished_text(text, at):
    """A text without its end, or with an escape that there isn't."""
    place = at + 1
    while place < len(text.data) and text.data[place : place + 1] not in (b'"', b"\n"):
        if text.data[place : place + 1] == b"\\":
            if not is_escape(text.data[place : place + 4]):
                return wrong_escape(text, place)
            place += 1
        place += 1
    row = text.line(at)
    lines = text.shown(at, len(row) - (at - text.line_start(at)))
    lines += wrapped('The text that begins here has no closing quote `"` in its line.')
    more = 'Close it. A line feed in a text is written `\\n`, a quote `\\"`.'
    if row.count(b'"') > 2 and at > text.line_start(at):
        more += ' Where a quote stands in the middle of a text, it ends the text there: write `\\"` for it.'
    return lines + wrapped(more)


def is_escape(piece):
    return re.match(rb'\\(?:["\\nt]|x[0-9a-fA-F]{2})', piece)


def wrong_escape(text, place):
    what = (
        "`\\x` takes two hexadecimal digits, as in `\\x41`" if text.data[place + 1 : place + 2] == b"x" else "there is no such "
        "escape in a text"
    )
    return [*text.shown(place, 2), *wrapped(f'Here {what}. The escapes are `\\"`, `\\\\`, `\\n`, `\\t` and `\\x` with two '
                                            'hexadecimal digits; a backslash itself is `\\\\`.')]


# ---- kind 2

def cannot_go_on(failed):
    if failed.at < len(failed.text.data) and failed.here == len(failed.tokens):
        return too_many_brackets(failed)
    row = too_many_in_a_row(failed)
    if row:
        return [*failed.text.shown(failed.at), *wrapped(row)]
    if failed.here == len(failed.tokens):
        return ends_too_early(failed)
    told = advice(failed)
    lines = [*failed.text.shown(failed.at), *wrapped(f"{stands(failed)} can't stand here.")]
    lines += wrapped(f"May stand here: {may_stand(failed.tried)}.", "    ")
    return lines + [line for part in told for line in (wrapped(part) if isinstance(part, str) else part)]


def too_many_in_a_row(failed):
    """A sentence where the 65th operator, prefix or index of a row stands there."""
    signs, most = failed.parser.full.get(failed.here, ([], 0))
    if most == MOST:
        return (f"This is the 65th operator of one level in a row ({words_of(signs)}), and {MOST} may stand there. "
                "Put brackets round a part of the row, or compute it in two `let` statements.")
    if all(failed.word(-offset) in (b"not", b"-") for offset in range(MOST + 1)):
        return f"This is the 65th prefix in a row, and {MOST} may stand there."
    if failed.word() == b"[" and failed.word(-1) == b"]" and b"[" in failed.tried:
        return f"This is the 65th index in a row, and {MOST} may stand there. Take a part out of the list before, in a `let`."
    return None


def stands(failed):
    word = cut(letters(failed.word()), 40)
    if failed.sort() == "word":
        return f"The keyword `{word}`" if failed.word() in KEYWORDS else f"The sign `{word}`"
    return f"The {failed.sort()} {word if failed.sort() == 'text' else f'`{word}`'}"


def too_many_brackets(failed):
    places = failed.open_brackets()
    count = "all of `(`, `[` and `{` count, those of blocks too"
    lines = failed.text.shown(failed.at, 1) + wrapped(f"This is the 65th bracket that is open, and at most {MOST} may be: {count}.")
    lines += wrapped(f"The first of them is open at {failed.text.at(places[0])}.") if places else []
    return lines + wrapped("Compute a part before in a `let`, or move it into a function.")


def ends_too_early(failed):
    end = len(failed.text.data.rstrip())
    lines = [*failed.text.shown(max(0, end - 1), 1), *wrapped("The file ends too early, behind this.")]
    lines += wrapped(f"May come next: {may_stand(failed.tried)}.", "    ")
    places = failed.open_brackets()
    if places:
        lines += wrapped(f"{counted(len(places), 'bracket')} {is_are(len(places))} still open:")
        for place in places[-4:]:
            lines.append(f"    {failed.text.at(place)} `{failed.text.rest_of_line(failed.text.line_start(place))}`")
        lines += wrapped(f"Close {'it' if len(places) == 1 else 'each of them'}: a `}}` is missing, at the end or where an inner "
                         "block ends."
                         if failed.text.data[places[-1] : places[-1] + 1] == b"{" else "Close each of them.")
    return lines + lacking_brace(failed)


def words_of(words):
    return listed([f"`{word.decode()}`" for word in words], most=12, joint="or")


def may_stand(tried):
    """What may stand at a place, in groups."""
    groups, rest = [], list(tried)
    for named, words in (("a statement", STATEMENTS), ("a declaration", DECLARATIONS), ("a table statement", PARTS)):
        if all(word in rest for word in words):
            groups.append(f"{named} ({words_of(words)})")
            rest = [word for word in rest if word not in words]
    if EXPRESSION in rest:
        groups.append("an expression (a number, a text, a name, a call, `(`, `[`, `transact`, `true`, `false`, `null`, `not` or `-`)")
    operators = [sign for sign in [*SUMS, *sorted(COMPARERS), b"and", b"or"] if sign in rest]
    named = [thing for thing in rest if isinstance(thing, str) and thing != EXPRESSION]
    signs = [word for word in rest if not isinstance(word, str) and word not in operators]
    if len(operators) > 3:
        after = [f"an operator ({' '.join(f'`{sign.decode()}`' for sign in operators)})"]
    else:
        signs, after = signs + operators, []
    return listed(groups + named + [f"`{word.decode()}`" for word in signs] + after, most=20, joint="or")


# ---- kind 3

def beyond_limit(failed):
    text, at = failed.text, failed.at
    match = TOKEN.match(text.data, at)
    lines = text.shown(at, len(match[0]))
    if match.lastgroup == "number":
        return lines + wrapped("This number is above 9223372036854775807, the greatest that there is. Write a smaller one, or a text. "
                               "(The least number of all is written as -9223372036854775807 - 1.)")
    if match.lastgroup == "name":
        return lines + wrapped(f"This name has {len(match[0]):,} bytes, and a name has at most 64: write a shorter one, wherever it "
                               "is used.")
    size = len(content(match[0]))
    return lines + wrapped(f"This text stands for {size:,} bytes, and a text has at most 65,535: no value is longer. `echo` two "
                           "texts one after the other.")
