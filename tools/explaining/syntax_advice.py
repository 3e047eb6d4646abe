"""What to write in place of what can't stand in a program, for those who come from another language."""

import difflib
import re

from layout import letters, wrapped

from rules import BUILT_INS, COMPARERS, KEYWORDS, content

MOST_SHOWN = 40
STATEMENT_WORDS = {b"let", b"set", b"if", b"while", b"for", b"echo", b"status", b"return", b"do"}
LETS = {b"var", b"const", b"int", b"string", b"bool", b"my", b"local", b"auto", b"val", b"mut", b"float", b"double", b"char"}
PRINTS = {b"print", b"println", b"printf", b"puts", b"console", b"write_line", b"response", b"output", b"render"}
ELSES = {b"elif", b"elseif", b"elsif"}
FUNCTIONS = {b"def", b"fn", b"func", b"fun", b"sub", b"proc", b"lambda"}
COUNTING = "To count write `let i = 0; while i < n { .. set i = i + 1; }`."
AFTER_ELSE = "`else { if .. { .. } else { .. } }`: behind `else` stands a block"
NO_SUCH = {
    b"break": "There is no `break`. Use a variable in the condition, `let more = true; while more { .. set more = false; .. }`, or "
              "put the loop into a function that `return`s.",
    b"continue": "There is no `continue`. Put the rest of the loop's block into an `if`.",
    b"switch": "There is no `switch`: write `if .. { .. } else { if .. { .. } }`.",
    b"case": "There is no `case`: write `if .. { .. } else { if .. { .. } }`.",
    b"match": "There is no `match`: write `if .. { .. } else { if .. { .. } }`.",
    b"try": "Nothing catches a fault: test before, as `kind(x) == \"number\"` or `len(x) > i`.",
    b"catch": "Nothing catches a fault: test before, as `kind(x) == \"number\"` or `len(x) > i`.",
    b"throw": "Nothing throws: `status 400;`, `echo` what is wrong, and `return null;`.",
    b"import": "A program is one file: there is nothing to import.",
    b"include": "A program is one file: there is nothing to include.",
    b"foreach": "Write `for x in list { .. }`.",
    b"loop": "Write `while true { .. }`, with a `return` inside.",
    b"then": "There is no `then`: the block in braces stands right behind the condition.",
    b"class": "There are no classes: a list whose places you know holds what belongs together.",
    b"do": "No `do` stands there: the block in braces stands right behind the condition.",
    b"redirect": "A page can't say where to: `status 303;` is allowed, and `echo` a link.",
}


def advice(failed):
    """Sentences on what to write in its place, and other lines in lists."""
    finders = (
        of_for, of_comment, of_misspelled, of_file, of_statement, of_else, of_name, of_table_statement, of_set_and_let, of_block,
        of_declaration, of_expression, of_operator,
    )
    for finds in finders:
        told = finds(failed)
        if told:
            return [told] if isinstance(told, str) else told
    return []


def plain(word):
    return letters(word)


def rest_of(failed, offset):
    """What stands from a token on up to the end of its statement, in one line."""
    if not failed.sort(offset):
        return ""
    rest = failed.text.statement(failed.place(offset), MOST_SHOWN)
    return rest[:-1].rstrip() if rest.endswith(";") else rest.removesuffix("}").rstrip()


def instead(wrong, right):
    return f"In place of `{wrong}` write `{right}`."


def is_declared(failed, sort, name):
    """Whether a store or a table of this name is declared anywhere in the file."""
    return re.search(rb"\b" + sort + rb"\s+" + re.escape(name) + rb"\b", failed.text.data) is not None


def place_set(failed, name):
    """What to write where a place of a list, or of what is taken for one, is set."""
    plain_name = plain(name)
    if is_declared(failed, b"store", name):
        return f"`{plain_name}` is a store: write `do put({plain_name}, key, value);`, and read it by `get({plain_name}, key)`."
    if is_declared(failed, b"table", name):
        return f"`{plain_name}` is a table: its rows change in a transaction, `do transact {{ update {plain_name} set c = 1 where ..; }};`."
    if name in BUILT_INS:
        return f"`{plain_name}` is a built-in function, and no variable: take another name for a list."
    return (
        f"A list doesn't change: to set a place of it write a new list, as `set {plain_name} = [1] + slice({plain_name}, 1, "
        f"len({plain_name}));` for its first."
    )


def method_call(failed, name):
    """What to write in place of a method that is called on a value, where one is called."""
    field = re.match(rb"\.(\w+)", failed.text.data[failed.at + len(name) :])
    if not field:
        return None
    told = f"Values have no methods and no fields: functions take the value as an argument, as `len({plain(name)})`."
    if field[1].lower() in (b"push", b"append", b"add", b"concat", b"unshift"):
        return f"{told} In place of `{plain(name)}.{plain(field[1])}(v)` write `set {plain(name)} = append({plain(name)}, v);`."
    return told


def was_let(failed, name):
    """Whether a `let`, a `for` or a parameter of this name stands before."""
    for number in range(failed.here):
        if failed.raw(number) == name and failed.raw(number - 1) in (b"let", b"for", b"(", b","):
            return True
    return False


def of_for(failed):
    """A `for` that isn't one over a list."""
    if b"in" not in failed.tried:
        return None
    return f"A `for` walks over a list: `for {plain(failed.word(-1))} in list {{ .. }}`. {COUNTING}"


def of_comment(failed):
    word, after = failed.word(), failed.word(1)
    together = failed.sort(1) and failed.place(1) == failed.at + 1
    if word == b"/" and together and after in (b"/", b"*"):
        each = ", in each line" if after == b"*" else ""
        return f"A comment begins with `#` and goes up to the end of its line: in place of `/{plain(after)}` write `#`{each}."
    if word == b"*" and together and after == b"/":
        return "A comment begins with `#` and goes up to the end of its line; nothing ends it before: take `*/` away."
    if failed.word(-1) == b"/" and failed.sort(-1) and failed.place(-1) + 1 == failed.at and word in (b"/", b"*"):
        return f"A comment begins with `#` and goes up to the end of its line: in place of `/{plain(word)}` write `#`."
    return None


def of_misspelled(failed):
    """A name that is much like a keyword that may stand there."""
    if failed.sort() != "name":
        return None
    keywords = [word.decode() for word in failed.tried if isinstance(word, bytes) and word in KEYWORDS]
    close = difflib.get_close_matches(failed.word().decode().lower(), keywords, 1, 0.75)
    is_other = failed.word() in ELSES or failed.word() in NO_SUCH or failed.word(1) in (b"=", b"(")
    return f"Is `{close[0]}` meant? (Keywords are written in small letters.)" if close and not is_other else None


# ---- outside of all blocks

def of_file(failed):
    word, sort = failed.word(), failed.sort()
    if b"page" not in failed.tried or b"store" not in failed.tried:
        return None
    if word == b"}":
        told = (
            "This `}` closes nothing: it is one too many, or a block before it was closed too early. Look at the braces of the "
            "page or function before it."
        )
        return [told, *early_brace(failed)]
    if word in STATEMENT_WORDS - {b"let", b"set"} or word == b"{":
        told = (
            f"A statement stands in the block of a page or of a function: `page \"/a\" {{ {plain(word)} .. }}`. Where it stands "
            "in one, a `}` before it is too many."
        )
        return [told, *early_brace(failed)]
    if word == b";":
        return "No `;` stands behind the block of a page or of a function: take it away."
    if word in FUNCTIONS:
        return instead(plain(word), "function")
    if sort == "name" and word.lower() in (b"get", b"post", b"route", b"app"):
        return "A page answers all methods: `page \"/path\" { .. }`, and `method()` tells which one it was."
    if word in NO_SUCH:
        return NO_SUCH[word]
    if word == b"<":
        return "A program is no page of HTML with code in it: an answer is written by `echo \"<p>..</p>\";` in a page's block."
    if word in LETS or word in (b"let", b"set"):
        return (
            "At the top of a file stand declarations alone, and no variables. A constant is a function, `function title() { return "
            "\"..\"; }`; what outlives a request stands in a register, a store or a table."
        )
    return (
        "At the top of a file stand declarations alone: `store NAME;`, `table NAME (COLUMN, ..);`, `function NAME (..) { .. }` "
        "and `page \"/path\" { .. }`."
    )


# ---- where a statement begins

def of_statement(failed):
    if b"let" not in failed.tried or b"do" not in failed.tried:
        return None
    word, sort = failed.word(), failed.sort()
    if sort == "name":
        return of_leading_name(failed, word)
    if word == b"else":
        return (
            "An `else` stands right behind the `}` of its `if`, once: after `else { .. }` no other one follows. " + "For a "
            f"third way write {AFTER_ELSE}."
        )
    if word == b";":
        return "No `;` stands behind the `}` of a block, nor alone: take it away."
    if word in (b"page", b"function", b"store", b"table"):
        return of_inner_declaration(failed, word)
    if word in (b"insert", b"select", b"update", b"delete", b"expect"):
        return (
            f"A table statement stands in a transaction: `do transact {{ {plain(word)} ..; }};`, or `let rows = transact "
            f"{{ {plain(word)} ..; }};` for its answers."
        )
    if word == b"transact":
        return "A transaction is an expression: write `do transact { .. };`, or `let r = transact { .. };` for its answers."
    if word == b"{":
        return "A block alone is no statement: take the braces away, or put an `if` in front."
    if word in (b")", b"]"):
        return f"This `{plain(word)}` closes nothing: it is one too many."
    if word in (b"+", b"-") and failed.word(1) == word:
        name = plain(failed.word(2))
        return instead(f"{plain(word)}{plain(word)}{name}", f"set {name} = {name} {plain(word)} 1;")
    return (
        f"A statement begins with its keyword: `echo {rest_of(failed, 0)};` adds this to the answer, `do {rest_of(failed, 0)};` "
        "evaluates it and drops its value."
    )


def of_leading_name(failed, word):
    name, after, behind = plain(word), failed.word(1), failed.word(2)
    if word in LETS and failed.sort(1) == "name":
        return instead(f"{name} {plain(after)}", f"let {plain(after)}") + " A variable has no type, and may be set."
    if word in ELSES:
        return f"In place of `{name} ..` write {AFTER_ELSE}."
    if word in NO_SUCH:
        return NO_SUCH[word]
    if word in FUNCTIONS:
        return "Functions stand at the top of the file, beside the pages: `function NAME (..) { .. }`."
    if after == b"=":
        value = rest_of(failed, 2) or ".."
        if was_let(failed, word):
            return instead(f"{name} = {value};", f"set {name} = {value};") + " (`let` where a variable begins, `set` from then on.)"
        return instead(f"{name} = {value};", f"let {name} = {value};") + f" Where the variable is known already, it is `set {name} = ..;`."
    if after in (b"+", b"-", b"*", b"/", b"%") and behind == b"=":
        return instead(f"{name} {plain(after)}= ..", f"set {name} = {name} {plain(after)} {rest_of(failed, 3)};")
    if after in (b"+", b"-") and behind == after:
        return instead(f"{name}{plain(after) * 2}", f"set {name} = {name} {plain(after)} 1;")
    if after == b"[":
        return place_set(failed, word)
    method = None if word in PRINTS else method_call(failed, word)
    if method:
        return method
    if word in PRINTS:
        return instead(name, "echo ..;") + " `echo` takes one expression; texts are joined by `+`."
    if word in (b"await", b"async", b"yield", b"defer"):
        return f"There is no `{name}`: take it away. Each call and each transaction is done before the next statement."
    if failed.text.data[failed.at + len(word) :].lstrip().startswith(b":="):
        return f"A variable begins by `let {name} = ..;`, and changes by `set {name} = ..;`."
    if after == b"(" and word in (b"die", b"exit"):
        return "A page ends by `return`: `echo ..; return null;`."
    if after == b"(":
        is_known = word in BUILT_INS or is_declared(failed, b"function", word)
        unknown = "" if is_known else f" But no function `{name}` is declared, and none is built in."
        return (
            instead(f"{rest_of(failed, 0)};", f"do {rest_of(failed, 0)};") + " (`do` evaluates a call and drops its value; with "
            f"`let x = ..;` it is kept.){unknown}"
        )
    return f"A statement begins with its keyword: `let {name} = ..;`, `set {name} = ..;`, `echo {name};` or `do {name}(..);`."


def of_inner_declaration(failed, word):
    opened = failed.open_brackets()
    where = failed.text.at(opened[-1]) if opened else ""
    row = failed.text.rest_of_line(failed.text.line_start(opened[-1])) if opened else ""
    shown = [f"    {where} `{row}`", *lacking_brace(failed)]
    if failed.at == failed.text.line_start(failed.at):
        return [f"A `}}` is missing before it: the block of {where} is still open.", shown]
    return [f"`{plain(word)}` stands at the top of the file, and not in a block. If it is at the top, a `}}` is missing before it: "
            f"the block of {where} is still open.", shown]


def lacking_brace(failed):
    """Lines that tell which block lacks its brace by the indentation, where that says so."""
    brace, opened = failed.odd_brace() or (0, 0)
    if failed.text.indent(brace) >= failed.text.indent(opened):
        return []
    row = failed.text.rest_of_line(failed.text.line_start(opened))
    told = f"By the indentation the `}}` of {failed.text.at(brace)} belongs to a block around, and this one lacks its own:"
    return [*wrapped(told), f"    {failed.text.at(opened)} `{row}`"]


def early_brace(failed):
    """A sentence that tells by which brace a block was closed too early by the indentation, where that says so."""
    brace, opened = failed.odd_brace() or (0, 0)
    if failed.text.indent(brace) <= failed.text.indent(opened):
        return []
    return [f"By the indentation the `}}` of {failed.text.at(brace)} is to close a block within, but that one was closed before it."]


# ---- forms of statements

def of_else(failed):
    if failed.word(-1) != b"else":
        return None
    if failed.word() == b"if":
        return f"There is no `else if`: write {AFTER_ELSE}. One more `}}` then stands at its end."
    return "Behind `else` stands a block: `else { .. }`, also round a single statement."


def of_set_and_let(failed):
    number, first = failed.open_form("statement")
    offset = failed.here - number if number is not None else 0
    if first in (b"let", b"set") and offset == 2:
        return after_name(failed, first, plain(failed.word(-1)))
    if first == b"return" and offset == 1 and failed.word() in (b";", b"}"):
        return instead("return;", "return null;") + " A `return` has a value, which a page drops."
    return None


def after_name(failed, first, name):
    """What stands behind the name of a `let` or a `set`, and isn't `=`."""
    word, behind = failed.word(), failed.word(1)
    if first == b"let" and word == b";":
        return instead(f"let {name};", f"let {name} = null;") + " A variable always has a value."
    if first == b"let" and word == b",":
        return "A `let` makes one variable: write one `let` for each."
    if word in (b"+", b"-", b"*", b"/", b"%") and behind == b"=":
        return instead(f"set {name} {plain(word)}= {rest_of(failed, 2)};", f"set {name} = {name} {plain(word)} {rest_of(failed, 2)};")
    if word in (b"+", b"-") and behind == word:
        return instead(f"set {name}{plain(word) * 2};", f"set {name} = {name} {plain(word)} 1;")
    if word == b"[":
        return place_set(failed, failed.word(-1))
    if word == b"==":
        return f"`==` compares; `{plain(first)} {name} = ..;` takes one `=`."
    if failed.sort() == "name":
        return f"A variable has no type: `{plain(first)} {plain(word)} = ..;`."
    return f"Behind the name stands `=`: `{plain(first)} {name} = ..;`."


def of_block(failed):
    number, first = failed.open_form("statement")
    if b"{" not in failed.tried or first not in (b"if", b"while", b"for"):
        return None
    word = failed.word()
    if word == b"=":
        return "`=` gives a value; to compare two values write `==`."
    if word in COMPARERS:
        return second_comparer(failed)
    if word == b"is":
        return compared_by_is(failed)
    if word in NO_SUCH and (word != b"do" or failed.word(1) == b"{"):
        return NO_SUCH[word]
    if word in (b"true", b"false", b"null") or failed.sort() in ("number", "text"):
        return "Before it an operator is missing, or the `{` of the block."
    begin, end = failed.place(number - failed.here), failed.at
    condition = letters(failed.text.data[begin:end].split(b"\n")[-1]).strip()
    return (
        f"The block of `{plain(first)}` stands in braces, also a single statement: `{condition} "
        f"{{ {rest_of(failed, 0)}{';' if word != b';' else ''} }}`. (Round the condition no brackets are needed.)"
    )


def compared_by_is(failed):
    """Two values that are compared by a word."""
    is_not, left = failed.word(1) == b"not", plain(failed.word(-1))
    right = plain(failed.word(2 if is_not else 1)) or "null"
    return f"Values are compared by signs: `{left} {'!=' if is_not else '=='} {right}`."


def of_name(failed):
    """A name is wanted."""
    word, sort = failed.word(), failed.sort()
    if "a text" in failed.tried:
        row = letters(failed.text.data[failed.at :].split(b"\n")[0].split(b"{")[0][:MOST_SHOWN]).strip(" /()\"'")
        return f"The path of a page is a text, in quotes: `page \"/{row or 'path'}\" {{ .. }}`."
    if "a name" not in failed.tried:
        return None
    number, first = failed.open_form("statement")
    if first == b"for" and failed.here - number == 1:
        return f"A `for` has no brackets and walks over a list: `for x in list {{ .. }}`. {COUNTING}"
    part, which = failed.open_form("part")
    if failed.innermost()[0] == "part":
        if word == b"(" and failed.word(-1) in (b"where", b"and"):
            return "A test of a `where` begins with a column, without brackets: `where n > 1 and k == \"a\"`. There is no `or` in it."
        if word == b"*":
            return (
                "A `select` names its columns, one by one: there is no `*`. How many rows passed is the length of its answer: "
                "`len(rows[0])`."
            )
        if which == b"delete" and word == b"from":
            return "Write `delete NAME where ..;`, without `from`."
    if failed.word(-1) == b"," and word == b"from":
        return "The comma before it is one too many."
    if word in KEYWORDS:
        return f"`{plain(word)}` is a keyword of the language, and no name: take another one, as `the_{plain(word)}`."
    if sort == "text":
        inner = letters(content(word))
        return f"Here stands a bare name, without quotes: `{inner}`."
    if sort == "number":
        return "A name begins with a letter or `_`."
    if word == b")" and failed.word(-1) == b",":
        return "The comma before it is one too many."
    if word == b")" and failed.open_form("declaration")[1] == b"table":
        return "A table has at least one column, the first of which is its key: `table t (k, v);`."
    return None


# ---- table statements

def of_table_statement(failed):
    number, which = failed.open_form("part")
    if b"insert" in failed.tried:
        return of_no_part(failed)
    if failed.innermost()[0] != "part":
        if b"{" in failed.tried and failed.word(-1) == b"transact":
            return "A transaction is written `transact { insert ..; select ..; }`."
        return None
    word, before = failed.word(), failed.word(-1)
    told = of_parts_missing(failed, which, word, before)
    if told:
        return told
    if which == b"insert" and failed.word(-1).lower() == b"into":
        return f"There is no `into`: write `insert {plain(word)} (..);`, with a value for each column."
    if which == b"insert" and (word.lower() == b"values" or word == b"(" and before == b")"):
        return (
            f"An `insert` doesn't name its columns, and there is no `values`: write `insert {plain(failed.raw(number + 1))} (..);`, with "
            "a value for each column in their order."
        )
    if word == b"=" and any(sign in failed.tried for sign in COMPARERS):
        return "A test of a `where` compares by `==`, not by `=`."
    if word == b"or":
        return (
            "There is no `or` in a `where`: its tests are joined by `and`, and each begins with a column, without brackets. Write a "
            "table statement for each of the two, or select all rows and test them in a loop."
        )
    if word.lower() in (b"order", b"limit", b"group", b"join", b"having"):
        return (
            f"There is no `{plain(word)}`: a `select` gives all rows that pass, in the order of their keys; a loop over them "
            "does the rest."
        )
    if b"from" in failed.tried and which == b"select" and word in (b"(",):
        return "There are no sums and counts over columns: loop over what `select` gives; how many rows pass is `len(rows[0])`."
    if b";" in failed.tried and word == b"}":
        return missing_semicolon(failed, "each table statement ends with one")
    return None


def of_parts_missing(failed, which, word, before):
    """A part of a table statement that is missing or stands in another place."""
    name = plain(before)
    if which == b"update" and b"set" in failed.tried:
        return f"Behind the table's name stand `set` and the columns, and the `where` behind these: `update {name} set c = 1 where ..;`."
    if which == b"update" and failed.tried == [b"="]:
        return f"A column gets its value by one `=`: `set {name} = ..`."
    if which == b"expect" and word == b"from":
        return "An `expect` begins with the number of rows that are to pass: `expect 1 from t where ..;`."
    if which in (b"expect", b"select") and b"from" in failed.tried and failed.sort() == "name":
        return f"`from` is missing: `from {plain(word)}`."
    if which == b"insert" and word == b"," and before == b")":
        return "An `insert` adds one row: write one for each."
    if which == b"insert" and failed.tried == [b"("] and word.lower() not in (b"values", b"into") and before.lower() != b"into":
        return f"The values of an `insert` stand in brackets, one for each column: `insert {name} (..);`."
    if b"where" not in failed.tried and b"and" in failed.tried and word == b",":
        return "Between two tests of a `where` stands `and`."
    return None


def of_no_part(failed):
    """Where a table statement begins."""
    if b"insert" not in failed.tried:
        return None
    if failed.word() == b"}":
        return "A transaction has at least one table statement."
    if failed.word() == b";":
        return "No `;` stands alone: take it away."
    if failed.word().lower() in (b"replace", b"upsert", b"merge"):
        return f"There is no `{plain(failed.word())}`: `delete` the row and `insert` it, in one transaction."
    return (
        "In a transaction stand table statements alone: `insert`, `select`, `update`, `delete` and `expect`. What else is to be "
        "done stands before it or behind it."
    )


# ---- declarations

def of_declaration(failed):
    number, first = failed.open_form("declaration")
    if number is None or failed.innermost() not in (("declaration", number), ("block", failed.here)):
        return None
    word = failed.word()
    if first == b"page" and word == b"(":
        return "A page has no parameters of its own: `param(\"name\")` gives one of the request, and null where it has none."
    if failed.here == number + 1:
        return f"Behind `{plain(first)}` stands its {'path' if first == b'page' else 'name'}."
    if first == b"store":
        return (
            f"A store is declared by its name alone: `store {plain(failed.raw(number + 1))};`. What it holds at the start stands "
            "in the state file."
        )
    if first == b"table" and failed.sort() == "name" and failed.sort(-1) == "name":
        return (
            f"A column has a name and no type: `table {plain(failed.raw(number + 1))} (.., {plain(failed.word(-1))}, ..);`. "
            "Between two columns stands a comma."
        )
    if first == b"table" and b";" in failed.tried:
        return missing_semicolon(failed, "the declaration of a table ends with one")
    if first == b"table":
        return "A table is declared as `table NAME (COLUMN, ..);`, the first column being its key."
    if first == b"function" and failed.sort() == "name":
        return "A parameter has a name and no type, and between two stands a comma: `function f(a, b) { .. }`."
    if first == b"function" and word == b"=":
        return "A parameter has no value of its own: each call gives all arguments."
    if first == b"function" and b"(" in failed.tried:
        return "Behind a function's name stand its parameters, at least `()`: `function f() { .. }`."
    return f"Behind it stands the block in braces: `{plain(first)} .. {{ .. }}`." if b"{" in failed.tried else None


# ---- expressions

def of_expression(failed):
    """An expression is wanted."""
    if "an expression" not in failed.tried:
        return None
    word, before = failed.word(), failed.word(-1)
    if word == b"{" and (before in COMPARERS or before in (b"and", b"or", b"not", b"+", b"-", b"*", b"/", b"%", b"if", b"while", b"in")):
        return f"Behind `{plain(before)}` an expression is missing: a value, a name or a call."
    if word == b"=" and before in STATEMENT_WORDS:
        return f"`{plain(before)}` takes no `=`: `{plain(before)} {rest_of(failed, 1)};`."
    if word == b"{":
        return (
            "There are no maps and no objects with fields: a list whose places you know, `[1, 2]`; a store, for what outlives "
            "the request."
        )
    if word in (b")", b"]") and before == b",":
        return "The comma before it is one too many."
    if word in (b";", b")", b"]", b"}", b","):
        empty = ' (An empty text is `""`.)' if before == b"echo" else ""
        return f"Behind `{plain(before)}` an expression is missing: a value, a name or a call.{empty}"
    if word in (b"function", *FUNCTIONS):
        return "Functions are no values: they stand at the top of the file, beside the pages, and are called by their names."
    if word == b"=" and before in (b"<", b">", b"="):
        return f"`{plain(before)}=` is written without a space."
    if word == b"=":
        return (
            f"There is no `{plain(before)}=`: to compare write `==`, `!=`, `<`, `<=`, `>` or `>=`; to change a variable `set x = "
            "x + 1;`."
        )
    if word == b">" and before == b"<":
        return "There is no `<>`: write `!=`."
    if word == b"if":
        return "An `if` is a statement and no value: `let x = 1; if .. { set x = 2; }`."
    if word in (b"select", b"insert", b"update", b"delete", b"expect"):
        return f"A table statement stands in a transaction: `transact {{ {plain(word)} ..; }}`."
    if word in STATEMENT_WORDS and before in STATEMENT_WORDS:
        return f"Behind `{plain(before)}` stands an expression, and no other statement."
    if word in STATEMENT_WORDS:
        return missing_semicolon(failed, "or an expression: the statement before it isn't at its end")
    if word in COMPARERS or word in (b"*", b"/", b"%", b"+", b"and", b"or"):
        return f"`{plain(word)}` stands between two expressions, and the one on its left is missing."
    if word in KEYWORDS:
        return f"`{plain(word)}` is a keyword of the language, and no name of a variable: take another name."
    return None


def second_comparer(failed):
    between = plain(failed.word(-1))
    return (
        f"At most one comparer stands in a comparison: in place of `a < b < c` write `a < b and b < c`, here `.. {between} and "
        f"{between} {plain(failed.word())} ..`; or put brackets round one."
    )


def of_operator(failed):
    """An expression is at its end, and what stands here doesn't go on with it."""
    word, before = failed.word(), failed.word(-1)
    if word in COMPARERS:
        return second_comparer(failed)
    if word == b"is":
        return compared_by_is(failed)
    if word == b"=":
        return "`=` gives a value to one variable in a `let` or `set`; to compare two values write `==`."
    number, first = failed.open_form("statement")
    if word == b"," and first == b"let":
        return "A `let` makes one variable: write one `let` for each."
    if word == b"," and first == b"status":
        return "`status` takes one number, and no brackets: `status 404;`. A text for the answer is added by `echo`."
    if word == b"," and first == b"echo":
        return "`echo` takes one expression: join texts by `+`, with `str(n)` for a number, or write two `echo` statements."
    if word == b"(" and failed.sort(-1) != "name":
        return "Only a name is called: functions are no values."
    if word in (b"if", b"unless") and first and not is_on_next_line(failed):
        return f"No condition stands behind a statement: write `if .. {{ {plain(first)} ..; }}`."
    if b";" in failed.tried and (word == b"}" or word in STATEMENT_WORDS or word in (b"page", b"function", b"store", b"table")):
        return missing_semicolon(failed, "each of `let`, `set`, `echo`, `status`, `return` and `do` ends with one")
    if failed.sort(-1) == "number" and failed.sort() == "name" and failed.place(-1) + len(before) == failed.at:
        return "A name begins with a letter or `_`; a number is made of decimal digits alone."
    if before == b"new":
        return "There is no `new`: a list is `[]`, and functions are called by their names."
    if b"+" in failed.tried and (failed.sort() in ("name", "text", "number") or word in (b"true", b"false", b"null", b"transact", b"not")):
        if b";" in failed.tried and is_on_next_line(failed):
            return missing_semicolon(failed, "the statement before it isn't at its end")
        joined = " (texts are joined by `+`)" if failed.sort() == "text" or failed.sort(-1) == "text" else ""
        missing = f"an operator{joined}, a comma, or a `;`.{quote_advice(failed)}"
        return f"Between `{plain(before)}` and `{plain(word)}` something is missing: {missing}"
    if word in (b")", b"]"):
        return f"This `{plain(word)}` closes nothing: one too many, or its `{'(' if word == b')' else '['}` is missing."
    closing = next((sign for sign in (b")", b"]") if sign in failed.tried), None)
    opened = failed.open_brackets()
    if closing and opened and word in (b";", b"{", b"}"):
        return f"A `{plain(closing)}` is missing before it: the bracket of {failed.text.at(opened[-1])} is still open."
    if word == b"{" and b";" in failed.tried:
        return "A block stands behind `if`, `else`, `while` and `for` alone."
    return None


def quote_advice(failed):
    if failed.sort(-1) == "text" and failed.sort() == "name":
        return ' A quote inside a text is written `\\"`; a bare one ends the text.'
    return ""


def is_on_next_line(failed):
    return failed.text.line_of(failed.at) > failed.text.line_of(failed.place(-1))


def missing_semicolon(failed, why):
    end = failed.place(-1) + len(failed.word(-1))
    return [f"Before it a `;` is missing, behind `{plain(failed.word(-1))}`: {why}.", [failed.text.at(end), *failed.text.marked(end, 1)]]
