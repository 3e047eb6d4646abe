#!/usr/bin/env python3
"""Writes crates/script_tree/specs/SyntaxCodes.antt, how a proof stores a syntax tree, from the constructors of Syntax.antt.

Usage: tools/syntax_codes.py. It wants Python 3. Run it at the top of the repository, after a change of the tree and of the
lists below. `--help` prints this.
"""

import sys

EXPRESSIONS = [
    ("Expression", "expression", [
        ("number", ["place", "integer"]), ("text", ["place", "bytes"]), ("truth", ["place", "bool"]),
        ("null", ["place"]), ("bracket", ["place", "Expression"]), ("variable", ["place", "bytes"]),
        ("call", ["place", "bytes", "Expressions"]), ("list", ["place", "Expressions"]),
        ("transact", ["place", "Queries"]), ("unary", ["place", "unary", "Expression"]),
        ("binary", ["place", "binary", "Expression", "Expression"]),
        ("and_", ["place", "Expression", "Expression"]), ("or_", ["place", "Expression", "Expression"]),
        ("index", ["place", "Expression", "Expression"])]),
    ("Expressions", "expressions", [("no_expression", []), ("expression", ["Expression", "Expressions"])]),
    ("Query", "query", [
        ("insert", ["place", "name", "Expressions"]), ("select", ["place", "names", "name", "Conditions"]),
        ("update", ["place", "name", "Assignments", "Conditions"]), ("delete", ["place", "name", "Conditions"]),
        ("expect", ["place", "Expression", "name", "Conditions"])]),
    ("Queries", "queries", [("no_query", []), ("query", ["Query", "Queries"])]),
    ("Conditions", "conditions", [
        ("no_condition", []), ("condition", ["name", "comparison", "Expression", "Conditions"])]),
    ("Assignments", "assignments", [("no_assignment", []), ("assignment", ["name", "Expression", "Assignments"])]),
]
STATEMENTS = [
    ("Statement", "statement", [
        ("let_", ["place", "name", "Expression"]), ("set_", ["place", "name", "Expression"]),
        ("if_", ["place", "Expression", "Statements", "Else"]), ("while_", ["place", "Expression", "Statements"]),
        ("for_", ["place", "name", "Expression", "Statements"]), ("echo", ["place", "Expression"]),
        ("status", ["place", "Expression"]), ("return", ["place", "Expression"]), ("do_", ["place", "Expression"])]),
    ("Else", "else", [("no_else", []), ("else_", ["Statements"])]),
    ("Statements", "statements", [("no_statement", []), ("statement", ["Statement", "Statements"])]),
]
CODED = {
    "place": "coded_ℕ", "integer": "coded_ℤ", "bytes": "coded_bytes", "bool": "coded_bool",
    "unary": "unary_row.the_row.coded", "binary": "binary_row.the_row.coded",
    "comparison": "comparison_row.the_row.coded", "name": "coded_name", "names": "coded_names",
}
# what the comments say of each kind: as it is stored, several of it, how it is stored
SAID = {
    "Expression": ("an expression as it is stored: the number of its form, then its parts", "Expressions",
        "an expression is"),
    "Expressions": ("a list of expressions as it is stored", "Lists of expressions", "a list of expressions is"),
    "Query": ("a statement of a transaction as it is stored", "Statements of a transaction",
        "a statement of a transaction is"),
    "Queries": ("the statements of a transaction as they are stored", "Lists of statements of a transaction",
        "the statements of a transaction are"),
    "Conditions": ("the tests of a where as they are stored", "Lists of tests", "the tests of a where are"),
    "Assignments": ("the assignments of an update as they are stored", "Lists of assignments",
        "the assignments of an update are"),
    "Statement": ("a statement as it is stored: the number of its form, then its parts", "Statements",
        "a statement is"),
    "Else": ("an else as it is stored", "Elses", "an else is"),
    "Statements": ("the statements of a block as they are stored", "Blocks", "the statements of a block are"),
}
HEAD = """-- How a proof stores a syntax tree. Written by tools/syntax_codes.py.
use Rattle.std.specs.Prelude.{◌≡◌, ℕ, List, refl}
use Rattle.std.proofs.Common.{ap, arith}
use Rattle.std.specs.Coded.{Coded, coded_ℕ, coded_ℤ, coded_bool, coded_list}
use base.Stored.{Gv, gnil, gnum, gcons, num}
use Rattle.script_tree.specs.contracts.comparison.Comparison as comparison_row
use Rattle.script_tree.specs.contracts.syntax.operator.UnaryOperator as unary_row
use Rattle.script_tree.specs.contracts.syntax.operator.BinaryOperator as binary_row
use Rattle.script_tree.specs.contracts.syntax.name.Name as name_row
use Rattle.script_tree.specs.declared.syntax.name.Name.{Name}"""
WORDS = """
-- how a text is stored
abbrev pub coded_bytes : Coded (List ℕ)
coded_bytes = coded_list coded_ℕ

-- how a name is stored
abbrev pub coded_name : Coded Name
coded_name = name_row.the_row.coded

-- how a list of names is stored
abbrev pub coded_names : Coded (List Name)
coded_names = coded_list coded_name

-- what is stored first
abbrev head : Gv → Gv
head gnil = gnil
head (gnum n) = gnil
head (gcons a b) = a

-- what is stored behind the first
abbrev tail : Gv → Gv
tail gnil = gnil
tail (gnum n) = gnil
tail (gcons a b) = b

-- the number that is stored first, which tells the forms apart
abbrev tag : Gv → ℕ
tag g = num (head g)
"""


def applied(constructor, variables):
    return "(%s)" % " ".join([constructor] + variables) if variables else constructor


def code_of(name, constructors, number, low, write):
    for k, (constructor, parts) in enumerate(constructors):
        variables = ["a%d" % i for i in range(len(parts))]
        body = "gnil"
        for variable, part in reversed(list(zip(variables, parts))):
            stored = "%s_code %s" % (low[part], variable) if part in low else "%s.code %s" % (CODED[part], variable)
            body = "(gcons (%s) %s)" % (stored, body)
        write("  %s_code %s = gcons (gnum %d) %s" % (name, applied(constructor, variables), k, body))


def injection_of(name, constructors, low, write):
    for constructor, parts in constructors:
        if not parts:
            write("  %s_inj %s %s p = refl" % (name, constructor, constructor))
            continue
        left = ["a%d" % i for i in range(len(parts))]
        right = ["b%d" % i for i in range(len(parts))]
        terms = []
        for i, part in enumerate(parts):
            place = "g"
            for _ in range(i + 1):
                place = "(tail %s)" % place
            equal = "(ap (λ g. head %s) p)" % place
            inj = "%s_inj" % low[part] if part in low else "%s.inj" % CODED[part]
            terms.append("(%s %s %s %s i)" % (inj, left[i], right[i], equal))
        write("  %s_inj %s %s p =\n      λ i. %s %s" % (
            name, applied(constructor, left), applied(constructor, right), constructor, " ".join(terms)))
    write("  %s_inj x y p = absurd (omega (arith, ap tag p))" % name)


def main():
    low = {kind: name for block in (EXPRESSIONS, STATEMENTS) for (kind, name, _) in block}
    with open("crates/script_tree/specs/SyntaxCodes.antt", "w") as out:
        def write(line=""):
            out.write(line + "\n")

        write(HEAD)
        for block in (EXPRESSIONS, STATEMENTS):
            for kind, _, constructors in block:
                names = ", ".join(constructor for constructor, _ in constructors)
                write("use Rattle.script_tree.specs.Syntax.{%s, %s}" % (kind, names))
        out.write(WORDS)
        for block in (EXPRESSIONS, STATEMENTS):
            write("\nabbrev mutual")
            for i, (kind, name, constructors) in enumerate(block):
                write(("\n" if i else "") + "  -- %s\n  pub %s_code : %s → Gv" % (SAID[kind][0], name, kind))
                code_of(name, constructors, kind, low, write)
            write("\nmutual")
            for i, (kind, name, constructors) in enumerate(block):
                write(("\n" if i else "") + "  -- %s that are stored alike are one." % SAID[kind][1])
                write("  pub %s_inj : (x y : %s) → %s_code x ≡ %s_code y → x ≡ y" % (name, kind, name, name))
                injection_of(name, constructors, low, write)
            for kind, name, _ in block:
                write("\n-- how %s stored" % SAID[kind][2])
                write("abbrev pub coded_%s : Coded %s\ncoded_%s = record { code = %s_code; inj = %s_inj }" % (
                    name, kind, name, name, name))


if __name__ == "__main__":
    if "--help" in sys.argv[1:]:
        print(__doc__.strip())
    else:
        main()
