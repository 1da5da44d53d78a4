#!/usr/bin/env python3
"""The first fault of a text, by the grammar and the limits of docs/GRAMMAR.md, or the canonical text of a program, by
docs/FORMATS.md: by the reader of tools/shimtools and with nothing of shim. Nobody looks at the names here.

As a command it prints what a source is in version 2, or, with a title before it, a case of crates/shim_conformance
for each beginning of a source whose last byte ends its `main`; this one has to be ASCII.
Use: bench/robust/grammar.py SOURCE
     bench/robust/grammar.py TITLE SOURCE > crates/shim_conformance/data/prefixes.cases
"""
import argparse
import itertools
import os
import sys

import common
from shimtools import syntax

NEW_TYPE = "int64"  # a type in version 2, and a name in version 1
TIGHTEST = len(syntax.ROWS)


def sort(type):
    return ("int32" if type == "int" else type) + " "


class Writer:
    """Writes a program in version 2, a blank or a line feed after each token. `fresh` is the name that stands there
    for `int64`, if one does."""

    def __init__(self, program):
        others = ("v%d" % number for number in itertools.count())
        is_renamed = NEW_TYPE in program.names
        self.fresh = next(name for name in others if name not in program.names) if is_renamed else None
        self.text = "shim 2 ;\n" + "".join(map(self.function, program.functions))

    def name(self, name):
        return (self.fresh if name == NEW_TYPE else name) + " "

    def function(self, function):
        parameters = ", ".join(sort(type) + "& " * by_reference + self.name(name)
                               for type, by_reference, name, _ in function.params)
        throws = "throws " * bool(function.throws) + ", ".join(map(self.name, function.throws))
        return "void " + self.name(function.name) + "( " + parameters + ") " + throws + self.block(function.body)

    def block(self, statements):
        return "{\n" + "".join(map(self.statement, statements)) + "}\n"

    def statement(self, it):
        if it.kind == "block":
            return self.block(it.body)
        if it.kind == "fork":
            return "par ".join(map(self.statement, it.branches))
        if it.kind == "if":
            other = "else " + self.block(it.other) if it.other else ""
            return "if ( " + self.whole(it.test) + ") " + self.block(it.then) + other
        if it.kind == "while":
            return "while ( " + self.whole(it.test) + ") " + self.block(it.body)
        if it.kind == "for":
            first, step = ("".join(map(self.simple, part)) for part in (it.first, it.step))
            test = self.whole(it.test) if it.test else ""
            return "for ( " + first + "; " + test + "; " + step + ") " + self.block(it.body)
        if it.kind == "try":
            caught = self.name(it.name) + (self.name(it.variable) if it.variable else "")
            return "try " + self.block(it.body) + "catch ( " + caught + ") " + self.block(it.handler)
        return self.simple(it) + ";\n"

    def simple(self, it):
        """What stands before the ; of a statement."""
        name = self.name(it.name)
        if it.kind == "call":
            return name + "( " + ", ".join(map(self.whole, it.arguments)) + ") "
        if it.kind == "get":
            return name + "= get " + self.name(it.stream)
        value = self.whole(it.value) if it.value else ""
        if it.kind == "put":
            return "put " + name + ", " + value
        if it.kind == "throw":
            return "throw " + name + ("( " + value + ") " if value else "")
        before = sort(it.type) if it.kind == "declare" else ""
        if it.kind == "next":
            before = (self.name(it.to) + "= " if it.to else "") + "next "
        return before + name + ("= " + value if value else "")

    def whole(self, expression):
        return self.operand(expression)[1]

    def operand(self, expression):
        """The row of the outermost operator of an expression, and its text."""
        match expression.parts:
            case left, sign, right:
                row = syntax.TIGHTNESS[sign]
                return row, self.part(left, row) + sign + " " + self.part(right, row + 1)
            case sign, inner:
                return TIGHTEST, sign + " " + self.part(inner, TIGHTEST)
            case text,:
                return TIGHTEST, self.name(text)

    def part(self, expression, row):
        """An operand where nothing looser than that row can stand by itself."""
        tightness, text = self.operand(expression)
        return "( " + text + ") " if tightness < row else text


def read(text):
    """The program of these bytes in version 2, None, and the name there that stands for `int64`, if one does; or None,
    the line that refuses them, without its line feed, and None."""
    try:
        program = Writer(syntax.Parser(text))
        return program.text, None, program.fresh
    except syntax.Refused as fault:
        return None, str(fault), None


def cases(title, source):
    """A case for each beginning that lacks the last byte or more."""
    yield ("# Each beginning of a source that lacks its last byte or more, as bench/robust/grammar.py makes and answers "
           "them.\n")
    for length in range(len(source.rstrip())):
        text = source[:length]
        yield "\n" * bool(text) + "=== case the first %d bytes of %s\n" % (len(text), title)
        yield "=== words {run|check} p.shim\n=== bare p.shim\n" + (text.decode() + "\n") * bool(text)
        yield "=== status 5\n=== text\n%s\n=== end\n" % (read(text)[1] or "refused 1 no main")


def main():
    words = argparse.ArgumentParser(description=__doc__, formatter_class=argparse.RawDescriptionHelpFormatter)
    words.add_argument("title", nargs="?", help="that of the cases")
    words.add_argument("source")
    given = words.parse_args()
    try:
        source = common.read(given.source)
    except OSError as why:
        words.error("%s: %s" % (given.source, why.strerror))
    if given.title is None:
        text, fault, _ = read(source)
        parts = [text or fault + "\n"]
    elif source.isascii():
        fault, parts = None, cases(given.title, source)
    else:
        words.error("%s isn't ASCII, and cases have to be" % given.source)
    try:
        with os.fdopen(os.dup(1), "w") as out:
            out.writelines(parts)
    except OSError as why:
        sys.exit("standard output: %s" % why.strerror)
    return 5 if fault else 0


if __name__ == "__main__":
    sys.exit(main())
