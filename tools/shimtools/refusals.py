"""Refused sources for a person: the place, the cause, and what to do."""
import re

from . import syntax

WIDE = 100  # bytes of a source's line that are shown

CAUSES = {
    "too deep": ("deeper than 64 levels", "take a part out: of an expression into a variable, of statements into a function"),
    "too many functions": ("more than 1024 functions", "merge some"),
    "too many parameters": ("more than 32 parameters", "split the function"),
    "too many arguments": ("more than 32 arguments", "give fewer: no function takes more"),
    "too many throws": ("more than 16 names after throws", "catch some inside the function"),
    "too many locals": ("more than 64 declared names in one function", "split the function"),
    "too many branches": ("more than 64 branches in one fork", "let a branch fork again"),
    "too many operators": ("more than 256 operators in one expression", "put a part of it into a variable"),
    "no main": ("there is no function main", "write one: void main(ostream &o) { .. }"),
    "main parameters": (
        "main takes a number, or two streams of one kind",
        "let it take one istream or none, and one ostream or none",
    ),
}
OF_NAMES = {
    "unknown name": (
        "no variable or stream %s is declared around this place and before it",
        "declare it there, or mend the spelling",
    ),
    "unknown function": ("there is no function %s", "write it, or mend the spelling"),
    "unknown exception": (
        "the exception %s isn't known here",
        "put the statement into try { .. } catch (%s) { .. }, or %s after the function's throws",
    ),
    "twice": ("%s is declared twice", "rename one; parameters count with the declarations of the function's own block"),
    "arity": ("the call gives %s another number of arguments than it has parameters", "give as many"),
    "wrong kind": (
        "%s is of the wrong kind here",
        "give a variable of just the parameter's type for a &, a stream of that direction for a stream, and a number elsewhere",
    ),
    "alias": (
        "a call gives %s by reference and once more",
        "give a copy, as %s + 0, for a parameter by value, and another variable for one by reference",
    ),
}
FAULTS = {
    "long name": ("a name of more than 64 bytes", "shorten it"),
    "big number": ("a number that is too great", "9223372036854775807 is the greatest"),
    "open comment": ("a /* that is never closed", "write its */"),
}
BYTES = {
    '"': "there are no strings; put the numbers of the bytes",
    "'": "there are no characters; write the number, as 65 for an A",
    "[": "there are no arrays; take variables, or processes that hold one value each",
    "]": "there are no arrays; take variables, or processes that hold one value each",
    ".": "there are no structures and no fractions",
    "#": "there is no preprocessor",
    "?": "there is no ?:; write an if",
    ":": "there is no ?: and no label",
}
OPERATORS = ("+", "-", "*", "/", "%", "&", "|", "^", "<<", ">>")
# Words after which a name stands, and what stands there.
UNBRACKETED = {"next": "next x;", "get": "x = get i;", "put": "put o, x;", "throw": "throw X;", "throws": "throws X, Y"}


class Source:
    """A source, to show places of it."""

    def __init__(self, name, text):
        self.name, self.text = name, text
        self.tokens = []
        try:
            for token in syntax.tokens(text):
                self.tokens.append(token)
        except syntax.NoToken:
            pass

    def token_at(self, at):
        return next((i for i, token in enumerate(self.tokens) if token.at == at), None)

    def show(self, at, length):
        """The line of a place, and a caret under it."""
        start = self.text.rfind(b"\n", 0, at) + 1
        end = self.text.find(b"\n", at)
        raw = self.text[start : len(self.text) if end < 0 else end].rstrip(b"\r")
        before = at - start
        cut = 0 if len(raw) <= WIDE else max(0, min(before - WIDE // 2, len(raw) - WIDE))
        text = lambda part: "".join(c if c.isprintable() or c == "\t" else "\ufffd" for c in part.decode("utf-8", "replace"))
        shown = raw[cut : cut + WIDE]
        space = "".join("\t" if c == "\t" else " " for c in text(raw[cut:at - start]))
        marks = "^" + "~" * (max(1, min(length, len(shown) - (before - cut))) - 1)
        return ["    " + text(shown), "    " + space + marks]

    def line(self, number):
        """A line alone."""
        lines = self.text.split(b"\n")
        raw = lines[number - 1].rstrip(b"\r") if number <= len(lines) else b""
        text = raw[:WIDE].decode("utf-8", "replace")
        if not text.strip():
            return []
        return ["    " + "".join(c if c.isprintable() or c == "\t" else "\ufffd" for c in text)]

    def names_on(self, line, name):
        """Whether the name stands on this line, or in what is left there of a statement that ends on a later one."""
        for token in self.tokens:
            if token.line >= line and token.text == name:
                return True
            if token.line > line and token.text in (";", "{", "}"):
                return False
        return False

    def place(self, at):
        return "%s:%d:%d" % (self.name, 1 + self.text.count(b"\n", 0, at), at - self.text.rfind(b"\n", 0, at))


def opening(tokens, index, left, right):
    """The place of the bracket in which the token at this place stands; none where it stands in none."""
    closed = 0
    for at in range(index - 1, -1, -1):
        closed += {right: 1, left: -1}.get(tokens[at].text, 0)
        if closed < 0:
            return at
    return None


def is_name_missing(tokens, index):
    """Whether a name must stand at this place: after `void`, a type, a type with &, or a comma of a declaration."""
    before = index - 1
    if tokens[before].text == "&" and before:
        before -= 1
    if tokens[before].kind in ("type", "stream") or tokens[before].text == "void":
        return True
    first = before
    while first and tokens[first - 1].text not in ("{", "}", ";"):
        first -= 1
    return tokens[before].text == "," and tokens[first].kind == "type"


def expected(source, at):
    """What to do about a token that begins no program with those before it."""
    tokens, index = source.tokens, source.token_at(at)
    if at >= len(source.text.rstrip()) and index is None:
        opened = sum({"{": 1, "}": -1}.get(token.text, 0) for token in tokens)
        return "%d } missing" % opened if opened > 0 else "something is missing at the end"
    if index is None:
        return "look just before it"
    token = tokens[index]
    before = tokens[index - 1] if index else None
    behind = tokens[index + 1] if index + 1 < len(tokens) else None
    first = next((t for t in reversed(tokens[:index]) if t.text in ("{", "}", ";")), None)
    first = tokens[tokens.index(first) + 1] if first else tokens[0]
    for word in (token, before, first):
        if word and word.kind == "name" and syntax.is_foreign_type(word.text):
            return "the types are bool, int, int8, int16, int32, uint8, uint16, uint32, and int64 in version 2; %s reads as a name" % word.text
        if word and word.kind == "name" and word.text in syntax.FOREIGN:
            return "the language has no %s; it reads as a name" % word.text
    if "int64" in (token.text, before.text if before else "") and tokens[0].text != "shim":
        return "int64 is a type of version 2 alone: begin the source with shim 2;"
    if tokens[0].text != "shim" and index >= 2:
        if token.text == "(" and tokens[index - 2].text == "throw":
            return "a number of a throw is of version 2 alone: begin the source with shim 2;"
        if token.kind == "name" and index >= 3 and tokens[index - 3].text == "catch":
            return "a handler's variable is of version 2 alone: begin the source with shim 2;"
    if before is None:
        return "a source is functions, and each begins with void; there are no globals"
    if before.text == "shim" and index == 1:
        return "a header is shim 2; and a source without one begins with void"
    for left, right in ((before, token), (token, behind)):
        if right and left.text in OPERATORS and left.at + len(left.text) == right.at:
            if right.text == left.text and left.text in "+-":
                return "there is no %s%s; write x = x %s 1" % (left.text, left.text, left.text)
            if right.text == "=":
                return "there is no %s=; write x = x %s .." % (left.text, left.text)
    if token.kind == "keyword" and is_name_missing(tokens, index):
        return "%s is a keyword, and no keyword is a name" % token.text
    if before.text in UNBRACKETED and token.text == "(":
        return "%s takes no parentheses: %s" % (before.text, UNBRACKETED[before.text])
    if before.text in UNBRACKETED and token.kind == "sign":
        return "a name is missing after %s" % before.text
    if before.text == "try":
        return "after try stands a block: try { .. } catch (NAME) { .. }"
    if token.text == "*" and before.kind == "type":
        return "there are no pointers; a parameter by reference is %s &p" % before.text
    if token.text == "&" and before.text == "=":
        return "there are no pointers"
    if token.text == "&" and before.text in ("(", ","):
        head = opening(tokens, index, "(", ")")
        is_parameter = head and head > 1 and tokens[head - 2].text == "void"
        return "a type is missing before the &" if is_parameter else "an argument has no &: the function's parameter has it"
    if token.text == "(" and before.kind == "name" and first is not before and tokens[index - 2].kind != "type":
        return "no function has a value: let %s store into a parameter with &" % before.text
    if token.text == "==" and before.kind == "name" and (first is before or tokens[index - 2].text == "(" and first.text == "for"):
        return "== compares; a statement that stores is %s = .." % before.text
    if token.kind == "type" and "catch" in [t.text for t in tokens[max(0, index - 3) : index - 1]]:
        return "a catch names an exception; its variable has no type"
    if before.text == "}":
        block = opening(tokens, index - 1, "{", "}")
        if block and tokens[block - 1].text == "try":
            return "after the block of a try stands catch (NAME) { .. }"
    if token.text == ",":
        head = opening(tokens, index, "(", ")")
        if head and tokens[head - 1].text == "for" and tokens[head + 1].kind == "type":
            if ";" not in [t.text for t in tokens[head:index]]:
                return "a for declares one name"
    if before.kind == "number" and before.at + len(before.text) == token.at and re.match(r"\w", token.text):
        return "a number is decimal digits alone, or 0x and digits of base sixteen"
    if token.text in ("get", "next") and before.text == "=":
        return "the first value of a name is an expression; declare it first, then write x = %s .." % token.text
    if token.text == "get":
        return "get stands right after x = alone"
    if token.text == "next" and (token.line == before.line or before.kind not in ("name", "number", "constant") and before.text != ")"):
        return "next stands at the beginning of a statement, or right after x ="
    if token.text == "=":
        if behind and behind.text in ("get", "next"):
            return "x = %s .. is a statement of its own" % behind.text
        return "an expression has no =; equality is =="
    if token.text == "else":
        return "no if stands right before this else; look for a ; or a } too many"
    if token.text == "par":
        return "a branch is a block, or a call with its ;"
    if token.text == "catch":
        return "a catch stands right after the block of a try"
    if token.text == "void":
        return "a } is missing before this function"
    opened = sum({"{": 1, "}": -1}.get(t.text, 0) for t in tokens[:index])
    if token.text == "}" and opened == 0:
        return "there is one } too many, here or before"
    if token.text == ";" and before.text == ")" and opened == 0:
        return "there are no prototypes: a function has its block"
    if token.line > before.line and before.text not in ("{", "}", ";"):
        return "often a ; is missing after the %s of line %d" % (before.text, before.line)
    return "look just before it: often a ;, a bracket or an operator is missing there"


def place_of(source, kind, name, line):
    """The place of a refused name, of which the program tells the line of its statement alone; none unless it is certain."""
    tokens = source.tokens
    here = [i for i, token in enumerate(tokens) if token.line == line and token.text == name]
    if len(here) != 1:
        return None
    index = here[0]
    before = tokens[index - 1].text if index else ""
    behind = tokens[index + 1].text if index + 1 < len(tokens) else ""
    first = index
    while first and tokens[first - 1].text not in (";", "{", "}", "("):
        first -= 1
    is_declared = index and tokens[index - 1].kind == "type" or before == "," and tokens[first].kind == "type"
    if kind == "unknown name" and is_declared or kind == "unknown function" and (behind != "(" or before == "void"):
        return None
    if kind == "unknown exception" and before != "throw":
        return None
    # Of an argument that is no name the program tells the parameter, which may stand on the line as something else.
    if kind == "wrong kind" and any(
        token.kind in ("type", "stream") and sign.text == "&" and param.text == name
        for token, sign, param in zip(tokens, tokens[1:], tokens[2:])
    ):
        return None
    return tokens[index].at


def tell_refusal(source, told):
    """A refusal for a person. The last line of a fault says what to do."""
    _, line, cause = told.split(" ", 2)
    line = int(line)
    words = cause.split(" ")
    kind, _, at = cause.rpartition(" ")
    if kind in ("bad byte", "unexpected") or kind in FAULTS:
        at = int(at)
        length = 1
        if kind == "bad byte":
            byte = source.text[at : at + 1]
            known = BYTES.get(byte.decode("latin-1"))
            shown = "'%s'" % byte.decode() if byte.isascii() and byte.decode().isprintable() else "the byte %02x" % byte[0]
            message, advice = "no token begins with %s" % shown, known or "take it out; it may stand in a comment alone"
            if source.text.startswith(b"\xef\xbb\xbf", at):
                advice = "it begins a byte order mark; save the file without one"
        elif kind == "unexpected":
            index = source.token_at(at)
            if index is None:
                message = "the file ends too early"
            else:
                length = len(source.tokens[index].text)
                message = "unexpected '%s'" % source.tokens[index].text
            advice = expected(source, at)
        else:
            message, advice = FAULTS[kind]
            if kind == "open comment":
                length = 2
            else:
                length = len(re.match(rb"\w*", source.text[at:])[0])
        if at >= len(source.text):
            text = source.text.rstrip()
            shown = source.show(len(text) - 1, 1) if text else []
            place = source.place(at) if not text else source.place(len(text) - 1)
        else:
            shown, place = source.show(at, length), source.place(at)
        return ["%s: %s" % (place, message), *shown, "  " + advice]
    if cause in CAUSES:
        message, advice = CAUSES[cause]
        return ["%s:%d: %s" % (source.name, line, message), *source.line(line), "  " + advice]
    if words[0] == "two":
        name, first, second = words[2:]
        message = "the branches %s and %s of this fork, counted from 0, both write %s" % (first, second, name)
        message += " or take it by reference"
        advice = "let one of them write a variable of its own; a stream goes to one branch, which takes the others' values by next"
        return ["%s:%d: %s" % (source.name, line, message), *source.line(line), "  " + advice]
    kind, name = cause.rsplit(" ", 1)
    message, advice = (text.replace("%s", name) for text in OF_NAMES[kind])
    if kind == "wrong kind" and not source.names_on(line, name):
        message = "the parameter %s takes a variable or a stream, and gets something else" % name
        advice = "give a name alone: of a variable of just the parameter's type for a &, of a stream of that direction for a stream"
    if kind == "unknown exception" and not source.names_on(line, name):
        message = "what is called here may throw %s, which isn't known here" % name
    at = place_of(source, kind, name, line)
    if at is not None:
        return ["%s: %s" % (source.place(at), message), *source.show(at, len(name)), "  " + advice]
    return ["%s:%d: %s" % (source.name, line, message), *source.line(line), "  " + advice]
