"""Sources: their tokens, their first fault by the grammar, and the functions of one in which nothing is refused."""
import re

SIGNS = ("<<", ">>", "<=", ">=", "==", "!=", "&&", "||", *"(){},;=+-*/%&|^~!<>")
TYPES = ("bool", "int", "int8", "int16", "int32", "uint8", "uint16", "uint32")
STREAMS = ("istream", "ostream")
CONSTANTS = ("true", "false")
KEYWORDS = ("void", "if", "else", "while", "for", "par", "next", "put", "get", "try", "catch", "throw", "throws")
RESERVED = frozenset(TYPES + STREAMS + CONSTANTS + KEYWORDS)
# Words of other languages that a reader may try. Here each of them is a name.
FOREIGN = frozenset(
    """break case char class const continue default delete do double enum extern float func function goto import
    include inline int128 let long new null print printf private public register return short signed sizeof static
    string struct switch typedef uint uint64 union unsigned var volatile yield""".split()
)


def is_foreign_type(name):
    """Whether this is what other languages call a whole number of 8 to 64 bits."""
    return re.fullmatch(r"u?int(8|16|32|64)_t|[iu](8|16|32|64)|byte", name) is not None


ROWS = [row.split() for row in ("||", "&&", "|", "^", "&", "== !=", "< <= > >=", "<< >>", "+ -", "* / %")]
TIGHTNESS = {sign: row for row, signs in enumerate(ROWS) for sign in signs}
LEAST, GREATEST = -(2**63), 2**63 - 1


class Token:
    """A token of a source: its kind, its text, the place of its first byte and its line, counted from 1."""

    __slots__ = ("kind", "text", "at", "line")

    def __init__(self, kind, text, at, line):
        self.kind, self.text, self.at, self.line = kind, text, at, line

    def value(self):
        if self.kind == "constant":
            return int(self.text == "true")
        base = 16 if self.text[:2] in ("0x", "0X") else 10
        digits = (self.text[2:] if base == 16 else self.text).lstrip("0")
        return int(digits[:20] or "0", base)  # twenty digits are too great already


class NoToken(Exception):
    """No token can be taken at this place."""

    def __init__(self, at):
        super().__init__(at)
        self.at = at


PIECE = re.compile(
    rb"(?P<space>[ \t\n\r\v\f]+)|(?P<comment>//[^\n]*|/\*.*?\*/)|(?P<word>[A-Za-z_][A-Za-z0-9_]*)"
    rb"|(?P<number>0[xX][0-9a-fA-F]+|[0-9]+)|(?!/\*)(?P<sign>%s)" % b"|".join(re.escape(sign.encode()) for sign in SIGNS),
    re.DOTALL)
WORDS = {"stream": STREAMS, "constant": CONSTANTS, "keyword": KEYWORDS}


def pieces(source):
    """Each token, comment and space of a source as (KIND, FROM, TO), up to a byte at which none begins."""
    at, front, types = 0, [], TYPES
    while at < len(source):
        found = PIECE.match(source, at)
        if not found:
            raise NoToken(at)
        kind, text = found.lastgroup, found[0].decode("latin-1")
        if kind == "word":
            kind = "type" if text in types else next((kind for kind, words in WORDS.items() if text in words), "name")
        if len(front) < 3 and kind not in ("space", "comment"):
            front.append(Token(kind, text, at, 1))
            if [token.text for token in front[::2]] == ["shim", ";"] and front[1].kind == "number":
                types = TYPES + (("int64",) if front[1].value() == 2 else ())
        yield kind, at, found.end()
        at = found.end()


def tokens(source):
    """The tokens of a source, up to a byte at which none begins."""
    line, seen = 1, 0
    for kind, start, end in pieces(source):
        if kind not in ("space", "comment"):
            line += source.count(b"\n", seen, start)
            seen = start
            yield Token(kind, source[start:end].decode(), start, line)


# Expressions become functions from a frame, a list of variables by slot, to a number.


class Trap(Exception):
    """A statement can't be computed, or goes too deep."""

    def __init__(self, kind):
        super().__init__(kind)
        self.kind = kind


def within(value):
    if LEAST <= value <= GREATEST:
        return value
    raise Trap("overflow")


def divide(left, right):
    if right == 0:
        raise Trap("zero")
    quotient = abs(left) // abs(right)
    return quotient if (left < 0) == (right < 0) else -quotient


def shift(count):
    if not 0 <= count <= 63:
        raise Trap("shift")
    return count


BINARY = {
    "*": lambda a, b: within(a * b),
    "/": lambda a, b: within(divide(a, b)),
    "%": lambda a, b: a - divide(a, b) * b,
    "+": lambda a, b: within(a + b),
    "-": lambda a, b: within(a - b),
    "<<": lambda a, b: within(a << shift(b)),
    ">>": lambda a, b: a >> shift(b),
    "<": lambda a, b: int(a < b),
    "<=": lambda a, b: int(a <= b),
    ">": lambda a, b: int(a > b),
    ">=": lambda a, b: int(a >= b),
    "==": lambda a, b: int(a == b),
    "!=": lambda a, b: int(a != b),
    "&": lambda a, b: a & b,
    "^": lambda a, b: a ^ b,
    "|": lambda a, b: a | b,
}
UNARY = {"-": lambda a: within(-a), "!": lambda a: int(a == 0), "~": lambda a: ~a}


class Expression:
    """An expression: its value over a frame, the slots that it reads, and its slot where it is a name alone. `parts`
    are its operands and its operator in their order, or, of a name or a number, its text."""

    __slots__ = ("value", "slots", "bare", "parts")

    def __init__(self, value, slots, parts, bare=None):
        self.value, self.slots, self.parts, self.bare = value, slots, parts, bare


def joined(sign, left, right):
    a, b = left.value, right.value
    if sign == "&&":
        value = lambda frame: int(bool(a(frame)) and bool(b(frame)))
    elif sign == "||":
        value = lambda frame: int(bool(a(frame)) or bool(b(frame)))
    else:
        operator = BINARY[sign]
        value = lambda frame: operator(a(frame), b(frame))
    return Expression(value, left.slots | right.slots, (left, sign, right))


def applied(sign, inner):
    operator, value = UNARY[sign], inner.value
    return Expression(lambda frame: operator(value(frame)), inner.slots, (sign, inner))


class Function:
    """A function: its name, line, parameters as (TYPE, BY REFERENCE, NAME, SLOT), throws, block and number of slots."""

    def __init__(self, name, line):
        self.name, self.line = name, line
        self.params, self.throws, self.body, self.size = [], [], None, 0


class Statement:
    """A statement: its kind, its line, and what else it has as attributes."""

    def __init__(self, kind, line, **parts):
        self.kind, self.line = kind, line
        self.__dict__.update(parts)


class NotAccepted(Exception):
    """This source isn't read; `shim check` says why."""


class Refused(NotAccepted):
    """The first fault of a source by the grammar or its limits, in the words of `shim`."""


MOST = {"level": 64, "functions": 1024, "parameters": 32, "throws": 16, "locals": 64, "branches": 64,
        "operators": 256, "arguments": 32}
LONGEST = 64  # bytes of a name


class Parser:
    """Reads a source and refuses its first fault, by docs/GRAMMAR.md. Nobody looks at the names here: one that nothing
    declares has no slot, and then `is_bound` is false.

    `token` is the next one and `kind` its word or sign, or `type`, `stream`, `name`, `number` or `end`. `due` is what
    is judged when it is taken, pairs of a limit's name and a count of what it begins. `deepest` is the deepest level
    in the block that `body` reads. A method with a level reads what stands there."""

    def __init__(self, source):
        self.source, self.tokens = source, tokens(source)
        self.functions, self.names, self.is_bound = [], set(), True
        self.due, self.deepest, self.locals, self.operators = [], 0, 0, 0
        self.function, self.scopes = None, []
        self.readers = {
            "{": self.block_or_fork, ";": self.nothing, "type": self.declarations, "name": self.named,
            "next": self.next, "put": self.put, "throw": self.throw, "if": self.if_or_else, "while": self.loop,
            "for": self.for_loop, "try": self.handled}
        self.version = 1
        self.go_on()
        if self.kind == "name" and self.token.text == "shim":
            self.header()
        while self.kind != "end":
            self.one_function()

    def header(self):
        self.go_on()
        if self.kind != "number" or self.token.value() != 2:
            self.unexpected()
        self.go_on()
        self.version = 2
        self.take(";")

    # Tokens

    def refuse(self, cause, at):
        raise Refused("refused %d %s" % (1 + self.source.count(b"\n", 0, at), cause))

    def unexpected(self):
        self.refuse("unexpected %d" % self.token.at, self.token.at)

    def go_on(self):
        try:
            token = next(self.tokens, None) or Token("end", "", len(self.source), 0)
        except NoToken as fault:
            cause = "open comment" if self.source.startswith(b"/*", fault.at) else "bad byte"
            self.refuse("%s %d" % (cause, fault.at), fault.at)
        self.token, self.kind = token, token.kind
        if token.kind in ("keyword", "sign"):
            self.kind = token.text
        elif token.kind in ("number", "constant"):
            self.kind = "number"
            if token.value() > GREATEST:
                self.refuse("big number %d" % token.at, token.at)
        elif token.kind == "name" and len(token.text) > LONGEST:
            self.refuse("long name %d" % token.at, token.at)

    def take(self, *kinds):
        """Takes a token of one of these kinds."""
        if self.kind not in kinds:
            self.unexpected()
        token = self.token
        for what, number in sorted(self.due, key=lambda one: one[0] != "level"):
            if number > MOST[what]:
                self.refuse("too deep" if what == "level" else "too many " + what, token.at)
            if what == "level":
                self.deepest = max(self.deepest, number)
        self.due = []
        if token.kind == "name":
            self.names.add(token.text)
        self.go_on()
        return token

    def took(self, kind):
        return self.kind == kind and self.take(kind)

    def listed(self, read, counted=None):
        """What is read once or more, with commas between, and counted if there is a limit."""
        found = []
        while not found or self.took(","):
            if counted:
                self.due.append((counted, len(found) + 1))
            found.append(read())
        return found

    # Names

    def name(self):
        return self.take("name").text

    def declare(self, name):
        slot = self.function.size
        self.function.size += 1
        self.scopes[-1][name] = slot
        return slot

    def declared_name(self):
        """A name that counts with the declarations of its function."""
        self.locals += 1
        self.due.append(("locals", self.locals))
        return self.name()

    def slot(self, name):
        for scope in reversed(self.scopes):
            if name in scope:
                return scope[name]
        self.is_bound = False
        return None

    def inner(self, read, level):
        self.scopes.append({})
        what = read(level)
        self.scopes.pop()
        return what

    # Functions

    def one_function(self):
        self.due.append(("functions", len(self.functions) + 1))
        self.take("void")
        name = self.take("name")
        function = self.function = Function(name.text, name.line)
        self.scopes, self.locals = [{}], 0
        self.take("(")
        if not self.took("void") and self.kind != ")":
            function.params = self.listed(self.parameter, "parameters")
        self.take(")")
        if self.took("throws"):
            function.throws = self.listed(self.name, "throws")
        function.body = self.block(1)
        self.functions.append(function)

    def parameter(self):
        type = self.take("type", "stream")
        reference = bool(self.took("&")) or type.kind == "stream"
        name = self.name()
        return type.text, reference, name, self.declare(name)

    def block(self, level):
        self.take("{")
        statements = []
        while not self.took("}"):
            statements += self.statement(level)
        return statements

    # Statements; each reader gives a list, since one declaration may be several.

    def statement(self, level):
        self.due.append(("level", level))
        if self.kind not in self.readers:
            self.unexpected()
        return self.readers[self.kind](self.token.line, level)

    def body(self, level):
        """A body: its braces are no statement of their own, unless they turn out to be a branch."""
        if self.kind != "{":
            return self.inner(self.statement, level)
        around, self.deepest = self.deepest, 0
        first = Statement("block", self.token.line, body=self.inner(self.block, level))
        statements = first.body
        if self.kind == "par":
            self.due.append(("level", max(self.deepest + 1 if self.deepest else 0, level)))
            statements = self.fork_of(first, level)
        self.deepest = max(self.deepest, around)
        return statements

    def block_or_fork(self, line, level):
        return self.fork_of(Statement("block", line, body=self.inner(self.block, level + 1)), level)

    def fork_of(self, first, level):
        """This statement, or the fork whose first branch it is."""
        branches = [first]
        while self.took("par"):
            self.due.append(("branches", len(branches) + 1))
            line = self.token.line
            if self.kind == "{":
                branches.append(Statement("block", line, body=self.inner(self.block, level + 1)))
            else:
                branches.append(self.call_of(self.name(), line, level))
        return branches if len(branches) == 1 else [Statement("fork", first.line, branches=branches)]

    def call_of(self, name, line, level):
        self.take("(")
        arguments = [] if self.kind == ")" else self.listed(lambda: self.whole(level), "arguments")
        self.take(")")
        self.take(";")
        return Statement("call", line, name=name, arguments=arguments)

    def nothing(self, _line, _level):
        self.take(";")
        return []

    def declarations(self, line, level):
        type = self.take("type").text
        statements = self.listed(lambda: self.declaration(type, line, level))
        self.take(";")
        return statements

    def declaration(self, type, line, level):
        name = self.declared_name()
        value = self.whole(level) if self.took("=") else None
        return Statement("declare", line, type=type, name=name, value=value, slot=self.declare(name))

    def named(self, line, level):
        name = self.name()
        if self.kind == "(":
            return self.fork_of(self.call_of(name, line, level), level)
        self.take("=")
        slot = self.slot(name)
        if self.took("next"):
            met = self.name()
            statement = Statement("next", line, name=met, slot=self.slot(met), value=None, to=name, to_slot=slot)
        elif self.took("get"):
            statement = Statement("get", line, name=name, slot=slot, stream=self.name())
        else:
            statement = Statement("assign", line, name=name, slot=slot, value=self.whole(level))
        self.take(";")
        return [statement]

    def next(self, line, level):
        self.take("next")
        name = self.name()
        value = self.whole(level) if self.took("=") else None
        self.take(";")
        return [Statement("next", line, name=name, slot=self.slot(name), value=value, to=None)]

    def put(self, line, level):
        self.take("put")
        name = self.name()
        self.take(",")
        value = self.whole(level)
        self.take(";")
        return [Statement("put", line, name=name, slot=self.slot(name), value=value)]

    def throw(self, line, level):
        self.take("throw")
        name = self.name()
        value = self.test(level) if self.version == 2 and self.kind == "(" else None
        self.take(";")
        return [Statement("throw", line, name=name, value=value)]

    def test(self, level):
        self.take("(")
        test = self.whole(level)
        self.take(")")
        return test

    def if_or_else(self, line, level):
        self.take("if")
        test, then = self.test(level), self.body(level + 1)
        other = self.body(level + 1) if self.took("else") else []
        return [Statement("if", line, test=test, then=then, other=other)]

    def loop(self, line, level):
        self.take("while")
        return [Statement("while", line, test=self.test(level), body=self.body(level + 1))]

    def for_loop(self, _line, level):
        return self.inner(self.for_of, level)

    def for_of(self, level):
        line = self.take("for").line
        self.take("(")
        first = [] if self.kind == ";" else self.first(level + 1)
        self.take(";")
        test = None if self.kind == ";" else self.whole(level)
        self.take(";")
        step = [] if self.kind == ")" else self.step(level + 1)
        self.take(")")
        return [Statement("for", line, first=first, test=test, step=step, body=self.body(level + 1))]

    def first(self, level):
        if self.kind != "type":
            return self.step(level)
        self.due.append(("level", level))
        type = self.take("type")
        return [self.declaration(type.text, type.line, level)]

    def step(self, level):
        self.due.append(("level", level))
        name = self.take("name")
        self.take("=")
        value = self.whole(level)
        return [Statement("assign", name.line, name=name.text, slot=self.slot(name.text), value=value)]

    def handled(self, line, level):
        self.take("try")
        body = self.inner(self.block, level + 1)
        self.take("catch")
        self.take("(")
        return [Statement("try", line, body=body, name=self.name(), **self.inner(self.handler, level + 1))]

    def handler(self, level):
        variable = slot = None
        if self.version == 2 and self.kind == "name":
            variable = self.declared_name()
            slot = self.declare(variable)
        self.take(")")
        return {"variable": variable, "slot": slot, "handler": self.block(level)}

    # Expressions

    def whole(self, level):
        self.operators = 0
        return self.operands(0, level)

    def operands(self, row, level):
        """What has operators as tight as this row or tighter."""
        left = self.operand(level)
        while TIGHTNESS.get(self.kind, -1) >= row:
            sign = self.operator()
            left = joined(sign, left, self.operands(TIGHTNESS[sign] + 1, level))
        return left

    def operator(self):
        self.operators += 1
        self.due.append(("operators", self.operators))
        return self.take(self.kind).text

    def operand(self, level):
        self.due.append(("level", level))
        if self.kind in UNARY:
            sign = self.operator()
            return applied(sign, self.operand(level + 1))
        token = self.take("name", "number", "(")
        if token.kind == "name":
            slot = self.slot(token.text)
            return Expression(lambda frame: frame[slot].value, frozenset((slot,)), (token.text,), slot)
        if token.text == "(":
            inner = self.operands(0, level + 1)
            self.take(")")
            return inner
        number = token.value()
        return Expression(lambda frame: number, frozenset(), (str(number),))


def uses(statements, functions, named, written, declared):
    """Adds to these sets the slots that statements name, those that they take by reference, and those that they declare."""
    for s in statements:
        if s.kind == "declare":
            declared.add(s.slot)
        elif s.kind in ("assign", "get", "put", "next"):
            named.add(s.slot)
            if s.kind != "next" or s.value:
                written.add(s.slot)
            if s.kind == "next" and s.to:
                named.add(s.to_slot)
                written.add(s.to_slot)
        elif s.kind == "call":
            for argument, param in zip(s.arguments, functions[s.name].params):
                named |= argument.slots
                if param[1]:
                    written.add(argument.bare)
        elif s.kind == "try" and s.slot is not None:
            declared.add(s.slot)
        for part in ("value", "test"):
            if getattr(s, part, None):
                named |= getattr(s, part).slots
        for part in parts_of(s):
            uses(part, functions, named, written, declared)


def parts_of(statement):
    """The lists of statements that a statement has inside."""
    names = ("body", "then", "other", "handler", "first", "step", "branches")
    return [getattr(statement, name) for name in names if hasattr(statement, name)]


def program(source):
    """The functions of a source by name, with what each branch that is a block takes. Raises NotAccepted."""
    parser = Parser(source)
    functions = {function.name: function for function in parser.functions}
    if "main" not in functions or not parser.is_bound:
        raise NotAccepted()

    def mark(statements):
        for s in statements:
            for part in parts_of(s):
                mark(part)
            if s.kind == "fork":
                for branch in s.branches:
                    if branch.kind == "block":
                        named, written, declared = set(), set(), set()
                        uses(branch.body, functions, named, written, declared)
                        branch.taken = sorted((named | written) - declared)
                        branch.by_reference = written - declared

    try:
        for function in functions.values():
            mark(function.body)
    except (KeyError, TypeError) as why:  # a call of an unknown function, or of what is no variable by reference
        raise NotAccepted() from why
    return functions
