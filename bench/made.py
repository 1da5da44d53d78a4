#!/usr/bin/env python3
"""Prints a program, another one for each number: forks in forks, meetings, exceptions, loops and output at random.

A branch assigns only to variables that no branch beside it assigns to, so most of these are accepted; each ends within
some thousand steps, or blocks. Of four numbers one makes a program of version 2, and one a program of version 1 with a
variable `int64`. Use: bench/made.py NUMBER
"""
import argparse
import random

NAMES = ["a", "b", "c", "d", "e"]
TYPES = ["int", "int8", "uint8", "int16", "bool", "int32"]
KINDS = ["set", "set", "next", "next", "next", "put", "if", "loop", "fork", "fork", "try", "throw"]
OPERATORS = ["+", "-", "*", "^", "&", "|", "<", "==", "&&", "||"]


class Maker:
    def __init__(self, seed):
        self.random = random.Random(seed)
        self.two = seed % 4 == 3
        self.names = ["int64"] + NAMES[1:] if seed % 4 == 1 else NAMES
        self.left = 60  # statements that may still come
        self.counters = 0

    def expression(self, depth=0):
        kind = self.random.randrange(4 if depth < 2 else 2)
        if kind == 0:
            return str(self.random.randrange(-9, 200))
        if kind == 1:
            return self.random.choice(self.names)
        left, right = self.expression(depth + 1), self.expression(depth + 1)
        if kind == 2:
            return f"({left} {self.random.choice(OPERATORS)} {right})"
        return f"({left} % 7 + {right})"

    def block(self, own, out, caught, depth, looped):
        """Some statements: what may be assigned to, whether the output is there, which exceptions are caught."""
        count = self.random.randrange(1, 5)
        return " ".join(self.statement(own, out, caught, depth, looped) for _ in range(count))

    def branches(self, own, out, caught, depth, looped):
        count = self.random.choice([2, 2, 2, 3, 4])
        parts = [[] for _ in range(count)]
        for name in own:
            self.random.choice(parts).append(name)
        with_output = self.random.randrange(count)
        blocks = (self.block(part, out and number == with_output, caught, depth + 1, looped)
                  for number, part in enumerate(parts))
        return " par ".join("{ " + block + " }" for block in blocks)

    def statement(self, own, out, caught, depth, looped):
        self.left -= 1
        kind = self.random.choice(KINDS)
        if self.left < 0 or depth > 4:
            kind = self.random.choice(["set", "next", "put"])
        if kind == "set" and own:
            return f"{self.random.choice(own)} = {self.expression()};"
        if kind == "put" and out:
            return f"put o, {self.expression()};"
        if kind == "if":
            then = self.block(own, out, caught, depth + 1, looped)
            other = self.block(own, out, caught, depth + 1, looped)
            return f"if ({self.expression()}) {{ {then} }} else {{ {other} }}"
        if kind == "loop" and looped < 2:
            self.counters += 1
            name = f"k{self.counters}"
            body = self.block(own, out, caught, depth + 1, looped + 1)
            return f"for (int {name} = 0; {name} < {self.random.randrange(1, 7)}; {name} = {name} + 1) {{ {body} }}"
        if kind == "fork":
            return self.branches(own, out, caught, depth, looped)
        if kind == "try":
            name = f"T{len(caught)}"
            body = self.block(own, out, caught + [name], depth + 1, looped)
            handler = self.block(own, out, caught, depth + 1, looped)
            return f"try {{ {body} }} catch ({name}) {{ {handler} }}"
        if kind == "throw" and caught:
            return f"if ({self.expression()}) throw {self.random.choice(caught)};"
        return f"next {self.random.choice(self.names)};"

    def program(self):
        types = TYPES + ["int64"] * 3 if self.two else TYPES
        declarations = " ".join(f"{self.random.choice(types)} {name};" for name in self.names)
        body = " ".join(self.statement(self.names, True, [], 0, 0) for _ in range(self.random.randrange(3, 8)))
        ends = " ".join(f"put o, {name};" for name in self.names)
        header = "shim 2; " if self.two else ""
        return f"{header}void main(ostream &o) {{ {declarations} {body} {ends} }}\n"


if __name__ == "__main__":
    words = argparse.ArgumentParser(description=__doc__)
    words.add_argument("number", type=int)
    print(Maker(words.parse_args().number).program(), end="")
