"""The texts and programs that bench.py measures."""
import itertools
import string

MIB = 1 << 20


def filled(head, parts, tail, size=MIB, most=MIB):
    """Text of so many bytes: the parts in turn as long as they fit, at most so many, each with a number of its own in
    place of an @, and spaces after."""
    texts, left = [head], size - len(head) - len(tail)
    for number, part in zip(range(1000, 1000 + most), itertools.cycle([parts] if isinstance(parts, str) else parts)):
        text = part.replace("@", str(number))
        if len(text) > left:
            break
        texts.append(text)
        left -= len(text)
    return "".join(texts) + " " * left + tail


# Bodies of functions in shim; C takes an & where one calls another. An @ is the function's number.
ORDINARY = """
  while (n > 0) {
    if (n % 2 == 0) { a = a + n; } else { b = (b << 1) | n; }
    n = n - 1; /* down */
  }
""" * 8 + " a = a * 31 + b; }\n"
DEEP = ("{" * 60 + "}" * 60 + " a = " + "(" * 60 + "n" + ")" * 60 + "; ") * 4 + "}\n"
SUMS = "a = n" + " + 12" * 250 + "; }\n"
# Sixty names a function that no other function has, each used twice.
NAMES = "".join("int v@%d; " % k for k in range(10, 70)) + "".join("v@%d = n + v@%d; " % (k, k) for k in range(10, 70))
NAMES += "}\n"
# Of calls a function calls itself over and over: one of a thousand.
CALLS = "f@(n, a); " * 80 + "}\n"
READ = {"ordinary": ORDINARY, "deep": DEEP, "sums": SUMS, "names": NAMES, "calls": CALLS}
CODE = ["while (x < y && x != 9) { x = x + y * 3; }\n", "if (x || y) { y = x - 1; } else { x = y; }\n"]
TOKENS = "  level = level + (step << 3) * 0x1F; // a ramp\n  next level; /* all meet */ put wire, level >> 8;\n"


def in_shim(body, size, main="void main() { }"):
    """As many functions with this body as fit, and this `main` after them."""
    return filled("", "void f@(int n, int &r) { int a; int b; " + body, main, size, 1000)


def read_in_both(name, size):
    """A text of that shape for shim, and one for C. `statements` is run, too; the `main` of the others does nothing."""
    if name == "statements":
        return listed(size, ["x = x + y + 123;\n"])
    in_c = READ[name].replace("(n, a)", "(n,&a)")
    in_c = filled("", "void f@(int n, int *r) { int a, b = 0; " + in_c, "void main() { }", size, 1000)
    return in_shim(READ[name], size), in_c


def listed(size, parts):
    """These parts and some output in turn, for shim and for C, in as many bytes."""
    heads = "void main(ostream &o) { int x; int y; y = 7; ", "int putchar(int); void run(void) { int x = 0; int y = 7; "
    puts = "put o, x + 1000;\n", "putchar(x + 10);\n"
    return tuple(filled(head, [*parts, put], "}", size) for head, put in zip(heads, puts))


# What compiled code is measured by: for shim, for Lua, and for Python. Each puts the bytes that the others write.
TURNS = 1300000
IN_LUA = "local %s\nwhile %s do %s end\nio.write(string.char(%s & 0xff))\n"
IN_PYTHON = """import sys
def main():
    %s
    while %s:
        %s
    sys.stdout.buffer.write(bytes([%s & 0xff]))
main()
"""


def loop(turns, blocks=0):
    text = "i = %d; while (i) { s = s ^ i; i = i - 1; }" % turns
    return "void main(ostream &o) { int i; int s; %s%s%s put o, s; }\n" % ("if (1) { " * blocks, text, " }" * blocks)


XOR_IN_LUA = IN_LUA % ("i, s = %d, 0" % TURNS, "i ~= 0", "s = s ~ i; i = i - 1", "s")
CALLED = """void inner(int n, int &s) { int i; i = n; while (i) { s = s ^ i; i = i - 1; } }
void middle(int n, int &s) { inner(n, s); }
void outer(int n, int &s) { middle(n, s); }
void main(ostream &o) { int s; outer(%d, s); put o, s; }
""" % TURNS
CRC16 = """void main(istream &in, ostream &o) {
  uint16 crc; int byte; int k; crc = 65535; byte = get in;
  while (byte != -1) {
    crc = crc ^ (byte << 8); k = 0;
    while (k < 8) { if (crc & 32768) { crc = (crc << 1) ^ 4129; } else { crc = crc << 1; } k = k + 1; }
    byte = get in;
  }
  put o, crc >> 8; put o, crc;
}
"""
CRC16_IN_LUA = """local crc, text = 65535, io.read("a")
for at = 1, #text do
  crc = crc ~ (text:byte(at) << 8)
  local k = 0
  while k < 8 do
    if crc & 32768 ~= 0 then crc = ((crc << 1) ~ 4129) & 0xffff else crc = (crc << 1) & 0xffff end
    k = k + 1
  end
end
io.write(string.char(crc >> 8, crc & 0xff))
"""


def sort(exchange, following, names, text):
    """700 times 61 variables are filled anew and sorted by exchanges of neighbours. A function may have 64."""
    body = [following % k for k in range(61)]
    body += [exchange % (k, k + 1, k, k, k + 1, k + 1) for turn in range(61) for k in range(turn % 2, 60, 2)]
    return text % (names.join("v%d" % k for k in range(61)), "".join(body))


SORT = sort(
    "if (v%d > v%d) { t = v%d; v%d = v%d; v%d = t; }\n", "x = (x * 73 + 41) & 1023; v%d = x;\n", "; int ",
    "void main(ostream &o) { int x; int t; int r; int %s;\nx = 7; r = 700;\nwhile (r) {\n%sr = r - 1;\n}\n"
    "put o, v31; }\n")
SORT_IN_LUA = sort(
    "if v%d > v%d then t = v%d; v%d = v%d; v%d = t end\n", "x = (x * 73 + 41) & 1023; v%d = x\n", ", ",
    "local x, t, r = 7, 0, 700\nlocal %s\nwhile r ~= 0 do\n%sr = r - 1\nend\nio.write(string.char(v31 & 0xff))\n")
MACHINE = {
    "counting": ("void main(ostream &o) { int k; while (k < %d) { k = k + 1; } put o, k; }\n" % TURNS,
                 IN_LUA % ("k = 0", "k < %d" % TURNS, "k = k + 1", "k"),
                 IN_PYTHON % ("k = 0", "k < %d" % TURNS, "k = k + 1", "k")),
    "xor": (loop(TURNS), XOR_IN_LUA, IN_PYTHON % ("i, s = %d, 0" % TURNS, "i", "s = s ^ i; i = i - 1", "s")),
    "in 30 blocks": (loop(TURNS, 30), XOR_IN_LUA),
    "in 3 functions": (CALLED, XOR_IN_LUA),
    "int8": (loop(TURNS).replace("int s", "int8 s").replace("^", "+"),
             XOR_IN_LUA.replace("s ~ i", "((s + i + 128) & 0xff) - 128")),
    "crc16": (CRC16, CRC16_IN_LUA),
    "sort": (SORT, SORT_IN_LUA),
    # Forks in each of which one throws, one is poisoned, and the throw is caught outside.
    "throws": ("""void main(ostream &o) { int k; int a;
while (k < 20000) { try { { next a; } par { throw T; } } catch (T) { } k = k + 1; }
put o, k; }
""",),
}


HANDLERS = "shim 2; void main() { int k; while (k < %d) { try { } catch (%s) { } k = k + 1; } }\n"
# A function that forks into itself twice, 62 levels down, beside 60 that wait.
DEEP_FORKS = ("void f(int n) { if (n > 0) { f(n - 1); par f(n - 1); } }\n"
              + "void main() { int c; " + "{ next c; } par " * 60 + "{ f(62); next c; } }\n")
IDLE, WITH_INPUT = "void main() { }\n", "void main(istream &in) { }\n"
SUM_OF_INPUT = """void main(istream &in) {
  int byte; int sum; byte = get in;
  while (byte != -1) { sum = sum + byte; byte = get in; }
}
"""
READ_TO_THE_END = "void main(istream &in) { int byte; byte = get in; while (byte != -1) { byte = get in; } }\n"
ENDLESS = "void main() { " + " par ".join(["{ int k; while (true) { k = k + 1; } }"] * 4) + " }\n"
PIPE = """void main() {
  int a; int b; int n; n = 330000;
  { int k; while (k < n) { next a = k; k = k + 1; } }
  par { int k; while (k < n) { next a; next b = a * 3; k = k + 1; } }
  par { int k; int s; while (k < n) { next b; s = (s + b) % 1000000; k = k + 1; } }
}
"""
# What a text has more of, of which the memory is measured.
PARTS = {"statements": "a=1;", "forks": "{}par{}", "forks that take one": "{}par{a=1;}",
         "forks that take two": "{}par{a=1;b=1;}"}


def forks_in_turn(turns):
    return "void main() { int k; int a; int b; while (k < %d) { { a = k; } par { b = k; } k = k + 1; } }\n" % turns


def split(name, leaf, main, given=""):
    """A function that forks until it stands n times, and does this there; and `main`."""
    words = given.replace("int ", "")
    text = "void %s(int n%s) { if (n < 2) { %s } else { %s(n / 2%s); par %s(n - n / 2%s); } }\nvoid main() { %s }\n"
    return text % (name, given, leaf, name, words, name, words, main)


def all_waiting(count, times=1):
    """So many that are alone with each other at a channel, each as often."""
    return split("leaf", "next c; " * times, "int c; leaf(%d, c);" % count, ", int c")


def beside_waiting(count):
    """So many wait at a channel, 16 in a fork, while one counts 10,000 turns of two steps."""
    some = " par ".join(["some(c);"] * (count // 16))
    main = "void main() { int c; %s par { int k; while (k < 10000) { k = k + 1; } next c; } }\n" % some
    return "void some(int c) { %s }\n" % " par ".join(["{ next c; }"] * 16) + main


TREE = split("leaf", "n = n + 1;", "leaf(20000);")


def one_channel(count):
    main = "int c; int d; wait(%d, c); par { next d; next c; } par { next c; next d; }" % (count - 2)
    return split("wait", "next c;", main, ", int c")


def ring(size):
    """So many of which each waits for the next one."""
    names = ["c%d" % number for number in range(size)]
    waits = ["{ next %s; next %s; }" % pair for pair in zip(names, [*names[1:], names[0]])]
    return "int %s; %s" % (", ".join(names), " par ".join(waits))


def rings(size):
    return lambda count: split("ring", ring(size), "ring(%d);" % (count // size))


def nested_pairs(count):
    deep = "void deep(int k) { if (k < 1) { %s } else { { deep(k - 1); } par { } } }\n" % ring(2)
    return deep + split("pair", "deep(24);", "pair(%d);" % (count // 2))


BLOCKED = {"one": one_channel, "pairs": rings(2), "rings": rings(64), "nested": nested_pairs}
# What `ref` measures, programs that it walks far in or that hold much: the text, and the modes that run it.
SLOW = {
    **{"20,000 steps beside %d that wait" % waits: (beside_waiting(waits), ["ref", "run 1"])
       for waits in (32, 64, 128, 480)},
    "512 share five rendezvous": (all_waiting(512, 5), ["run 1"]),
    "1,000 put beside 200,000 statements": (
        "void main(ostream &o) { int a; { %s } par { %s } }\n" % ("put o, 1;" * 1000, "a=1;" * 200000),
        ["check", "run 1", "run 4"]),
    "16,000 assignments": ("void main() { int a; %s }\n" % ("a = 1;" * 16000), ["ref"]),
    **{"%d assignments in a block" % size: ("void main() { int a; { %s } }\n" % ("a = 1;" * size), ["ref"])
       for size in (4000, 16000)},
    "4,000 assignments in a try": ("void main() { int a; try { %s } catch (T) { } }\n" % ("a = 1;" * 4000), ["ref"]),
    "2,000 calls inside 61 try": (
        "void f() { } void main() { %s%s%s }\n" % ("try { " * 61, "f();" * 2000, "} catch (T) { } " * 61), ["ref"]),
}

# What `texts` measures: texts of 1 MiB, as the head, the parts and the tail of each.
LETTERS = string.ascii_letters + "_"
VARIABLES = ([*LETTERS] + [first + letter for first in "ab" for letter in string.ascii_lowercase])[:96]
# A function that has as many variables as it may, each of which a statement names.
CROWDED = "void f(int " + ", int ".join(VARIABLES[:32]) + ") { int " + ", ".join(VARIABLES[32:]) + "; "
ALL_NAMED = "a=" + "+".join(VARIABLES) + ";"
PARAMETERS = ",".join("int " + name for name in LETTERS[:32])
CALL_WITH_32 = "f(" + ",".join("a" * 32) + ");"
LONG = ["n" * 62 + "%02d" % number for number in range(96)]
CROWDED_BY_LONG = "void f(int " + ", int ".join(LONG[:32]) + ") { int " + ", ".join(LONG[32:]) + "; "
TRIES = "try{}catch(T){}" * 35000


def functions(part, head="void f@(int n) { "):
    """A thousand functions with these parts, as many as fit, each in its share of 1 MiB."""
    share = (MIB - 100) // 1000
    return "", head + part * ((share - len(head) - 5) // len(part)) + "}\n", "void main() { }", MIB, 1000


def main_of(part, head="", tail=""):
    return "void main() { " + head, part, tail + "}"


def nested(opening, inside, closing, depth):
    return main_of(opening * depth + inside + closing * depth, "int a; ")


def thrower(names):
    return "void f() throws " + ",".join(names[-16:]) + "{}"


def thrown(names, part):
    """The part in 61 `try`: the first name is that of the innermost one."""
    return thrower(names) + "void main() {" + "try{" * 61, part, "".join("}catch(%s){}" % name for name in names) + "}"


TEXTS = {
    "blocks": nested("{", "", "}", 63),
    "flat blocks": main_of("{}"),
    "ifs": nested("if(a)", ";", "", 63),
    "if blocks": nested("if(a){", "", "}", 63),
    "elses": nested("if(a);else ", ";", "", 62),
    "whiles": nested("while(a)", ";", "", 63),
    "fors": nested("for(;;)", ";", "", 63),
    "whole fors": nested("for(a=a;a;a=a)", ";", "", 62),
    "tries": nested("try{", "", "}catch(T){}", 63),
    "flat tries": main_of("try{}catch(T){}"),
    "throws after tries": main_of("throw U;", TRIES + "try{", "}catch(U){} "),
    "throws in a fork beside tries": ("void main() throws U {" + TRIES + "{}par{", "throw U;", "} }"),
    "forks beside tries": main_of("{}par{}", TRIES),
    "forks that throw beside tries": ("void main() throws U {" + TRIES, "{throw U;}par{}", "}"),
    "forks that throw past tries":
        main_of("{throw U;throw V;}par{}", "try{" + TRIES + "try{", "}catch(V){}}catch(U){} "),
    "flat forks": main_of("{}par{}"),
    "wide forks": main_of("{}" + "par{}" * 63),
    "nested forks": nested("{}par{", "", "}", 62),
    "nested forks, both": nested("{", ";", "}par{}", 62),
    "forks that take 96": (CROWDED, "{}par{" * 61 + ALL_NAMED + "}" * 61, "} void main() { }"),
    "flat forks that take 96": (CROWDED, "{}par{" + ALL_NAMED + "}", "} void main() { }"),
    "wide forks that copy": (CROWDED, "{}" + "par{next a;}" * 63, "} void main() { }"),
    "a long body in 61 forks": main_of("a=a;", "int a; " + "{}par{" * 61, "}" * 61),
    "long blocks in 61 forks": main_of("{}", "int a; " + "{}par{" * 61, "}" * 61),
    "tries in 60 forks": main_of("try{throw T;}catch(T){}", "int a; " + "{}par{" * 60, "}" * 60),
    "calls": ("void f(){} void main() {", "f();", "}"),
    "calls by value": ("void f(int a,int b){} void main() {int a;", "f(a,1);", "}"),
    "calls with 32": ("void f(" + PARAMETERS + "){} void main() {int a;", CALL_WITH_32, "}"),
    "calls with 32 numbers": ("void f(" + PARAMETERS + "){} void main() {", CALL_WITH_32.replace("a", "1"), "}"),
    "calls that throw 16": thrown(VARIABLES[:61], "f();"),
    "calls that throw 16 long names": thrown(LONG[:61], "f();"),
    "calls that throw 16 in forks": (
        thrower(LETTERS[:16]) + "void main() throws " + ",".join(LETTERS[:16]) + " {" + "{}par{" * 61, "f();",
        "}" * 62),
    "branches that throw 16": thrown(VARIABLES[:61], "{}" + "par f();" * 63),
    "calls of the last of 1000": ("".join("void f%d(){}" % n for n in range(1000)) + "void main() {", "f999();", "}"),
    "assignments": main_of("a=a;", "int a; "),
    "numbers": main_of("a=1;", "int a; "),
    "next": main_of("next a;", "int a; "),
    "put": ("void main(ostream o) { ", "put o,1;", "}"),
    "get": ("void main(istream i) { int a; ", "a=get i;", "}"),
    "throw": ("void main() throws T { ", "throw T;", "}"),
    "sums": main_of("a=1" + "+1" * 256 + ";", "int a; "),
    "sums of names": main_of("a=a" + "+a" * 256 + ";", "int a; "),
    "signs": main_of("a=" + "-" * 63 + "1;", "int a; "),
    "both sides": main_of("a=1" + "&&1" * 256 + ";", "int a; "),
    "signs in sums": main_of("a=" + "+".join(["-1"] * 128) + ";", "int a; "),
    "parentheses": main_of("a=" + "(" * 63 + "1" + ")" * 63 + ";", "int a; "),
    "semicolons": main_of(";"),
    "spaces": main_of(" "),
    "comments": main_of("/**/"),
    "one long comment": main_of("*", "/*", "*/"),
    "declarations": functions(";", "void f@(int n) { int " + ",".join("v%d" % n for n in range(64)) + ";"),
    "names of 64": main_of("n" * 64 + "=" + "n" * 64 + ";", "int " + "n" * 64 + "; "),
    "the last of 96 names": (CROWDED, "a=a;", "} void main() { }"),
    "the last of 96 long names": (CROWDED_BY_LONG, LONG[0] + "=" + LONG[0] + ";", "} void main() { }"),
    "functions": functions("n=n;"),
    "unknown at the end": main_of("a=a;", "int a; ", "x=1; "),
    "refused at the end": main_of("a=a;", "int a; ", ") "),
    "never closed": ("void main() { int a; ", "{", ""),
    "distinct names": main_of("try{}catch(_@){}"),
}
