#!/usr/bin/env python3
"""Gives shim texts that were changed at random, and looks whether each answer is the one that it has to give.

The texts are those of crates/shim_conformance and of examples/, and programs of bench/made.py, with bytes, tokens and
statements changed, and some as they are. Each goes through every mode, by some number of workers and pieces, half of
the runs with --steal; the journal of `trace` is replayed, and so is one that was changed at random; and the text of
`up` goes through some modes, too. All that with limits of time and memory, and 8 is allowed, with its text.

What bench/robust/grammar.py says of the text holds: its first fault, or its text in version 2. Where no mode refuses
it, the runs of tools/shimtools have the report, the reasons of `why`, and what `replay` answers to a journal; `trace`
writes a journal that leads to the status of `ref`. Where the budget stops `run` or a run of `batch`, the report has
the form of docs/FORMATS.md, and its counts add up to the budget. `code` has its form, and a refusal after the
grammar its own, the same in each mode. After `up` all is the same, but for lines and for the name `int64`.

The same numbers make the same texts and words. Prints how many calls had each status. Keeps a text whose answers are
wrong in the folder `found`, says what is wrong, and ends with 1.
Use: make shim && bench/robust/fuzz.py [--texts N] [--first N] [--seed S] [--show NUMBER] [--shim PATH]
"""
import collections
import itertools
import os
import random
import re
import sys

import common
import cases
import grammar
import made
from shimtools import journals, runs, syntax

LIMITS = ["prlimit", "--as=%d" % (4 << 30), "--core=0"]
MIB = 1 << 20
BATCH = ["i", "none", "i"]  # the input of the other calls twice, and between them one without a byte
INPUTS = [b"", b"A", b"AB", bytes(range(256)), b"\xff\x00\n" * 7, b"0123456789" * 30]
NUMBERS = (
    b"0 1 2 3 7 8 63 64 65 127 128 199 200 201 255 256 32767 32768 65535 65536 2147483647 2147483648 4294967295 "
    b"4294967296 4611686018427387904 9223372036854775807"
).split()
AT_LIMITS = [b"n" * length for length in (63, 64, 65, 300)] + (
    b"9223372036854775808 18446744073709551615 0x7fffffffffffffff 0xFFFFFFFFFFFFFFFF 0X0 0x 1e9 1.5 "
    b"00000000000000000000000000000001"
).split()
JOURNAL_NUMBERS = b"0 1 01 2 4000000 4000001 4294967295 4294967296 18446744073709551616 -1 +1".split() + [b"9" * 9999]
JOURNAL_LINES = (b"own main|end main|close main|quiet main 1|meet main#0|poison main main#0|stop 1|journal 1|journal 9|"
                 b"journal 4000000|x|").split(b"|")
SIGNS = [sign.encode() for sign in syntax.TIGHTNESS]
TYPES = [name.encode() for name in (*syntax.TYPES, grammar.NEW_TYPE)]
KEYWORDS = sorted(word.encode() for word in syntax.RESERVED)
WORDS = KEYWORDS + SIGNS + b"( ) { } , ; = ! ~ a b c o T main f int64 shim 2".split()
BYTES = [b"\x00", b"\xff", b"\xc3\x28", b"\xe2\x82", b"\xef\xbb\xbf", b"/*", b"*/", b"//", b"\r\n", b"\x0b", b"\x1a",
         b"@", b"\\", b'"', b" ", b"\t", b"/", b"#", b"."]
SPACES = [b" ", b"\n", b"\r\n", b"\t", b"\x0b\x0c", b"/* \xff\x00 */", b"// \xc3\n", b"/**/"]
HEADER = b"shim 2; "
PIECES = b"""{ } par { }|next a;|throw T;|try { throw T; } catch (T) { }|while (1) { }|while (1) next a;
int z; z = 1 / z;|for (int q = 0; q < 3; q = q + 1) ;|{ next a; } par { next a; }|{ throw T; } par { next a; }
main();|f(1);|a = a << 63;
if (a) { } else { }|a = 9223372036854775807 + a;|put o, a;|a = next a;|next a = a + 1;|int a;|;|{ }|throw T(a);
{ a = 1; } par { { a = 2; } }|try { { next a; throw T; } par { while (1) next a; } } catch (T) { }
try { throw T(a * 3); } catch (T x) { a = x; }
try { { throw T(1); } par { throw T(2); } } catch (T x) { next x; }""".replace(b"\n", b"|").split(b"|")
# What an operand or a statement may stand in, in place of @.
AROUND_OPERANDS = [b"(@)", b"-@", b"!@", b"~(@)", b"1+(@)", b"(@+1)"]
AROUND_STATEMENTS = b"""{ @ }|if (1) @|if (1) { @ }|if (0) ; else @|try { @ } catch (T) { }|try { } catch (T) @
{ @ } par { }|{ } par { @ }|{ { @ } par { } }|for (int q = 0; q < 1; q = q + 1) @|while (1) @
if (1) { @ } par { }""".replace(b"\n", b"|").split(b"|")
TOKEN = rb"(?s)[A-Za-z_0-9]+|<<|>>|<=|>=|==|!=|&&|\|\||/\*.*?\*/|//[^\n]*|[^\s]"
NUMBER = rb"\b[0-9]\w*"
NAME = rb"\b(?!(?:" + b"|".join(KEYWORDS) + rb")\b)[A-Za-z_]\w*"
SIGN = b"|".join(map(re.escape, sorted(SIGNS, key=len, reverse=True)))
TYPE = rb"\b(?:" + b"|".join(TYPES) + rb")\b"
SIMPLE = rb"(?<=[;{}])[^;{}()]+;"
STATEMENT = rb"(?<=[;{}])(?!\s*(?:for|par|else|catch|void)\b)(?:[^;{}]+;|\s*\{[^{}]*\})"
PARAMETER = rb"\b(\w*int\w*|bool)( &)?(?= \w+ ?[,)])"


def known_texts():
    """The texts that run, and those that are refused."""
    running, refused = {common.read(path) for path, *_ in common.examples()}, set()
    for case in cases.cases():
        if not re.match(r"the first \d+ bytes of ", case.title):  # which are too many
            texts = running if case.status in (0, 1, 3, 4) else refused
            texts.update(text for text in case.files.values() if 8 < len(text) < 20000)
    return sorted(running), sorted(refused)


def base(dice, known):
    if dice.random() < 0.45:
        return made.Maker(dice.randrange(1 << 30)).program().encode()
    return dice.choice(known[dice.random() > 0.8])


# Each change takes dice and a text, and gives the text changed.


def at_one(pattern, make):
    """A change that makes something else of one match of a pattern."""
    def change(dice, text):
        found = list(re.finditer(pattern, text))
        if not found:
            return text
        one = dice.choice(found)
        return text[: one.start()] + make(dice, text, one[0]) + text[one.end() :]
    return change


def other(pattern, others):
    return at_one(pattern, lambda dice, text, one: dice.choice(others))


def change_bytes(dice, text):
    at = dice.randrange(len(text) + 1)
    past = min(len(text), at + dice.choice([1, 1, 2, 5, 20, 200]))
    way, flipped = dice.randrange(6), bytes(byte ^ 1 << dice.randrange(8) for byte in text[at:past])
    return [
        text[:at], text[at:], text[:at] + text[past:], text[:at] + dice.choice(BYTES) + text[at:],
        text[:past] + text[at:past] * dice.choice([1, 1, 2, 70, 300]) + text[past:], text[:at] + flipped + text[past:],
    ][way]


def change_version(_dice, text):
    return text[len(HEADER) :] if text.startswith(HEADER) else HEADER + text


def add_functions(dice, text):
    return text + b"".join(b"void g%d() { }\n" % number for number in range(dice.choice([3, 1022, 1023, 1024, 1025])))


def rename(dice, text):
    """Makes a name the same as another one, wherever it stands."""
    names = sorted(set(re.findall(NAME, text))) or [b"a"]
    old, new = dice.choice(names), dice.choice(names)
    return re.sub(rb"\b%s\b" % old, new, text)


def statement_changed(dice, text, one):
    """Nothing in place of a statement, some of it, or another one before it or in its place, of this text or not."""
    another = dice.choice([dice.choice(re.findall(STATEMENT, text)), dice.choice(PIECES)])
    return dice.choice([b"", one * dice.choice([2, 3, 70]), another + b" " + one, another + b" " + one, another])


def nested(dice, text, one):
    around = AROUND_OPERANDS if re.fullmatch(NUMBER, one) else AROUND_STATEMENTS
    before, behind = dice.choice(around).split(b"@")
    count = dice.choice([1, 2, 5, 30, 57, 62, 63, 64, 65, 300])
    return b" " + before * count + one + behind * count


def token_changed(dice, text, one):
    """Nothing in place of a token, many of it, or another."""
    count = dice.choice([2, 2, 3, 66, 260])
    return dice.choice([b"", (one + b" ") * count, b" " + dice.choice(WORDS) + b" "])


TO_KINDS = [other(NUMBER, NUMBERS), other(SIGN, SIGNS), other(TYPE, TYPES),
            at_one(NAME, lambda dice, text, one: dice.choice(re.findall(NAME, text)))]
TO_TOKENS = [at_one(TOKEN, token_changed)] * 3 + [other(NUMBER, AT_LIMITS), other(NAME, AT_LIMITS)]
NEST = [at_one(NUMBER, nested), at_one(SIMPLE, nested)]
SPACE = at_one(TOKEN, lambda dice, text, one: dice.choice(SPACES) + one)
TO_REFERENCE = at_one(PARAMETER, lambda dice, text, one: one[:-2] if one.endswith(b" &") else one + b" &")
# Gentle changes mostly leave a program that is accepted.
STATEMENTS = [at_one(STATEMENT, statement_changed)]
GENTLE = [*TO_KINDS, *TO_KINDS, rename, change_version, TO_REFERENCE, SPACE, *NEST, *STATEMENTS * 6]
ROUGH = [change_bytes] * 7 + [*TO_TOKENS, add_functions, *TO_KINDS[:2], *NEST, *STATEMENTS]
OF_JOURNALS = [
    change_bytes, other(rb"\d+", JOURNAL_NUMBERS), other(rb"(?m)^.*$", JOURNAL_LINES),
    at_one(rb".*\n", lambda dice, text, one: dice.choice([b"", one, dice.choice(text.split(b"\n")) + b"\n"]) + one),
    at_one(rb".*\n", lambda dice, text, one: b""),
]


class Job:
    """The text of a number, its input, its budget and the words of its calls, which make the files `u`, `j` and `k` on
    the way."""

    def __init__(self, seed, number, known):
        self.dice = dice = random.Random("%d %d" % (seed, number))
        text, is_gentle = base(dice, known), dice.random() < 0.75
        for _ in range(dice.choice([0, 1, 1, 1, 2, 2, 3, 5, 8])):
            change = dice.choice(GENTLE if is_gentle and dice.random() < 0.95 else ROUGH)
            text = change(dice, text)
        self.text, self.input = text[: MIB + dice.choice([0, 0, 0, 1])], dice.choice(INPUTS)
        self.budget = dice.choice([1, 7, 50, 300, 2000, 2000, 10000, 10000])
        most = ["--budget", str(self.budget)]
        fed = ["--input", "i", *most]
        by = [["--workers", dice.choice("1 2 3 4 16".split()), "--quantum", dice.choice("1 2 7 64 10000".split()),
               *dice.choice([[], ["--steal"]])] for _ in range(4)]
        self.calls = [
            ["check", "p"], ["code", "p"], ["up", "p"], ["ref", "p", *fed], ["why", "p", *fed],
            ["run", "p", *fed, *by[0]], ["run", "p", *fed, *by[1]], ["batch", "p", *BATCH, *most, *by[1]],
            ["trace", "p", *fed, *by[2]],
            *(["replay", "p", "--input", "i", "--journal", journal] for journal in "jk"),
            ["check", "u"], ["code", "u"], ["up", "u"], ["ref", "u", *fed], ["run", "u", *fed, *by[3]]]

    def answers(self):
        """What shim answers to each call."""
        for name, text in (("p", self.text), ("i", self.input), ("none", b""), ("j", b""), ("k", b""), ("u", b"")):
            common.write(name, text)
        for words in self.calls:
            if words[1] == "u" and not os.path.getsize("u"):
                continue
            answer = common.ask(*words, before=LIMITS, seconds=20)
            yield answer
            if words[:2] == ["up", "p"] and answer.status == 0:
                common.write("u", answer.text)
            if words[0] == "trace" and answer.status in (0, 1, 3, 4):
                common.write("j", answer.text)
                common.write("k", self.dice.choice(OF_JOURNALS)(self.dice, answer.text))


NAMED = r"[A-Za-z_][A-Za-z0-9_]{0,63}"
CODE = re.compile(r"(?:unit [A-Za-z0-9_.]+\n(?:\d+ [a-z]+(?: [a-z0-9-]+)*\n)+)+")
OF_PROGRAM = re.compile(
    rf"refused (?:\d+ (?:unknown name|unknown function|unknown exception|twice|arity|wrong kind|alias) {NAMED}"
    rf"|1 no main|\d+ main parameters|\d+ two writers {NAMED} \d+ \d+)\n")
LINE = re.compile(r"^(catch \S+ \S+|trap \S+ \S+|\d+ mark \S+) \d+$", re.MULTILINE)


class Oracle:
    """What shim has to answer to the calls of a job. Of a refusal after the grammar its answers say which it is."""

    def __init__(self, job, answers):
        self.job, self.code = job, None
        self.text_in_2, fault, self.fresh = grammar.read(job.text)
        refusals = (answer.text.decode("latin-1") for answer in answers if answer.status == 5)
        refusal = fault + "\n" if fault else next(filter(OF_PROGRAM.fullmatch, refusals), None)
        self.refused = (6, "file too long p 1048576\n") if len(job.text) > MIB else refusal and (5, refusal)
        if not self.refused:
            self.functions = syntax.program(job.text)

    def reported(self, mode, text, input):
        """The status and the text of a run on this input, or this text of a spent one."""
        run = runs.Run(self.functions, input)
        runs.by_first_events(run, self.job.budget)
        how = run.ended()
        if how == "spent" and mode in ("run", "batch") and runs.is_spent(text, self.job.budget):
            return 4, text
        return runs.STATUS[how], run.report() + (runs.reasons(run) if (mode, how) == ("why", "blocked") else "")

    def replayed(self, journal):
        run = runs.Run(self.functions, self.job.input)
        try:
            journals.follow(run, journal)
        except journals.Refused as refused:
            return 9, "%s\n" % refused
        return runs.STATUS[run.ended()], run.report()

    def of_batch(self, text):
        parts = re.split(r"^input \w+\n", text, flags=re.MULTILINE)[1:]
        inputs = {"i": self.job.input, "none": b""}
        reports = [(name, *self.reported("batch", part, inputs[name]))
                   for name, part in itertools.zip_longest(BATCH, parts[: len(BATCH)], fillvalue="")]
        wanted = "".join("input %s\n%s" % (name, report) for name, _, report in reports)
        return max(status for _, status, _ in reports), wanted

    def of_trace(self, text):
        """The status of a run, and this text if it is a journal of one with this budget."""
        status, _ = self.reported("ref", "", self.job.input)
        led_to, told = self.replayed(text.encode())
        is_its = led_to == status and text.startswith("journal %d\n" % self.job.budget)
        return status, text if is_its else "a journal of this run, and not one of another budget or with %s" % told

    def wanted(self, words, text):
        """The status and the text of an answer that is right."""
        mode = words[0]
        if self.refused:
            return self.refused
        if mode == "check":
            return 0, "accepted %d\n" % len(self.functions)
        if mode == "up":
            return 0, self.text_in_2
        if mode == "code":
            self.code = self.code or CODE.fullmatch(text) and text
            return 0, self.code
        if mode == "batch":
            return self.of_batch(text)
        if mode == "trace":
            return self.of_trace(text)
        if mode == "replay":
            return self.replayed(common.read(words[-1]))
        return self.reported(mode, text, self.job.input)

    def in_2(self, text):
        """A text of a program as that of the program after `up`, without the lines of the source."""
        return LINE.sub(r"\1", re.sub(r"\bint64\b", self.fresh, text) if self.fresh else text)


def wrong(job, answers):
    """The first answer that isn't allowed, and what it had to be, or None."""
    try:
        oracle = Oracle(job, answers)
    except syntax.NotAccepted:
        return answers[0], "no text that tools/shimtools can't read"
    for answer in answers:
        came = answer.text.decode("latin-1")
        status, text = (8, "no memory\n") if answer.status == 8 else oracle.wanted(answer.words, came)
        is_right = oracle.in_2(came) == oracle.in_2(text) if answer.words[1] == "u" else came == text
        if answer.status != status or answer.error or not is_right:
            return answer, "and not status %d\n%s" % (status, text)
    return None


def main(given):
    known, counts, found = known_texts(), collections.defaultdict(collections.Counter), 0
    if given.show is not None:
        job = Job(given.seed, given.show, known)
        sys.stdout.buffer.write(job.text)
        return print(*job.calls, sep="\n", file=sys.stderr)
    for number in range(given.first, given.first + given.texts):
        job = Job(given.seed, number, known)
        answers = list(job.answers())
        for answer in answers:
            counts[answer.words[0]][answer.status] += 1
        differing = runs.with_room(lambda: wrong(job, answers))
        if differing:
            print("text %d: %s%s" % (number, common.told(differing[0]), differing[1]), flush=True)
            os.makedirs(os.path.join(common.TOP, "found"), exist_ok=True)
            common.write(os.path.join(common.TOP, "found", "%d-%d.shim" % (given.seed, number)), job.text)
            found += 1
    print("%d texts of seed %d from number %d" % (given.texts, given.seed, given.first))
    for mode, statuses in counts.items():
        print("%s: %s" % (mode, ", ".join("%d with status %d" % (statuses[one], one) for one in sorted(statuses))))
    if found:
        sys.exit("%d texts have a wrong answer" % found)


if __name__ == "__main__":
    words = common.words_of()
    common.add_number(words, "texts", 10000, "how many texts")
    common.add_number(words, "first", 0, "the number of the first one", least=0)
    common.add_number(words, "seed", 1, "makes other texts of the same numbers", least=0)
    words.add_argument("--show", type=common.number(0), metavar="N", help="print the text of this number, and its calls")
    common.start(main, words.parse_args())
