#!/usr/bin/env python3
"""Measures what shim costs. Each subcommand is a question: `bench.py --help` lists them, `bench.py QUESTION --help`
its words.

Commands that belong together run in turn, for some rounds. A line tells of one command the least time, the median of
the times, the least processor time and the greatest memory, and its ratios to a peer in the same run: those of the
four. Beside others' work the third says more, and where the machine's speed changes the second does. Wants gcc; another
peer that isn't installed is left out, and a line says so. With --before each command of shim runs by that build, too,
has to write the same but where the budget stops it, and the line tells the ratios to it. `steps` counts instructions,
and with --before `reading` and `net sizes` do, too, where valgrind is there: these are the same whatever else the
machine does. Nothing else is tested but that each command ends as it should, and that those write the same that have
to.

Use: make shim && bench/bench.py QUESTION [NAME..] [--rounds N] [--shim PATH] [--before PATH]
"""
import argparse
import collections
import functools
import itertools
import os
import re
import resource
import shutil
import statistics
import subprocess
import sys
import time

BENCH = os.path.dirname(os.path.realpath(__file__))
sys.path.append(os.path.join(BENCH, "robust"))
import common  # noqa: E402
import shapes  # noqa: E402
from common import TOP, write  # noqa: E402

MIB = shapes.MIB
MOST = ["--budget", "4000000"]
ONE = ["--workers", "1"]
WORKERS = {"1 worker": ONE, "default workers": [], **{"%d workers" % n: ["--workers", str(n)] for n in (2, 4, 16)}}
QUESTIONS = {}

# A line: what it is of; the run and its peers, which are pairs of a name and a run; how many units of work the run
# does, 0 where its last line ends with that, and what these are; and whether its instructions are counted.
Row = collections.namedtuple("Row", "what run peers units unit is_counted", defaults=((), None, "step", False))


def question(names=(), rounds=5, **numbers):
    """Makes a function a subcommand: the names that it takes, how many rounds where nothing is said, and numbers by
    option. It is called for each name, and gives lists of rows, of which each is measured and told before the next
    one."""
    def enter(function):
        QUESTIONS[function.__name__.rstrip("_")] = (function, list(names), rounds, numbers)
        return function
    return enter


class Run:
    """A command, and of its rounds the times, the least processor time and the greatest memory.

    `ends` are the statuses it may have, `last` is its last line, `idle` a run whose times are taken off, `given` the
    file on its standard input and `to` the one of its output, and `before` the same by another build."""

    numbers = itertools.count()

    def __init__(self, command, ends=(0,), last=None, idle=None, given=os.devnull, to=None):
        self.command, self.ends, self.last, self.idle, self.given = command, ends, last, idle, given
        self.to = to or "out %d" % next(self.numbers)
        self.before = self.status = None
        self.least_spent, self.kib = float("inf"), 0
        self.times = []

    def once(self):
        with open(self.given) as given, open(self.to, "wb") as out:
            subprocess.run(["./peers", "launch", "took", *self.command], stdin=given, stdout=out, check=True)
        with open("took") as it:
            took, spent, kib, self.status = map(float, it.read().split())
        if self.ends and self.status not in self.ends or self.last not in (None, self.last_line()):
            sys.exit(self.told())
        self.least_spent, self.kib = min(self.least_spent, spent), max(self.kib, kib)
        self.times.append(took)

    def all(self):
        """What is measured of it: its idle run and itself, by each build."""
        return [one for run in (self, self.before) if run for one in (run.idle, run) if one]

    def text(self):
        return common.read(self.to)

    def last_line(self):
        with open(self.to, "rb") as out:
            out.seek(max(0, os.path.getsize(self.to) - 200))
            return (out.read().decode(errors="replace").splitlines() or [""])[-1]

    def told(self):
        return "%s: %d, %s" % (" ".join(self.command), self.status, self.last_line())

    def figures(self):
        """The least time, the median time, the processor time and the memory. Of the idle run's times each is taken off
        that of the same round."""
        if not self.idle:
            return min(self.times), statistics.median(self.times), self.least_spent, self.kib
        median = statistics.median(map(float.__sub__, self.times, self.idle.times))
        return min(self.times) - min(self.idle.times), median, self.least_spent - self.idle.least_spent, self.kib


def same(one, *others):
    """Ends the script where another run didn't end or write like this one, but where the budget stopped both."""
    for other in others:
        if one.status != other.status or one.status != 4 and one.text() != other.text():
            sys.exit("not the same: %s, and %s" % (one.told(), other.told()))


@functools.cache
def has(tool):
    """Whether a tool is there; tells once where it isn't."""
    found = shutil.which(tool)
    if not found:
        print("  no %s here: it is left out" % tool, flush=True)
    return found


def instructions(run):
    counting = ["valgrind", "--tool=callgrind", "--callgrind-out-file=/dev/null"]
    ran = subprocess.run([*counting, *run.command], capture_output=True, text=True)
    return int(re.search(r"Collected : (\d+)", ran.stderr)[1])


def peer(name, *command, **more):
    """A peer's name, and its run where it is there."""
    return name, Run([str(word) for word in command], **more) if has(command[0]) else None


class Bench:
    """What the questions share: the words that were given, the builds, and how results are measured and told."""

    def __init__(self, given):
        self.given = given
        self.builds = [path for path in (given.shim, given.before) if path]

    def shim(self, *words, idle=None, limit=(), **more):
        """A run of shim, started by the words of a limit, and the same by the other build after it."""
        run, *others = [Run([*limit, build, *words], idle=idle, **more) for build in self.builds]
        for other in others:
            other.idle, other.to, run.before = idle and idle.before, run.to + ".before", other
        return run

    def say(self, row):
        run, (took, median, spent, kib) = row.run, row.run.figures()
        line = "  %-40s %.4f s, median %.4f, %.4f of processor time" % (row.what, took, median, spent)
        line += ", %.1f MiB" % (kib / 1024)
        if run.status:
            line += ", status %d" % run.status
        units = row.units if row.units != 0 else int(run.last_line().split()[-1])
        if units:
            line += ", %.1f ns a %s" % (took / units * 1e9, row.unit)
        for name, other in [*row.peers, ("before", run.before)]:
            if other:
                pairs = zip(run.figures(), other.figures())
                ratios = ", ".join("%.3f" % (one / two) if one > 0 and two > 0 else "?" for one, two in pairs)
                line += "; %s %.4f s, ratios %s" % (name, other.figures()[0], ratios)
        if row.is_counted and (units or run.before) and has("valgrind"):
            counts = [instructions(one) for one in (run, run.before) if one]
            line += "; %s instructions" % " and ".join(map(str, counts))
            line += ", %.1f a %s" % (counts[0] / units, row.unit) if units else ""
            line += ", ratio %.4f" % (counts[0] / counts[1]) if run.before else ""
        print(line, flush=True)

    def answer(self, function, *names):
        for rows in function(self, *names):
            runs = [run for row in rows for run in (row.run, *(run for _, run in row.peers)) if run]
            in_turn = dict.fromkeys(one for run in runs for one in run.all())
            for _, run in itertools.product(range(self.given.rounds), in_turn):
                run.once()
            for row in rows:
                self.say(row)
                same(row.run, *filter(None, [row.run.before]))


def in_both(texts, *words):
    """Writes a text for shim and one for C, and gives a run of gcc over that."""
    for path, text in zip(("source.shim", "source.c"), texts):
        write(path, text)
    return peer(" ".join(["gcc", *words]), "gcc", "-w", *words, "-o", "/dev/null", "source.c")


@question(["statements", *shapes.READ])
def reading(bench, name):
    """Read and bind texts of five shapes whose `main` does nothing, and run one of statements, beside gcc
    -fsyntax-only."""
    for size in (MIB // 2, MIB):
        by_gcc = in_both(shapes.read_in_both(name, size), "-fsyntax-only")
        yield [Row("%s, %d bytes" % (name, size), bench.shim("run", "source.shim"), [by_gcc], is_counted=True)]


@question(rounds=9)
def tokens(bench):
    """Cut texts into tokens, whose last byte begins none, beside a loop of C over the same bytes; less an empty
    text."""
    write("empty", "@")
    idle, (_, idle_loop) = bench.shim("run", "empty", ends=(5,)), peer("", "./peers", "words", "empty")
    for size in (MIB // 4, MIB // 2, MIB):
        write("text", shapes.filled("", shapes.TOKENS, "@", size))
        loop = peer("a C loop", "./peers", "words", "text", idle=idle_loop)
        yield [Row("%d bytes" % size, bench.shim("run", "text", ends=(5,), idle=idle), [loop], size, "byte")]


@question()
def code(bench):
    """List the code of a text, beside gcc -O0 -S."""
    for size in (MIB // 4, MIB // 2, MIB):
        by_gcc = in_both(shapes.listed(size, shapes.CODE), "-O0", "-S")
        yield [Row("%d bytes" % size, bench.shim("code", "source.shim"), [by_gcc])]


@question(shapes.TEXTS, rounds=3, seconds=100)
def texts(bench, name):
    """Check texts of 1 MiB, shape by shape, and run one step of each, in at most so many seconds of processor time.
    The MiB of memory are how often as much as the text it takes."""
    write("p", shapes.filled(*shapes.TEXTS[name]))
    limit = ["prlimit", "--cpu=%d:%d" % (bench.given.seconds, bench.given.seconds + 1)]
    yield [Row("%s: %s" % (name, words[0]), bench.shim(*words, ends=(), limit=limit))
           for words in (["check", "p"], ["run", "p", "--budget", "1", *ONE])]


@question(shapes.MACHINE, rounds=3)
def steps(bench, name):
    """A step of compiled programs, and of one over syntax, beside Lua and Python, with the instructions that a step
    takes."""
    text, *others = shapes.MACHINE[name]
    words = [write("p.shim", text), *MOST, *ONE, "--input", write("input", os.urandom(100000))]
    peers = [peer(tool, tool, write("p." + tool, other), given="input")
             for tool, other in zip(("lua5.4", "python3"), others)]
    rows = [Row(name, bench.shim("run", *words), peers, 0, is_counted=True)]
    if name == "xor":
        rows.append(Row(name + ", over syntax", bench.shim("ref", *words), peers, 0))
    yield rows
    for row in rows:
        put = bytes.fromhex(row.run.text().split()[2].decode())
        for tool, run in peers:
            if run and run.text() != put:
                sys.exit("%s: %r, and %s %r" % (row.what, put, tool, run.text()))


@question(rounds=3)
def input_(bench):
    """Read an input of 16 MiB, and sum up a part of it byte by byte, which takes 4,000,000 steps, beside C."""
    write("input", os.urandom(16 * MIB))
    none = bench.shim("run", write("none.shim", shapes.WITH_INPUT), "--input", "input")
    count = 4000000 // 3  # a byte takes three steps
    total = bench.shim("run", write("sum.shim", shapes.SUM_OF_INPUT), "--input", "input", *MOST, ends=(4,), idle=none)
    yield [Row("an input that nothing reads", none),
           Row("%d bytes" % count, total, [peer("C", "./peers", "sum", "input", count)], count, "byte")]


# Of a shell whose first word is the program: a run for each input, one after the other, and four at a time.
RUN_EACH = ["""for input in inputs/*; do
  echo "input $input"; "$0" run p.shim --workers 1 --budget 4000000 --input "$input"
done""", """printf '%s\\n' inputs/* |
  xargs -P 4 -I{} sh -c '"$0" run p.shim --workers 1 --budget 4000000 --input "$1" > "reports/${1##*/}"' "$0" {}
for input in inputs/*; do echo "input $input"; cat "reports/${input##*/}"; done"""]


@question(inputs=64, bytes=MIB)
def batch(bench):
    """Run a program that reads its input to the end over many: by `batch`, and by a run of each, one after the other
    and four at a time. All have to write the same reports."""
    os.mkdir("inputs")
    os.mkdir("reports")
    inputs = [write("inputs/%02d" % number, os.urandom(bench.given.bytes)) for number in range(bench.given.inputs)]
    words = [write("p.shim", shapes.READ_TO_THE_END), *MOST]
    one = bench.shim("run", *words, *ONE, "--input", inputs[0])
    each, four = (Run(["sh", "-ec", text, bench.builds[0]]) for text in RUN_EACH)
    peers = [("one run", one), ("one after the other", each)]
    rows = [Row("%d runs, four at a time" % len(inputs), four, peers)]
    for by in ("1 worker", "2 workers", "4 workers"):
        run = bench.shim("batch", *words, *WORKERS[by], "--", *inputs)
        rows.append(Row("batch of %d, %s" % (len(inputs), by), run, peers))
    yield rows
    same(each, *(row.run for row in rows))


STEPS = {"pipe": lambda size: 11 * size + 17, "tree": lambda size: 10 * size - 4, "storm": lambda size: 11 * size + 4}


def generated(bench, kind, size, by, peers=(), idle=None, **more):
    """The row of a made program, which must end with as many steps as it has."""
    last = "end done %d" % STEPS[kind](size)
    run = bench.shim("gen", kind, "--size", str(size), *MOST, *WORKERS[by], last=last, idle=idle)
    return Row("%s of %d, %s" % (kind, size, by), run, peers, STEPS[kind](size), **more)


@question(["pipe", "sizes", "deep"], rounds=9)
def net(bench, name):
    """Processes that meet, fork and end: `pipe` beside Go and C, a step of three kinds at three `sizes`, and `deep`
    forks, 62 levels down beside 60 that wait."""
    if name == "pipe":
        size = 100000
        told = str(3 * size * (size - 1) // 2 % 1000000)
        peers = [peer("C's threads", "./peers", "pipe", size, last=told)]
        if has("go"):
            subprocess.run(["go", "build", "-o", "go_pipe", os.path.join(BENCH, "peers.go")], check=True)
            peers.append(peer("Go's channels", "./go_pipe", size, last=told))
        yield [generated(bench, "pipe", size, by, peers) for by in WORKERS]
    if name == "sizes":
        write("idle.shim", shapes.IDLE)
        for by, words in WORKERS.items():
            idle = bench.shim("run", "idle.shim", *MOST, *words)
            for size in (1000, 10000, 100000):
                is_counted = size == 1000 and by == "1 worker" and bench.given.before
                yield [generated(bench, kind, size, by, idle=idle, is_counted=is_counted) for kind in STEPS]
    if name == "deep":
        write("deep.shim", shapes.DEEP_FORKS)
        bench.given.rounds = 1
        spent = {"ends": (4,), "last": "end spent 4000000", "to": "a large report"}
        yield [Row("deep forks, " + by, bench.shim("run", "deep.shim", *MOST, *words, **spent))
               for by, words in WORKERS.items()]


# What several workers do: the words of each.
WORK = {
    "branches": "run counts.shim",
    "branches, quantum 10,000": "run counts.shim --quantum 10000",
    "branches beside 1 MiB of source and 4 MiB of input": "run large.shim --input input",
    "a tree of 20,000, quantum 64": "gen tree --size 20000 --quantum 64",
    **{"%s of %d" % kind: "gen %s --size %d" % kind for kind in itertools.product(STEPS, (1000, 10000, 100000))},
}


def in_c_as_long(job, seconds):
    """Rows of four jobs of C, as many seconds of processor time together, by 1, 2 and 4 threads."""
    turns = 10000000
    _, sample = peer("", "./peers", job, 1, 4, turns)
    sample.once()
    turns = int(turns * seconds / sample.least_spent)
    by = {count: peer("", "./peers", job, count, 4, turns, last=str(4 * turns))[1] for count in (1, 2, 4)}
    return [Row("as long in C, %s, %d threads" % (job, count), run, [("1 thread", by[1])]) for count, run in by.items()]


@question(WORK)
def workers(bench, name):
    """What more workers bring, and what --steal does: four branches that count, beside four runs of one branch each and
    threads of C that work as long, and trees, pipes and storms. All have to write the same. Beside a large source and
    input a run whose branches end at once is taken off."""
    for turns, ending in ((300000, ""), (0, ".idle")):
        counting = shapes.ENDLESS.replace("true", "k < %d" % turns)
        write("counts.shim" + ending, counting)
        write("large.shim" + ending, shapes.in_shim(shapes.ORDINARY, MIB, counting))
    write("input", bytes(4 * MIB))
    words = [*WORK[name].split(), *MOST]
    idle = bench.shim("run", "large.shim.idle", *words[2:], *ONE) if "large" in words[1] else None
    runs = {by: bench.shim(*words, *options, idle=idle) for by, options in WORKERS.items()}
    stealing = {by: bench.shim(*words, *WORKERS[by], "--steal", idle=idle)
                for by in ("1 worker", "2 workers", "4 workers")}
    rows = [*(Row("%s, %s" % (name, by), run, [("1 worker", runs["1 worker"])]) for by, run in runs.items()),
            *(Row("%s, %s, --steal" % (name, by), run, [("without", runs[by])]) for by, run in stealing.items())]
    if "counts" in words[1]:
        write("branch.shim", "void main() { int k; while (k < 300000) { k = k + 1; } }")
        command = "for i in 1 2 3 4; do %s run branch.shim --workers 1 & done; wait" % bench.given.shim
        all_runs = Run(["sh", "-c", command])
        rows.append(Row("a run of each branch, all at once", all_runs, [("1 worker", runs["1 worker"])]))
        runs["1 worker"].once()
        for job in ("count", "mix"):
            rows += in_c_as_long(job, runs["1 worker"].least_spent)
    yield rows
    same(*runs.values(), *stealing.values())


@question(rounds=7, pieces=1000000)
def board(bench):
    """A piece of work over the board, through lanes, and by two queues of C with a lock, on 1, 2 and 4 threads; less
    none."""
    if not shutil.which("rt"):
        sys.exit("no rt here: the program of shim_tests_board can't be proved and built")
    programs, pieces = {"two queues": ["./peers", "queues"]}, bench.given.pieces
    ends = {"two queues": "", "board": "each claimed and collected once", "lanes": "each taken once and in order"}
    folder = os.path.join(TOP, "crates", "shim_tests_board")
    subprocess.run(["rt", "run"], cwd=folder, check=True, stdout=subprocess.DEVNULL)
    for name in ("board", "lanes"):
        programs[name] = [os.path.join(folder, "out", "shim_tests_board"), name]
    for count in ("1", "2", "4"):
        runs = {name: Run([*program, count, str(pieces)], idle=Run([*program, count, "0"]))
                for name, program in programs.items()}
        yield [Row("%s, %s threads" % (name, count), run, [("the board", runs["board"])], pieces, "piece")
               for name, run in runs.items()]
        for name, run in runs.items():
            if not run.last_line().endswith(ends[name]):
                sys.exit(run.told())


def climb(bench, what, sizes, make, *words, units=None):
    """Rows of texts of some sizes, and the memory that each more of them takes."""
    before = None
    for size in sizes:
        write("source.shim", make(size))
        run = bench.shim(*words, ends=(0, 3, 4))
        yield [Row("%d %s" % (size, what), run, units=units)]
        if before:
            print("    %.0f bytes for each more" % ((run.kib - before[1]) * 1024 / (size - before[0])))
        before = size, run.kib


@question(["live", "turns", "handlers", "text"])
def memory(bench, name):
    """Memory of each process that lives at once, of forks in turn, of a loop of handlers in which none begins, and of
    each statement and branch of a text."""
    run = ["run", "source.shim", *MOST, *ONE]
    if name == "live":
        yield from climb(bench, "living processes", (19, 1999, 19999, 99999),
                         lambda size: shapes.all_waiting((size + 1) // 2), *run)
    if name == "turns":
        yield from climb(bench, "forks in turn", (1000, 10000, 100000), shapes.forks_in_turn, *run)
    if name == "handlers":
        for caught in ("T x", "T"):
            yield from climb(bench, "turns, catch (%s)" % caught, (3000, 30000, 300000),
                             lambda turns: shapes.HANDLERS % (turns, caught), *run, units=0)
    if name == "text":
        for what, part in shapes.PARTS.items():
            for words in (["check", "source.shim"], ["run", "source.shim", "--budget", "1", *ONE]):
                yield from climb(bench, "%s: %s" % (what, words[0]), (10000, 60000),
                                 lambda size: "".join(shapes.main_of(part * size, "int a; int b; ")), *words)


@question(["loops", "pipe", "tree"])
def journals(bench, name):
    """Record a run and replay it, beside `run`. A replay has to write what `run` does, but where the budget stops
    that."""
    write("source.shim", {"loops": shapes.ENDLESS, "pipe": shapes.PIPE, "tree": shapes.TREE}[name])
    words, ends = ["source.shim", *MOST, "--quantum", "1", *ONE], (0, 4)
    run, trace = (bench.shim(mode, *words, ends=ends, to=mode) for mode in ("run", "trace"))
    replay = bench.shim("replay", "source.shim", "--journal", "trace", ends=ends)
    yield [Row(name + ": run", run), Row(name + ": trace", trace, [("run", run)]),
           Row(name + ": replay", replay, [("run", run)])]
    size = os.path.getsize("trace") / MIB
    print("    a journal of %.1f MiB; replay takes %.1f times as much memory" % (size, replay.kib / 1024 / size))
    same(run, replay)


@question(shapes.BLOCKED, processes=128)
def why(bench, name):
    """Explain a blocked run, beside `ref`, whose report `why` has to begin with."""
    write("source.shim", shapes.BLOCKED[name](bench.given.processes))
    by_ref, told = (bench.shim(mode, "source.shim", *MOST, ends=(3,)) for mode in ("ref", "why"))
    yield [Row("%s: why" % name, told, [("ref", by_ref)])]
    if not told.text().startswith(by_ref.text()):
        sys.exit("%s: why doesn't begin as ref does" % name)


@question(shapes.SLOW, rounds=1)
def ref(bench, name):
    """Programs that take `ref` long or that are large, by the modes that their figures are of."""
    text, modes = shapes.SLOW[name]
    write("source.shim", text)
    for mode in modes:
        word, _, count = mode.partition(" ")
        more = [] if word == "check" else [*MOST, "--workers", count or "1"]
        yield [Row("%s: %s" % (name, mode), bench.shim(word, "source.shim", *more, ends=(0, 1, 3)))]


def gate(command):
    """What a gate or another COMMAND costs: its time, the processor time of all its processes, and the memory of the
    greatest of them, or of this script where it has more."""
    begin = time.monotonic()
    try:
        status = subprocess.run(command, cwd=TOP).returncode
    except OSError as why:
        sys.exit("%s: %s" % (command[0], why.strerror))
    took, usage = time.monotonic() - begin, resource.getrusage(resource.RUSAGE_CHILDREN)
    print("status %d, %.0f s, %.0f of processor time, %.1f MiB"
          % (status, took, usage.ru_utime + usage.ru_stime, usage.ru_maxrss / 1024))
    return status


def main():
    words = argparse.ArgumentParser(description=__doc__, formatter_class=argparse.RawDescriptionHelpFormatter)
    subcommands = words.add_subparsers(dest="question", required=True, metavar="QUESTION")
    for name, (function, names, rounds, numbers) in QUESTIONS.items():
        about = " ".join(function.__doc__.split())
        one = subcommands.add_parser(name, help=about, description=about)
        common.add_program(one)
        one.add_argument("--before", type=common.program, metavar="PATH", help="another build, measured in turn with it")
        for option, number in {"rounds": rounds, **numbers}.items():
            common.add_number(one, option, number, "how many " + option)
        if names:
            one.add_argument("names", nargs="*", metavar="NAME", help="all where nothing is said: " + "; ".join(names))
    about = " ".join(gate.__doc__.split())
    of_gate = subcommands.add_parser("gate", help=about, description=about)
    of_gate.add_argument("command", nargs=argparse.REMAINDER, help="rt ci --anew where nothing is said")
    given = words.parse_args()
    if given.question == "gate":
        return gate(given.command or ["rt", "ci", "--anew"])
    function, names, _, _ = QUESTIONS[given.question]
    asked = [[name] for name in given.names or names] if names else [[]]
    if not all(name in names for one in asked for name in one):
        words.error("%s has the names %s" % (given.question, "; ".join(names)))
    if not shutil.which("gcc"):
        words.error("there is no gcc here: apt install gcc")

    def measure(given):
        print("%s: %d processors, load %.1f" % (given.question, os.cpu_count(), os.getloadavg()[0]), flush=True)
        subprocess.run(["gcc", "-O2", "-pthread", "-o", "peers", os.path.join(BENCH, "peers.c")], check=True)
        for one in asked:
            Bench(given).answer(function, *one)
    return common.start(measure, given)


if __name__ == "__main__":
    sys.exit(main())
