#!/usr/bin/env python3
"""Runs in random orders. Of each example, and of programs of bench/made.py, runs that take any event that can happen
are written as journals, read back and followed; where a run ends, its report must be that of `shim ref`. Where the
program has the modes `trace` and `replay`, it is held against them: `replay` takes each such journal and writes the
same report, what `trace` writes is read and followed here, and of journals with a line changed, taken out or doubled
both refuse the same line for the same cause. Ends with 1 at the first difference.

Use: tools/tests/journals.py [FIRST LAST], the numbers of the made programs, 1 to 40"""
import argparse
import os
import random
import subprocess
import sys
import tempfile

TOP = os.path.dirname(os.path.dirname(os.path.dirname(os.path.realpath(__file__))))
sys.path.insert(0, os.path.join(TOP, "tools"))
from shimtools import journals, runs, syntax  # noqa: E402

SHIM = os.environ.get("SHIM", os.path.join(TOP, "shim"))
BUDGET = 3000


def enabled(run):
    """Each event that can happen, as an entry of a journal."""
    standing = sorted(key for key, who in run.standing.items() if who)

    def walk(node):
        if node.state == "live":
            if node.stop in runs.OWN:
                yield ("quiet", node.path, 1) if node.stop == runs.QUIET else ("own", node.path)
            elif node.stop == runs.FINISH:
                yield ("end", node.path)
            elif node.at.channel.key()[0] == node.path:
                yield ("meet", node.at.channel.key())
        elif node.state == "forked":
            if run.closes(node):
                yield ("close", node.path)
            for key in standing:
                if key[0] == node.path and run.ready(node, key):
                    yield ("meet", key)
            for child in node.children:
                for key in standing:
                    if key in child.shared and run.doomed(child, key):
                        yield ("poison", child.path, key)
                yield from walk(child)

    return list(walk(run.root))


def any_order(functions, input, chance):
    """A run that takes events at random, as entries, and its report."""
    run, entries = runs.Run(functions, input), []
    while run.steps < BUDGET:
        events = enabled(run)
        if not events:
            break
        entry = chance.choice(events)
        journals.steps_of(run, entry)
        if entry[0] == "quiet" and entries and entries[-1][:2] == entry[:2]:
            entries[-1] = ("quiet", entry[1], entries[-1][2] + 1)
        else:
            entries.append(entry)
    return entries, run.report(), run.ended()


def followed(functions, input, text):
    """The report of the run that a journal tells, or the line that refuses it."""
    run = runs.Run(functions, input)
    try:
        journals.follow(run, text)
    except journals.Refused as why:
        return "%s\n" % why
    return run.report()


def spoilt(text, chance):
    """A journal with something wrong, mostly."""
    lines = text.decode().split("\n")[:-1]
    at = chance.randrange(len(lines))
    how = chance.randrange(5)
    if how == 0:
        del lines[at]
    elif how == 1:
        lines.insert(at, lines[at])
    elif how == 2:
        lines[at] = lines[at][:-1] + chance.choice(["", "0", "9", " "])
    elif how == 3:
        other = chance.randrange(len(lines))
        lines[at], lines[other] = lines[other], lines[at]
    else:
        return text[: chance.randrange(len(text))]
    return ("\n".join(lines) + "\n").encode()


def call(*words):
    told = subprocess.run([SHIM, *words], stdout=subprocess.PIPE)
    return told.stdout.decode(), told.returncode


def main():
    words = argparse.ArgumentParser(description=__doc__, formatter_class=argparse.RawDescriptionHelpFormatter)
    words.add_argument("first", nargs="?", type=int, default=1)
    words.add_argument("last", nargs="?", type=int, default=40)
    given = words.parse_args()
    has_modes = "--journal" in call()[0]
    chance = random.Random(11)
    counts = {"runs": 0, "ends": 0, "traces": 0, "spoilt": 0}
    with tempfile.TemporaryDirectory() as room:
        journal = os.path.join(room, "journal")

        def replayed(file, options, text):
            with open(journal, "wb") as out:
                out.write(text)
            return call("replay", file, "--journal", journal, *options)[0]

        def one(name, file, input):
            with open(file, "rb") as it:
                functions = syntax.program(it.read())
            bytes_in, options = b"", []
            if input:
                options = ["--input", input]
                with open(input, "rb") as it:
                    bytes_in = it.read()
            meaning = call("ref", file, *options, "--budget", str(BUDGET))[0]
            for _ in range(3):
                entries, report, ended = any_order(functions, bytes_in, chance)
                counts["runs"] += 1
                text = journals.written(BUDGET, entries)
                if followed(functions, bytes_in, text) != report:
                    sys.exit("differs: %s, a journal that is followed\n%s" % (name, text.decode()))
                if ended != "spent":
                    counts["ends"] += 1
                    if report != meaning:
                        sys.exit("differs: %s, another order\nwanted:\n%s\ncame:\n%s" % (name, meaning, report))
                if has_modes and replayed(file, options, text) != report:
                    sys.exit("differs: %s, shim replay\n%s" % (name, text.decode()))
                for _ in range(5):
                    bad = spoilt(text, chance)
                    told = followed(functions, bytes_in, bad)
                    counts["spoilt"] += 1
                    if has_modes and replayed(file, options, bad) != told:
                        sys.exit("differs: %s, a spoilt journal\nhere: %s\nshim: %s\n%s" % (name, told, replayed(file, options, bad), bad.decode("latin-1")))
            if has_modes:
                for more in (["--workers", "1"], ["--workers", "4", "--quantum", "1"]):
                    with open(journal, "w") as out:
                        out.write(call("trace", file, *options, *more, "--budget", str(BUDGET))[0])
                    with open(journal, "rb") as it:
                        told = followed(functions, bytes_in, it.read())
                    counts["traces"] += 1
                    if told != call("replay", file, "--journal", journal, *options)[0]:
                        sys.exit("differs: %s, shim trace %s" % (name, " ".join(more)))

        folder = os.path.join(TOP, "examples")
        for name in sorted(os.listdir(folder)):
            if name.endswith(".shim"):
                input = os.path.join(folder, name[:-5] + ".txt")
                one(name, os.path.join(folder, name), input if os.path.exists(input) else None)
        for number in range(given.first, given.last + 1):
            file = os.path.join(room, "made.shim")
            with open(file, "wb") as out:
                subprocess.run([sys.executable, os.path.join(TOP, "bench", "made.py"), str(number)], stdout=out, check=True)
            if call("check", file)[1] == 0:
                one("made.py %d" % number, file, None)
    print("%(runs)d runs in random orders, %(ends)d of them to their end with the report of the meaning; %(spoilt)d spoilt journals" % counts
          + ("; %(traces)d of shim trace, all as shim replay has them" % counts if has_modes else "; this program has no trace and no replay"))


if __name__ == "__main__":
    runs.with_room(main)
