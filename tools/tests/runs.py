#!/usr/bin/env python3
"""Holds the runs of tools/shimtools against the program's own cases and examples: the report of each, byte for byte,
the reasons of `why` after it, and that its journal, read back and followed, leads to the same report. The cases are those of
crates/shim_conformance/data whose mode is `run` or `ref` and whose text is a report, and those of `batch` whose text is
reports. Ends with 1 at the first difference, and names it.

Programs of bench/made.py are run, too, by `shim ref`, each with a budget of 3000.

Use: tools/tests/runs.py [MOST [FIRST LAST]], the most steps of a case that is taken, 20000 where nothing is said,
and the numbers of the made programs, 1 to 100"""
import argparse
import os
import re
import subprocess
import sys
import tempfile

TOP = os.path.dirname(os.path.dirname(os.path.dirname(os.path.realpath(__file__))))
sys.path.insert(0, os.path.join(TOP, "tools"))
import cases  # noqa: E402
from shimtools import journals, runs, syntax  # noqa: E402


def same(what, source, input, budget, text):
    """Whether the run is told so; also over its journal."""
    functions = syntax.program(source)
    run = runs.Run(functions, input)
    entries = journals.of_first_events(run, budget)
    told = run.report() + (runs.reasons(run) if b"\nbecause " in text else "")
    if told.encode() != text:
        sys.exit("differs: %s\nwanted:\n%s\ncame:\n%s" % (what, text.decode("latin-1"), told))
    again = runs.Run(functions, input)
    journals.follow(again, journals.written(budget, entries))
    if again.report() != run.report():
        sys.exit("differs: %s, over its journal" % what)


def same_batch(what, line, files, text):
    """Whether the runs of a batch are told so, in one text."""
    words, plain, budget = [re.sub(r"\{([^|}]*).*?\}", r"\1", word) for word in line.split()], [], 1_000_000
    while words:
        word = words.pop(0)
        if word == "--":
            plain += words
            break
        name, is_joined, value = word.partition("=")
        if name not in ("--input", "--journal", "--workers", "--budget", "--quantum", "--size", "--steal"):
            plain.append(word)
            continue
        if name != "--steal" and not is_joined:
            value = words.pop(0)
        if name == "--budget":
            budget = int(value)
    _, file, *names = plain
    told, _ = runs.batch(syntax.program(files[file]), [(name, files[name]) for name in names], budget)
    if told.encode() != text:
        sys.exit("differs: %s\nwanted:\n%s\ncame:\n%s" % (what, text.decode("latin-1"), told))


def main():
    words = argparse.ArgumentParser(description=__doc__, formatter_class=argparse.RawDescriptionHelpFormatter)
    for name, number in (("most", 20_000), ("first", 1), ("last", 100)):
        words.add_argument(name, nargs="?", type=int, default=number)
    asked = words.parse_args()
    most = asked.most
    taken = left = 0
    for case in cases.cases():
        words, files, text = case.lines, case.files, case.text
        if case.is_inside or not text.startswith((b"input ", b"output ")):
            continue
        if text.startswith(b"input "):
            if most < max(int(end) for end in re.findall(rb"(?m)^end .*?(\d+)$", text)):
                left += 1
                continue
            for line in words:
                same_batch(case.title, line, files, text)
            taken += 1
            continue
        end = re.findall(rb"(?m)^end .*", text)[-1].split()
        line = next((w for w in words if re.match(r"(\{?ref|\{run\|ref\}|why)", w)), None)
        if line is None:
            continue
        given = line.split()
        option = lambda which: next((given[i + 1] for i, w in enumerate(given) if w == which), None)
        budget = re.sub(r"[{}].*|\|.*", "", (option("--budget") or "1000000").lstrip("{"))
        if "{" in given[1] or given[1] not in files or not budget.isdigit() or int(end[-1]) > most:
            left += 1
            continue
        same(case.title, files[given[1]], files.get(option("--input"), b""), int(budget), text)
        taken += 1
    examples = os.path.join(TOP, "crates", "shim_examples")
    with open(os.path.join(examples, "args")) as it:
        lines = it.read().splitlines()
    with open(os.path.join(examples, "stdout"), "rb") as it:
        told = it.read()
    for line in lines:
        words = line.split()
        if words[0] == "run":
            read = lambda name: open(os.path.join(examples, "data", name), "rb").read()
            text = told.split(line.encode() + b"\n")[1].split(b"status ")[0]
            same(line, read(words[1]), read(words[3]) if len(words) > 2 else b"", 1_000_000, text)
            taken += 1
    made = 0
    shim = os.environ.get("SHIM", os.path.join(TOP, "shim"))
    with tempfile.TemporaryDirectory() as room:
        for number in range(asked.first, asked.last + 1):
            source = subprocess.run([sys.executable, os.path.join(TOP, "bench", "made.py"), str(number)], stdout=subprocess.PIPE, check=True).stdout
            file = os.path.join(room, "made.shim")
            with open(file, "wb") as out:
                out.write(source)
            told = subprocess.run([shim, "ref", file, "--budget", "3000"], stdout=subprocess.PIPE)
            if told.returncode in (0, 1, 3, 4):
                same("made.py %d" % number, source, b"", 3000, told.stdout)
                made += 1
    print("%d made programs the same" % made)
    print("%d cases the same, each over its journal, too; %d left out for their length or their words" % (taken, left))


if __name__ == "__main__":
    runs.with_room(main)
