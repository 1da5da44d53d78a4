#!/usr/bin/env python3
"""Holds `shim batch` against runs of their own: each example and each program of bench/made.py gets 1 to 64 inputs, which are
parts of the example's own with bytes changed at random, on 1 to 16 workers with pieces of 1 to 10,000 steps. After the
line of each input must stand what `shim ref` prints of it; where the budget stopped that, a report whose steps add up to the
budget, with an output that begins the other or is begun by it. The status must be the greatest. Then one of the inputs is
missing, and no report may come. Ends with 1 at the first difference, and names it.

Use: tools/tests/batches.py [FIRST LAST], the numbers of the made programs, 1 to 20"""
import argparse
import os
import random
import re
import subprocess
import sys
import tempfile

TOP = os.path.dirname(os.path.dirname(os.path.dirname(os.path.realpath(__file__))))
sys.path.insert(0, os.path.join(TOP, "tools"))
from shimtools import runs  # noqa: E402

SHIM = os.path.realpath(os.environ.get("SHIM", os.path.join(TOP, "shim")))
BUDGETS = ("60", "3000")


def call(*command, cwd=None):
    told = subprocess.run([SHIM, *command], cwd=cwd, stdout=subprocess.PIPE)
    return told.stdout.decode(), told.returncode


def changed(text, chance):
    """A part of an input, with some bytes changed."""
    text = bytearray(text[: chance.randrange(len(text) + 1)])
    for _ in range(chance.randrange(3)):
        if text:
            text[chance.randrange(len(text))] = chance.randrange(256)
    return bytes(text)


def output(report):
    return (report.split("\n", 1)[0].split(" ") + [""])[2]


def differs(report, meant, budget):
    """What is wrong with a report, or none."""
    if not meant.endswith("end spent %s\n" % budget):
        return None if report == meant else "another report"
    if not runs.is_spent(report, int(budget)):
        return "another end or sum of steps"
    one, other = sorted((output(report), output(meant)), key=len)
    return None if other.startswith(one) else "another output"


def main():
    words = argparse.ArgumentParser(description=__doc__, formatter_class=argparse.RawDescriptionHelpFormatter)
    words.add_argument("first", nargs="?", type=int, default=1)
    words.add_argument("last", nargs="?", type=int, default=20)
    given = words.parse_args()
    chance = random.Random(5)
    batches = reports = spent = 0
    with tempfile.TemporaryDirectory() as room:
        def one(what, source, text):
            nonlocal batches, reports, spent
            with open(os.path.join(room, "p.shim"), "wb") as out:
                out.write(source)
            for count in chance.sample([1, 2, 3, 5, 8, 16, 17, 33, 63, 64], 3):
                budget, meant = chance.choice(BUDGETS), {}
                contents = [text if chance.random() < 0.2 else changed(text, chance) for _ in range(min(count, 12))]
                names = []
                for number in range(count):
                    content = chance.choice(contents)
                    name = chance.choice(["in %d", "-%d", "%d", "input%d"]) % number
                    with open(os.path.join(room, name), "wb") as out:
                        out.write(content)
                    names.append(name)
                    if content not in meant:
                        meant[content] = call("ref", "p.shim", "--budget", budget, "--input=" + name, cwd=room)
                words = ["--workers", str(chance.choice([1, 2, 3, 4, 7, 16])), "--quantum", str(chance.choice([1, 2, 64, 10_000])), "--budget", budget]
                told, status = call("batch", *words, "--", "p.shim", *names, cwd=room)
                said = "%s: shim batch %s, %d inputs" % (what, " ".join(words), count)
                batches += 1
                wanted = []
                for name in names:
                    with open(os.path.join(room, name), "rb") as it:
                        wanted.append(meant[it.read()])
                parts = re.split(r"(?m)^input (.*)\n", told)
                if parts[0] or parts[1::2] != names:
                    sys.exit("differs: %s: the lines of the inputs\n%s" % (said, told))
                for name, report, (text_meant, _) in zip(names, parts[2::2], wanted):
                    why = differs(report, text_meant, budget)
                    if why:
                        sys.exit("differs: %s: %s of %s\nwanted:\n%s\ncame:\n%s" % (said, why, name, text_meant, report))
                    reports += 1
                    spent += text_meant.endswith("end spent %s\n" % budget)
                if status != max(it for _, it in wanted):
                    sys.exit("differs: %s: status %d, wanted %d" % (said, status, max(it for _, it in wanted)))
                missing = list(names)
                missing[chance.randrange(count)] = "nowhere"
                if call("batch", *words, "--", "p.shim", *missing, cwd=room) != ("file failed nowhere\n", 6):
                    sys.exit("differs: %s, one of them missing" % said)

        folder = os.path.join(TOP, "examples")
        for name in sorted(os.listdir(folder)):
            if name.endswith(".shim"):
                read = lambda file: open(os.path.join(folder, file), "rb").read()
                input = name[:-5] + ".txt"
                one(name, read(name), read(input) if os.path.exists(os.path.join(folder, input)) else b"any")
        for number in range(given.first, given.last + 1):
            source = subprocess.run([sys.executable, os.path.join(TOP, "bench", "made.py"), str(number)], stdout=subprocess.PIPE, check=True).stdout
            with open(os.path.join(room, "p.shim"), "wb") as out:
                out.write(source)
            if call("check", "p.shim", cwd=room)[1] == 0:
                one("made.py %d" % number, source, b"any")
    print("%d batches with %d reports, %d of them stopped by the budget: all as runs of their own have them" % (batches, reports, spent))


if __name__ == "__main__":
    main()
