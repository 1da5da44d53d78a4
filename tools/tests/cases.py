#!/usr/bin/env python3
"""Runs the cases of crates/shim_conformance whose title has a text by the built program, over files of the system.
The gate runs them all by calls inside the proved program; this is for a look at some, in seconds. Cases in which
reads or writes fail are left out, and those of what lies below the tool. Prints `ok TITLE (CALLS)` for each, or what
differs, and ends with 1 where something does, or no case was run.

SHIM names the program, ./shim where nothing is said. Scripts that want cases take them from here.
Use: make shim && tools/tests/cases.py [TEXT]
"""
import argparse
import collections
import glob
import itertools
import os
import re
import subprocess
import sys
import tempfile

TOP = os.path.dirname(os.path.dirname(os.path.dirname(os.path.realpath(__file__))))
SHIM = os.path.realpath(os.environ.get("SHIM", os.path.join(TOP, "shim")))

# Its title, its lines of words, its files by name, whether only the crate can run it, and what has to be answered.
Case = collections.namedtuple("Case", "title lines files is_inside status text")


def body_of(form, body):
    """What a part of a case has: lines as they are, without the last line break, or bytes by their digits."""
    body = re.sub(rb"^=== repeat (\d+) (.*)$", lambda it: it[2] * int(it[1]), body, flags=re.M)
    if form == "hex":
        return bytes.fromhex(body.decode())
    return body[:-1] if form == "bare" else body


def cases():
    """Each case of the crate, in the order of its files."""
    for path in sorted(glob.glob(os.path.join(TOP, "crates", "shim_conformance", "data", "*.cases"))):
        with open(path, "rb") as file:
            parts = re.split(rb"^=== case ", file.read(), flags=re.M)
        for part in parts[1:]:
            title, *sections = re.split(rb"^=== (?!repeat )", part, flags=re.M)
            lines, files, is_inside, wanted = [], {}, False, {}
            for section in sections:
                head, _, body = section.partition(b"\n")
                kind, _, value = head.decode().partition(" ")
                if kind == "words":
                    lines.append(value)
                elif kind in ("file", "bare", "hex"):
                    files[value] = body_of(kind, body)
                elif kind in ("status", "text"):
                    wanted[kind] = int(value) if kind == "status" else body_of(value, body)
                elif kind != "end":  # reads or writes that fail, or what lies inside
                    is_inside = True
            yield Case(title.decode().strip(), lines, files, is_inside, **wanted)


def calls(line):
    """The calls that a line of words stands for."""
    words = line.split(" ") if line else []
    return itertools.product(*(word[1:-1].split("|") if word[:1] == "{" else word.split("|") for word in words))


def is_passed(case):
    """Makes the calls of a case in a folder of its own, and tells that they are right, or what differs."""
    made, wrong = 0, []
    with tempfile.TemporaryDirectory() as room:
        for name, text in case.files.items():
            with open(os.path.join(room, name), "wb") as out:
                out.write(text)
        for words in itertools.chain.from_iterable(map(calls, case.lines)):
            made += 1
            ran = subprocess.run([SHIM, *words], cwd=room, capture_output=True)
            if (ran.returncode, ran.stdout, ran.stderr) != (case.status, case.text, b""):
                came = ran.returncode, (ran.stdout + ran.stderr).decode(errors="replace")
                wrong.append("shim %s: status %d\n%s" % (" ".join(words), *came))
    for told in wrong[:1]:
        print("%s\nand not status %d\n%s" % (told, case.status, case.text.decode(errors="replace")))
    print("%s %s (%d)" % ("FAILED" if wrong else "ok", case.title, made), flush=True)
    return not wrong


def main():
    words = argparse.ArgumentParser(description=__doc__, formatter_class=argparse.RawDescriptionHelpFormatter)
    words.add_argument("text", nargs="?", default="", help="what the title of a case has")
    text = words.parse_args().text
    if not os.access(SHIM, os.X_OK):
        words.error("there is no %s yet: make shim" % SHIM)
    found = [case for case in cases() if text in case.title]
    passed = [is_passed(case) for case in found if not case.is_inside]
    counts = sum(passed), passed.count(False), len(found) - len(passed)
    print("%d cases passed, %d failed, %d left out, which only the crate runs" % counts)
    if not found:
        sys.exit("no case has this in its title: %s" % text)
    return 0 if passed and all(passed) else 1


if __name__ == "__main__":
    sys.exit(main())
