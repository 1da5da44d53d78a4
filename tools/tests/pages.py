#!/usr/bin/env python3
"""Does what the pages for users say, and compares what comes with what they show. In a page a block after `<!--
file NAME -->` is a file, and one after `<!-- part NAME of OTHER -->` a function that stands in NAME in place of
OTHER's; in a block of the kind `console` each line `$ COMMAND` is done by bash, in one folder for the whole page,
and the lines after it are what it writes. A block after `<!-- NAME is installed -->` is left out where that program
isn't. Ends with 1 at the first difference.

Use: tools/tests/pages.py [PAGE..], else docs/TUTORIAL.md, docs/QUESTIONS.md and docs/MANY-INPUTS.md"""
import argparse
import os
import re
import shutil
import subprocess
import sys
import tempfile

TOP = os.path.dirname(os.path.dirname(os.path.dirname(os.path.realpath(__file__))))
SHIM = os.path.realpath(os.environ.get("SHIM", os.path.join(TOP, "shim")))


def blocks(text):
    """The blocks of a page: what stands in the comment before each, its kind and its lines."""
    for note, kind, body in re.findall(r"(?:<!-- ([^\n]*?) -->\n+)?^```(\w*)\n(.*?)^```$", text, re.M | re.S):
        yield note, kind, body


def commands(body):
    """The commands of a block with what each writes. A command goes on after a backslash, or to the end of its quotes."""
    parts = re.split(r"^\$ ", body, flags=re.M)[1:]
    for part in parts:
        lines = part.split("\n")
        command = lines.pop(0)
        while command.endswith("\\") or lines and lines[0].startswith("> "):
            command += "\n" + lines.pop(0)[2:]
        yield command, "\n".join(lines)


def main():
    words = argparse.ArgumentParser(description=__doc__, formatter_class=argparse.RawDescriptionHelpFormatter)
    words.add_argument("pages", nargs="*")
    pages = words.parse_args().pages or [os.path.join(TOP, "docs", name) for name in ("TUTORIAL.md", "QUESTIONS.md", "MANY-INPUTS.md")]
    for page in pages:
        done = files = left = 0
        with open(page, encoding="utf-8") as it:
            text = it.read()
        with tempfile.TemporaryDirectory() as room:
            bin, work = os.path.join(room, "bin"), os.path.join(room, "work")
            os.mkdir(bin)
            os.mkdir(work)
            os.symlink(os.path.join(TOP, "examples"), os.path.join(work, "examples"))
            os.symlink(os.path.join(TOP, "tools"), os.path.join(work, "tools"))
            for tool in ("shim-see", "shim-draw"):
                os.symlink(os.path.join(TOP, "tools", tool), os.path.join(bin, tool))
            os.symlink(SHIM, os.path.join(bin, "shim"))
            env = dict(os.environ, PATH=bin + ":" + os.environ["PATH"], SHIM=SHIM, LC_ALL="C.UTF-8")
            for note, kind, body in blocks(text):
                if note.startswith("file "):
                    with open(os.path.join(work, note[5:]), "w", encoding="utf-8") as out:
                        out.write(body)
                    files += 1
                elif note.startswith("part "):
                    _, name, _, other = note.split(" ")
                    with open(os.path.join(work, other), encoding="utf-8") as it:
                        functions = re.split(r"^(?=void )", it.read(), flags=re.M)
                    head = body.split("(")[0] + "("
                    if sum(f.startswith(head) for f in functions) != 1:
                        sys.exit("differs: %s has no %s" % (other, head))
                    with open(os.path.join(work, name), "w", encoding="utf-8") as out:
                        out.write("".join(body + "\n" if f.startswith(head) else f for f in functions))
                    files += 1
                elif kind == "console":
                    if note and not shutil.which(note.split()[0]):
                        left += 1
                        continue
                    for command, wanted in commands(body):
                        told = subprocess.run(
                            ["bash", "-c", command], cwd=work, env=env, timeout=300,
                            stdin=subprocess.DEVNULL, stdout=subprocess.PIPE, stderr=subprocess.STDOUT,
                        )
                        came = told.stdout.decode("utf-8", "replace")
                        if came.rstrip("\n") != wanted.rstrip("\n"):
                            what = (os.path.basename(page), command, wanted, came)
                            sys.exit("differs: %s\n$ %s\nwanted:\n%s\ncame:\n%s" % what)
                        done += 1
        print("%s: %d files, %d commands the same%s" % (os.path.basename(page), files, done, ", %d blocks left out" % left if left else ""))


if __name__ == "__main__":
    main()
