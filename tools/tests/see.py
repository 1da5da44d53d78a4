#!/usr/bin/env python3
"""Compares what tools/shim-see writes, and its status, with the cases of tools/tests/see.cases. Ends with 1 at the
first difference, and shows it. A case has `words`, files, a status and a text. `--raw` of each case is held against the
program itself.

Use: tools/tests/see.py [--write], which writes the statuses and texts that come into the file, to be read by eye"""
import argparse
import difflib
import os
import re
import shlex
import subprocess
import sys
import tempfile

TOP = os.path.dirname(os.path.dirname(os.path.dirname(os.path.realpath(__file__))))
CASES = os.path.join(TOP, "tools", "tests", "see.cases")
SEE = os.path.join(TOP, "tools", "shim-see")


def cases(text):
    """The cases: name, and sections as pairs of a head and a body."""
    for part in re.split(r"^=== case ", text, flags=re.M)[1:]:
        name, rest = part.split("\n", 1)
        sections = []
        for section in re.split(r"^=== ", rest, flags=re.M)[1:]:
            head, _, body = section.partition("\n")
            sections.append((head, body))
        yield name, sections


def call(command, room, shim):
    env = dict(os.environ, SHIM=shim)
    told = subprocess.run(command, cwd=room, env=env, stdin=subprocess.DEVNULL, stdout=subprocess.PIPE, stderr=subprocess.PIPE, timeout=60)
    if told.stderr:
        sys.exit("differs: %s writes to standard error\n%s" % (command, told.stderr.decode("utf-8", "replace")))
    return told.stdout, told.returncode


def odd(program):
    """Odd files, outputs and signals: what can't stand in a case."""
    env = dict(os.environ, SHIM=program)
    with tempfile.TemporaryDirectory() as room:
        def do(command, **more):
            done = subprocess.run(["bash", "-c", command, "bash", SEE], cwd=room, env=env, stdout=subprocess.PIPE, stderr=subprocess.STDOUT, timeout=60, **more)
            return done.stdout.decode("utf-8", "replace"), done.returncode

        def same(what, came, wanted):
            if came != wanted:
                sys.exit("differs: %s\nwanted %r\ncame   %r" % (what, wanted, came))

        hello = os.path.join(TOP, "examples", "hello.shim")
        filter = os.path.join(TOP, "examples", "filter")
        with open(os.path.join(room, "loop.shim"), "w") as out:
            out.write("void main() { }")
        same("a pipe as source", do('"$1" run <(cat %s) | head -n 1' % hello)[0], "done: main has ended, after 7 steps\n")
        same("a refused pipe", do('"$1" check /dev/stdin', input=b"void main() { x; }")[0].split("\n")[0], "/dev/stdin:1:16: unexpected ';'")
        same("a number of 5000 digits", do('printf "shim %05000d; x" 2 | "$1" check /dev/stdin | head -n 1 | cut -d: -f2-')[0], "1:5008: unexpected 'x'\n")
        same("a pipe as input", do('"$1" run %s.shim --input /dev/stdin | sed -n 2p' % filter, input=b"dPF<(")[0], "output: 6 bytes, 32 5a 4b 41 32 00\n")
        same("a full output", do('"$1" run %s > /dev/full' % hello), ("", 7))
        same("a closed output", do('"$1" run %s >&-' % hello), ("", 7))
        same("a full output, raw", do('"$1" --raw run %s > /dev/full' % hello), ("", 7))
        wanted = ("stopped: a run writes nothing before it is over\n", 130)
        same("Ctrl-C", do('mkfifo f; timeout --foreground --preserve-status -s INT 2 "$1" run loop.shim --input f'), wanted)
        same("a name that isn't UTF-8", do('"$1" run $(printf "caf\\351") | head -n 1')[0], "shim-see: the argument 'caf\\xe9' isn't UTF-8; rename the file, or name it by a link\n")
        set_it = "Set SHIM to the path of the program.\n"
        same("no program", do('SHIM=/nowhere "$1" run x'), ("shim-see: /nowhere can't be started: No such file or directory. " + set_it, 127))
        for other in ("true", "false", "echo"):
            wanted = ("shim-see: %s isn't shim: no answer of shim is like its answer. %s" % (other, set_it), 1)
            for words in ("run", "ref", "check", "code", "batch loop.shim"):
                same("another program", do('SHIM=%s "$1" %s loop.shim' % (other, words)), wanted)
        same("little memory", do('ulimit -v 400000; "$1" run loop.shim'),
             ("shim-see: no memory for its own work; give it 1 GiB of address space (ulimit -v)\n", 8))


def main():
    words = argparse.ArgumentParser(description=__doc__, formatter_class=argparse.RawDescriptionHelpFormatter)
    words.add_argument("--write", action="store_true", help="write what comes into tools/tests/see.cases")
    write = words.parse_args().write
    with open(CASES, encoding="utf-8") as it:
        text = it.read()
    head = text[: text.index("=== case ")]
    new, count = [head], 0
    shim = os.path.realpath(os.environ.get("SHIM", os.path.join(TOP, "shim")))
    for name, sections in cases(text):
        with tempfile.TemporaryDirectory() as room:
            os.symlink(os.path.join(TOP, "examples"), os.path.join(room, "examples"))
            words, wanted, status = [], None, None
            for kind, body in sections:
                kind, _, value = kind.partition(" ")
                if kind == "words":
                    words = shlex.split(value)
                elif kind == "file":
                    with open(os.path.join(room, value), "w", encoding="utf-8") as out:
                        out.write(body)
                elif kind == "bytes":
                    with open(os.path.join(room, value), "wb") as out:
                        out.write(bytes.fromhex(body))
                elif kind == "folder":
                    os.mkdir(os.path.join(room, value))
                elif kind == "status":
                    status = int(value)
                elif kind == "text":
                    wanted = body
            came, ended = call([SEE, *words], room, shim)
            if not {"--help", "-h", "--version", "--raw"} & set(words) and words:
                raw, plain = call([SEE, "--raw", *words], room, shim), call([shim, *words], room, shim)
                if raw != plain or plain[1] != ended:
                    sys.exit("differs: %s: the bytes or the status of --raw, or the status" % name)
            if write:
                kept = [s for s in sections if s[0].split()[0] not in ("status", "text")]
                kept = [s for s in kept if not s[0].startswith("end")]
                body = "".join("=== %s\n%s" % s for s in kept)
                new.append("=== case %s\n%s=== status %d\n=== text\n%s=== end\n\n" % (name, body, ended, came.decode()))
            elif ended != status or came.decode() != wanted:
                lines = difflib.unified_diff(wanted.splitlines(), came.decode().splitlines(), "wanted", "came", lineterm="")
                sys.exit("differs: %s: status %d, wanted %s\n%s" % (name, ended, status, "\n".join(lines)))
            count += 1
    if write:
        with open(CASES, "w", encoding="utf-8") as out:
            out.write("".join(new).rstrip("\n") + "\n")
    odd(shim)
    print("%d cases %s" % (count, "written" if write else "the same, and --raw hands on bytes and status"))


if __name__ == "__main__":
    main()
