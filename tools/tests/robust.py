#!/usr/bin/env python3
"""Tries the scripts of bench/ that measure and search: words that they have to refuse with a sentence, programs that
are no shim, and a signal. Ends with 1 at the first difference.

Use: tools/tests/robust.py"""
import argparse
import os
import signal
import subprocess
import sys
import tempfile
import time

TOP = os.path.dirname(os.path.dirname(os.path.dirname(os.path.realpath(__file__))))
SHIM = os.path.realpath(os.environ.get("SHIM", os.path.join(TOP, "shim")))
REFUSED = {
    "robust/fuzz.py --texts -1": "argument --texts: -1: a number from 1 to 4294967296",
    "robust/fuzz.py --texts many": "argument --texts: invalid number value: 'many'",
    "robust/soak.py --times 0": "argument --times: 0: a number from 1 to 4294967296",
    "robust/soak.py --programs -1": "argument --programs: -1: a number from 0 to 4294967296",
    "robust/soak.py --busy 65": "argument --busy: 65: a number from 0 to 64",
    "robust/soak.py --shim nowhere": "argument --shim: there is no program nowhere: make shim",
    "robust/faults.py --step 0 memory": "argument --step: 0: a number from 1 to 4294967296",
    "robust/faults.py --most -3 alloc": "argument --most: -3: a number from 1 to 4294967296",
    "robust/faults.py threads x": "threads takes no call: x",
    "robust/faults.py alloc --most 3 run p": "--most has to stand before alloc: after that stands a call of shim",
    "robust/grammar.py nowhere": "nowhere: No such file or directory",
    "robust/grammar.py .": ".: Is a directory",
    "robust/grammar.py title odd": "odd isn't ASCII, and cases have to be",
    "bench.py steps --shim nowhere": "argument --shim: there is no program nowhere: make shim",
    "bench.py steps --rounds 0": "argument --rounds: 0: a number from 1 to 4294967296",
    "bench.py steps nothing": "steps has the names ",
}


def same(what, is_so, told):
    if not is_so:
        sys.exit("differs: %s\n%s" % (what, told))


def main():
    argparse.ArgumentParser(description=__doc__, formatter_class=argparse.RawDescriptionHelpFormatter).parse_args()
    env = dict(os.environ, SHIM=SHIM)
    with tempfile.TemporaryDirectory() as room:
        env["TMPDIR"] = room
        with open(os.path.join(room, "odd"), "wb") as out:
            out.write(b"void main() { } // \xff\n")

        def call(line, **more):
            words = [os.path.join(TOP, "bench", line.split()[0]), *line.split()[1:]]
            return subprocess.Popen(words, cwd=room, text=True, stderr=subprocess.PIPE, **{"env": env, "stdout": subprocess.PIPE, **more})

        for line, said in REFUSED.items():
            done = call(line)
            told = done.communicate()[1]
            same(line, done.returncode == 2 and "error: " + said in told.splitlines()[-1], told)
        for name, text in (("dies", "kill -9 $$"), ("lacks", "echo no memory; exit 8"), ("refuses", "exit 5")):
            path = os.path.join(room, name)
            with open(path, "w") as out:
                out.write("#!/bin/sh\n%s\n" % text)
            os.chmod(path, 0o755)
            done = call("robust/soak.py --times 1 --programs 1 --busy 0", env=dict(env, SHIM=path))
            told = done.communicate()[1]
            same("a shim that %s" % name, done.returncode == 1 and "differs: by ref: " in told, told)
        with open("/dev/full", "w") as full:
            done = call("robust/grammar.py odd", stdout=full)
            told = done.communicate()[1]
            same("a full output", (done.returncode, told) == (1, "standard output: No space left on device\n"), told)
        done = call("robust/soak.py --busy 1")
        time.sleep(2)
        done.send_signal(signal.SIGTERM)
        told = done.communicate(timeout=20)[1]  # nobody holds its output: its loops have ended
        same("a signal", done.returncode == 128 + signal.SIGTERM and told.startswith("kept in "), told)
    print("%d refusals, 3 programs that are no shim, a full output and a signal: as they should be" % len(REFUSED))


if __name__ == "__main__":
    main()
