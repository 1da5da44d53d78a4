#!/usr/bin/env python3
"""Holds tools/shim-draw against the program: of each example's run the meetings, forks, puts, throws and ends that
are drawn are counted and compared with its report; the kept texts in docs/pictures/ are drawn again; journals, cuts
and refusals are tried; and where `plantuml` and `dot` are installed, both kinds become SVG. Ends with 1 at the first
difference.

Use: tools/tests/draw.py"""
import argparse
import os
import re
import shutil
import subprocess
import sys
import tempfile
import xml.etree.ElementTree

TOP = os.path.dirname(os.path.dirname(os.path.dirname(os.path.realpath(__file__))))
DRAW = os.path.join(TOP, "tools", "shim-draw")
SHIM = os.environ.get("SHIM", os.path.join(TOP, "shim"))
sys.path.insert(0, os.path.join(TOP, "tools"))
from shimtools import journals, runs, syntax  # noqa: E402

EXAMPLES = os.path.join(TOP, "examples")
checks = 0


def call(*command):
    told = subprocess.run(command, cwd=TOP, env=dict(os.environ, SHIM=SHIM), stdout=subprocess.PIPE, stderr=subprocess.PIPE, timeout=120)
    return told.stdout.decode(), told.stderr.decode(), told.returncode


def same(what, came, wanted):
    global checks
    checks += 1
    if came != wanted:
        sys.exit("differs: %s\nwanted %r\ncame   %r" % (what, wanted, came))


def drawn(text):
    """What a diagram shows: meetings with values by name in order, and how many puts and ends of lifelines."""
    seen, meetings = set(), []
    for step, name, value in re.findall(r": (\d+): (\w+) = (-?\d+)$", text, re.M):
        if step not in seen:
            seen.add(step)
            meetings.append((name, value))
    return meetings, len(re.findall(r"->\] : \d+: put ", text))


def journal_of(file, input):
    """The journal of the run that always does the first event that can happen, which `shim-draw` draws without a journal."""
    read = lambda name: open(os.path.join(TOP, name), "rb").read()
    run = runs.Run(syntax.program(read(file)), read(input) if input else b"")
    return journals.written(1_000_000, journals.of_first_events(run, 1_000_000))


def main():
    argparse.ArgumentParser(description=__doc__, formatter_class=argparse.RawDescriptionHelpFormatter).parse_args()
    for name in sorted(os.listdir(EXAMPLES)):
        if not name.endswith(".shim"):
            continue
        file, input = os.path.join("examples", name), os.path.join("examples", name[:-5] + ".txt")
        more = ["--input", input] if os.path.exists(os.path.join(TOP, input)) else []
        text, error, status = call(DRAW, "run", file, *more)
        same(name, (error, status), ("", 0))
        report = call(SHIM, "ref", file, *more)[0]
        meetings, puts = drawn(text)
        for chan, values in re.findall(r"^chan \S+ (\w+) : (.*)$", report, re.M):
            same("%s, meetings on %s" % (name, chan), len([v for n, v in meetings if n == chan]) >= len(values.split()), True)
        told = sorted((chan, v) for chan, values in re.findall(r"^chan \S+ (\w+) : (.*)$", report, re.M) for v in values.split())
        same("%s, all meetings" % name, sorted(meetings), told)
        same("%s, puts" % name, puts, int(report.split()[1]))
        same("%s, its end" % name, re.findall(r"^== (.*) ==$", text, re.M), [report.splitlines()[-1]])
        same("%s, caught" % name, len(re.findall("catch ", text)), len(re.findall("^catch ", report, re.M)))
        with tempfile.TemporaryDirectory() as room:
            journal = os.path.join(room, "journal")
            with open(journal, "wb") as out:
                out.write(journal_of(file, input if more else None))
            same("%s, over its journal" % name, call(DRAW, "run", file, *more, "--journal", journal), (text, "", 0))
    # A journal in another order, and one of another source.
    with tempfile.TemporaryDirectory() as room:
        journal = os.path.join(room, "journal")
        lines = "journal 50|quiet main 1|own main|quiet main/0.1 2|quiet main/0.0 1|meet main#0|quiet main/0.1 1|quiet main/0.0 1|meet main#0|end main/0.0"
        lines += "|quiet main/0.1 1|meet main/0.1#0|end main/0.1|close main|own main|end main|stop 16|"
        with open(journal, "w") as out:
            out.write(lines.replace("|", "\n"))
        text, error, status = call(DRAW, "run", "examples/meeting.shim", "--journal", journal)
        same("a journal of another order", (drawn(text), error, status), (([("level", "5"), ("level", "7"), ("seen", "12")], 1), "", 0))
        text, error, status = call(DRAW, "run", "examples/merger.shim", "--journal", journal)
        same("a journal of another source", (text, error.split(";")[0], status), ("", "shim-draw: journal 4 not enabled", 9))
    # Cuts.
    filter = ["examples/filter.shim", "--input", "examples/filter.txt"]
    text = call(DRAW, "run", *filter, "--from", "11", "--to", "30")[0]
    same("from 11 to 30", drawn(text), ([("sample", "100"), ("mean", "50"), ("sample", "80"), ("mean", "90"), ("sample", "70")], 1))
    text = call(DRAW, "run", *filter, "--channels", "mean")[0]
    same("one channel by name", drawn(text), ([("mean", v) for v in "50 90 75 65 50".split()], 0))
    same("one channel by name, lifelines", re.findall(r"participant .* as (\w+)", text), ["p", "p_0_1", "p_0_2"])
    same("one channel by its place", drawn(call(DRAW, "run", *filter, "--channels", "main#0")[0])[0][0], ("sample", "100"))
    text = call(DRAW, "run", *filter, "--from", "53", "--to", "60")[0]
    same("a cut has the lifelines to which its arrows go", re.findall(r"participant .* as (\w+)", text), ["p", "p_0_0", "p_0_1", "p_0_2"])
    # Who is dead before a cut isn't drawn in it, and who lives has a bar from its begin to its end.
    oven = ["examples/oven.shim", "--input", "examples/oven.txt"]
    bars = lambda text: re.findall(r"^(participant|activate|deactivate|destroy) (?:.* as )?(\w+)$", text, re.M)
    text = call(DRAW, "run", *oven, "--from", "26", "--to", "28")[0]
    same("a cut after deaths", bars(text), [("participant", "p"), ("activate", "p")])
    text = call(DRAW, "run", *oven, "--from", "23", "--to", "26")[0]
    same("a cut with a death", bars(text), [("participant", "p"), ("participant", "p_0_1"), ("activate", "p"), ("activate", "p_0_1"), ("destroy", "p_0_1")])
    for name in ("commands", "frames", "filter"):
        text = call(DRAW, "run", "examples/%s.shim" % name, "--input", "examples/%s.txt" % name)[0]
        of = lambda kinds: sorted(who for kind, who in bars(text) if kind in kinds)
        same("%s, bars begin" % name, of(("activate",)), of(("participant",)))
        same("%s, bars end" % name, of(("deactivate", "destroy")), of(("participant",)))
    text = call(DRAW, "run", *oven, "--channels", "reached")[0]
    same("one channel, and who forked", bars(text)[-1], ("deactivate", "p"))
    for cut, said in ((("--from", "40", "--to", "10"), "from step 40 to step 10"),
                      (("--from", "60", "--to", "70"), "from step 60 to step 70; the run has 55 steps"),
                      (("--from", "40", "--to", "10", "--budget", "50"), "from step 40 to step 10; the run has 50 steps"),
                      (("--from", "1000"), "from step 1000 on; the run has 55 steps")):
        same("nothing from there", call(DRAW, "run", *oven, *cut), ("", "shim-draw: nothing that is drawn happens %s\n" % said, 2))
    # Waits in a run that is blocked, names that PlantUML would underline, and a run that never ends.
    text = call(DRAW, "run", "examples/deadlock.shim")[0]
    same("who waits", re.findall(r"^hnote over (\w+) \S+ : waits at (.*)$", text, re.M), [("p_0_0", "heat, line 6"), ("p_0_1", "pressure, line 13")])
    with tempfile.TemporaryDirectory() as room:
        pair = os.path.join(room, "pair.shim")
        with open(pair, "w") as out:
            out.write("void a(int &x__y) { while (1) next x__y = 3; }\nvoid b____c(int x__y) { while (1) next x__y; }\nvoid main() { int x__y; a(x__y); par b____c(x__y); }\n")
        text = call(DRAW, "run", pair, "--to", "12")[0]
        same("no underlining", ("__" in text, text.count("x_<U+005F>y = 3"), "b_<U+005F>_<U+005F>c" in text), (False, 2, True))
        same("more than can be drawn", call(DRAW, "run", pair), ("", "shim-draw: more than 400 lines are no picture: cut it by --from, --to and --channels\n", 1))
    # Files, numbers and outputs that don't serve, pipes, and a signal.
    hello = "examples/hello.shim"
    for words, said, status in (
        ((hello, "--budget", "99999999"), "--budget 99999999: a number from 1 to 4000000", 2),
        ((hello, "--budget", "0"), "--budget 0: a number from 1 to 4000000", 2),
        ((hello, "--to", "-3"), "--to -3: a number from 0 to 4000000", 2),
        (("nowhere",), "nowhere: No such file or directory", 6),
        (("examples",), "examples: Is a directory", 6),
        ((hello, "--input", "nowhere"), "nowhere: No such file or directory", 6),
        ((hello, "--journal", "nowhere"), "nowhere: No such file or directory", 6),
        (("examples/filter.txt",), "refused 1 unexpected 0; shim-see check examples/filter.txt says it with its place", 5),
        ((hello, "--output", "/nowhere/x.puml"), "/nowhere/x.puml: No such file or directory", 7),
    ):
        same(" ".join(words), call(DRAW, "run", *words), ("", "shim-draw: %s\n" % said, status))
    whole = call(DRAW, "run", *oven)
    same("pipes", call("bash", "-c", 'cat examples/oven.shim | "$1" run /dev/stdin --input <(cat examples/oven.txt)', "bash", DRAW), whole)
    same("a refused pipe", call("bash", "-c", 'echo "void main() { x; }" | "$1" run /dev/stdin', "bash", DRAW),
         ("", "shim-draw: refused 1 unexpected 15; shim-see check /dev/stdin says it with its place\n", 5))
    same("a full output", call("bash", "-c", '"$1" run %s > /dev/full' % hello, "bash", DRAW), ("", "shim-draw: standard output: No space left on device\n", 7))
    same("a closed output", call("bash", "-c", '"$1" run %s >&-' % hello, "bash", DRAW), ("", "shim-draw: standard output: Bad file descriptor\n", 7))
    with tempfile.TemporaryDirectory() as room:
        alone = os.path.join(room, "alone.shim")
        with open(alone, "w") as out:
            out.write("void main() { while (1) { } }\n")
        command = 'timeout --foreground --preserve-status -s INT 2 "$1" run "$2" --budget 4000000'
        text, error, status = call(DRAW, "run", alone, "--budget", "50")
        same("a run of which nothing is drawn", (bars(text), text.splitlines()[-2], error, status), ([("participant", "p"), ("activate", "p")], "== end spent 50 ==", "", 0))
        same("Ctrl-C", call("bash", "-c", command, "bash", DRAW, alone), ("", "shim-draw: stopped: nothing is drawn\n", 130))
    same("blanks in the list", call(DRAW, "run", *filter, "--channels", " mean , sample"), call(DRAW, "run", *filter, "--channels", "sample,mean"))
    for names, said, status in (("nothing", "--channels: no rendezvous in what is drawn on nothing", 2), ("mean,nothing, none", "--channels: no rendezvous in what is drawn on nothing, none", 2),
                                ("mean,", "--channels wants names with commas between them", 2)):
        same("no such channel", call(DRAW, "run", *filter, "--channels", names), ("", "shim-draw: %s\n" % said, status))
    same("no such kind", call(DRAW, "run", hello, "--output", "x.txt")[1:], ("shim-draw: --output x.txt: it has to end with .puml, .svg or .png\n", 2))
    for other in ("true", "false", "echo"):
        same("another program", call("env", "SHIM=" + other, DRAW, "run", hello),
             ("", "shim-draw: %s isn't shim: no answer of shim is like its answer. Set SHIM to the path of the program.\n" % other, 1))
    same("little memory", call("bash", "-c", 'ulimit -v 400000; "$1" run %s' % hello, "bash", DRAW)[1:],
         ("shim-draw: no memory for its own work; give it 1 GiB of address space (ulimit -v)\n", 8))
    same("without arguments", call(DRAW)[1].splitlines()[-1], "shim-draw: error: the following arguments are required: {run,why}, FILE")
    # Waits, what isn't blocked, and options of `run`.
    for name, value in (("--journal", "nowhere"), ("--from", "0"), ("--to", "5"), ("--channels", "tray")):
        same("why %s" % name, call(DRAW, "why", "examples/packing.shim", name, value), ("", "shim-draw: %s is an option of run\n" % name, 2))
    text = call(DRAW, "why", "examples/packing.shim")[0]
    same("waits", re.findall(r'"(\S+)" -> "(\S+)" \[label="waits to meet on (\w+)"', text),
         [("main/0.0", "main/0.2", "tray"), ("main/0.1", "main/0.0", "sheet"), ("main/0.2", "main/0.1", "part")])
    same("no waits", call(DRAW, "why", "examples/hello.shim")[1:], ("shim-draw: only a blocked run has waits, with status 3; this one has 0\n", 1))
    # The kept pictures are of the texts that come today.
    for picture, words in (("meeting.puml", ["run", "examples/meeting.shim"]), ("packing.dot", ["why", "examples/packing.shim"]),
                           ("commands.puml", ["run", "examples/commands.shim", "--input", "examples/commands.txt"])):
        with open(os.path.join(TOP, "docs", "pictures", picture)) as it:
            same("docs/pictures/%s: make pictures" % picture, call(DRAW, *words)[0], it.read())
    pictures = 0
    for tool, words in (("plantuml", ["run", "examples/meeting.shim"]), ("dot", ["why", "examples/packing.shim"])):
        if shutil.which(tool):
            with tempfile.TemporaryDirectory() as room:
                out = os.path.join(room, "picture.svg")
                same("%s draws" % tool, call(DRAW, *words, "--output", out), ("", "", 0))
                texts = "".join(xml.etree.ElementTree.parse(out).getroot().itertext())
                same("%s has names" % tool, "main/0.1" in texts, True)
                pictures += 1
    print("%d checks the same, %d of 2 kinds of SVG made" % (checks, pictures))


if __name__ == "__main__":
    main()
