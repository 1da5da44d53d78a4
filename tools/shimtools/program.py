"""The program `shim`, as the tools beside it call it."""
import os
import re
import subprocess


class NoShim(Exception):
    """There is no program, or it isn't `shim`; a tool ends with this status, 127 as a shell does where none can be started."""

    def __init__(self, why, status):
        super().__init__("%s %s. Set SHIM to the path of the program." % (command(), why))
        self.status = status


def command():
    """The program: what SHIM names, or the one beside the tools, of a clone or installed, or that of the path."""
    named = os.environ.get("SHIM")
    if named:
        return named
    tools = os.path.dirname(os.path.dirname(os.path.abspath(__file__)))  # or PREFIX/share/shim
    top = os.path.dirname(tools)
    for place in (os.path.join(top, "shim"), os.path.join(os.path.dirname(top), "bin", "shim")):
        if os.path.isfile(place) and os.access(place, os.X_OK):
            return place
    return "shim"


def call(*words):
    """What `shim` writes, and its status."""
    try:
        told = subprocess.run([command(), *words], stdout=subprocess.PIPE)
    except OSError as why:
        raise NoShim("can't be started: %s" % why.strerror, 127) from None
    return told.stdout, told.returncode


REPORT = rb"output .*\nend \w.* \d+\n"
# What answers look like, by mode of a run that took place, or by another status.
ANSWERS = {
    "run": REPORT, "ref": REPORT, "replay": REPORT, "why": REPORT + rb"(because .*)?", "batch": rb"input .*\n" + REPORT,
    "check": rb"accepted \d+\n", "code": rb"unit .*", "up": rb"shim 2 ;\n.*", "trace": rb"journal .*", "gen": rb"gen .*",
    2: rb"usage: .*", 5: rb"refused \d+ .*\n", 6: rb"file (failed|too long) .*\n", 8: rb"no memory\n",
    9: rb"journal \d+ .*\n",
}


def ask(mode, *words):
    """What `shim` answers in this mode, and its status, which is negative where a signal ended it."""
    told, status = call(mode, *words)
    form = ANSWERS.get(mode if status in (0, 1, 3, 4) else status)
    if status >= 0 and not (form and re.fullmatch(form, told, re.DOTALL)):
        raise NoShim("isn't shim: no answer of shim is like its answer", 1)
    return told, status
