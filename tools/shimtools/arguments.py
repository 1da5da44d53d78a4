"""Arguments as `shim` takes them, and what is wrong with those that it refuses."""
import difflib
import os
import re

MODES = {
    "run": "the report of a run, over compiled code, with several workers",
    "ref": "the report of what the program means: the same text, slower",
    "why": "the report, and of a blocked run who waits for whom",
    "check": "whether anything in the source is refused",
    "code": "the instructions that the source is compiled to",
    "up": "the source as a text of version 2",
    "gen": "a source that is made, `pipe`, `tree` or `storm` for FILE, is run",
    "trace": "the journal of a run",
    "replay": "the report of the run that a journal records",
    "batch": "the reports of runs over 1 to 64 inputs, whose names stand after FILE",
}
RANGES = {"--workers": (1, 16), "--budget": (1, 4_000_000), "--quantum": (1, 10_000), "--size": (1, 100_000)}
NAMED = {"--input": "the file whose bytes `get` takes", "--journal": "the journal that `replay` follows"}
READ_BY = {"--input": ("run", "ref", "why", "trace", "replay"), "--journal": ("replay",)}  # modes that read the named file
FLAGS = ("--steal",)
KINDS = ("pipe", "tree", "storm")
MOST_INPUTS = 64


class Arguments:
    """Arguments as `shim` takes them: mode, file and options, and of refused ones what is wrong with which."""

    def __init__(self, arguments):
        self.plain, self.options, self.fault = [], {}, None
        for argument in arguments:
            if any("\ud800" <= c <= "\udfff" for c in argument):
                self.fault = "the argument %s isn't UTF-8; rename the file, or name it by a link" % ascii(argument).replace("\\udc", "\\x")
        if self.fault is None:
            self.read(arguments)
        if self.fault is None:
            self.judge()
        self.mode = self.plain[0] if self.plain else None
        self.file = self.plain[1] if len(self.plain) > 1 else None
        self.inputs = self.plain[2:]

    def read(self, arguments):
        arguments = list(arguments)
        while arguments:
            argument = arguments.pop(0)
            if argument == "--":
                self.plain += arguments
                return
            if not argument.startswith("-") or argument == "-":
                self.plain.append(argument)
                continue
            name, is_joined, value = argument.partition("=")
            if name not in RANGES and name not in NAMED and name not in FLAGS:
                if name[2:] in MODES:
                    self.fault = "%s is a mode, without --" % name[2:]
                    return
                near = difflib.get_close_matches(name.lower(), [*RANGES, *NAMED, *FLAGS], 1, 0.6)
                self.fault = "there is no option %s" % argument
                self.fault += "; did you mean %s?" % near[0] if near else ""
                return
            if name in self.options:
                self.fault = "%s stands there twice; give it once" % name
                return
            if name in FLAGS:
                if is_joined:
                    self.fault = "%s has no value" % name
                    return
                self.options[name] = None
                continue
            if not is_joined:
                if not arguments:
                    self.fault = "%s wants a value after it: %s" % (name, self.wanted(name))
                    return
                value = arguments.pop(0)
                if value.startswith("-") and value != "-":
                    self.fault = "%s wants a value after it, and %s reads as an option" % (name, value)
                    self.fault += "; a name that begins with - is written %s=%s" % (name, value)
                    return
            self.options[name] = value
            if name in RANGES:
                least, most = RANGES[name]
                if not re.fullmatch(r"\+?[0-9]+", value, re.A) or not least <= int(value) <= most:
                    self.fault = "%s %s: %s" % (name, value, self.wanted(name))
                    return

    def wanted(self, name):
        if name in RANGES:
            return "a number from %d to %d, in digits, perhaps with a +" % RANGES[name]
        return NAMED[name]

    def judge(self):
        plain = self.plain
        modes = ", ".join(MODES)
        if not plain:
            self.fault = "MODE and FILE are missing; MODE is one of %s" % modes
        elif plain[0] not in MODES:
            if len(plain) == 1 and (plain[0].endswith(".shim") or os.path.exists(plain[0])):
                self.fault = "MODE is missing before %s; try: shim run %s" % (plain[0], plain[0])
            else:
                near = difflib.get_close_matches(plain[0].lower(), MODES, 1, 0.5)
                self.fault = "there is no mode %s" % plain[0]
                self.fault += "; did you mean %s?" % near[0] if near else "; MODE is one of %s" % modes
        elif len(plain) == 1:
            if plain[0] == "gen":
                self.fault = "what to make is missing after gen: pipe, tree or storm"
            else:
                self.fault = "FILE is missing after %s: the name of a source" % plain[0]
        elif plain[0] == "batch":
            if len(plain) == 2:
                self.fault = "the inputs are missing after %s: batch takes 1 to %d names there" % (plain[1], MOST_INPUTS)
                self.fault += ", and doesn't use --input" if "--input" in self.options else ""
            elif len(plain) > 2 + MOST_INPUTS:
                self.fault = "%d inputs are too many: batch takes %d, so start it once for each %d" % (
                    len(plain) - 2, MOST_INPUTS, MOST_INPUTS)
        elif len(plain) > 2:
            self.fault = "%s is one argument too many; a run has one FILE, and an input stands after --input" % plain[2]
        elif plain[0] == "gen" and plain[1] not in KINDS:
            self.fault = "gen makes no %s; it makes pipe, tree or storm" % plain[1]
        elif plain[0] == "replay" and "--journal" not in self.options:
            self.fault = "replay wants the journal: --journal FILE"

    def budget(self):
        return int(self.options.get("--budget", "1000000"))
