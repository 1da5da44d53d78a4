"""Journals: their text, and the run that one tells."""
import re

from . import runs
from .runs import NUMBER, PATH

MOST = 4_000_000
LINE = {
    "quiet": re.compile(r"quiet (%s) ([1-9][0-9]*)" % PATH),
    "own": re.compile(r"own (%s)" % PATH),
    "meet": re.compile(r"meet (%s)#(%s)" % (PATH, NUMBER)),
    "poison": re.compile(r"poison (%s) (%s)#(%s)" % (PATH, PATH, NUMBER)),
    "close": re.compile(r"close (%s)" % PATH),
    "end": re.compile(r"end (%s)" % PATH),
}


class Refused(Exception):
    """A journal is refused at this line for this cause."""

    def __init__(self, line, cause):
        super().__init__("journal %d %s" % (line, cause))
        self.line, self.cause = line, cause


def path_of(text):
    path = tuple(tuple(map(int, pair.split("."))) for pair in text.split("/")[1:])
    if any(number >= 2**32 for pair in path for number in pair):
        raise ValueError(text)
    return path


def channel_of(home, serial):
    if int(serial) >= 2**32:
        raise ValueError(serial)
    return (path_of(home), int(serial))


def entry_of(line):
    """The entry of a line as a tuple of its kind and what it names. Raises ValueError where there is none."""
    kind = line.split(" ", 1)[0]
    found = LINE[kind].fullmatch(line) if kind in LINE else None
    if not found:
        raise ValueError(line)
    words = found.groups()
    if kind == "quiet":
        if int(words[1]) > MOST:
            raise ValueError(line)
        return (kind, path_of(words[0]), int(words[1]))
    if kind == "meet":
        return (kind, channel_of(*words))
    if kind == "poison":
        return (kind, path_of(words[0]), channel_of(*words[1:]))
    return (kind, path_of(words[0]))


def read(text):
    """The budget and the entries of a journal, which is bytes. Raises Refused."""
    lines = text.split(b"\n")
    if lines[-1] != b"":
        lines.append(b"")  # the last line has no end
        torn = len(lines) - 1
    else:
        torn = None
    lines.pop()
    entries, steps, budget = [], 0, None
    for number, raw in enumerate(lines, 1):
        try:
            line = raw.decode("ascii")
            if number == torn:
                raise ValueError(line)
            if number == 1:
                found = re.fullmatch(r"journal ([1-9][0-9]*)", line)
                budget = int(found[1]) if found else 0
                if not 1 <= budget <= MOST:
                    raise ValueError(line)
                continue
            if line == "stop %d" % steps:
                if number != len(lines):
                    raise Refused(number + 1, "malformed")
                return budget, entries
            entry = entry_of(line)
        except ValueError:
            raise Refused(number, "malformed") from None
        entries.append(entry)
        steps += entry[2] if entry[0] == "quiet" else 1
    raise Refused(len(lines) + 1, "malformed")


def steps_of(run, entry):
    """Does an entry. Raises NotEnabled where that can't happen."""
    kind, what = entry[:2]
    if kind == "meet":
        return run.meet(what)
    if kind == "poison":
        return run.poison(what, entry[2])
    process = run.by_path.get(what)
    if process is None:
        raise runs.NotEnabled()
    if kind == "close":
        return run.close(process)
    if kind == "end":
        return run.end(process)
    for _ in range(entry[2] if kind == "quiet" else 1):
        if process.state != "live" or process.stop not in ((runs.QUIET,) if kind == "quiet" else runs.OWN):
            raise runs.NotEnabled()
        run.own_step(process)
    return None


def follow(run, text, told=lambda run, entry: None, done=lambda run, entry, what: None):
    """Does the entries of a journal in turn. `told` hears of each before it happens, `done` after it. Raises Refused."""
    budget, entries = read(text)
    for number, entry in enumerate(entries, 2):
        if run.steps + (entry[2] if entry[0] == "quiet" else 1) > budget:
            raise Refused(number, "over budget")
        told(run, entry)
        try:
            what = steps_of(run, entry)
        except runs.NotEnabled:
            raise Refused(number, "not enabled") from None
        done(run, entry, what)
    if run.steps < budget and run.ended() == "spent":
        raise Refused(len(entries) + 2, "unfinished")


def written(budget, entries):
    """The text of a journal."""
    lines, steps = ["journal %d" % budget], 0
    for entry in entries:
        kind, what = entry[:2]
        if kind == "quiet":
            lines.append("quiet %s %d" % (runs.path_text(what), entry[2]))
        elif kind == "meet":
            lines.append("meet %s#%d" % (runs.path_text(what[0]), what[1]))
        elif kind == "poison":
            lines.append("poison %s %s#%d" % (runs.path_text(what), runs.path_text(entry[2][0]), entry[2][1]))
        else:
            lines.append("%s %s" % (kind, runs.path_text(what)))
        steps += entry[2] if kind == "quiet" else 1
    return "\n".join(lines + ["stop %d" % steps, ""]).encode()


def of_first_events(run, budget):
    """The entries of the run that always does the first event that can happen."""
    entries = []

    def told(run, kind, what):
        if kind == "own":
            if what.stop == runs.QUIET:
                if entries and entries[-1][:2] == ("quiet", what.path):
                    entries[-1] = ("quiet", what.path, entries[-1][2] + 1)
                else:
                    entries.append(("quiet", what.path, 1))
            else:
                entries.append(("own", what.path))
        elif kind == "poison":
            entries.append((kind, *what))
        else:
            entries.append((kind, what if kind == "meet" else what.path))

    runs.by_first_events(run, budget, told)
    return entries
