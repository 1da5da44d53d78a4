"""Reports for a person, with what following the run of a report adds."""
from . import journals, runs, syntax

FOLLOWED = 200_000  # steps of a run that this tool follows itself
SHOWN = 16  # channels, values of each, and processes of a spent run, that are shown

TRAPS = {
    "overflow": "a result is no signed number of 64 bits",
    "zero": "a division by 0",
    "shift": "a shift by a negative number or by more than 63",
    "depth": "more than 200 calls, or more than 64 forks, in each other",
}
OF_NUMBERS = "test before the statement, or make its numbers smaller"
AGAINST = {"depth": "let the recursion end sooner, or make a loop of it"}


class Report:
    """The lines of a report by kind."""

    def __init__(self, text):
        self.output, self.chans, self.logs, self.waits, self.steps = b"", [], [], [], []
        self.reasons, self.cycle, self.events = {}, [], 0
        for line in text.decode().splitlines():
            kind, _, rest = line.partition(" ")
            words = rest.split(" ")
            if kind == "output":
                self.output = bytes.fromhex(words[1]) if len(words) > 1 else b""
            elif kind == "chan":
                self.chans.append((words[0], words[1], words[3:]))
            elif kind in ("catch", "trap"):
                self.logs.append((kind, *words))
            elif kind == "wait":
                self.waits.append(tuple(words))
            elif kind == "steps":
                self.steps.append((words[0], int(words[1])))
            elif kind == "events":
                self.events = int(words[0])
            elif kind == "end":
                self.end, self.total = words[0], int(words[-1])
                self.name = words[1] if len(words) == 3 else None
            elif kind == "because":
                self.reasons[words[0]] = words[1:]
            elif kind == "cycle":
                self.cycle = words


class Followed:
    """The run after a report, followed by this tool: functions of processes, names of channels, and who threw."""

    def __init__(self, source, input, budget, journal, text):
        self.run, self.whole = None, False
        try:
            run = runs.Run(syntax.program(source), input)
            self.run = run
            if journal is not None:
                journals.follow(run, journal)
            else:
                runs.by_first_events(run, min(budget, FOLLOWED))
            self.whole = text is not None and run.report().encode() == text
        except (syntax.NotAccepted, journals.Refused, RecursionError, MemoryError):
            pass

    def process(self, path):
        """A process with its function, as far as it is known."""
        name = self.run and self.run.functions_by_path.get(journals.path_of(path))
        return "%s (%s)" % (path, name) if name and path != "main" else path

    def channel(self, chan, report):
        for known, name, _ in report.chans:
            if known == chan:
                return "%s (%s)" % (name, chan)
        if self.run:
            home, serial = chan.rsplit("#", 1)
            for process in self.run.by_path.values():
                channel = process.shared.get(journals.channel_of(home, serial))
                if channel:
                    return "%s (%s)" % (channel.name, chan)
        return chan

    def line(self, path):
        """Where a process stands at the end, if the whole run was followed."""
        process = self.run.by_path.get(journals.path_of(path)) if self.whole else None
        return " at line %d" % process.line if process else ""

    def thrower(self, cause, number=None):
        path, line, step = cause
        given = "" if number is None else ", and the handler got %d" % number
        return "%s threw it at line %d, with its step %d%s" % (self.process(runs.path_text(path)), line, step, given)

    def throwers(self):
        """For each catch of the report, in its order, who threw and which number came; none where the whole run wasn't followed."""
        if not self.whole:
            return []
        return [(cause, number) for path, _, cause, number in sorted(self.run.throwers, key=lambda it: it[0])]


def count(number, what):
    return "%d %s%s" % (number, what, "" if number == 1 else "s")


def output_text(output):
    if not output:
        return "output: nothing"
    printable = all(32 <= byte < 127 or byte in (9, 10) for byte in output)
    few = output[:64]
    if printable:
        shown = '"%s"' % few.decode().replace("\\", "\\\\").replace('"', '\\"').replace("\n", "\\n").replace("\t", "\\t")
    else:
        shown = few.hex(" ")
    return "output: %s, %s%s" % (count(len(output), "byte"), shown, " .." if len(output) > len(few) else "")


ENDS = ("done", "uncaught", "trap", "blocked", "spent")  # the first words of what is said of a report


def tell_report(report, followed, budget, journal):
    """A report for a person."""
    head = {
        "done": "done: main has ended, after %s" % count(report.total, "step"),
        "uncaught": "uncaught: main died of %s, which nobody caught, after %s" % (report.name, count(report.total, "step")),
        "trap": "trap: the program died of a trap, after %s" % count(report.total, "step"),
        "blocked": "blocked: a deadlock, after %s" % count(report.total, "step"),
        "spent": "spent: the budget of %s is used up, and more could happen" % count(report.total, "step"),
    }
    lines = [head[report.end], output_text(report.output)]
    if report.chans:
        lines.append("rendezvous, with the values that they gave:")
        for chan, name, values in report.chans[:SHOWN]:
            more = " .. %d more" % (len(values) - SHOWN) if len(values) > SHOWN else ""
            lines.append("  %s (%s): %s%s" % (name, chan, " ".join(values[:SHOWN]), more))
        if len(report.chans) > SHOWN:
            lines.append("  .. %s" % count(len(report.chans) - SHOWN, "more channel"))
    throwers = followed.throwers()
    catches = [log for log in report.logs if log[0] == "catch"]
    if catches:
        lines.append("exceptions that were caught:")
        for number, (_, path, name, line) in enumerate(catches):
            text = "  %s: %s caught it, by the try of line %s" % (name, followed.process(path), line)
            if number < len(throwers) and throwers[number][0]:
                text += "; " + followed.thrower(*throwers[number])
            lines.append(text)
        if not throwers:
            lines.append("  who threw isn't known: the run wasn't followed to this end")
    if followed.whole and followed.run.outranked:
        lines.append("exceptions that gave way to one whose try is further out, or to a trap:")
        for name, cause, winner in followed.run.outranked[:SHOWN]:
            lines.append("  %s: %s; it gave way to %s" % (name, followed.thrower(cause), winner))
    traps = [log for log in report.logs if log[0] == "trap"]
    if traps:
        lines.append("traps:")
        for _, path, kind, line in traps:
            lines.append("  %s at line %s: %s" % (followed.process(path), line, TRAPS[kind]))
    advice = None
    if report.end == "uncaught":
        if followed.whole and followed.run.root.cause:
            lines.append("who threw: " + followed.thrower(followed.run.root.cause).replace(" threw it", ","))
        advice = "to go on after it, write try { .. } catch (%s) { .. } round the throw, the fork or the call in main" % report.name
    elif report.end == "trap":
        kinds = sorted({kind for _, _, kind, _ in traps}, key=list(TRAPS).index)
        advice = "no try catches a trap: " + "; ".join(dict.fromkeys(AGAINST.get(kind, OF_NUMBERS) for kind in kinds))
    elif report.end == "blocked":
        lines.append("who waits:")
        for path, chan in report.waits:
            channel = followed.channel(chan, report)
            text = "  %s waits%s to meet on %s" % (followed.process(path), followed.line(path), channel)
            if path in report.reasons:
                holder, by, at = report.reasons[path]
                channel = followed.channel(at, report)
                text += ", for %s, which stands%s at %s" % (followed.process(by), followed.line(by), channel)
                if holder != by:
                    text += "; that lives below %s" % followed.process(holder)
            lines.append(text)
        if report.cycle:
            first, *others = report.cycle
            lines.append("in turn: %s waits for %s" % (first, ", that for ".join([*others, first])))
        advice = "let all in that turn come to their rendezvous in one order, so that one of them gives before it takes"
    elif report.end == "spent":
        lines.append("who used the steps:")
        most = sorted(report.steps, key=lambda it: -it[1])
        wide = max([len(followed.process(path)) for path, _ in most[:SHOWN]] + [len("rendezvous, closes, ends")])
        for path, steps in most[:SHOWN]:
            lines.append("  %-*s %9d  %5.1f %%" % (wide, followed.process(path), steps, 100 * steps / report.total))
        if len(most) > SHOWN:
            lines.append("  %-*s %9d" % (wide, "%d others" % (len(most) - SHOWN), sum(steps for _, steps in most[SHOWN:])))
        share = 100 * report.events / report.total
        lines.append("  %-*s %9d  %5.1f %%" % (wide, "rendezvous, closes, ends", report.events, share))
        loop = "a loop that goes on alone when its partner has ended" if len(report.steps) > 1 else "a loop that doesn't end"
        if budget < 4_000_000:
            longer = "give --budget, 4000000 at most" if journal is None else "record a longer run by trace with --budget, 4000000 at most"
            advice = "%s; or, where it should have ended, look for %s" % (longer, loop)
        else:
            advice = "4000000 is the greatest budget: look for %s, or give it less to do" % loop
    if advice:
        lines.append("next: " + advice)
    return lines
