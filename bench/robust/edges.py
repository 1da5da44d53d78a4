#!/usr/bin/env python3
"""What shim answers where the files and the output of the system are odd: pipes, devices, folders, files that can't
be read, that are changed or cut while they are read; names with any bytes; output that is full, closed or slow; a
failed read with a failed write; and inputs of a batch that are odd. Each answer is compared with what docs/FORMATS.md
says of it. Ends with 1 at the first one that differs, and names it. Wants bash, and setpriv as root.

The cases of the tool have the rest: files that are missing or too long, in any order, and names like options or with
no sign (tools/tests/cases.py).
Use: make shim && bench/robust/edges.py [--times N] [--shim PATH]
"""
import collections
import itertools
import os
import shutil
import subprocess
import sys
import threading

import common

PUTS = "output 1 41\nend done 4\n"
COPIES = "output 2 4142\nend done 10\n"
EMPTY = "output 0\nend done 4\n"
NOTHING = "output 0\nend done 1\n"
FAILED = "file failed %s\n"
TOO_LONG = "file too long %s %d\n"
SOURCE, INPUT = 1 << 20, 16 << 20  # the most bytes of each
FILES = {
    "p.shim": "void main(ostream &o) { int x; x = 65; put o, x; }\n",
    "blocked.shim": common.example("packing.shim"),
    "copy.shim": common.COPY,
    "none.shim": "void main() { }\n",
    "bytes": "AB",
    "most.shim": "void main() { } //".ljust(SOURCE, "x"),
    "more.shim": "void main() { } //".ljust(SOURCE + 1, "x"),
    "full": bytes(INPUT),
    "over": bytes(INPUT + 1),
    "many": os.urandom(200000),
    "holes": "",
    "changed": "void main(ostream &o) { put o, 1; }",
    "cut": "void main() { }",
    "shut": "",
}
ODD_NAMES = ["a b", "a\nb", "\x1b[1m", "*", "日本", "it's", "\\", "%s%n", "=x", "a\tb", "{p}", "ä", '"', "~", "$HOME"]
NO_TEXTS = [os.fsdecode(name) for name in (b"\xff", b"p\x80.shim", b"\xc3")]
NOT_READ = [*"dangling round . p.shim/ p.shim/q /proc/self/mem / /proc ./".split(), "n" * 300, "n" * 100000]

# Of words after `run` or `ref`, in which bash finds files and redirections, the status and the text.
BY_MODE = {
    # What is no regular file.
    (0, PUTS): ["link", "<(cat p.shim)", "/dev/stdin < p.shim", "/dev/fd/0 < p.shim", "/dev/stdin < <(cat p.shim)",
                "/dev/stdin --input /dev/stdin < <(cat p.shim)",
                "<(while IFS= read -r -n 1 -d '' byte; do printf '%s' \"$byte\"; sleep 0.002; done < p.shim)"],
    (0, COPIES): ["copy.shim --input /dev/stdin < bytes", "<(cat copy.shim) --input <(cat bytes)",
                  "copy.shim --input <(printf A; sleep 0.2; printf B)"],
    (0, EMPTY): ["copy.shim --input /dev/null"],
    (5, "refused 1 no main\n"): ["/dev/null"],
    (5, "refused 1 unexpected 0\n"): ["/proc/self/stat"],
    # At the limit, and after it.
    (0, NOTHING): ["<(cat most.shim)", "none.shim --input /dev/stdin < <(cat full)"],
    (6, TOO_LONG % ("/dev/stdin", SOURCE)): ["/dev/stdin < <(cat more.shim)"],
    (6, TOO_LONG % ("/dev/stdin", INPUT)): ["none.shim --input /dev/stdin < <(cat over)"],
    **{(6, TOO_LONG % (name, SOURCE)): [name] for name in ("holes", "/dev/zero", "/dev/full")},
    **{(6, TOO_LONG % (name, INPUT)): ["none.shim --input " + name] for name in ("holes", "/dev/zero", "/dev/urandom")},
    # What can't be opened or read.
    (6, FAILED % "/dev/stdin"): ["/dev/stdin <&-", "/dev/stdin < ."],
    (6, FAILED % "/dev/tty"): ["/dev/tty"],
}
# Output that can't be written, words after `run` or `ref`, and words of other modes.
NO_OUTPUT = ["> /dev/full", ">&-", "1< p.shim", "1< .", "<&- >&-", "<&- >&- 2>&-", ">&- 2>&-"]
NOT_TOLD = ["p.shim", "none.shim", "copy.shim --input bytes", "p.shim --budget 1", "p.shim --input nowhere", "nowhere",
            "more.shim", "/dev/null", "/proc/self/mem", ".", "--help"]
NOT_TOLD_ELSEWHERE = ["", "check p.shim", "code p.shim", "up p.shim", "trace p.shim", "why p.shim", "why blocked.shim",
                      "gen ring", "gen storm --size 10", "batch copy.shim bytes", "batch copy.shim bytes nowhere"]
# A line of bash in which a copy of many bytes ends somewhere, its status, and how much of the text comes.
COPY_MANY = '"$0" ref copy.shim --input many'
LONG_TEXTS = [
    (0, None, COPY_MANY + " | dd bs=16 status=none"),
    (0, None, COPY_MANY + " | { sleep 1; cat; }"),
    (7, 102400, "trap '' XFSZ; ulimit -f 100; " + COPY_MANY),
    *((7, taken, COPY_MANY + " | head -c %d" % taken) for taken in (0, 1, 65536, 70000, 300000)),
    *((7, 0, '{ sleep 0.1; "$0" run %s; } | true' % words) for words in ("p.shim", "nowhere", "/dev/null", "--help")),
]

right = collections.Counter()


def check(answer, status, text, what="these files"):
    common.compare(what, answer, status, text if isinstance(text, bytes) else os.fsencode(text))
    right["answers"] += 1


def answers(status, text, *words, **more):
    check(common.ask(*words, **more), status, text)


def through_bash(status, text, line):
    """Checks what comes of a line of bash in which "$0" is shim; the status is that of shim, if that isn't 0."""
    bash = ["bash", "-o", "pipefail", "-c", line]
    check(common.ask(before=bash, start_new_session=True), status, text, line)


def copied(*names):
    """The reports of a batch that copies these inputs."""
    return "".join("input %s\n%s" % (name, EMPTY if name == "/dev/null" else COPIES) for name in names)


def by_mode(mode):
    for answer, lines in BY_MODE.items():
        for words in lines:
            through_bash(*answer, '"$0" %s %s' % (mode, words))
    for name in [*NOT_READ, os.getcwd()]:
        answers(6, FAILED % name, mode, name)
        answers(6, FAILED % name, mode, "none.shim", "--input=" + name)
    other = [] if os.geteuid() else [*common.NOBODY, "bash", "-c", '"./theirs" "$@"']
    for name in ("shut", "closed/p.shim"):
        answers(6, FAILED % name, mode, name, before=other)
    for words, where in itertools.product(NOT_TOLD, NO_OUTPUT):
        through_bash(7, "", '"$0" %s %s %s' % (mode, words, where))


def by_name(name):
    """A name of a file that is a source, then an input, and then isn't there."""
    for file, text, *calls in (
            ("p.shim", PUTS, ["run", name], ["ref", name]),
            ("bytes", COPIES, ["run", "copy.shim", "--input", name], ["ref", "copy.shim", "--input", name]),
            ("bytes", copied(name, "bytes"), ["batch", "copy.shim", name, "bytes"])):
        shutil.copy(file, name)
        for words in calls:
            answers(0, text, *words)
        os.remove(name)
        for words in calls:
            answers(6, FAILED % name, *words)


def by_no_text(name):
    """A name that is no text: no words that shim takes."""
    usage = common.ask().text
    for words in (["run"], ["ref"], ["run", "p.shim", "--input"], ["batch", "copy.shim", "bytes"]):
        answers(2, usage, *words, name)


def batches():
    """Batches with inputs that are odd. Standard input has nothing when it is read again."""
    for names, where in ((["bytes", "/dev/null", "bytes"], ""), (["/dev/stdin", "bytes"], "< bytes")):
        through_bash(0, copied(*names), '"$0" batch copy.shim %s %s' % (" ".join(names), where))
    through_bash(0, copied("/dev/stdin") + "input /dev/stdin\n" + EMPTY,
                 '"$0" batch copy.shim /dev/stdin /dev/stdin < <(cat bytes)')
    for odd in ("holes", "/dev/zero", "/dev/urandom"):
        answers(6, TOO_LONG % (odd, INPUT), "batch", "none.shim", "bytes", "full", odd, "nowhere")
    for odd in [*NOT_READ, os.getcwd()]:
        answers(6, FAILED % odd, "batch", "copy.shim", "bytes", odd, "bytes", "more.shim", "nowhere")


def long_texts():
    """A long text to a reader that is slow, that goes or that never came; to a file that may not grow; and to a pipe
    that may not block."""
    whole = common.ask("ref", "copy.shim", "--input", "many").text
    if len(whole) <= 400000:
        sys.exit("no long text: a copy of 200,000 bytes has %d" % len(whole))
    for status, taken, line in LONG_TEXTS:
        through_bash(status, whole[:taken], line)
    end, other = os.pipe()
    os.set_blocking(other, False)
    reader = subprocess.Popen(["sh", "-c", "sleep 1; cat"], stdin=end, stdout=subprocess.PIPE)
    answer = common.ask("ref", "copy.shim", "--input", "many", stdout=other)
    for descriptor in (end, other):
        os.close(descriptor)
    taken = reader.communicate()[0]
    print("a pipe that may not block: status", answer.status, "after", len(taken), "bytes")
    check(answer._replace(text=taken), 0 if taken == whole else 7, whole[: len(taken)])


def while_changed(name, change, times, kinds):
    """Runs a file that is changed again and again. `kinds` says what an answer may be: status, beginning, a name."""
    seen, over = collections.Counter(), threading.Event()

    def go_on():
        while not over.is_set():
            change()
    changing = threading.Thread(target=go_on, daemon=True)
    changing.start()
    for _ in range(times):
        answer = common.ask("run", name)
        found = [kind for status, text, kind in kinds if answer.status == status and answer.text.startswith(text)]
        if not found or answer.error:
            common.differs("a file that changes", answer)
        seen[found[0]] += 1
    over.set()
    changing.join()
    print("%s:" % change.__doc__, *("%d %s" % (count, kind) for kind, count in sorted(seen.items())))


def write_again():
    """a file that is written again and again, in place"""
    for number in b"21":
        with open("changed", "r+b", buffering=0) as out:
            out.write(b"void main(ostream &o) { put o, %c; }" % number)


def cut_and_grow():
    """a file that is cut and grows again and again"""
    shutil.copyfile("more.shim", "cut")
    for size in (1000000, 17, 3, 2000000):
        os.truncate("cut", size)


def main(given):
    os.mkdir("closed")
    for name, text in {**FILES, "closed/p.shim": FILES["p.shim"]}.items():
        common.write(name, text)
    os.truncate("holes", 1 << 40)
    for name, to in (("dangling", "nowhere"), ("round", "round"), ("link", "p.shim")):
        os.symlink(to, name)
    shutil.copy(common.SHIM, "theirs")
    for name, mode in ((".", 0o755), ("theirs", 0o755), ("shut", 0), ("closed", 0)):
        os.chmod(name, mode)
    for mode in ("run", "ref"):
        by_mode(mode)
    for name in ODD_NAMES:
        by_name(name)
    for name in NO_TEXTS:
        by_no_text(name)
    batches()
    for words in NOT_TOLD_ELSEWHERE:
        through_bash(7, "", '"$0" %s > /dev/full' % words)
    long_texts()
    print("%d answers as they should be" % right["answers"])
    while_changed("changed", write_again, given.times,
                  [(0, b"output 1 01\nend done 2\n", "first"), (0, b"output 1 02\nend done 2\n", "second")])
    while_changed("cut", cut_and_grow, given.times,
                  [(0, b"output 0\nend done 1\n", "whole"), (6, b"file too long cut 1048576\n", "longer"),
                   *((5, b"refused 1 " + fault, "part") for fault in (b"no main\n", b"unexpected ", b"bad byte "))])
    os.chmod("closed", 0o755)


if __name__ == "__main__":
    words = common.words_of()
    common.add_number(words, "times", 200, "the number of runs over a file that is changed")
    common.start(main, words.parse_args())
