#!/usr/bin/env python3
"""Whether each example, and each of some programs of bench/made.py, does the same whoever runs it.

`run` does it by 1, 2, 3, 4 and 16 workers with pieces of 1, 7, 64 and 10,000 steps, again and again, the first,
third, .. time with --steal. Each answer, status too, is compared with that of `ref`. Where the budget stops that only
the status is, since the text then hangs on the schedule. Loops keep the processors busy beside it.

A time takes 20 runs of each program, so without words there are 26,000.
Use: make shim && bench/robust/soak.py [--times N] [--programs N] [--busy N] [--shim PATH]
"""
import collections
import itertools
import os
import subprocess
import sys

import common
import made

BUDGET = ["--budget", "100000"]
BUSY = "import os\nwhile os.getppid() == %d: pass"


def made_programs(count):
    """The words of so many programs of bench/made.py that are accepted, each in the same file."""
    number = 0
    for _ in range(count):
        for number in range(number + 1, number + 101):
            answer = common.ask("check", common.write("made.shim", made.Maker(number).program()))
            if answer.status == 0:
                break
        else:
            common.differs("none of 100 made programs in a row is accepted", answer)
        yield ["made.shim"]


def compare(what, programs, times):
    """Runs these programs by all workers, so many times, and tells of them."""
    runs, ends = 0, collections.Counter()
    for words in programs:
        wanted = common.ask("ref", *words, *BUDGET)
        if wanted.status not in (0, 1, 3, 4) or wanted.error:
            common.differs("by ref", wanted)
        ends[wanted.status] += 1
        for turn, workers, quantum in itertools.product(range(times), (1, 2, 3, 4, 16), (1, 7, 64, 10000)):
            by = ["--workers", str(workers), "--quantum", str(quantum), *(["--steal"] if turn % 2 == 0 else [])]
            came = common.ask("run", *words, *BUDGET, *by)
            text = came.text if wanted.status == 4 else wanted.text
            common.compare("by these workers", came, wanted.status, text)
            runs += 1
    print("%d %s: %d runs, each as it should be" % (sum(ends.values()), what, runs))
    print(*("  status %d: %d programs" % end for end in sorted(ends.items())), sep="\n", flush=True)


def main(given):
    busy = [subprocess.Popen([sys.executable, "-c", BUSY % os.getpid()]) for _ in range(given.busy)]
    try:
        compare("examples", common.examples(), given.times)
        compare("made programs", made_programs(given.programs), given.times)
    finally:
        for child in busy:
            child.kill()
            child.wait()


if __name__ == "__main__":
    words = common.words_of()
    common.add_number(words, "times", 20, "how often each program runs by each number of workers and pieces")
    common.add_number(words, "programs", 50, "how many made programs run", least=0)
    common.add_number(words, "busy", os.cpu_count(), "how many loops run beside it", least=0, most=64)
    common.start(main, words.parse_args())
