#!/usr/bin/env python3
"""Whether shim answers as ever, or writes `no memory` and ends with 8, where the system refuses what it asks for.

`alloc` lets the first, second, .. allocation fail, until runs make no more of them; then that allocation and each
after it. Runs by several workers make more or fewer allocations by chance, so ten numbers in a row have to come to
nothing. Wants gcc. With WORDS it does so for this call of shim alone, and without for those below.

`memory` limits the address space, from the least with which the system starts the program at all upward in small
steps, until it answered as ever eight times in a row, and then with twice as much again and again. Tells from where
each of some calls, or this one, had what it wants. Wants prlimit.

`stack` tells the least stack, in KiB, with which each of some sources that are nested to the limit, or have as many
operators as an expression may, ends as it does with 8 MiB, in each of ten tries, to 32 KiB. Wants prlimit.

`threads` runs each example with 16 workers as a user who may have one process, and compares with `ref`. Wants root,
setpriv and prlimit.

Use: make shim && bench/robust/faults.py [--step KIB] [--most N] [--shim PATH] alloc|memory [WORDS..]
     bench/robust/faults.py [--shim PATH] stack|threads
"""
import argparse
import itertools
import os
import shutil
import subprocess
import sys

import common
import shapes

# Refuses one call of the C library's allocator, by its number, or more from it on, and leaves a file where it did.
REFUSE = """
#define _GNU_SOURCE
#include <dlfcn.h>
#include <errno.h>
#include <fcntl.h>
#include <stdatomic.h>
#include <stdlib.h>
#include <unistd.h>
static atomic_long made;
static long first = 1, last;
__attribute__((constructor)) static void begin(void) { first = atol(getenv("FIRST")); last = atol(getenv("LAST")); }
static int refuses(void) {
  long now = atomic_fetch_add(&made, 1) + 1;
  if (now < first || now > last) return 0;
  if (now == first) close(creat("refused", 0600));
  errno = ENOMEM;
  return 1;
}
#define ALLOCATOR(type, name, refused, words, ...) \\
  type name words { \\
    static type (*next) words; \\
    if (!next) next = dlsym(RTLD_NEXT, #name); \\
    return refuses() ? refused : next(__VA_ARGS__); \\
  }
ALLOCATOR(void *, malloc, NULL, (size_t n), n)
ALLOCATOR(void *, realloc, NULL, (void *p, size_t n), p, n)
ALLOCATOR(void *, calloc, NULL, (size_t k, size_t n), k, n)
ALLOCATOR(void *, aligned_alloc, NULL, (size_t a, size_t n), a, n)
ALLOCATOR(int, posix_memalign, ENOMEM, (void **p, size_t a, size_t n), p, a, n)
"""
FILES = {
    "zeros": bytes(3000),
    "refused.shim": "void main() { x = 1; }",
    "copy.shim": common.COPY,
    "catch.shim":
        "shim 2; void main(ostream &o) { int k; while (k < 3) { try { { throw T(k); } par { throw T(9); } } "
        "catch (T x) { { next x = x + 1; } par { next x; } put o, x; } k = k + 1; } }",
    "deep.shim": "void f(int n) { if (n > 0) { f(n - 1); par { } } } void main() { f(64); }",
    "blocks.shim": "void main() {\n" + ("{" * 63 + "}" * 63 + "\n") * 500 + "}\n",
    "long.shim": "void f(int a) {" + "a=a;" * 5000 + "} void main() { int c; f(c); par f(c); }",
}
# What `alloc` and `memory` call beside the examples: by itself, and by some numbers of workers.
ALONE = ["no", "check nowhere", "check refused.shim", "gen tree --size 200 --quantum 1 --workers 4 --steal"]
BY_WORKERS = ["run catch.shim", "run copy.shim --input refused.shim --budget 31", "gen storm --size 10",
              "batch copy.shim refused.shim copy.shim refused.shim"]
# For `memory` alone: they have more allocations than can be refused one by one.
LARGE = ["check blocks.shim", "check long.shim", "ref deep.shim", "ref long.shim --budget 2000"]
LARGE_BY_WORKERS = ["run copy.shim --input zeros", "run deep.shim", "run blocks.shim", "gen tree --size 1000",
                    "batch copy.shim zeros refused.shim zeros"]
# The shapes of bench/shapes.py whose stack is told, each once.
NESTED = ["parentheses", "blocks", "signs", "ifs", "elses", "nested forks", "tries", "both sides"]


def calls(given):
    """The words of all calls, each with the answer where nothing is refused, which has to be one."""
    is_memory = given.fault == "memory"
    alone = [line.split() for line in ALONE + LARGE * is_memory]
    by_workers = [line.split() for line in BY_WORKERS + LARGE_BY_WORKERS * is_memory]
    for path, *fed in common.examples():
        alone += [["check", path], ["code", path], ["up", path], ["ref", path, *fed], ["why", path, *fed]]
        by_workers.append(["run", path, *fed])
    for number in ("1", "2", "4", "16") if is_memory else ("1", "4"):
        alone += [[*words, "--workers", number] for words in by_workers]
    paths = [os.path.join(START, word) for word in given.words]
    here = [path if os.path.exists(path) else word for path, word in zip(paths, given.words)]
    for words in [here] if here else alone[: given.most]:
        wanted = common.ask(*words)
        if not 0 <= wanted.status <= 7:
            common.differs("with all memory", wanted)
        yield words, wanted


def is_as_ever(what, answer, wanted):
    """Whether an answer is the one with all memory, and not that there is none. Any other ends the script."""
    if common.has_no_memory(answer):
        return False
    common.compare(what, answer, *wanted[1:3])
    return True


def refuse_each(words, wanted, more):
    """Refuses allocation after allocation, each with so many after it, until ten runs in a row make no more of them:
    how many there were, and how many runs ended for want of memory."""
    idle = without = 0
    for number in itertools.count(1):
        answer = common.ask(*words, env={**os.environ, "LD_PRELOAD": os.path.abspath("refuse.so"),
                                         "FIRST": str(number), "LAST": str(number + more)})
        if os.path.exists("refused"):
            os.remove("refused")
            idle = 0
            without += not is_as_ever("with allocation %d refused" % number, answer, wanted)
        else:
            idle += 1
            common.compare("with nothing refused after %d" % number, answer, *wanted[1:3])
        if idle == 10:
            return number - idle, without


def alloc(given):
    subprocess.run(["gcc", "-O1", "-shared", "-fPIC", "-x", "c", "-o", "refuse.so", "-", "-ldl"],
                   input=REFUSE.encode(), check=True)
    for words, wanted in calls(given):
        one, each = (refuse_each(words, wanted, more) for more in (0, 1 << 60))
        print("%s: %d allocations, of which %d ended with 8 when refused alone, and %d with each one after them"
              % (" ".join(words), *one, each[1]), flush=True)


def limited(what, kib, *words):
    return common.ask(*words, before=["prlimit", "--%s=%d" % (what, kib * 1024)])


def starts(kib):
    """Whether the system starts the program with so much, five times in a row."""
    answers = (limited("as", kib) for _ in range(5))
    return all(answer.status == 2 or common.has_no_memory(answer) for answer in answers)


def memory(given):
    least = next(filter(starts, range(1024, 1 << 24, given.step)), None) or sys.exit("the program never starts")
    print("started from %d KiB on" % least)
    for words, wanted in calls(given):
        def is_enough(kib):
            return is_as_ever("with %d KiB" % kib, limited("as", kib, *words), wanted)
        kib, row, first, without = least, 0, None, 0
        while row < 8:
            if is_enough(kib):
                row, first = row + 1, first or kib
            else:
                row, without = 0, without + 1
            # Where far more is wanted than a step gives, steps of a twentieth.
            kib += given.step if row else max(given.step, kib // 20)
        settled = kib - 8 * given.step
        while kib < 16000000:
            kib *= 2
            is_enough(kib)
        print("%s: as ever from %d KiB, always from %d; %d runs ended with 8"
              % (" ".join(words), first, settled, without), flush=True)


def stack(_given):
    texts = {name: "".join(shapes.TEXTS[name]) for name in NESTED}
    texts["both sides, put"] = "void main(ostream o) { put o, 1" + " && 1" * 256 + "; }"
    texts["meeting"] = common.example("meeting.shim")
    for name, text in texts.items():
        common.write("nested.shim", text)
        ample = limited("stack", 8192, "run", "nested.shim")
        least = next(kib for kib in itertools.count(32, 32)
                     if all(limited("stack", kib, "run", "nested.shim") == ample for _ in range(10)))
        print("%s: %d KiB (%s)" % (name, least, ample.text.decode().splitlines()[0]), flush=True)


def threads(_given):
    alone = [*common.NOBODY, "prlimit", "--nproc=1"]
    os.chmod(".", 0o777)
    common.SHIM = shutil.copy(common.SHIM, os.path.abspath("shim"))
    for words in common.examples():
        # their own copies, since another user reads them
        words[::2] = [common.write(os.path.basename(path), common.read(path)) for path in words[::2]]
        wanted = common.ask("ref", *words)
        common.compare("without a thread", common.ask("run", *words, "--workers", "16", before=alone), *wanted[1:3])
    start = "import threading; threading.Thread(target=print).start()"
    if subprocess.run([*alone, sys.executable, "-c", start], stderr=subprocess.DEVNULL).returncode == 0:
        sys.exit("nothing was refused: that user may start threads")
    print("each example with 16 workers and no thread beside the first: as it should be")


FAULTS = {"alloc": alloc, "memory": memory, "stack": stack, "threads": threads}


def main(given):
    for name, text in FILES.items():
        common.write(name, text)
    FAULTS[given.fault](given)


START = os.getcwd()
if __name__ == "__main__":
    words = common.words_of()
    common.add_number(words, "step", 64, "KiB from limit to limit of memory")
    common.add_number(words, "most", 1000, "of the calls that are built in, the first N")
    words.add_argument("fault", choices=FAULTS)
    words.add_argument("words", nargs=argparse.REMAINDER, help="a call of shim, in place of those that are built in")
    given = words.parse_args()
    if given.words and given.fault in ("stack", "threads"):
        words.error("%s takes no call: %s" % (given.fault, " ".join(given.words)))
    if given.words and given.words[0].startswith("-"):
        words.error("%s has to stand before %s: after that stands a call of shim" % (given.words[0], given.fault))
    common.start(main, given)
