"""What the scripts of bench/ share: their words, and those of this folder: calls of shim with limits, and how answers
are compared.

The program is that of --shim; where nothing is said, what SHIM names, or ./shim. A script of this folder ends with 1
where something differs, and with 2 where its words are none or there is no program.
"""
import argparse
import collections
import glob
import os
import shutil
import signal
import subprocess
import sys
import tempfile

TOP = os.path.dirname(os.path.dirname(os.path.dirname(os.path.realpath(__file__))))
SHIM = None  # once `start` is called
sys.path[:0] = [os.path.join(TOP, folder) for folder in ("bench", "tools", "tools/tests")]
NOBODY = ["setpriv", "--reuid=65534", "--regid=65534", "--clear-groups"]
COPY = "void main(istream &i, ostream &o) { int c; c = get i; while (c != -1) { put o, c; c = get i; } }\n"

Answer = collections.namedtuple("Answer", "words status text error")


def number(least=1, most=1 << 32):
    """What reads a word that has to be a number from `least` to `most`."""
    def number(word):
        if not least <= int(word) <= most:
            raise argparse.ArgumentTypeError("%s: a number from %d to %d" % (word, least, most))
        return int(word)
    return number


def program(path):
    """The whole path of a program."""
    if not os.path.isfile(path) or not os.access(path, os.X_OK):
        raise argparse.ArgumentTypeError("there is no program %s: make shim" % path)
    return os.path.realpath(path)


def add_program(words):
    words.add_argument("--shim", type=program, default=os.environ.get("SHIM") or os.path.join(TOP, "shim"),
                       metavar="PATH", help="the program; what SHIM names, or ./shim, where nothing is said")


def add_number(words, name, default, about, **limits):
    words.add_argument("--" + name, type=number(**limits), default=default, metavar="N",
                       help="%s; %d where nothing is said" % (about, default))


def words_of():
    """A parser of the words of the script, whose own text is its help."""
    words = argparse.ArgumentParser(
        description=sys.modules["__main__"].__doc__, formatter_class=argparse.RawDescriptionHelpFormatter)
    add_program(words)
    return words


def start(main, given):
    """Calls `main` with the words that were given, in a folder of its own, which stays where something differs."""
    global SHIM
    SHIM = given.shim
    signal.signal(signal.SIGTERM, lambda *_: sys.exit(128 + signal.SIGTERM))
    room = tempfile.mkdtemp()
    os.chdir(room)
    try:
        main(given)
    except (SystemExit, KeyboardInterrupt) as end:
        print("kept in %s" % room, file=sys.stderr)
        sys.exit(130 if isinstance(end, KeyboardInterrupt) else end.code)
    os.chdir(TOP)
    shutil.rmtree(room)


def read(name):
    with open(name, "rb") as file:
        return file.read()


def write(name, text):
    """Writes a file, and gives its name."""
    with open(name, "wb") as out:
        out.write(text if isinstance(text, bytes) else text.encode())
    return name


def ask(*words, before=(), seconds=60, **more):
    """What shim answers, started by the words before it, in this folder. The status of one that a signal ended, as
    after too many seconds, is negative. What goes elsewhere, as `more` may say, is in no text."""
    with open("out", "wb") as out, open("err", "wb") as err:
        child = subprocess.Popen([*before, SHIM, *words], **{"stdout": out, "stderr": err, **more})
    try:
        child.wait(seconds)
    except subprocess.TimeoutExpired:
        pass
    finally:
        child.kill()
        child.wait()
    return Answer(words, child.returncode, read("out"), read("err"))


def has_no_memory(answer):
    return answer[1:] == (8, b"no memory\n", b"")


def told(answer):
    text = (answer.text[-2000:] + answer.error[-2000:]).decode(errors="replace")
    return "shim %s: status %d\n%s" % (" ".join(answer.words), answer.status, text)


def differs(what, answer, wanted="as it should be"):
    """Tells of an answer that is none, and ends the script."""
    sys.exit("differs: %s: %s\nand not %s" % (what, told(answer), wanted))


def compare(what, answer, status, text):
    """Ends the script where an answer isn't this one, or has something on standard error."""
    if answer[1:] != (status, text, b""):
        differs(what, answer, "status %d\n%s" % (status, text[-2000:].decode(errors="replace")))


def example(name):
    return read(os.path.join(TOP, "examples", name))


def examples():
    """The words of each example, with its input where it has one."""
    for path in sorted(glob.glob(os.path.join(TOP, "examples", "*.shim"))):
        text = path[: -len(".shim")] + ".txt"
        yield [path, *(["--input", text] if os.path.exists(text) else [])]
