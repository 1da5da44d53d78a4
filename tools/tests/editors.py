#!/usr/bin/env python3
"""Tries the files of editors/ without a screen, over all examples and a text of version 2: each token has the colour
of its class, and a refused file puts the cursor on its line. Vim and Emacs are asked themselves, where they are
installed. The TextMate grammar is read by a small engine below; by that of `bat`, where this is installed, in the form
that it takes; and by VS Code's own one where TEXTMATE names a folder in which `npm install vscode-textmate
vscode-oniguruma` was done. Ends with 1 at the first difference.

Use: tools/tests/editors.py [vim] [emacs] [textmate]"""
import argparse
import json
import os
import re
import shutil
import subprocess
import sys
import tempfile

TOP = os.path.dirname(os.path.dirname(os.path.dirname(os.path.realpath(__file__))))
sys.path.insert(0, os.path.join(TOP, "tools"))
from shimtools import syntax  # noqa: E402

SHIM = os.environ.get("SHIM", os.path.join(TOP, "shim"))
MORE = {
    "version 2": b"""/* A comment first. */ // and another
shim 0x02 ; // the header
void main(ostream &o) { // int64 and "quotes" in a comment
  int64 total = 0xFf, int_64 = 12; /* next
  put */ bool done = !true || ~total <= -1 && 3 >> 1 != 2 << 0;
  try { while (total) { next total; throw Off; } } catch (Off) { ; }
  for (int i; i < 3; i = i + 1) if (done == false) put o, (total % 5) ^ 1 | 2; else total = total * 2 / 3 - 1;
}
""",
    "version 1": b"void int64(int &shim) { int nextx = 2; { shim = nextx; } par { int y; next y; } }\nvoid main() { int put_ = 10; int64(put_); }\n",
}
REFUSED = [
    (b"void main(ostream &o) {\n  int x\n  x = 1;\n}\n", 3, 3),
    (b"void main() {\n  int level;\n\n  lvel = 3;\n}\n", 4, 3),
    (b"void main() {\n  int a; { a = 1; } par {\n a = 2; }\n}\n", 2, None),
    (b"void main() {\n\tint a;\n\ta++;\n}\n", 3, 3),
]


def classes(source):
    """Each token and comment as (KIND, FROM, TO), kinds as the editors tell them apart."""
    found = [piece for piece in syntax.pieces(source) if piece[0] != "space"]
    words = {"conditional": "if else", "loop": "while for", "meeting": "par next put get"}
    words.update({"exception": "try catch throw throws", "type": "void"})
    kinds = {word: kind for kind in words for word in words[kind].split()}
    tokens = [piece for piece in found if piece[0] != "comment"]
    header = [t[1] for t in tokens[:1] if source[t[1] : t[2]] == b"shim"]
    for number, (kind, start, end) in enumerate(found):
        text = source[start:end].decode("latin-1")
        if kind == "keyword":
            kind = kinds[text]
        elif kind == "sign" and text in "(){},;":
            kind = "delimiter"
        elif kind == "name":
            behind = source[end:].lstrip()
            kind = "header" if start in header else "function" if behind.startswith(b"(") else "name"
        yield kind, start, end


def sources():
    """Each example and each text above by name."""
    folder = os.path.join(TOP, "examples")
    for name in sorted(os.listdir(folder)):
        if name.endswith(".shim"):
            with open(os.path.join(folder, name), "rb") as it:
                yield name, it.read()
    yield from MORE.items()


def compare(editor, name, source, told, names):
    """`told` has a name for each byte of the source."""
    count = 0
    for kind, start, end in classes(source):
        for at in range(start, end):
            if source[at : at + 1] not in (b"\n", b" ", b"\t") and told[at] not in names[kind]:
                what = (editor, name, at, source[start:end], told[at], names[kind])
                sys.exit("differs: %s, %s: byte %d of %r is %r and not %r" % what)
        count += 1
    return count


def environment(room):
    """A room in which `shim` and `shim-see` are found, as after an installation."""
    bin = os.path.join(room, "bin")
    os.mkdir(bin)
    os.symlink(os.path.join(TOP, "tools", "shim-see"), os.path.join(bin, "shim-see"))
    os.symlink(SHIM, os.path.join(bin, "shim"))
    return dict(os.environ, PATH=bin + ":" + os.environ["PATH"], SHIM=SHIM, HOME=room, TERM="dumb")


def run(command, **more):
    pipe, no_input = subprocess.PIPE, subprocess.DEVNULL
    done = subprocess.run(command, stdin=no_input, stdout=pipe, stderr=subprocess.STDOUT, timeout=300, **more)
    return done.stdout.decode("utf-8", "replace"), done.returncode


# Vim

VIM = {
    "comment": ["shimComment"],
    "type": ["shimType"],
    "stream": ["shimStream"],
    "constant": ["shimBoolean"],
    "conditional": ["shimConditional"],
    "loop": ["shimRepeat"],
    "meeting": ["shimMeeting"],
    "exception": ["shimException"],
    "header": ["shimHeader"],
    "function": ["shimFunction"],
    "name": ["shimName"],
    "number": ["shimNumber"],
    "sign": ["shimSign"],
    "delimiter": ["shimDelimiter"],
}

VIM_SCRIPT = """
set nocompatible
set runtimepath^=%s/editors/vim
filetype plugin on
syntax on
function Groups(from, to)
  execute 'edit' fnameescape(a:from)
  let told = []
  for line in range(1, line('$'))
    for column in range(1, len(getline(line)))
      call add(told, line . ' ' . column . ' ' . synIDattr(synID(line, column, 1), 'name'))
    endfor
  endfor
  call writefile(told, a:to)
endfunction
"""


def vim():
    with tempfile.TemporaryDirectory() as room:
        env = environment(room)
        script = VIM_SCRIPT % TOP
        texts = list(sources())
        for number, (name, source) in enumerate(texts):
            with open(os.path.join(room, "%d.shim" % number), "wb") as out:
                out.write(source)
            script += "call Groups('%d.shim', '%d.told')\n" % (number, number)
        for number, (source, line, column) in enumerate(REFUSED):
            with open(os.path.join(room, "bad %d.shim" % number), "wb") as out:
                out.write(source)
            script += "edit bad\\ %d.shim\ncall cursor(1, 1)\nsilent make\n" % number
            script += "call writefile([line('.') . ' ' . col('.')], 'place %d')\n" % number
        # By shim alone, which names no file and no column.
        os.mkdir(os.path.join(room, "alone"))
        os.symlink(SHIM, os.path.join(room, "alone", "shim"))
        script += "let $PATH = '%s/alone:/bin:/usr/bin'\nbwipeout\nedit bad\\ 0.shim\n" % room
        script += "call cursor(1, 1)\nsilent make\ncall writefile([line('.')], 'place alone')\n"
        with open(os.path.join(room, "script.vim"), "w") as out:
            out.write(script + "qall!\n")
        told, status = run(["vim", "-es", "-u", "NONE", "-i", "NONE", "-S", "script.vim"], cwd=room, env=env)
        count = 0
        for number, (name, source) in enumerate(texts):
            starts = [0]
            for line in source.split(b"\n"):
                starts.append(starts[-1] + len(line) + 1)
            groups = {}
            try:
                with open(os.path.join(room, "%d.told" % number)) as it:
                    for line in it:
                        row, column, group = line.rstrip("\n").split(" ")
                        groups[starts[int(row) - 1] + int(column) - 1] = group
            except FileNotFoundError:
                sys.exit("differs: vim wrote nothing of %s: %s" % (name, told))
            count += compare("vim", name, source, {at: groups.get(at, "") for at in range(len(source))}, VIM)
        for number, (source, line, column) in enumerate(REFUSED):
            with open(os.path.join(room, "place %d" % number)) as it:
                place = it.read().split()
            if place[0] != str(line) or (column and place[1] != str(column)):
                sys.exit("differs: vim, refusal %d: the cursor is at %s and not at %d %s" % (number, place, line, column))
        with open(os.path.join(room, "place alone")) as it:
            if it.read().strip() != "3":
                sys.exit("differs: vim, by shim alone the cursor isn't on the line")
    return "vim: %d tokens, %d refusals" % (count, len(REFUSED) + 1)


# Emacs

EMACS = {
    "comment": ["font-lock-comment-face", "font-lock-comment-delimiter-face"],
    "type": ["font-lock-type-face"],
    "stream": ["font-lock-type-face"],
    "constant": ["font-lock-constant-face"],
    "conditional": ["font-lock-keyword-face"],
    "loop": ["font-lock-keyword-face"],
    "meeting": ["font-lock-builtin-face"],
    "exception": ["font-lock-keyword-face"],
    "header": ["shim-header-face"],
    "function": ["font-lock-function-name-face"],
    "name": ["nil"],
    "number": ["shim-number-face"],
    "sign": ["shim-sign-face"],
    "delimiter": ["nil"],
}

EMACS_SCRIPT = """
(add-to-list 'load-path "%s/editors/emacs")
(require 'shim-mode)
(setq coding-system-for-read 'latin-1-unix enable-local-variables nil)
(defun faces (from to)
  (find-file from)
  (unless (eq major-mode 'shim-mode) (error "no shim-mode"))
  (font-lock-ensure)
  (let ((told nil))
    (dotimes (at (1- (point-max)))
      (push (format "%%s" (get-text-property (1+ at) 'face)) told))
    (with-temp-file to (insert (mapconcat 'identity (nreverse told) "\\n")))))
(defun place (from to &optional command)
  (find-file from)
  (goto-char (point-min))
  (let* ((buffer (compile (or command compile-command))) (process (get-buffer-process buffer)))
    (while (process-live-p process) (accept-process-output process 0.1))
    (accept-process-output nil 0.2)
    (next-error 1 t)
    (set-buffer (get-file-buffer from))
    (let ((place (format "%%d %%d" (line-number-at-pos) (1+ (- (point) (line-beginning-position))))))
      (with-temp-file to (insert place)))))
"""


def emacs():
    with tempfile.TemporaryDirectory() as room:
        env = environment(room)
        script = EMACS_SCRIPT % TOP
        texts = list(sources())
        for number, (name, source) in enumerate(texts):
            with open(os.path.join(room, "%d.shim" % number), "wb") as out:
                out.write(source)
            script += '(faces "%d.shim" "%d.told")\n' % (number, number)
        for number, (source, line, column) in enumerate(REFUSED):
            with open(os.path.join(room, "bad%d.shim" % number), "wb") as out:
                out.write(source)
            script += '(place "bad%d.shim" "place %d")\n' % (number, number)
        script += '(place "bad0.shim" "place alone" "shim check bad0.shim")\n'
        with open(os.path.join(room, "script.el"), "w") as out:
            out.write(script)
        told, status = run(["emacs", "--batch", "-Q", "-l", "script.el"], cwd=room, env=env)
        if status:
            sys.exit("differs: emacs ends with %d: %s" % (status, told[-2000:]))
        count = 0
        for number, (name, source) in enumerate(texts):
            with open(os.path.join(room, "%d.told" % number)) as it:
                faces = it.read().split("\n")
            count += compare("emacs", name, source, faces, EMACS)
        for number, (source, line, column) in enumerate(REFUSED):
            with open(os.path.join(room, "place %d" % number)) as it:
                place = it.read().split()
            if place[0] != str(line):
                sys.exit("differs: emacs, refusal %d: point is at %s and not at %d" % (number, place, line))
        with open(os.path.join(room, "place alone")) as it:
            if it.read().split()[0] != "3":
                sys.exit("differs: emacs, by shim alone point isn't on the line")
    return "emacs: %d tokens, %d refusals" % (count, len(REFUSED) + 1)


# TextMate

SCOPES = {
    "comment": "comment",
    "type": "storage.type",
    "stream": "storage.modifier.stream",
    "constant": "constant.language",
    "conditional": "keyword.control.conditional",
    "loop": "keyword.control.loop",
    "meeting": "keyword.control.meeting",
    "exception": "keyword.control.exception",
    "header": "keyword.other.header",
    "function": "entity.name.function",
    "name": "variable.other",
    "number": "constant.numeric",
    "sign": "keyword.operator",
    "delimiter": "punctuation",
}
SCOPES = {kind: [scope + end for end in (".shim", ".line.double-slash.shim", ".block.shim")] for kind, scope in SCOPES.items()}

NODE = """
const fs = require('fs'), path = require('path'), folder = process.argv[2];
const textmate = require(path.join(folder, 'node_modules/vscode-textmate'));
const oniguruma = require(path.join(folder, 'node_modules/vscode-oniguruma'));
const wasm = fs.readFileSync(path.join(folder, 'node_modules/vscode-oniguruma/release/onig.wasm')).buffer;
const onigLib = oniguruma.loadWASM(wasm).then(() => ({
  createOnigScanner: patterns => new oniguruma.OnigScanner(patterns),
  createOnigString: text => new oniguruma.OnigString(text),
}));
const text = fs.readFileSync(process.argv[3], 'utf8');
const registry = new textmate.Registry({ onigLib, loadGrammar: async () => textmate.parseRawGrammar(text, 'shim.json') });
registry.loadGrammar('source.shim').then(grammar => {
  const all = [];
  for (const name of process.argv.slice(4)) {
    let stack = textmate.INITIAL; const told = [];
    for (const line of fs.readFileSync(name, 'latin1').split('\\n')) {
      const r = grammar.tokenizeLine(line, stack);
      for (let i = 0; i < line.length; i++) {
        const token = r.tokens.find(it => it.startIndex <= i && i < it.endIndex);
        told.push(token ? token.scopes[token.scopes.length - 1] : '');
      }
      told.push('');
      stack = r.ruleStack;
    }
    all.push(told);
  }
  console.log(JSON.stringify(all));
});
"""


class Grammar:
    """As much of TextMate's rules as the grammar uses: match, begin and end over lines, captures, includes."""

    def __init__(self, path):
        with open(path) as it:
            self.grammar = json.load(it)

    def rules(self, patterns):
        for pattern in patterns:
            if "include" in pattern:
                yield from self.rules(self.grammar["repository"][pattern["include"][1:]]["patterns"])
            else:
                yield pattern

    def scopes(self, text):
        """The innermost scope of each byte."""
        told = [""] * len(text)
        stack = [({"patterns": self.grammar["patterns"]}, None)]
        start = 0
        for line in text.splitlines(keepends=True):
            at = 0
            while at < len(line):
                rule, end = stack[-1]
                best = end.search(line, at) if end else None
                chosen = None
                for inner in self.rules(rule.get("patterns", [])):
                    found = re.compile(inner.get("match") or inner["begin"], re.A).search(line, at)
                    if found and (best is None or found.start() < best.start()):
                        best, chosen = found, inner
                name = rule.get("name")
                stop = best.start() if best else len(line)
                for place in range(at, stop):
                    told[start + place] = name or ""
                if not best:
                    break
                for place in range(best.start(), best.end()):
                    told[start + place] = (chosen or rule).get("name") or ""
                for group, capture in ((chosen or {}).get("beginCaptures") or {}).items():
                    for place in range(*best.span(int(group))):
                        told[start + place] = capture["name"]
                if chosen is None:
                    stack.pop()
                elif "begin" in chosen:
                    stack.append((chosen, re.compile(chosen["end"], re.A)))
                at = best.end()
            start += len(line)
        return told


def bat_contexts(grammar):
    """The grammar in the form of Sublime Text, which `bat` takes: a context for each list of rules."""
    contexts = {}

    def rules(patterns):
        for pattern in patterns:
            if "include" in pattern:
                yield {"include": pattern["include"][1:]}
                continue
            rule = {"match": pattern.get("match") or pattern["begin"]}
            if "begin" in pattern:
                name = "after%d" % len(contexts)
                contexts[name] = None  # the name is taken
                inner = [{"match": pattern["end"], "pop": True}, *rules(pattern.get("patterns", []))]
                if "name" in pattern:
                    inner.insert(0, {"meta_scope": pattern["name"]})
                contexts[name] = inner
                rule["push"] = name
                rule["captures"] = {int(group): it["name"] for group, it in pattern.get("beginCaptures", {}).items()}
            else:
                rule["scope"] = pattern["name"]
            yield rule

    contexts["main"] = list(rules(grammar["patterns"]))
    for name, part in grammar["repository"].items():
        contexts[name] = list(rules(part["patterns"]))
    return contexts


def scope_names(rules):
    """Each scope that rules give, once."""
    for rule in rules:
        yield from [it for it in (rule.get("scope"), rule.get("meta_scope")) if it]
        yield from rule.get("captures", {}).values()


def bat(program, grammar, texts):
    """The scopes of texts as `bat` has them: it is given a theme with a colour for each scope, and its colours are read back."""
    contexts = bat_contexts(grammar)
    scopes = sorted({scope for rules in contexts.values() for scope in scope_names(rules)})
    rule = "<dict><key>scope</key><string>%s</string><key>settings</key><dict><key>foreground</key><string>#0000%02X</string></dict></dict>"
    with tempfile.TemporaryDirectory() as room:
        for folder in ("syntaxes", "themes"):
            os.mkdir(os.path.join(room, folder))
        form = {"name": "SHIM", "file_extensions": ["shim"], "scope": "source.shim", "contexts": contexts}
        with open(os.path.join(room, "syntaxes", "shim.sublime-syntax"), "w") as out:
            out.write("%YAML 1.2\n---\n")
            out.write(re.sub(r'"(\d+)":', r"\1:", json.dumps(form)))  # JSON has no numbers as keys, and YAML does
        with open(os.path.join(room, "themes", "told.tmTheme"), "w") as out:
            out.write('<?xml version="1.0"?><plist version="1.0"><dict><key>name</key><string>told</string><key>settings</key><array>'
                      "<dict><key>settings</key><dict><key>foreground</key><string>#010101</string></dict></dict>"
                      + "".join(rule % (scope, number) for number, scope in enumerate(scopes, 2)) + "</array></dict></plist>")
        env = dict(os.environ, BAT_CACHE_PATH=os.path.join(room, "cache"), BAT_CONFIG_PATH="", COLORTERM="truecolor", HOME=room)
        told, status = run([program, "cache", "--build", "--source", room, "--target", os.path.join(room, "cache")], env=env)
        if status:
            sys.exit("differs: %s cache: %s" % (program, told))
        for name, source in texts:
            file = os.path.join(room, "it.shim")
            with open(file, "wb") as out:
                out.write(source)
            told, status = run([program, "--color=always", "--style=plain", "--paging=never", "--wrap=never", "--tabs=0", "--theme=told", "--language=SHIM", file], env=env)
            if status or re.sub("\x1b\\[[0-9;]*m", "", told).encode() != source:
                sys.exit("differs: %s prints another text of %s\n%s" % (program, name, told))
            found, now = [], ""
            for colour, text in re.findall("\x1b\\[([0-9;]*)m|([^\x1b]+)", told):
                if text:
                    found += [now] * len(text.encode())
                else:
                    number = re.fullmatch("38;2;0;0;([0-9]+)", colour)
                    now = scopes[int(number[1]) - 2] if number else ""
            yield name, source, found


def textmate():
    path = os.path.join(TOP, "editors", "vscode", "syntaxes", "shim.tmLanguage.json")
    grammar, texts, count = Grammar(path), list(sources()), 0
    for name, source in texts:
        count += compare("textmate", name, source, grammar.scopes(source.decode("latin-1")), SCOPES)
    said = "textmate: %d tokens" % count
    program = shutil.which("batcat") or shutil.which("bat")
    if program:
        for name, source, scopes in bat(program, grammar.grammar, texts):
            compare("bat", name, source, scopes, SCOPES)
        said += ", the same by bat"
    folder = os.environ.get("TEXTMATE")
    if folder:
        with tempfile.TemporaryDirectory() as room:
            names = []
            for number, (name, source) in enumerate(texts):
                names.append(os.path.join(room, "%d.shim" % number))
                with open(names[-1], "wb") as out:
                    out.write(source)
            with open(os.path.join(room, "told.js"), "w") as out:
                out.write(NODE)
            told, status = run(["node", os.path.join(room, "told.js"), os.path.abspath(folder), path, *names])
            if status:
                sys.exit("differs: node: " + told)
            for (name, source), scopes in zip(texts, json.loads(told)):
                compare("VS Code's engine", name, source, scopes, SCOPES)
        said += ", the same by VS Code's engine"
    with open(os.path.join(TOP, "editors", "vscode", "package.json")) as it:
        package = json.load(it)["contributes"]
    pattern = re.compile(package["problemPatterns"][0]["regexp"])
    for file in (package["grammars"][0]["path"], package["languages"][0]["configuration"]):
        with open(os.path.join(TOP, "editors", "vscode", file)) as it:
            json.load(it)
    with tempfile.TemporaryDirectory() as room:
        for number, (source, line, column) in enumerate(REFUSED):
            with open(os.path.join(room, "bad.shim"), "wb") as out:
                out.write(source)
            told, _ = run([os.path.join(TOP, "tools", "shim-see"), "check", "bad.shim"], cwd=room, env=dict(os.environ, SHIM=SHIM))
            found = [match.groups() for match in map(pattern.match, told.splitlines()) if match]
            if len(found) != 1 or found[0][:3] != ("bad.shim", str(line), str(column) if column else None):
                sys.exit("differs: the problem matcher, refusal %d: %s" % (number, found))
    return said + ", %d problems" % len(REFUSED)


def main():
    words = argparse.ArgumentParser(description=__doc__, formatter_class=argparse.RawDescriptionHelpFormatter)
    words.add_argument("editors", nargs="*", metavar="EDITOR")
    for editor in words.parse_args().editors or ["vim", "emacs", "textmate"]:
        if editor != "textmate" and not shutil.which(editor):
            print("%s: not installed, not tried" % editor)
            continue
        print({"vim": vim, "emacs": emacs, "textmate": textmate}[editor]())


if __name__ == "__main__":
    main()
