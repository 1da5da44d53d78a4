#!/usr/bin/env bash
# Tries what users install: `make install` and `make uninstall` below a folder, the pages by `man -l` and `mandoc -Tlint`, the
# completions by bash, zsh and fish themselves, and `make dist`, unpacked into a root that has the C library and nothing else.
# What isn't installed on this machine is named and left out. Ends with 1 at the first difference.
# Use: tools/tests/install.sh, with ./shim there
set -u
cd "$(dirname "$0")/../.." || exit 1
top=$PWD
room=$(mktemp -d)
trap 'rm -rf "$room"' EXIT
left=() checks=0

fail() { echo "differs: $1" >&2; exit 1; }
same() { # WHAT CAME WANTED
  checks=$((checks + 1))
  [ "$2" = "$3" ] || { printf 'wanted: %s\ncame:   %s\n' "$3" "$2" >&2; fail "$1"; }
}
has() { command -v "$1" > /dev/null || { left+=("$1"); return 1; }; }

# Install, without ./shim first.
mkdir "$room/empty" && cp Makefile "$room/empty"
same 'make install without ./shim' "$(make -s -C "$room/empty" install 2>&1 | head -n 1)" 'There is no ./shim yet: make shim'

to=$room/root/usr
make -s install DESTDIR="$room/root" PREFIX=/usr > "$room/log" 2>&1 || { cat "$room/log"; fail 'make install'; }
for file in bin/shim bin/shim-see bin/shim-draw share/man/man1/shim.1 share/man/man1/shim-see.1 share/man/man1/shim-draw.1 \
  share/bash-completion/completions/shim share/bash-completion/completions/shim-see share/zsh/site-functions/_shim \
  share/fish/vendor_completions.d/shim.fish share/shim/shimtools/runs.py share/shim/VERSION share/shim/editors/vim/compiler/shim.vim \
  share/shim/editors/vscode/package.json share/shim/editors/emacs/shim-mode.el share/doc/shim/docs/LANGUAGE.md \
  share/doc/shim/examples/hello.shim share/doc/shim/docs/pictures/meeting.svg share/doc/shim/tools/many.slurm; do
  checks=$((checks + 1))
  [ -f "$to/$file" ] || fail "$file isn't there"
done
installed=$(cd "$to" && find . ! -type d | wc -l)
[ -z "$(find "$room/root" -name '*.pyc')" ] || fail 'a compiled file is installed'
same 'the installed program' "$("$to/bin/shim" run "$to/share/doc/shim/examples/hello.shim")" "$(./shim run examples/hello.shim)"
same 'the installed shim-see' "$(cd /; PYTHONDONTWRITEBYTECODE=1 env -u SHIM "$to/bin/shim-see" run "$to/share/doc/shim/examples/hello.shim" | head -n 1)" 'done: main has ended, after 7 steps'
same 'its version' "$(env -u SHIM "$to/bin/shim-see" --version | tail -n 1)" "sha256 $(sha256sum shim | cut -d ' ' -f 1)"
same 'the installed shim-draw' "$(PYTHONDONTWRITEBYTECODE=1 env -u SHIM "$to/bin/shim-draw" why "$to/share/doc/shim/examples/packing.shim")" "$(cat docs/pictures/packing.dot)"

# Each link of an installed page to a file leads to one.
while read -r page; do
  while read -r link; do
    checks=$((checks + 1))
    [ -f "$(dirname "$page")/$link" ] || fail "${page#"$to/"} links to $link, which isn't there"
  done < <(grep -o '\](\([^)#]*\)' "$page" | sed 's/^](//' | grep -v -e '^$' -e '^[a-z]*:')
done < <(find "$to/share/doc/shim" -name '*.md')

# Pages.
for page in man/*.1; do
  if has man; then
    # Of man's own warnings there are none, and the text has the name.
    told=$(MANWIDTH=80 man --warnings -l "$page" 2> "$room/err" | col -b)
    same "man -l $page" "$(cat "$room/err")" ''
    case $told in *"$(basename "$page" .1)"*) ;; *) fail "man -l $page has no name" ;; esac
  fi
  if has mandoc; then same "mandoc -Tlint $page" "$(mandoc -Tlint -Wwarning "$page" 2>&1)" ''; fi
done
# Each option of the usage line and each mode stands in the page of shim.
for word in $(./shim | grep -o -- '--[a-z]*'); do
  grep -q -- "Fl Fl ${word#--}" man/shim.1 || fail "$word isn't in man/shim.1"
done
for word in run ref why check code up gen trace replay batch; do
  grep -q -- "^.It Cm $word$" man/shim.1 || fail "$word isn't in man/shim.1"
done

# Completions.
PATH=$to/bin:$PATH
mkdir "$room/work" && cd "$room/work" && cp "$top"/examples/hello.shim "$top"/examples/filter.shim "$top"/examples/filter.txt . && mkdir folder
has bash && for shell in bash; do
  cat > "$room/complete.bash" << 'END'
source "$1"; shift
COMP_WORDS=("$@") COMP_CWORD=$(($# - 1))
compopt() { :; }
_shim
printf '%s\n' "${COMPREPLY[@]}" | LC_ALL=C sort | tr '\n' ' '
END
  b() { bash "$room/complete.bash" "$to/share/bash-completion/completions/shim" "$@"; }
  modes='batch check code gen ref replay run trace up why '
  same 'bash: modes' "$(b shim '')" "$modes"
  same 'bash: a mode begun' "$(b shim r)" "$(printf '%s' "$modes" | tr ' ' '\n' | grep '^r' | tr '\n' ' ')"
  same 'bash: sources' "$(b shim run '')" 'filter.shim folder hello.shim '
  same 'bash: inputs after --' "$(b shim batch -- filter.shim filter.t)" 'filter.txt '
  same 'bash: sources after an option' "$(b shim --workers 2 run h)" 'hello.shim '
  same 'bash: sources after an option in one word' "$(b shim --workers = 2 run h)" 'hello.shim '
  same 'bash: an input' "$(b shim run filter.shim --input filter.t)" 'filter.txt '
  same 'bash: workers' "$(b shim run filter.shim --workers '')" '1 16 2 4 8 '
  same 'bash: workers in one word' "$(b shim run filter.shim --workers = 1)" '1 16 '
  same 'bash: options' "$(b shim run filter.shim --b)" '--budget '
  same 'bash: kinds' "$(b shim gen '')" 'pipe storm tree '
  same 'bash: the source of a batch' "$(b shim batch f)" 'filter.shim folder '
  same 'bash: inputs of a batch' "$(b shim batch filter.shim f)" 'filter.shim filter.txt folder '
  same 'bash: more inputs of a batch' "$(b shim batch filter.shim hello.shim --workers 2 filter.t)" 'filter.txt '
  same 'bash: an option among inputs' "$(b shim batch filter.shim hello.shim --b)" '--budget '
  same 'bash: no input of another mode' "$(b shim run filter.shim f)" ' '
  same 'bash: shim-see' "$(b shim-see --r)" '--raw '
  same 'bash: shim-draw' "$(b shim-draw '')" 'run why '
  same 'bash: options of a sequence diagram' "$(b shim-draw run hello.shim --)" '--budget --channels --from --help --input --journal --output --to '
  same 'bash: options of a graph of waits' "$(b shim-draw why hello.shim --)" '--budget --help --input --output '
done
if has zsh; then
  # zsh completes at a terminal alone, so it is given one by its own zpty.
  cat > "$room/complete.zsh" << 'END'
zmodload zsh/zpty
zpty -b z zsh -f -i
send() { zpty -w z "$1" }
send "PS1='READY> '; fpath=($1 \$fpath); autoload -U compinit; compinit -u -d $2; zstyle ':completion:*' list-colors ''; LISTMAX=0; unsetopt ZLE_BRACKETED_PASTE"
send "bindkey '^I' complete-word; list() { compstate[insert]=; compstate[list]='list force' }; zle -C lister complete-word _lister; _lister() { _main_complete; compstate[insert]=; compstate[list]='list force' }; bindkey '^X' lister; cd $3; echo STARTED"
local line told= ; repeat 200; do zpty -r -t z line && { told+=$line; [[ $told = *$'\n'STARTED* ]] && break } || sleep 0.1; done
zpty -w -n z "$4"$'\x18'
sleep 2; told=
repeat 100; do zpty -r -t z line && told+=$line || break; done
print -r -- "$told"
zpty -d z
END
  z() { timeout 60 zsh -f "$room/complete.zsh" "$to/share/zsh/site-functions" "$room/zcompdump" "$room/work" "$1" | tr -d '\r' | sed 's/\x1b\[[0-9;?]*[a-zA-Z]//g'; }
  told=$(z 'shim ')
  for word in $modes; do
    checks=$((checks + 1))
    printf '%s' "$told" | grep -Eq "(^|[[:space:]])$word +--" || { printf '%s\n' "$told" >&2; fail "zsh: mode $word"; }
  done
  told=$(z 'shim run ')
  case $told in *filter.shim*hello.shim*) ;; *) printf '%s\n' "$told" >&2; fail 'zsh: sources' ;; esac
  case $told in *filter.txt*) fail 'zsh: a file that is no source' ;; esac
  told=$(z 'shim run hello.shim --')
  case $told in *--budget*--input*--workers*) ;; *) printf '%s\n' "$told" >&2; fail 'zsh: options' ;; esac
  told=$(z 'shim batch filter.shim filter.t')
  case $told in *filter.txt*) ;; *) printf '%s\n' "$told" >&2; fail 'zsh: inputs of a batch' ;; esac
  told=$(z 'shim batch filter.shim hello.shim filter.t')
  case $told in *filter.txt*) ;; *) printf '%s\n' "$told" >&2; fail 'zsh: more inputs of a batch' ;; esac
  told=$(z 'shim run filter.shim filter.t')
  case $told in *filter.txt*) fail 'zsh: an input of another mode' ;; esac
  checks=$((checks + 5))
fi
if has fish; then
  f() { HOME=$room XDG_DATA_DIRS=$to/share:/usr/share TERM=dumb fish -c 'complete -C "$argv"' -- "$1" 2> /dev/null | cut -f 1 | LC_ALL=C sort | tr '\n' ' '; }
  same 'fish: modes' "$(f 'shim ')" "$modes"
  same 'fish: sources' "$(f 'shim run h')" 'hello.shim '
  same 'fish: sources after an option' "$(f 'shim --workers 2 run f' | tr ' ' '\n' | grep shim)" 'filter.shim'
  same 'fish: workers' "$(f 'shim run hello.shim --workers ')" '1 16 2 4 8 '
  same 'fish: options' "$(f 'shim run hello.shim --b')" '--budget '
  same 'fish: kinds' "$(f 'shim gen ')" 'pipe storm tree '
  same 'fish: the source of a batch' "$(f 'shim batch f' | tr ' ' '\n' | grep shim)" 'filter.shim'
  same 'fish: inputs of a batch' "$(f 'shim batch filter.shim filter.t')" 'filter.txt '
  same 'fish: more inputs of a batch' "$(f 'shim batch filter.shim hello.shim --workers 2 filter.t')" 'filter.txt '
  same 'fish: an option among inputs' "$(f 'shim batch filter.shim hello.shim --b')" '--budget '
  same 'fish: no input of another mode' "$(f 'shim run filter.shim filter.t')" ''
  same 'fish: shim-draw' "$(f 'shim-draw ')" 'run why '
fi
cd "$top" || exit 1

# Uninstall.
touch "$to/share/man/man1/other.1"
make -s uninstall DESTDIR="$room/root" PREFIX=/usr > "$room/log" 2>&1 || { cat "$room/log"; fail 'make uninstall'; }
same 'files after make uninstall' "$(cd "$to" && find . ! -type d)" './share/man/man1/other.1'

# Below a folder with a blank in its name, beside one that has the name before the blank; and one with a quote.
for name in 'my things' "it's"; do
  mkdir -p "$room/my" && touch "$room/my/kept"
  make -s install DESTDIR="$room/$name" PREFIX=/usr > "$room/log" 2>&1 || { cat "$room/log"; fail "make install below '$name'"; }
  same "the program below '$name'" "$("$room/$name/usr/bin/shim" run "$room/$name/usr/share/doc/shim/examples/hello.shim")" "$(./shim run examples/hello.shim)"
  same "all files below '$name'" "$(cd "$room/$name/usr" && find . ! -type d | wc -l)" "$installed"
  make -s uninstall DESTDIR="$room/$name" PREFIX=/usr > "$room/log" 2>&1 || { cat "$room/log"; fail "make uninstall below '$name'"; }
  same "files after make uninstall below '$name'" "$(cd "$room/$name" && find . ! -type d)" ''
  same "the folder beside '$name'" "$(cd "$room/my" && find . ! -type d)" './kept'
done

# A packed one.
make -s dist > "$room/log" 2>&1 || { cat "$room/log"; fail 'make dist'; }
packed=$(ls out/shim-*-linux-x86_64.tar.gz)
(cd out && sha256sum --quiet -c "$(basename "$packed").sha256") || fail 'the SHA-256 of the tarball'
first=$(sha256sum < "$packed")
make -s dist > "$room/log" 2>&1 || fail 'make dist again'
same 'the tarball, made again' "$(sha256sum < "$packed")" "$first"
mkdir "$room/jail" && tar -xzf "$packed" -C "$room/jail" && mv "$room/jail/"shim-* "$room/jail/shim"
for line in '^shim [0-9]' '^commit [0-9a-f]' 'logic [0-9a-f]' '^sha256 [0-9a-f]'; do
  checks=$((checks + 1))
  grep -q "$line" "$room/jail/shim/VERSION" || fail "VERSION has no line '$line'"
done
same 'the SHA-256 of the packed program' "$(sha256sum < "$room/jail/shim/bin/shim" | cut -d ' ' -f 1)" "$(sed -n 's/^sha256 //p' "$room/jail/shim/VERSION")"
same 'what the program needs' "$(ldd "$room/jail/shim/bin/shim" | awk '{ print $1 }' | grep -v -e linux-vdso -e ld-linux | tr '\n' ' ')" 'libc.so.6 '
if [ "$(id -u)" = 0 ]; then
  for file in $(ldd "$room/jail/shim/bin/shim" | grep -o '/[^ ]*'); do
    mkdir -p "$room/jail$(dirname "$file")" && cp -L "$file" "$room/jail$file"
  done
  same 'the program in an empty root' "$(chroot "$room/jail" /shim/bin/shim run /shim/share/doc/shim/examples/meeting.shim)" "$(./shim run examples/meeting.shim)"
else
  left+=('a root of its own, which root alone can make')
fi
same 'the packed shim-see' "$(cd /; env -u SHIM PYTHONDONTWRITEBYTECODE=1 "$room/jail/shim/bin/shim-see" --version | head -n 1)" "$(head -n 1 "$room/jail/shim/VERSION")"
echo "$checks checks the same${left[*]:+; not tried: ${left[*]}}"
