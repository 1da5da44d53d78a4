# Use: `make shim` proves what the program stands on, as many crates at once as there are processors or as JOBS
# says, and leaves ./shim, a binary of its own;
# `make try FILE=PATH` runs a file without any proof, by the kit's trial run, and `MODE=code` takes another
# mode; `make test CASE=TEXT` runs the cases of the tool whose title has that text over ./shim, all of them where
# no text is given; `make gate` is the merge gate; `make tools` runs the scripts of tools/tests over ./shim;
# `make install PREFIX=/usr/local` puts ./shim, pages, completions, editors' files and tools below PREFIX, and
# `make uninstall` takes them away again, both below DESTDIR where that is given; `make dist` packs the same into a
# tarball; `make pictures` draws those of docs/ anew; `make clean` removes what all these left in this folder.
PREFIX ?= /usr/local
JOBS ?= $(shell nproc)
MODE = run
RELEASE = 0.1

.PHONY: shim try test gate built version install uninstall dist pictures tools clean

# What the first command proves is kept, so the second one compiles, links and runs. The last line keeps of what
# the binary was made, for VERSION.
shim:
	cd crates/shim_main && rt all check --jobs $(JOBS) && rt run -- run data/puts_a.shim
	cp crates/shim_main/out/shim_main shim.new && mv shim.new shim
	@mkdir -p out && { sha256sum shim; tools/commit; rt version; } > out/built

# The file goes to the trial run as a copy called source.shim, so any path will do.
try: export TRIED := $(value FILE)
try:
	@test -f "$$TRIED" && test -r "$$TRIED" || { echo 'Use: make try FILE=PATH, the path of a file that can be read' >&2; exit 2; }
	@echo 'UNPROVED: a trial run of the code as it stands, in which nothing is proved. It takes a minute or two of processor time.' >&2
	@file=$$(realpath -- "$$TRIED") && cd crates/shim_main && rt try --data "source.shim=$$file" -- $(MODE) source.shim

test: export WANTED := $(value CASE)
test: built
	@tools/tests/cases.py "$$WANTED"

gate:
	.ci/run

# Installing builds nothing, so that it may be done by another user than the one who has the kit.
built:
	@test -x shim || { echo 'There is no ./shim yet: make shim' >&2; exit 2; }

version: built
	@mkdir -p out && tools/version $(RELEASE) > out/VERSION

# In quotes of the shell, so that a blank in a path ends nothing.
to = '$(subst ','\'',$(DESTDIR)$(PREFIX))'
SHARED = $(wildcard tools/shimtools/*.py)
PAGES = $(wildcard man/*.1)
# As they lie here, so that their links to each other work.
DOCS = README.md CONTRIBUTING.md CHANGELOG.md tools/many.slurm $(wildcard docs/*.md docs/pictures/*.svg examples/*.shim examples/*.txt crates/*/README.md)
EDITORS = $(shell cd editors && find . -type f | sort)

install: built version
	install -d $(to)/bin $(to)/share/shim/shimtools $(to)/share/man/man1
	install -m 755 shim tools/shim-see tools/shim-draw $(to)/bin
	install -m 644 $(SHARED) $(to)/share/shim/shimtools
	install -m 644 out/VERSION $(to)/share/shim/VERSION
	install -m 644 $(PAGES) $(to)/share/man/man1
	@for file in $(DOCS); do install -D -m 644 "$$file" $(to)/share/doc/shim/"$$file" || exit 1; done
	install -D -m 644 completions/shim.bash $(to)/share/bash-completion/completions/shim
	ln -sf shim $(to)/share/bash-completion/completions/shim-see
	ln -sf shim $(to)/share/bash-completion/completions/shim-draw
	install -D -m 644 completions/_shim $(to)/share/zsh/site-functions/_shim
	install -D -m 644 completions/shim.fish $(to)/share/fish/vendor_completions.d/shim.fish
	ln -sf shim.fish $(to)/share/fish/vendor_completions.d/shim-see.fish
	ln -sf shim.fish $(to)/share/fish/vendor_completions.d/shim-draw.fish
	@for file in $(EDITORS); do install -D -m 644 "editors/$$file" $(to)/share/shim/editors/"$$file" || exit 1; done

# Nothing is taken away that `install` doesn't put there, and folders of others stay.
uninstall:
	rm -f $(addprefix $(to)/bin/,shim shim-see shim-draw) $(addprefix $(to)/share/man/man1/,$(notdir $(PAGES)))
	rm -f $(addprefix $(to)/share/bash-completion/completions/,shim shim-see shim-draw) $(to)/share/zsh/site-functions/_shim
	rm -f $(addprefix $(to)/share/fish/vendor_completions.d/,shim.fish shim-see.fish shim-draw.fish)
	rm -rf $(to)/share/shim $(to)/share/doc/shim

# A folder that runs where it is unpacked: bin/shim, bin/shim-see, share/ and, at its top, VERSION and README.txt.
name = shim-$(RELEASE)-linux-x86_64
dist: built version
	rm -rf out/dist && mkdir -p out/dist
	$(MAKE) --no-print-directory install DESTDIR="$(CURDIR)/out/dist/" PREFIX=$(name) > out/dist.log
	cp out/VERSION out/dist/$(name) && cp tools/packed.txt out/dist/$(name)/README.txt
	cd out/dist && tar --sort=name --owner=0 --group=0 --numeric-owner --mtime="@$$(git log -1 --format=%ct)" -c $(name) | gzip -9n > ../$(name).tar.gz
	rm -rf out/dist out/dist.log
	cd out && sha256sum $(name).tar.gz > $(name).tar.gz.sha256 && cat $(name).tar.gz.sha256

# The texts are kept beside the pictures, so that a difference can be read.
draw = SHIM=./shim tools/shim-draw
pictures: built
	for kind in puml svg; do $(draw) run examples/meeting.shim --output docs/pictures/meeting.$$kind || exit 1; done
	for kind in puml svg; do $(draw) run examples/commands.shim --input examples/commands.txt --output docs/pictures/commands.$$kind || exit 1; done
	for kind in dot svg; do $(draw) why examples/packing.shim --output docs/pictures/packing.$$kind || exit 1; done

tools: built
	tools/tests/all

# The proofs, too: the next `make shim` proves anew what the kit doesn't keep elsewhere.
clean:
	rm -rf shim shim.new out found crates/*/out
	find bench tools -name __pycache__ -prune -exec rm -r {} +
