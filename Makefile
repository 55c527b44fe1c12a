# make        proves the crates, then builds the programs into bin/: sse_local, sse_leaks, sse_served, sse_net, vault_served and sse_vault (CPU=x86-64-v3: for newer processors)
# make try    runs a script, SCRIPT=examples/first.sse, in a minute, without any proof; keeps nothing
# make demo   builds only bin/sse_local, runs examples/first.sse, and searches a folder of letters
# make check  the whole gate: every proof, test, must-fail edit and end-to-end check
# make quick  the checks that need no proof: layers, documents, layout, edits, and what must not compile
# make bodies tries the wrong bodies that the gate leaves out: each must be refused (CRATES="NAME NAME" for some crates)
# make docs   writes the generated pages, docs/PROMISES.md and docs/DEFINITIONS.md, and checks all documents, in seconds
# make draw   draws the pictures of the documents again
# make bench  times bin/sse_local on made scripts, the rows of bin/tool_bench, and sse_net with sse_served
# make install puts the programs of bin/, archive, their manual pages, completion and the servers' units below PREFIX=/usr/local
# make clean  removes what was proved and built in this checkout
# make help   prints these lines

PROGRAMS = sse_local sse_leaks sse_served sse_net vault_served sse_vault
# the programs that run as a service, each with its unit
SERVICES = sse_served vault_served
# the words that a program is first run with, once it is built
words_sse_local = run
words_sse_bench = prepared 1
# without words the programs over TCP end at once, with this status
status_sse_served = 2
status_vault_served = 2
status_sse_net = 2
status_sse_vault = 2
LAST = bin/.seconds
# the processor to build for; without a name x86-64-v2
CPU =
# what make try runs
SCRIPT = examples/first.sse

# what make install takes and where it puts it; DESTDIR is put before, for packages
PREFIX = /usr/local
DESTDIR =
BIN = bin
PYTHON = $(shell python3 -c 'import sys; print(sys.executable)')
LIB = $(DESTDIR)$(PREFIX)/lib/cemdrusma

.PHONY: all try demo check quick bodies docs draw bench install clean help

all: $(PROGRAMS:%=bin/%)

# The crates below a program are proved side by side first, which only saves time (.ci/below): a program is built only after it and every
# crate below it are proved. A failed proof leaves an older out/NAME, and the tool passes on the program's own status. So the old program is
# removed first, and the copy is made only after a run that built a new one and ended with 0.
bin/%: FORCE
	@mkdir -p bin
	@echo "Building $*. First every crate below it is proved."
	@if [ -f $(LAST) ]; then echo "Last time this took $$(cat $(LAST)) seconds."; else echo "The first time this takes many minutes of every processor."; fi
	@start=$$(date +%s); \
	rm -f crates/$*/out/$*; \
	.ci/below $*; \
	(cd crates/$* && rt run $(CPU:%=--cpu %) -- $(words_$*) < ../../examples/first.sse > ../../bin/$*.log 2>&1) || [ $$? = "$(status_$*)" ] || { cat bin/$*.log; exit 1; }; \
	cp crates/$*/out/$* bin/$* && \
	echo $$(( $$(date +%s) - start )) > $(LAST)

try:
	@echo "Nothing here is proved. The program checks some conditions as it runs, and is not kept."
	cd crates/sse_local && rt try -- run < $(abspath $(SCRIPT))

demo: bin/sse_local
	bin/sse_local run < examples/first.sse
	examples/search examples/letters wall deed

bench: all bin/tool_bench
	bench/run

check:
	bash .ci/run

quick:
	.ci/quick

bodies:
	tests-that-fail/try_bodies --self-test
	tests-that-fail/try_bodies $(CRATES)

docs:
	docs/pages/make_pages.py
	.ci/layers
	.ci/layers --self-test
	.ci/documents
	.ci/documents --self-test

draw:
	docs/pictures/make_pictures.py

help:
	@sed -n 's/^# \(make .*\)/\1/p' Makefile

# Nothing is built by it, so that it may be run as another user than make was.
install:
	@for name in $(PROGRAMS); do [ -x $(BIN)/$$name ] || { echo "install: $(BIN)/$$name isn't there: run make first"; exit 1; }; done
	install -d $(DESTDIR)$(PREFIX)/bin $(DESTDIR)$(PREFIX)/share/man/man1 $(LIB)/cemdrusma/texts $(DESTDIR)$(PREFIX)/lib/systemd/system
	install -d $(DESTDIR)$(PREFIX)/share/bash-completion/completions $(DESTDIR)$(PREFIX)/share/zsh/site-functions
	for name in $(PROGRAMS); do install -m 755 $(BIN)/$$name $(DESTDIR)$(PREFIX)/bin/$$name || exit 1; done
	sed '1s|.*|#!$(PYTHON) -S|' archive/archive > $(DESTDIR)$(PREFIX)/bin/archive
	chmod 755 $(DESTDIR)$(PREFIX)/bin/archive
	install -m 644 VERSION $(LIB)/VERSION
	install -m 644 archive/cemdrusma/*.py $(LIB)/cemdrusma
	install -m 644 archive/cemdrusma/texts/*.py $(LIB)/cemdrusma/texts
	$(PYTHON) -m compileall -q -d $(PREFIX)/lib/cemdrusma/cemdrusma $(LIB)/cemdrusma
	install -d $(DESTDIR)$(PREFIX)/share/doc/cemdrusma/docs
	install -m 644 README.md CHANGELOG.md $(DESTDIR)$(PREFIX)/share/doc/cemdrusma
	install -m 644 docs/*.md docs/*.svg $(DESTDIR)$(PREFIX)/share/doc/cemdrusma/docs
	install -m 644 $(PROGRAMS:%=docs/%.1) docs/archive.1 $(DESTDIR)$(PREFIX)/share/man/man1
	install -m 644 archive/completion/archive.bash $(DESTDIR)$(PREFIX)/share/bash-completion/completions/archive
	install -m 644 archive/completion/_archive $(DESTDIR)$(PREFIX)/share/zsh/site-functions/_archive
	for name in $(SERVICES); do \
	    sed 's|@BIN@|$(PREFIX)/bin|' archive/$$name@.service > $(DESTDIR)$(PREFIX)/lib/systemd/system/$$name@.service || exit 1; \
	    chmod 644 $(DESTDIR)$(PREFIX)/lib/systemd/system/$$name@.service; \
	done

clean:
	rm -rf bin crates/*/out

FORCE:
