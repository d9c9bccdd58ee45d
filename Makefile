# make                      the program: proved already where `rt ci` has run, else built by tools/build.py
# make quick                compiles the program without its proofs and tries it on a few units; leaves no program
# make check                the whole gate: proofs, must-fail edits, tests (`rt ci`), except what it has kept
# make check-tools          the tests of tools/, completion/ and packaging/: under three minutes
# make docs                 links, names and examples of README.md and docs/ (tools/check-docs.sh), and the crates' lines
#                           (tools/unused-edges, tools/code-below-theorems, tools/check-citations)
# make install PREFIX=DIR   the program, the tools, stub headers, manual pages, pages and examples; DIR from the root
# make dist                 a tarball and a Debian package of all that, in out/dist/
# make clean                what was made: the program is made anew only where it is not there
#
# PROGRAM=FILE              another program to install, pack and test with

PREFIX = /usr/local
PROGRAM = crates/ccheck_main/out/ccheck_main
TOOLS = ccheck-cc ccheck-show ccheck-html ccheck-baseline ccheck-draws show-me
PAGES = $(wildcard README.md CHANGELOG.md CONTRIBUTING.md LICENSE)
CASES = tools/tests/cases
SHARE = $(DESTDIR)$(PREFIX)/share

.PHONY: all announce check check-tools clean dist docs install quick

all: announce $(PROGRAM)

announce:
	@if [ -e $(PROGRAM) ]; then echo "$(PROGRAM) is there: nothing to build. make clean makes it go."; else \
	  echo "Proves the program and its crates, then builds $(PROGRAM). On four processors: one to two hours."; \
	  echo "A line is printed for each crate. If you stop it, the next make goes on where it was."; \
	  echo "make quick tries the program without proofs, in about five minutes."; fi

$(PROGRAM):
	tools/build.py

# `rattle build` builds proved crates alone, and `rt try` keeps no file: so there is no unproved program to leave.
quick:
	@echo "Compiles the program without its proofs and runs it on the units of $(CASES): about five minutes, silent."
	@echo "The kit keeps no program that is not proved. CASES=FOLDER takes your own units, each one file."
	cd crates/ccheck_main && rt try --cases $(abspath $(CASES)) -- check {}

check:
	rt ci

check-tools:
	@echo "Runs the tests of the tools: under three minutes. A test whose tool is missing is skipped, and named."
	CCHECK=$${CCHECK:-$(abspath $(PROGRAM))} python3 tools/tests/run_tests.py

docs: $(PROGRAM)
	tools/check-docs.sh
	tools/unused-edges
	tools/code-below-theorems
	tools/check-citations

install: $(PROGRAM)
	install -D -m 755 $(PROGRAM) $(DESTDIR)$(PREFIX)/bin/ccheck
	install -d $(SHARE)/ccheck/tools/ccheck_tools $(SHARE)/ccheck/include $(SHARE)/doc/ccheck/examples
	install -m 755 $(TOOLS:%=tools/%) $(SHARE)/ccheck/tools
	install -m 644 tools/ccheck_tools/*.py $(SHARE)/ccheck/tools/ccheck_tools
	ln -sf ../../../bin/ccheck $(SHARE)/ccheck/tools/ccheck
	for tool in $(TOOLS); do ln -sf ../share/ccheck/tools/$$tool $(DESTDIR)$(PREFIX)/bin/$$tool; done
	cp -R include/. $(SHARE)/ccheck/include
	install -m 644 $(PAGES) $(SHARE)/doc/ccheck
	cp -R docs $(SHARE)/doc/ccheck
	cp -R examples/. $(SHARE)/doc/ccheck/examples
	install -d $(SHARE)/man/man1
	install -m 644 man/*.1 $(SHARE)/man/man1
	install -d $(SHARE)/bash-completion/completions $(SHARE)/zsh/site-functions
	install -m 644 completion/ccheck.bash $(SHARE)/bash-completion/completions/ccheck
	for tool in $(TOOLS); do ln -sf ccheck $(SHARE)/bash-completion/completions/$$tool; done
	install -m 644 completion/_ccheck $(SHARE)/zsh/site-functions/_ccheck
	packaging/identity $(PROGRAM) > $(SHARE)/doc/ccheck/IDENTITY

dist: $(PROGRAM)
	packaging/make-dist $(PROGRAM) out/dist

clean:
	rm -rf crates/*/out out
