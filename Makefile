# attrd: `make` alone prints what there is.
SHELL := /bin/bash
PREFIX ?= /usr/local
PAGES := README.md docs/ATTRIBUTE_GRAMMARS.md docs/MANUAL.md tests/pages/EDGES.md tests/pages/REFUSALS.md tests/pages/JASTADD.md docs/TUTORIAL.md docs/FROM_JASTADD.md samples/calculator samples/objects samples/machines samples/grammars samples/flow samples/states samples/simplic

# What examples, program and clients test: PROGRAM=.., else ./attrd where it stands, else a program with no proof.
QUICK := .quick/attrd
TESTED := $(or $(PROGRAM),$(if $(wildcard attrd),./attrd,$(QUICK)))

# The language of README's first screen, whose session `make run` answers.
FIRST := samples/sum
PAGES += $(FIRST)

# What is said behind the session: the page that goes on, and the line that starts the prompt with this program.
go_on = echo "docs/TUTORIAL.md goes on from here. A prompt for lines of your own:"; \
	echo "  cd $(FIRST) && PYTHONPATH=../../clients/python python3 -m attrd --program ../../$(1) sum.ast tree.txt sum.jrag"

.PHONY: help run try quick build install package warm check edits counts test examples program clients starve tries bench tools python crate tested

# What there is, and how long it takes on two cores.
help:
	@echo "to use it:"
	@echo "  make run           answers the session of README's language: by ./attrd where it was built, else as make try does"
	@echo "  make try           the same by .quick/attrd, which isn't proved, and stays there for use (2 minutes; a second from then on)"
	@echo "  make build         the proved program, as ./attrd (60 minutes; one where it was built before)"
	@echo "  make install       ./attrd and its man page, below PREFIX, /usr/local if none is given (a second, behind make build)"
	@echo "  make package       ./attrd as a tarball and Debian packages, in dist/ (seconds, behind make build)"
	@echo "to change it:"
	@echo "  make warm          proves the libraries once, so that the next two take minutes (60 minutes)"
	@echo "  make check C=at_demand [F=demand::Demand::answer]"
	@echo "                     proves a crate again, or in it one function or module (1 to 10 minutes, behind make warm)"
	@echo "  make edits C=at_demand"
	@echo "                     tries the crate's wrong bodies, which the prover has to refuse (1 to 5 minutes, behind make check)"
	@echo "  make counts        long clauses, contracts and repeats (seconds)"
	@echo "to test it:"
	@echo "  make quick         nearly all tests that need no proof, by a program that isn't proved (about 3 minutes, 1 where the program is taken up)"
	@echo "  make test          the gate: every proof, wrong bodies, tests, programs, examples (90 minutes; 15 where it passed before)"
	@echo "  make examples      the examples of the pages alone (half a minute)"
	@echo "  make program       the tests of the command line, streams and sockets alone (seconds)"
	@echo "  make clients [T=test_update]"
	@echo "                     all tests of the clients, those that make quick leaves out too, or of one client or module (8 minutes)"
	@echo "                     These three take PROGRAM=..; else ./attrd where it stands, else the program of make quick (2 minutes more)"
	@echo "  make starve        seven sessions with each bound of the cache, with each request for memory refused in turn (a minute, behind its proof)"
	@echo "  make tries         the examples of single tries of equations (a minute, behind its proof)"
	@echo "  make bench [WRITE=1]"
	@echo "                     measures ./attrd, and writes what it measured (25 minutes and five GB, behind make build)"

# The session of README's language, each line with its reply below it: by ./attrd where it was built, else by the quick program.
# Whether ./attrd is proved is known by its record, attrd.proved (tools/proved.py).
run: python
	@if [ -x attrd ]; then python3 -B -m tools.proved tell ./attrd; python3 -B -m tools.show_session ./attrd $(FIRST) && { $(call go_on,attrd); }; \
	else $(MAKE) --no-print-directory try; fi

# The gate: the counts, the tests of the tools, every proof (see tools/gate.py), the tests, the programs, the must-fail edits; and
# then, on the programs that were proved, sessions with each request for memory refused in turn, the words of the command line and
# real sockets, the tests of the clients (in Neovim and Chromium, which are installed where they are missing and that may be; else
# their tests name the package), and the examples of the manual, the tutorial, the samples and single tries.
test: tools python
	@python3 tools/counts.py --hold
	@python3 -B -m unittest discover -s tools/tests -t .
	@python3 tools/gate.py
	@python3 tools/starve.py crates/starve/out/starve
	@ATTRD_READS=1 python3 tools/program.py --starve crates/starve/out/starve crates/attrd/out/attrd
	@tools/editors.sh nvim chromium || true
	@python3 clients/run_tests.py crates/attrd/out/attrd
	@python3 tools/examples.py --program crates/attrd/out/attrd --tries crates/tries/out/tries $(PAGES) tests/pages/TRIES.md

# All tests that need no proof, but those of the clients that take long (see tools/quick.py).
quick: tools python
	@tools/editors.sh nvim chromium || true
	@python3 -B -m tools.quick $(PAGES)

# The same by the program that isn't proved, which stays in .quick for whoever wants to go on.
try: tools python
	@python3 -B -m tools.quick_program
	@echo "$(QUICK) isn't proved (make build makes the proved program, ./attrd); it stays there. It answers, in $(FIRST):"
	@python3 -B -m tools.show_session $(QUICK) $(FIRST)
	@$(call go_on,$(QUICK))

# The proved program, as ./attrd, with its record. It may run meanwhile.
build: tools python
	@python3 -B -m tools.build

# The program that was built and its man page, below PREFIX; it is told whether it is proved.
install: python
	@test -x attrd || { echo "there is no ./attrd yet: make build first"; exit 1; }
	install -d $(DESTDIR)$(PREFIX)/bin $(DESTDIR)$(PREFIX)/share/man/man1
	install -m 755 attrd $(DESTDIR)$(PREFIX)/bin/attrd
	install -m 644 docs/attrd.1 $(DESTDIR)$(PREFIX)/share/man/man1/attrd.1
	@python3 -B -m tools.proved tell ./attrd || true

# The program that was built, with its man page, licences, pages, samples and systemd units, as a tarball and Debian packages. Only a
# program that is proved, and made of the sources that stand here, is packaged.
package: tools python
	@test -x attrd || { echo "there is no ./attrd yet: make build first"; exit 1; }
	@tools/package.sh ./attrd dist

# Proves the libraries, each once, as a check of the program does before it begins: with no function named it ends there. What
# was proved before is taken up.
warm: tools
	@cd crates/attrd && rt check --only=

# Proves the crate C, or its function or module F alone, over what is proved of the crates below it. A must-fail edit's line
# `refused:` is for tools/refused.py, and the kit says of each that it doesn't read it.
check: tools crate
	@set -o pipefail; cd crates/$(C) && rt check --jobs 1 $(if $(F),--only $(F)) 2>&1 | { grep --line-buffered -v 'has a line that is not read' || true; }

# Tries the wrong bodies of the crate C, crates/C/must-fail, each of which the prover has to refuse, over the proved crates below it.
edits: tools python crate
	@python3 tools/refused.py $(C)

# How many clauses and contracts are longer than they should be, and how many clauses repeat others.
counts: python
	@python3 tools/counts.py

crate:
	@test -n "$(C)" || { echo "name a crate, as in: make check C=at_demand"; exit 1; }
	@test -d "crates/$(C)" || { echo "there is no crate $(C); crates.txt has them all"; exit 1; }

# The program that the next three test, built with no proof where it is none of the others.
tested: python
	@$(if $(filter $(QUICK),$(TESTED)),$(MAKE) --no-print-directory tools && python3 -B -m tools.quick_program,test -x $(TESTED) || { echo "there is no program $(TESTED)"; exit 1; })
	@echo "tested: $$(python3 -B -m tools.proved tell $(TESTED))"

# The examples of the manual, the tutorial and the samples.
examples: tested
	@python3 tools/examples.py --program $(TESTED) $(PAGES)

# The words of the command line, streams that fail, and real sockets.
program: tested
	@python3 tools/program.py $(TESTED)

# The tests of the clients, or of the client or module T.
clients: tested
	@python3 clients/run_tests.py --skip-missing $(TESTED) $(T)

# Four sessions with each bound of the cache, by the proved program, with each request for memory refused in turn.
starve: tools python
	cd crates/starve && rt run < stdin -- until-edit 1 data/sum.ast data/sum.txt data/sum.jrag
	@python3 tools/starve.py crates/starve/out/starve

# Single tries of equations, by the proved program.
tries: tools python
	cd crates/tries && rt run < stdin -- data/calc.ast data/calc.jrag data/tree.txt
	@python3 tools/examples.py tests/pages/TRIES.md

# Speed, by the proved program, as ratios in one run; what the program takes at its limits; what evaluations, loading, lines and
# edits cost where everything is kept, and circular attributes, which fails where a bound doesn't hold; a realistic program, beside Java;
# names looked up by key; and trees of up to 2,400,000 nodes, which take five GB. With WRITE=1 what is measured is added to
# bench/history.tsv, and the table of PERFORMANCE is written.
bench: export ATTRD_HISTORY := $(if $(WRITE),$(CURDIR)/bench/history.tsv)
bench: export ATTRD_PROVED := yes
bench: build
	cd crates/tries && rt run < stdin -- data/calc.ast data/calc.jrag data/tree.txt > /dev/null
	python3 bench/bench.py
	python3 bench/limits.py
	python3 bench/clients.py
	python3 bench/editor.py
	python3 bench/hub.py
	@status=0; for it in evaluation in_flight kept bounded cliff fixpoints jastadd realistic by_key sizes; do python3 bench/$$it.py || status=1; done; \
	if [ -n "$(WRITE)" ]; then python3 bench/history.py --write || status=1; fi; exit $$status

tools:
	@command -v rt > /dev/null || { echo "attrd is written in Rattle: install the Rattle kit, so that the command 'rt' is on the PATH."; exit 1; }
	@command -v clang > /dev/null || command -v cc > /dev/null || { echo "install a C compiler, as by: apt-get install clang"; exit 1; }

python:
	@command -v python3 > /dev/null || { echo "the examples are run by Python: install python3."; exit 1; }
