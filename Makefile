# chihome: far atomics at a CHI home node, proved in Rattle.
PREFIX ?= /usr/local
PROGRAM := crates/chi_home/out/chi_home
CHECKER := crates/chi_check/out/chi_check
SOAK := crates/chi_soak/out/chi_soak
EXAMPLE := crates/chi_example/out/chi_example
VERSION := $(shell cat VERSION)
DIST := out/dist/chi-$(VERSION)
SCRIPT ?= examples/fetch_add.json
SECONDS ?= 10

.PHONY: help try build checker example run soak test page-test edits clauses lib dv install dist bench bench-c bench-explain bench-growth corpus orders

help:
	@echo "Times are of a fresh clone on 4 cores; what was proved before is not proved again."
	@echo
	@echo "Use it"
	@echo "  make try [SCRIPT=FILE]     chihome with no proof, and a script with its transcript: under a minute"
	@echo "  make run [SCRIPT=FILE]     the same, once chihome is proved: 6 minutes"
	@echo "  make checker               chicheck, proved: some 20 minutes"
	@echo "  make lib                   out/libchi_c.a and out/libchi.so, for C, C++, SystemVerilog and Python"
	@echo "  make install PREFIX=DIR    both programs, the libraries, monitors, man pages and completions below DIR; with DESTDIR=ROOT too below ROOT"
	@echo "  make dist                  out/dist/chi-$(VERSION).tar.gz: all that, with the pages and the examples, for machines without the kit"
	@echo
	@echo "Check it"
	@echo "  make test                  the gate: every proof from nothing, edits that must be refused, tests and examples: 40 to 50 minutes"
	@echo "  make clauses               out/CLAUSES.md: each public call with the clauses of its contract: some seconds"
	@echo "  make soak [SECONDS=N]      four workers race at the lock-free store for N seconds (10), while chicheck watches; it wants make checker"
	@echo "  make dv                    the benches in Verilator, and flits by hand where Icarus Verilog and GHDL are on the path: 12 minutes after make checker"
	@echo "  make corpus [SEED=N]       chihome on 10,000 scripts by chance, half of them broken, beside plain Rust"
	@echo "  make orders [SEED=N]       chicheck on 100,000 small traces and 40,000 histories, beside every order of each"
	@echo
	@echo "Develop it"
	@echo "  make edits [CRATES=..]     all edits of some crates or of all, also those outside the gate: the prover must refuse each"
	@echo "  make page-test [PICTURE=F] the pages of a trace and of a coverage, opened in Chromium"
	@echo
	@echo "Measure it, beside programs in plain Rust and C"
	@echo "  make bench                 the speed of chihome and of the lock-free store"
	@echo "  make bench-c               the speed of the calls for C, also by DPI"
	@echo "  make bench-explain         the speed of the checker of traces"
	@echo "  make bench-growth          how the time and the memory of chicheck grow with its input"

# Where a command fails, what it said is shown; it leaves no file behind.
quiet = log=$$(mktemp) && trap "rm -f $$log" EXIT && trap "exit 130" INT TERM && { $(1); } > $$log 2>&1 || { cat $$log; exit 1; }

# What rt says of itself is shown only where it fails.
try:
	@echo "make try: nothing is proved here; make run proves chihome first" >&2
	@cat "$(SCRIPT)"; echo; echo
	@script=$$(realpath "$(SCRIPT)"); log=$$(mktemp); trap "rm -f $$log" EXIT; trap "exit 130" INT TERM; \
	cd crates/chi_home && rt try -- run < "$$script" 2> $$log || { cat $$log >&2; exit 1; }

# What a program stands on is proved side by side, on all processors.
build:
	@$(call quiet,.ci/libraries chi_home && cd crates/chi_home && rt run -- run < stdin)

checker:
	@$(call quiet,.ci/libraries chi_check && cd crates/chi_check && rt run -- explain < stdin)

example:
	@$(call quiet,.ci/libraries chi_example && cd crates/chi_example && rt run)

run: build
	@cat "$(SCRIPT)"; echo; echo
	@$(PROGRAM) run < "$(SCRIPT)"

soak: checker
	@$(call quiet,.ci/libraries chi_soak && cd crates/chi_soak && rt run -- 0)
	$(SOAK) $(SECONDS) | $(CHECKER) watch

test:
	@.ci/need python3:python3 cc:gcc c++:g++
	.ci/gate

page-test: checker
	@.ci/need python3:python3 node:nodejs chromium:chromium
	.ci/page
	node --test page
	page/test --checker $(CHECKER) $(if $(PICTURE),--picture $(PICTURE))

edits:
	tools/must_fail/edits $(CRATES)

clauses:
	tools/clauses

lib:
	@$(call quiet,.ci/libraries chi_c)
	c/build.sh

dv: lib checker
	dv/run.sh

install: build checker lib
	install -D -m 755 $(PROGRAM) "$(DESTDIR)$(PREFIX)/bin/chihome"
	install -D -m 755 $(CHECKER) "$(DESTDIR)$(PREFIX)/bin/chicheck"
	install -D -m 644 out/libchi_c.a "$(DESTDIR)$(PREFIX)/lib/libchi_c.a"
	install -D -m 755 out/libchi.so "$(DESTDIR)$(PREFIX)/lib/libchi.so"
	install -D -m 644 include/chi.h "$(DESTDIR)$(PREFIX)/include/chi.h"
	install -d "$(DESTDIR)$(PREFIX)/share/chi"
	install -m 644 dv/chi_pkg.sv dv/chi_flits.sv dv/chi_flits.vhd dv/chi_stimulus.sv dv/chi_dv.c docs/GUIDE.md docs/FLITS.md docs/MONITORS.md docs/WAVES.md VERSION "$(DESTDIR)$(PREFIX)/share/chi"
	install -d "$(DESTDIR)$(PREFIX)/share/chi/python/chi" "$(DESTDIR)$(PREFIX)/share/chi/python/chi_waves"
	install -m 644 python/pyproject.toml python/setup.py "$(DESTDIR)$(PREFIX)/share/chi/python"
	install -m 644 python/chi/*.py "$(DESTDIR)$(PREFIX)/share/chi/python/chi"
	install -m 644 python/chi_waves/*.py "$(DESTDIR)$(PREFIX)/share/chi/python/chi_waves"
	install -d "$(DESTDIR)$(PREFIX)/share/man/man1" "$(DESTDIR)$(PREFIX)/share/bash-completion/completions" "$(DESTDIR)$(PREFIX)/lib/pkgconfig"
	install -m 644 man/*.1 "$(DESTDIR)$(PREFIX)/share/man/man1"
	install -m 644 completions/* "$(DESTDIR)$(PREFIX)/share/bash-completion/completions"
	sed "s,@VERSION@,$(VERSION)," c/chi.pc.in > "$(DESTDIR)$(PREFIX)/lib/pkgconfig/chi.pc"

# The folder needs nothing of the kit: .ci/c tries it with no rt on the path.
dist: build checker example lib
	rm -rf "$(DIST)"
	$(MAKE) -s -o build -o checker -o lib install DESTDIR= PREFIX="$(CURDIR)/$(DIST)"
	install -d "$(DIST)/c" "$(DIST)/dv"
	cp -r README.md CHANGELOG.md SECURITY.md docs examples "$(DIST)"
	install -m 755 $(EXAMPLE) "$(DIST)/examples/calling"
	cp c/fetch_add.c "$(DIST)/c"
	cp dv/tb.sv dv/home_node.sv "$(DIST)/dv"
	tar -C out/dist -czf "$(DIST).tar.gz" "$(notdir $(DIST))"

bench: build
	bench/chihome.py

bench-c: lib
	bench/c/run.sh

bench-explain: checker
	bench/verdict.py $(SEED)
	bench/chicheck.py $(SEED)

bench-growth: checker
	bench/growth.py

corpus: build
	bench/build.sh
	tests/oracle/scripts.py 10000 $(SEED)

orders: checker
	tests/oracle/traces.py 100000 $(or $(SEED),1)
	tests/oracle/watch.py 20000 $(or $(SEED),1)
	tests/oracle/watch.py 20000 $(or $(SEED),1) prefixes
