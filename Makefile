# `make` alone tells the targets: those with a text behind two # signs, in this order.
.PHONY: help run test archive shared tool install uninstall index index-install index-uninstall index-demo index-soak first-steps bench soak faults clean

VERSION = $(shell sed -n 's/^.define RISSOBARM_VERSION "\(.*\)"$$/\1/p' include/rissobarm.h)
MAJOR = $(firstword $(subst ., ,$(VERSION)))
PREFIX = /usr/local
DESTDIR =
into = $(DESTDIR)$(PREFIX)
MINUTES = 20
PORT = 8377
DEMO_SECONDS = 0
RUNS = 5

help:
	@sed -n 's/^\([a-z-]*\):.*## /\1:/p' Makefile | awk -F: '{ printf "make %-11s %s\n", $$1, substr($$0, length($$1) + 2) }'

run: ## the main job on a fresh machine: installs, proves and builds what is missing, runs the plan s(^), then README.md's plan by the tool
	@tools/first-run

test: ## the gate: every check and every proof; its last line is `N passed, 0 failed`
	@bash .ci/run

archive: ## proves and builds build/librissobarm.a, unless it stands there for these sources
	@tools/install
	@tools/archive

shared: ## builds build/librissobarm.so out of the archive
	@tools/shared

tool: archive ## builds the tool, build/rissobarm, on the archive
	@tool/build build/librissobarm.a build/rissobarm

install: shared tool ## installs archive, shared library, headers, rissobarm.pc, the tool, manual and pages below PREFIX (/usr/local)
	@sed -e 's|@PREFIX@|$(PREFIX)|' -e 's|@VERSION@|$(VERSION)|' rissobarm.pc.in >build/rissobarm.pc
	install -d '$(into)/lib/pkgconfig' '$(into)/include' '$(into)/bin' '$(into)/share/man/man1' '$(into)/share/man/man3'
	install -d '$(into)/share/bash-completion/completions' '$(into)/share/doc/rissobarm'
	install -m 644 build/librissobarm.a '$(into)/lib/librissobarm.a'
	install -m 755 build/librissobarm.so.$(VERSION) '$(into)/lib/librissobarm.so.$(VERSION)'
	ln -sf librissobarm.so.$(VERSION) '$(into)/lib/librissobarm.so.$(MAJOR)'
	ln -sf librissobarm.so.$(MAJOR) '$(into)/lib/librissobarm.so'
	install -m 644 include/rissobarm.h include/rissobarm_plan.h '$(into)/include'
	install -m 644 build/rissobarm.pc '$(into)/lib/pkgconfig/rissobarm.pc'
	install -m 755 build/rissobarm '$(into)/bin/rissobarm'
	install -m 644 man/rissobarm.1 '$(into)/share/man/man1/rissobarm.1'
	install -m 644 man/rissobarm.3 '$(into)/share/man/man3/rissobarm.3'
	install -m 644 tool/completion/rissobarm.bash '$(into)/share/bash-completion/completions/rissobarm'
	install -m 644 docs/REFERENCE.md docs/LAYOUT.md docs/PLANS.md docs/GLOSSARY.md '$(into)/share/doc/rissobarm'

uninstall: ## takes these files out again
	rm -f '$(into)/lib/librissobarm.a' '$(into)/include/rissobarm.h' '$(into)/include/rissobarm_plan.h'
	rm -f '$(into)/lib/librissobarm.so' '$(into)/lib/librissobarm.so.$(MAJOR)' '$(into)/lib/librissobarm.so.$(VERSION)'
	rm -f '$(into)/lib/pkgconfig/rissobarm.pc' '$(into)/bin/rissobarm'
	rm -f '$(into)/share/man/man1/rissobarm.1' '$(into)/share/man/man3/rissobarm.3'
	rm -f '$(into)/share/bash-completion/completions/rissobarm'
	rm -f $(foreach page,REFERENCE LAYOUT PLANS GLOSSARY,'$(into)/share/doc/rissobarm/$(page).md')

index: archive ## builds the index job, build/rissobarm-index, on the archive (docs/INDEX.md)
	@index/build build/librissobarm.a build/rissobarm-index

index-install: index ## installs the index job, its manual, completion, unit of systemd, samples and page below PREFIX
	@sed 's|@PREFIX@|$(PREFIX)|' index/system/rissobarm-index.service >build/rissobarm-index.service
	install -d '$(into)/bin' '$(into)/share/man/man1' '$(into)/share/bash-completion/completions' '$(into)/share/doc/rissobarm/index'
	install -d '$(into)/lib/systemd/system'
	install -m 755 build/rissobarm-index '$(into)/bin/rissobarm-index'
	install -m 644 index/man/rissobarm-index.1 '$(into)/share/man/man1/rissobarm-index.1'
	install -m 644 index/completion/rissobarm-index.bash '$(into)/share/bash-completion/completions/rissobarm-index'
	install -m 644 build/rissobarm-index.service '$(into)/lib/systemd/system/rissobarm-index.service'
	install -m 644 docs/INDEX.md '$(into)/share/doc/rissobarm/INDEX.md'
	install -m 644 index/plans/*.plan index/plans/*.conf '$(into)/share/doc/rissobarm/index'

index-uninstall: ## takes these files out again
	rm -f '$(into)/bin/rissobarm-index' '$(into)/share/man/man1/rissobarm-index.1' '$(into)/share/doc/rissobarm/INDEX.md'
	rm -f '$(into)/share/bash-completion/completions/rissobarm-index' '$(into)/lib/systemd/system/rissobarm-index.service'
	rm -rf '$(into)/share/doc/rissobarm/index'

index-demo: ## from nothing to the index job at work: a sample collection, edits that come in, and the page at 127.0.0.1, PORT (8377)
	@tests/index/demo $(PORT) $(DEMO_SECONDS)

index-soak: ## the index job's tests at full size: 20,000 records, 500 kills, planted faults, PostgreSQL, the page in a browser
	@tests/index/soak

first-steps: ## README.md's first steps on a copy of what git has, with nothing handed over: what this machine has not proved is proved
	@tests/first-steps nothing

bench: ## measures the archive beside plain and quick C, RUNS times (5); on x86-64 alone
	@bench/run $(RUNS)

soak: ## a million texts, then archive and reference side by side for MINUTES (20), from SEED where one is given
	@tools/soak $(MINUTES) $(SEED)

faults: ## plants faults in a stand-in for the archive: the driver, or the comparison of texts, must find each
	@tools/install
	@tests/faults

clean: ## removes build/ and the crates' out/, and with them what checks have kept; what `rt ci` has proved is kept beside the kit
	rm -rf build crates/*/out
