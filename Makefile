# `make help` lists the targets that have a `##`. README.md says how long `make` and `make demo` take, and
# docs/TESTING.md how long `make quick` and `make check` take.

PROGRAM := crates/flashnor/out/flashnor
HARDWARE := crates/flashnor_serprog/out/flashnor_serprog
BENCH := crates/bench/out/bench
SCRATCH := $(CURDIR)/out/demo
WORDS := -p dummy:emulate=TINY64,image=chip.bin -w new.bin --rehearse 25

# The sources of all crates, on which both built programs depend. The directories are included because a directory
# becomes newer if one of its files is removed.
SOURCES := crates.txt HANDLES \
  $(shell find $(wildcard crates/*/src crates/*/specs crates/*/proofs) -type d -o -name '*.rt' -o -name '*.antt')

# The names of both programs as targets, with their spaces escaped.
blank := $(subst ,, )
BUILT := $(subst $(blank),\ ,$(PROGRAM))
BUILT_HARDWARE := $(subst $(blank),\ ,$(HARDWARE))

# Fails if a source that was edited during the build is newer than the program with this name.
is_new = @newer=$$(find $(SOURCES) -maxdepth 0 -newer '$(1)' -print -quit) && \
	if [ -n "$$newer" ]; then echo "$(1) is older than $$newer" >&2; exit 1; fi

# `make install` installs below PREFIX, in DESTDIR if that is set. Both commands go to bin: flashnor works only on
# files, and flashnor-serprog on a serial port, which the members of a group (often `dialout`) may open. The latter is a
# script that sets up the port and runs the program in libexec.
PREFIX ?= /usr/local
BELOW = PREFIX='$(PREFIX)' DESTDIR='$(DESTDIR)'

# The version, the directory and the files of the archive of `make dist`.
VERSION := 1.0
DIST := out/flashnor-$(VERSION)
MANUALS := man/flashnor.8 man/flashnor-serprog.8 man/flashnor-journal.5
COMPLETION := completion/flashnor.bash
# README, the licence if there is one, and each page that README or a manual page names.
PAGES = README.md $(wildcard LICEN[CS]E*) $(sort $(shell grep -ohE '[A-Za-z_-]+(/[A-Za-z_-]+)*\.md' README.md $(MANUALS)))

# Fills the directory (1) for `make install` or `make dist`.
pack = scripts/pack.sh $(1) '$(PROGRAM)' '$(HARDWARE)' $(MANUALS) $(COMPLETION) $(sort $(PAGES))

# The cases that `make storm` runs: the seed, or the first and the last one (1-6), and the number of cases of each seed.
SEED := 1
COUNT := 1000

.PHONY: all help build hardware toolchain demo files bench compare storm sweep kill runs serprog played wire install \
  uninstall dist agree statement lint quick case prove check price clean

all: build hardware ## proves and builds both programs, and the crates below them

help: ## lists the targets
	@sed -n 's/^\([a-z]*\):.*## \(.*\)/\1	\2/p' Makefile | expand -t 12

# This also runs the program once.
build: toolchain files ## proves and builds flashnor only, for emulated chips
	@echo "This proves flashnor and all crates below it: twenty minutes on four cores, and up to 3 GB per prover."
	@echo "('make demo' shows without a proof what it does.)"
	@scripts/proved.sh crates/flashnor/out/flashnor env -C crates/flashnor \
	  rt run -- -p 'dummy:emulate=TINY64,image=$(SCRATCH)/chip.bin' -w '$(SCRATCH)/new.bin' --rehearse 25

# This also runs the program once, for its help, which is printed only if the command fails.
hardware: toolchain ## proves and builds flashnor-serprog only, for real boards
	@echo "This proves flashnor-serprog and all crates below it: a few minutes if flashnor is proved already."
	@mkdir -p '$(SCRATCH)'
	@scripts/proved.sh crates/flashnor_serprog/out/flashnor_serprog env -C crates/flashnor_serprog \
	  rt run -- -h > '$(SCRATCH)/help' || { cat '$(SCRATCH)/help'; exit 1; }

$(BUILT): $(SOURCES)
	@$(MAKE) --no-print-directory build
	$(call is_new,$(PROGRAM))

$(BUILT_HARDWARE): $(SOURCES)
	@$(MAKE) --no-print-directory hardware
	$(call is_new,$(HARDWARE))

# The prover and the compiler are in Rattle's kit.
toolchain:
	@command -v rt > /dev/null || \
	  { echo "There is no 'rt': it comes with Rattle's kit, whose folder bin has to be in PATH." >&2; exit 1; }

# Creates a chip file whose byte 0 is 00h and an image whose byte 0 is 01h. All other bytes of both are FFh.
files:
	@mkdir -p '$(SCRATCH)'
	@head -c 65535 /dev/zero | tr '\000' '\377' > '$(SCRATCH)/rest'
	@{ printf '\000'; cat '$(SCRATCH)/rest'; } > '$(SCRATCH)/chip.bin'
	@{ printf '\001'; cat '$(SCRATCH)/rest'; } > '$(SCRATCH)/new.bin'

# The first example of README, on the files of `make files`: a session that is stopped after 25 transactions, and its
# restore. If the program fails, so does the target. The target leaves a program in out/demo with which README's session
# can go on: a link to the proved one, if it is built from these sources, or one that is compiled without its proof.
demo: files ## rehearses a write that is stopped half-way, and its restore
	@program='$(SCRATCH)/flashnor'; \
	if [ -x '$(PROGRAM)' ] && $(MAKE) --no-print-directory -q '$(PROGRAM)'; then \
	  ln -sf "$$(realpath '$(PROGRAM)')" "$$program"; \
	elif [ ! -x "$$program" ] || [ -L "$$program" ] || \
	  [ -n "$$(find $(SOURCES) -maxdepth 0 -newer "$$program" -print -quit)" ]; then \
	  $(MAKE) --no-print-directory toolchain && scripts/unproved.sh flashnor "$$program" || exit; \
	fi; \
	[ -L "$$program" ] || echo "(this program isn't proved; 'make' proves and builds it)"; \
	echo '$$ flashnor $(WORDS)'; \
	(cd '$(SCRATCH)' && ./flashnor $(WORDS)); status=$$?; \
	echo "(go on in this directory: cd '$(SCRATCH)'; PATH=\$$PWD:\$$PATH)"; exit $$status

bench: toolchain ## measures the parts, each as a ratio to simple work of the same size; marks those that are too slow
	@cd crates/bench && rt run > /dev/null
	@$(BENCH) chip
	@$(BENCH) plan
	@$(BENCH) journal
	@$(BENCH) session
	@$(BENCH) read

compare: $(BUILT) ## compares both programs with flashrom and with a chip of QEMU, if these are installed
	@scripts/compare.sh '$(PROGRAM)'
	@scripts/compare/rows.sh '$(PROGRAM)'
	@scripts/compare/qemu.py '$(PROGRAM)'
	@[ ! -x '$(HARDWARE)' ] || tests/serprog/emulated.py '$(HARDWARE)'
	@[ ! -x '$(HARDWARE)' ] || tests/serprog/compare.py '$(HARDWARE)'

install: $(BUILT) $(BUILT_HARDWARE) ## installs programs, manual pages, pages and completion below PREFIX and DESTDIR
	@work=$$(mktemp -d) && trap 'rm -rf "$$work"' EXIT && $(call pack,"$$work/all") && $(BELOW) "$$work/all/install.sh"

uninstall: ## removes these files again
	@$(BELOW) scripts/archive/install.sh --remove

# This first proves and builds storm, and runs the first case of each seed once without its output.
storm: toolchain ## compares random sessions with the reference implementation: make storm SEED=7 COUNT=5000
	@cd crates/storm && rt run -- $(SEED) 1 > /dev/null
	@crates/storm/out/storm $(SEED) $(COUNT)

sweep: $(BUILT) ## runs the program with each of its allocations refused in turn (with a C compiler)
	@tests/sweep/run.sh '$(PROGRAM)'

kill: $(BUILT) ## kills the program at its calls on files, and makes them fail (with a C compiler)
	@tests/kill/run.sh '$(PROGRAM)'

# An archive for users without a prover: what scripts/pack.sh packs, PROVED-WITH, and the files' checksums.
# PROVED-WITH contains the lines of both programs. If a program's own PROVED-WITH is missing, or belongs to another
# program, that program is proved and built first. The same files and commit give the same archive, byte by byte.
dist: $(BUILT) $(BUILT_HARDWARE) ## packs an archive with both programs, their pages, an installer and PROVED-WITH
	@cd '$(dir $(PROGRAM))' && tail -n 1 PROVED-WITH 2> /dev/null | sha256sum --check --status 2> /dev/null || \
	  $(MAKE) --no-print-directory -C '$(CURDIR)' build
	@cd '$(dir $(HARDWARE))' && tail -n 1 PROVED-WITH 2> /dev/null | sha256sum --check --status 2> /dev/null || \
	  $(MAKE) --no-print-directory -C '$(CURDIR)' hardware
	@rm -rf $(DIST) && $(call pack,$(DIST))
	@cat '$(dir $(PROGRAM))PROVED-WITH' '$(dir $(HARDWARE))PROVED-WITH' > $(DIST)/PROVED-WITH
	@cd $(DIST) && find * -type f | LC_ALL=C sort | xargs sha256sum -- > ../SHA256SUMS && mv ../SHA256SUMS .
	@tar --sort=name --owner=0 --group=0 --numeric-owner --mode=u=rwX,go=rX --format=gnu \
	  --mtime="@$$(git log -1 --format=%ct 2> /dev/null || echo 0)" -C out -c flashnor-$(VERSION) | \
	  gzip -n > $(DIST).tar.gz
	@echo $(DIST).tar.gz

runs: $(BUILT) ## runs the program on each case of tests/flashnor/cases and on the examples of the pages
	@tests/flashnor/run.py '$(PROGRAM)'

serprog: $(BUILT_HARDWARE) ## runs flashnor-serprog on the cases of tests/serprog
	@tests/serprog/run.py '$(HARDWARE)'

# This first proves and builds simulated_runs, which prints its usage if it gets no arguments.
played: toolchain ## plays interrupted runs of flashnor-serprog at a simulated programmer and chip
	@cd crates/simulated_runs && { rt run > /dev/null 2>&1 || [ $$? = 2 ]; }
	@tests/played/run.py crates/simulated_runs/out/simulated_runs

wire: $(BUILT_HARDWARE) ## loses, doubles and inserts single bytes at a modelled UART: all cases, half an hour and more
	@tests/wire/run.py '$(HARDWARE)' --all

agree: ## compares help, pages and completion with the sources
	@bash scripts/agree.sh

statement: ## makes docs/STATEMENT.md, and its appendices out/STATEMENT-FULL.md, from the sources
	@python3 scripts/statement.py

lint: ## checks each script with its linter (shellcheck, a C compiler, pyflakes)
	@scripts/lint.sh

quick: toolchain ## makes checks that need no proof, in a few minutes; CRATES='nor_args flashnor' tries only these
	@scripts/quick.sh '$(PROGRAM)' $(CRATES)

case: toolchain ## plays one case of crates/transcripts/stdin: make case NAME='a read runs on over the end'
	@scripts/case.sh "$$NAME"

prove: toolchain ## proves a crate and all crates that depend on it: make prove CRATE=nor_args
	@scripts/prove.py "$$CRATE"

check: toolchain ## the merge gate: all proofs, and all tests except 'make compare'
	@bash .ci/run

price: toolchain ## prints the processor minutes of the gate, or of COMMAND='rt must-fail nor_driver'
	@scripts/price.py $(COMMAND)

clean: ## removes all built files
	rm -rf out crates/*/out
