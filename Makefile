# make help lists the targets.

PREFIX = /usr/local
DESTDIR =
VERSION = 0.1.0

CC = cc
CXX = g++
CFLAGS = -O2
STRICT = -Wall -Wextra -pedantic -Wconversion -Wsign-conversion -Werror
PROVE = tools/prove.sh
# Cargo takes no part in make's own count of jobs.
CARGO = MAKEFLAGS= cargo
WITH_CRATE = --quiet --offline --manifest-path bindings/rust/Cargo.toml
CHIP = thumbv8m.main-none-eabi
WITH_ORACLE = --release --quiet --offline --manifest-path oracle/Cargo.toml
ORACLE = oracle/target/release/oracle
SANITIZE = -O1 -g -fsanitize=address,undefined -fno-sanitize-recover=all

# Of each random group of make compare: the queries, and the seconds at least.
COUNT =
SECONDS =
# What the random groups, and the calls of make fuzz, are drawn from: a number, or random.
SEED =
# The calls of make fuzz.
RUNS = 2000000
RANDOM_GROUPS = $(COUNT:%=--count %) $(SECONDS:%=--seconds %) $(SEED:%=--seed %)

LIBRARY = target/staticlib/librikkovan.a
MODULE = target/module/rikkovan.ll
CHIP_LIBRARY = target/chip/librikkovan.a
PROGRAMS = target/bin/lpset build/rikkovan
SOURCES = crates.txt $(shell find crates -name out -prune -o \( -name '*.rt' -o -name '*.antt' \) -print)
PROGRAM = $(wildcard program/*.c)
FUZZ = $(filter-out %/faults.c,$(wildcard tests/fuzz/*.c))
PLANS = $(sort $(wildcard examples/plans/*.plan))
TASKS = $(sort $(wildcard examples/tasks/*.tasks))

.DELETE_ON_ERROR:
.PHONY: help lib run test measure contracts spec test-c test-rust test-programs test-prove test-fuzz fuzz test-oracle \
	oracle compare compare-quick compare-plans compare-heads evidence record bench plans tasks heads install uninstall clean

help:
	@echo 'make run            prove the library, then check the example plans and tasks through it'
	@echo 'make test           the whole test, with every proof'
	@echo 'make lib            prove the library and write $(LIBRARY)'
	@echo 'make install        install it, with header, programs, man pages and completion (PREFIX=$(PREFIX), DESTDIR)'
	@echo 'make uninstall      remove what make install wrote'
	@echo 'make test-c         test the library from C and C++'
	@echo 'make test-rust      test the library from Rust, through bindings/rust'
	@echo 'make fuzz           make hostile calls under the sanitizers (RUNS=$(RUNS), SEED)'
	@echo 'make compare        compare the library with the Rust (compare-quick: a part of it);'
	@echo '                    COUNT= and SECONDS= of each random group, SEED='
	@echo 'make evidence       write docs/EVIDENCE.md anew from such a comparison'
	@echo 'make record         write crates/replay/data anew from the Rust'
	@echo 'make bench          measure every call beside the Rust'
	@echo 'make contracts      write the tables of docs/CONTRACTS.md anew from the sources'
	@echo 'make chip           build and test, not prove, the library for a Cortex-M33: $(CHIP_LIBRARY)'
	@echo '                    (CHIP=thumbv8m.main-none-eabihf for hard float); chip-measure: stack and instructions there;'
	@echo '                    chip-rust: link the Rust crate with it'
	@echo 'make wasm           build and test, not prove, it as WebAssembly: target/wasm/rikkovan.wasm'
	@echo 'make deps           install with apt what optional parts of the test need'
	@echo 'make spec           write target/spec.md: every definition that the exports and the claim stand on'
	@echo 'make measure        the whole test, with the time and memory of each crate and edit'
	@echo 'make plans          write examples/plans anew (make tasks, make heads: the others)'
	@echo 'make clean          remove what was built'
	@echo 'The long ones say how far they are on standard error; what the prover says goes to build/log.'

lib: $(LIBRARY)

# What rt builds stays in crates/NAME/out, and rt ci takes some of it away; so what the tests use is copied to target. The archive is for
# every x86-64, where rattle would have it for those from 2009 on.
$(LIBRARY): $(SOURCES)
	@$(PROVE) 'prove the library' lib rikkovan --cpu x86-64
	@install -D -m 644 crates/rikkovan/out/librikkovan.a $@

build/daemon: examples/daemon.c include/rikkovan.h $(LIBRARY)
	@mkdir -p build
	$(CC) -std=c99 $(STRICT) $(CFLAGS) -Iinclude -o $@ examples/daemon.c $(LIBRARY)

build/rikkovan: $(PROGRAM) program/program.h include/rikkovan.h $(LIBRARY)
	@mkdir -p build
	$(CC) -std=c99 $(STRICT) $(CFLAGS) -Iinclude -o $@ $(PROGRAM) $(LIBRARY)

# The program with faults while it writes.
FAULTS = mkstemp write fchmod fsync close rename
build/rikkovan-faults: tests/rikkovan/faults.c build/rikkovan
	$(CC) -std=c99 $(STRICT) $(CFLAGS) -Iinclude $(FAULTS:%=-Wl,--wrap=%) -o $@ \
		$(PROGRAM) tests/rikkovan/faults.c $(LIBRARY)

build/rikkovan-sanitized: build/rikkovan
	$(CC) -std=c99 $(STRICT) $(SANITIZE) -Iinclude -o $@ $(PROGRAM) $(LIBRARY)

build/firmware: examples/firmware.c examples/play.c examples/play.h include/rikkovan.h $(LIBRARY)
	@mkdir -p build
	$(CC) -std=c99 $(STRICT) $(CFLAGS) -Iinclude -o $@ examples/firmware.c examples/play.c $(LIBRARY)

# rt run proves the program and builds it; without arguments and files it has nothing to do.
target/bin/lpset target/bin/replay: target/bin/%: $(SOURCES)
	@$(PROVE) 'prove the program $*' run $*
	@install -D -m 755 crates/$*/out/$* $@

# Some of the files are refused on purpose, and the status is then 1.
run: build/rikkovan
	@build/rikkovan check $(PLANS) 2>&1 || test $$? -eq 1
	@build/rikkovan load $(TASKS) 2>&1 || test $$? -eq 1
	@echo 'a head at 48 MHz on D taken to 240 MHz:'
	@build/rikkovan change examples/heads/d48.head examples/plans/default.plan examples/heads/second-poll.answers
	@echo 'a head at 240 MHz with tasks that are 110 percent of a slower plan:'
	@build/rikkovan change examples/heads/s240-tasks.head examples/plans/dll1-144.plan || test $$? -eq 1

test:
	@tools/test.sh

contracts:
	@tools/contracts.py

spec:
	@tools/spec.sh

measure:
	@tools/measure-gate.py tools/test.sh

test-c: build/daemon $(PROGRAMS)
	@CC='$(CC)' CXX='$(CXX)' tests/c/run.sh

test-rust: $(LIBRARY)
	$(CARGO) test -j1 $(WITH_CRATE)
	$(CARGO) run $(WITH_CRATE) --example firmware | diff tests/c/firmware.expected -
	@if [ -d "$$(rustc --print target-libdir --target $(CHIP))" ]; then $(CARGO) check $(WITH_CRATE) --target $(CHIP); \
		else echo 'test-rust: skipped: a check for $(CHIP) (the target is not installed)'; fi

build/fuzz: $(FUZZ) tests/fuzz/fuzz.h include/rikkovan.h $(LIBRARY)
	@mkdir -p build
	$(CC) -std=c99 $(STRICT) $(SANITIZE) -Iinclude -o $@ $(FUZZ) $(LIBRARY)

build/fuzz-faults: tests/fuzz/faults.c build/fuzz
	$(CC) -std=c99 $(STRICT) $(SANITIZE) -Iinclude -Wl,--wrap=rikkovan_change -o $@ \
		$(FUZZ) tests/fuzz/faults.c $(LIBRARY)

fuzz: build/fuzz
	build/fuzz --runs $(RUNS) --seed $(or $(filter-out random,$(SEED)),$(shell date +%s))

test-fuzz: $(LIBRARY)
	@CC='$(CC)' tests/fuzz/run.sh

test-programs: $(PROGRAMS) target/bin/replay
	@tests/lpset/run.sh
	@CC='$(CC)' tests/rikkovan/run.sh
	@tests/replay/run.sh

test-prove:
	@tests/prove/run.sh

test-oracle:
	$(CARGO) test --quiet --offline --manifest-path oracle/Cargo.toml --lib

oracle: $(LIBRARY)
	$(CARGO) build $(WITH_ORACLE)

compare: oracle
	$(ORACLE) compare $(RANDOM_GROUPS)

# Two halves that take about the same time, one for each of two cores; every answer of every call comes up.
compare-quick:
	@$(MAKE) --no-print-directory --output-sync -j2 compare-plans compare-heads

compare-plans: oracle
	$(ORACLE) compare --quick --count 30000 --only plan --only config --only tasks

compare-heads: oracle
	$(ORACLE) compare --quick --count 30000 --only heads --only lpsys --only change

evidence: oracle
	@mkdir -p build
	tools/evidence.sh $(RANDOM_GROUPS) >build/EVIDENCE.md
	mv build/EVIDENCE.md docs/EVIDENCE.md

record: oracle
	$(ORACLE) record crates/replay/data

bench: oracle
	$(ORACLE) bench

# The proved module for targets of which the kit promises nothing: tested builds, not proved ones (docs/CHIP.md).
# The archive is always made again, since it may be there for another CHIP.
.PHONY: chip chip-measure wasm deps chip-rust $(CHIP_LIBRARY)

$(MODULE): $(LIBRARY) tools/chip-module.sh tools/chip-pairs.py tools/chip-layout.py tools/rattle.py
	tools/chip-module.sh

$(CHIP_LIBRARY): $(MODULE)
	tools/chip.sh $(CHIP)

target/wasm/rikkovan.wasm: $(MODULE) tools/chip.sh
	tools/chip.sh wasm32-unknown-unknown

build/calls.h: tests/chip/calls.awk tests/chip/calls.txt include/rikkovan.h
	@mkdir -p build
	awk -f tests/chip/calls.awk include/rikkovan.h tests/chip/calls.txt >$@

chip: $(CHIP_LIBRARY) build/calls.h
	@CC='$(CC)' CHIP='$(CHIP)' tests/chip/run.sh

chip-measure: $(CHIP_LIBRARY) build/calls.h
	@CHIP='$(CHIP)' tests/chip/run.sh measure

# The example for firmware, linked with the archive for the chip.
chip-rust: $(CHIP_LIBRARY)
	@if [ -d "$$(MAKEFLAGS= rustc --print target-libdir --target $(CHIP))" ]; then \
		RIKKOVAN_LIB_DIR=target/chip $(CARGO) build $(WITH_CRATE) --example firmware --target $(CHIP); \
		else echo 'chip-rust: skipped: the example for firmware (the target $(CHIP) is not installed)'; fi

wasm: target/wasm/rikkovan.wasm build/calls.h
	@tests/wasm/run.sh

deps:
	@tools/chip-deps.sh

plans:
	tools/make-plans.sh

tasks:
	tools/make-tasks.sh

heads:
	tools/make-heads.sh

ROOT = $(DESTDIR)$(PREFIX)
INSTALLED = include/rikkovan.h lib/librikkovan.a lib/pkgconfig/rikkovan.pc bin/lpset bin/rikkovan \
	share/man/man1/lpset.1 share/man/man1/rikkovan.1 share/man/man3/rikkovan.3 \
	share/bash-completion/completions/rikkovan

install: $(LIBRARY) $(PROGRAMS)
	install -d $(patsubst %/,'$(ROOT)/%',$(sort $(dir $(INSTALLED))))
	install -m 644 include/rikkovan.h '$(ROOT)/include'
	install -m 644 $(LIBRARY) '$(ROOT)/lib'
	install -m 755 $(PROGRAMS) '$(ROOT)/bin'
	install -m 644 man/lpset.1 man/rikkovan.1 '$(ROOT)/share/man/man1'
	install -m 644 man/rikkovan.3 '$(ROOT)/share/man/man3'
	install -m 644 program/completion.bash '$(ROOT)/share/bash-completion/completions/rikkovan'
	sed -e 's|@PREFIX@|$(PREFIX)|' -e 's|@VERSION@|$(VERSION)|' tools/rikkovan.pc.in \
		>'$(ROOT)/lib/pkgconfig/rikkovan.pc'

# Folders stay, since others may use them.
uninstall:
	rm -f $(INSTALLED:%='$(ROOT)/%')

clean:
	rm -rf build target bindings/rust/target oracle/target crates/*/out
