# Builds, installs and tests Maxeltu; `make help` lists the targets. A tool is asked for only by the targets that use it.
PREFIX ?= /usr/local
CC ?= cc
CFLAGS ?= -O2 -std=c11 -Wall -Wextra -Werror

LIB = target/staticlib/libmaxeltu.a
EVENPLAN = target/bin/evenplan
LOADER = build/loader

# What rt builds from. Folders stand among them, so that a source taken away counts too; the must-fail edits build nothing, and out/ is
# what rt made.
SOURCES := crates.txt $(shell find crates -mindepth 2 \( -name must-fail -o -name out \) -prune -o -print)

.PHONY: all lib evenplan loader demo test check bench install uninstall clean help need-rt need-gcc need-cargo
.DELETE_ON_ERROR:
# A run of rt waits for another in the same crates.
.NOTPARALLEL:

all: $(LOADER) $(EVENPLAN)

lib: $(LIB)
evenplan: $(EVENPLAN)
loader: $(LOADER)

# need TOOL, WHAT IT IS: stops with that where the tool is not on the path.
need = command -v $(1) >/dev/null || { echo "make: there is no $(1) on the path. It is $(2)" >&2; exit 1; }
is_rt = the Rattle kit, which proves and builds: for all, lib, loader, evenplan, demo, install, test, check and bench
is_cc = the C compiler of the loader: for all, loader and install; CC names another
is_gcc = the C compiler of the tests: for test, check and bench
is_cargo = Rust's, and builds the tests and the benchmark: for test, check and bench
need-rt: ; @$(call need,rt,$(is_rt))
need-gcc: ; @$(call need,gcc,$(is_gcc))
need-cargo: ; @$(call need,cargo,$(is_cargo))

# prove WORD, CRATE, LOG: rt WORD in the crate's folder, with what it says kept in the log, of which the end is shown where it fails. It proves
# the crate and those below it first, where that has not been done.
define prove
@$(call need,rt,$(is_rt))
@mkdir -p build $(@D)
@echo "rt $(1) in crates/$(2) (log: $(3))"
@(cd crates/$(2) && rt $(1) </dev/null) >$(3) 2>&1 || { tail -n 30 $(3); echo "make: rt $(1) failed; $(3) has all that it said" >&2; exit 1; }
endef

# The static library for C, with include/maxeltu.h.
$(LIB): $(SOURCES)
	$(call prove,lib,maxeltu_c,build/lib.log)
	@cp crates/maxeltu_c/out/libmaxeltu_c.a $@

# The program, which rt links and then runs, here on no input.
$(EVENPLAN): $(SOURCES)
	$(call prove,run,evenplan,build/evenplan.log)
	@cp crates/evenplan/out/evenplan $@

# The C loader over the library. Its C is compiled first: a compiler that is missing shows before anything is proved.
$(LOADER): build/loader.o $(LIB)
	@$(call need,$(firstword $(CC)),$(is_cc))
	$(CC) $(CFLAGS) $(LDFLAGS) -o $@ $^

build/loader.o: loader/loader.c include/maxeltu.h
	@$(call need,$(firstword $(CC)),$(is_cc))
	@mkdir -p build
	$(CC) $(CFLAGS) -Iinclude -c -o $@ $<

# The even plan of a sample specification: gap, reports in a period and total, then each report's number, minute and size.
demo: $(EVENPLAN)
	@$(EVENPLAN) <samples/b15.spec

# Every proof, every must-fail edit and every test: the same as .ci/run.
test check: need-rt need-gcc need-cargo
	@.ci/run

# Ratios against hand-written C and the literal reference, measured in one run.
bench: need-gcc need-cargo $(LIB)
	@bench/run

install: all
	install -d "$(DESTDIR)$(PREFIX)/lib" "$(DESTDIR)$(PREFIX)/include" "$(DESTDIR)$(PREFIX)/bin"
	install -m 644 $(LIB) "$(DESTDIR)$(PREFIX)/lib/"
	install -m 644 include/maxeltu.h "$(DESTDIR)$(PREFIX)/include/"
	install -m 755 $(LOADER) "$(DESTDIR)$(PREFIX)/bin/maxeltu-loader"
	install -m 755 $(EVENPLAN) "$(DESTDIR)$(PREFIX)/bin/"

uninstall:
	rm -f "$(DESTDIR)$(PREFIX)/lib/libmaxeltu.a" "$(DESTDIR)$(PREFIX)/include/maxeltu.h"
	rm -f "$(DESTDIR)$(PREFIX)/bin/maxeltu-loader" "$(DESTDIR)$(PREFIX)/bin/evenplan"

clean:
	rm -rf target build tests/target bench/target crates/*/out

help:
	@echo 'make            the library for C ($(LIB)), the loader and the program evenplan'
	@echo 'make demo       the even plan of a sample specification'
	@echo 'make test       every proof, every edit that must be refused, every test (also: make check)'
	@echo 'make lib        the library alone;  make loader, make evenplan: these alone'
	@echo 'make bench      speed against hand-written C and against the literal search'
	@echo 'make install    library, header, maxeltu-loader and evenplan below DESTDIR and PREFIX;  make uninstall'
	@echo 'make clean      removes all that was built'
