# Station sheets. `make help` lists what can be made.
prefix ?= /usr/local
PREFIX ?= $(prefix)
CC = gcc
CFLAGS = -std=c11 -Wall -Wextra -O2

sources := crates.txt $(shell find crates -name out -prune -o -type f -print)
archive := target/staticlib/libsuite.a
# another archive, built elsewhere, is used as it is, and what is linked with it is kept apart; its name may have a blank
ARCHIVE ?= $(archive)
linked := $(if $(filter-out $(archive),$(ARCHIVE)),target/given,target)
made := $(if $(filter-out $(archive),$(ARCHIVE)),given,$(archive))
header := include/zamiathen.h
# the header alone says the version
first := $(shell sed -n 's/^\#define ZAMIATHEN_VERSION_FIRST \([0-9]*\)$$/\1/p' $(header))
version := $(first).$(shell sed -n 's/^\#define ZAMIATHEN_VERSION_SECOND \([0-9]*\)$$/\1/p' $(header))
platform := $(shell uname -m)-$(shell uname -s | tr A-Z a-z)
package := zamiathen-$(version)-$(platform)
shared := $(linked)/lib/libzamiathen.so.$(first)
command := $(linked)/bin/zamiathen
programs := target/bin/enter target/bin/replay $(command)
# the extension for SQLite is built where its header is, and left out elsewhere
has_sqlite := $(shell $(CC) -E -x c -include sqlite3ext.h /dev/null >/dev/null 2>&1 && echo yes)
extension := $(if $(wildcard sql/sqlite.c),$(if $(has_sqlite),$(linked)/lib/zamiathen_sqlite.so))

# stops where a tool is missing, with what it is for: $(call needs,TOOL,what it does,what works without it)
needs = @command -v $(firstword $(1)) >/dev/null || { echo "$(firstword $(1)) is not found: it $(2). Without it: $(3)." >&2; exit 1; }
# the same for SQLite's header, with what is done then: $(call needs_sqlite,COMMAND)
needs_sqlite = @[ -n "$(has_sqlite)" ] || { echo "sqlite3ext.h is not found (Debian: libsqlite3-dev): it declares what the extension for SQLite calls. Without it: all but that extension, tests/database and bench/database." >&2; $(1); }
needs_cc = $(call needs,$(CC),compiles the examples and links the shared library,make and make replay)

.DELETE_ON_ERROR:
.PHONY: all help demo counts replay test bench install uninstall dist clean given
all: $(archive) $(command) $(extension)

help:
	@echo "make             proves and builds the archive with the C functions, $(archive), the command $(command), and the extension for SQLite where sqlite3ext.h is"
	@echo "make demo        the same, and runs the example station through the command (examples/demo.sh)"
	@echo "make counts      the same, and prints what an edit does to every small sheet (examples/small)"
	@echo "make replay      proves and builds the program replay, and runs the example station's week of edits again through it"
	@echo "make test        the gate: proves every crate, tries the must-fail edits, runs all tests"
	@echo "make bench       times and instructions of each call, and of a region of sheets, beside plain Rust on the same inputs (needs rustc and valgrind)"
	@echo "make install     command, manual page, archive, shared library, extension for SQLite with its schema, header, pkg-config file, guides, bindings and examples, under PREFIX or prefix ($(PREFIX)); DESTDIR is put before it;"
	@echo "                 ARCHIVE=FILE takes a built archive, and nothing is proved"
	@echo "make uninstall   removes these"
	@echo "make dist        a tar file of them and of the programs, target/$(package).tar.gz, which installs without the kit"
	@echo "make clean       removes target/"

target/staticlib/lib%.a: $(sources)
	@tools/build archive $*
	@touch $@

target/bin/%: $(sources)
	@tools/build program $*
	@touch $@

$(command): $(wildcard tools/*.[ch]) $(header) $(made)
	$(needs_cc)
	@mkdir -p $(@D)
	@$(CC) $(CFLAGS) -Wpedantic -Iinclude tools/*.c "$(ARCHIVE)" -o $@

$(linked)/lib/zamiathen_sqlite.so: sql/sqlite.c $(header) $(made)
	$(needs_cc)
	$(call needs_sqlite,exit 1)
	@mkdir -p $(@D)
	@$(CC) $(CFLAGS) -Wpedantic -shared -fPIC -Iinclude sql/sqlite.c "$(ARCHIVE)" -Wl,--exclude-libs,ALL -o $@

given:
	@[ -f "$(ARCHIVE)" ] || { echo "ARCHIVE: there is no file $(ARCHIVE)" >&2; exit 1; }

$(shared): $(made) tools/exported.map
	$(needs_cc)
	@mkdir -p $(@D)
	@$(CC) -shared -nostartfiles -Wl,-soname,libzamiathen.so.$(first) -Wl,--version-script,tools/exported.map -Wl,--no-undefined \
	    -Wl,--whole-archive "$(ARCHIVE)" -Wl,--no-whole-archive -lc -o $@

demo: $(command)
	@examples/demo.sh target/demo.svg

target/counts: examples/counts.c $(header) $(archive)
	$(needs_cc)
	@$(CC) $(CFLAGS) -Iinclude examples/counts.c $(archive) -o $@

counts: target/counts
	@target/counts examples/small/book.bin examples/small/edit.bin

# the lines, without the sheet that follows them
replay: target/bin/replay
	@examples/pack.sh examples/station/sheet.bin examples/station/book.bin --log examples/station/week.bin > target/replay.in || { rm -f target/replay.in; exit 1; }
	@target/bin/replay < target/replay.in > target/replayed || { rm -f target/replayed; exit 1; }
	@head -c -8704 target/replayed

test:
	$(call needs,rt,proves the crates,tests/bindings and tests/install run on a built archive)
	$(call needs,rustc,builds the reference that the tests compare with,all but make test and make bench)
	$(call needs,cargo,builds the Rust binding,all but make test)
	$(call needs,python3,runs the tests,all but make test)
	.ci/run

bench: $(archive)
	$(call needs,rustc,builds the bench,all but make test and make bench)
	$(call needs,valgrind,counts instructions,all but make bench)
	bench/run

install: $(made) $(shared) $(command) $(extension)
	$(call needs_sqlite,true)
	@tools/stage target/stage "$(ARCHIVE)" $(shared) $(version) $(command) $(extension)
	@DESTDIR="$(DESTDIR)" target/stage/install.sh "$(PREFIX)"

uninstall:
	@DESTDIR="$(DESTDIR)" tools/install.sh --remove "$(PREFIX)"

dist: $(made) $(shared) $(programs) $(extension)
	$(call needs_sqlite,true)
	@tools/stage target/$(package) "$(ARCHIVE)" $(shared) $(version) $(programs) $(extension)
	@tools/proved target/$(package) "$(ARCHIVE)" > target/$(package)/PROVED || { rm -rf target/$(package); exit 1; }
	@tar -C target --sort=name --owner=0 --group=0 --numeric-owner -czf target/$(package).new $(package) || { rm -f target/$(package).new; exit 1; }
	@mv target/$(package).new target/$(package).tar.gz
	@echo "target/$(package).tar.gz"

clean:
	rm -rf target
