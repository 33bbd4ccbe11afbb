# ft4sh: `make` proves and builds the program and runs the demonstration, `make test` is every proof and test, with the edits that must fail
# of the crates where something changed, `make wrong-bodies` tries such edits alone, `make test-all` is everything from nothing, and
# `make install` copies the program, its manual and its manual page.
PREFIX ?= /usr/local
export RT ?= rt
# How many checks `make` runs side by side: one a processor, where 5 GB of memory are free for each. `make test` hands it on only where it is
# given: by itself `rt ci` gives the processors that no other crate waits for to one proof, and looks at the memory.
RT_JOBS ?= $(or $(shell RT='$(RT)' tests/gate/prove --jobs),1)
# `make wrong-bodies CRATE=ft_line` tries the edits of that crate, whatever is written of it.
CRATE ?=

CRATES := $(shell sed -n 's/^\([a-z0-9_]*\):.*/\1/p' crates.txt)
LIBRARIES := $(filter-out $(patsubst crates/%/src/main.rt,%,$(wildcard crates/*/src/main.rt)),$(CRATES))
# The crates of the repository that a crate stands on.
below = $(filter $(CRATES),$(shell sed -n 's/^$(1)://p' crates.txt))
side_by_side = $(MAKE) --no-print-directory -j$(RT_JOBS) RT_JOBS=$(RT_JOBS)

.PHONY: all build demo test test-all wrong-bodies install clean $(CRATES:%=prove-%)

all: demo

# Proves the program and the crates below it, and builds it.
build:
	$(side_by_side) $(addprefix prove-,$(call below,ft_main))
	cd crates/ft_main && $(RT) run --jobs 1 < stdin > /dev/null
	mkdir -p bin
	cp crates/ft_main/out/ft_main bin/ft4sh

# How many processors a check takes from nothing: one, but more where four crates fit side by side and little else is left to prove: beside
# ft_index and ft_files hardly anything is, and beside ft_program nothing.
processors = 1
several = $(if $(filter 1 2 3,$(RT_JOBS)),1,$(1))
prove-ft_index: private processors = $(call several,2)
prove-ft_files: private processors = $(call several,2)
prove-ft_program: private processors = $(call several,4)

# `prove-NAME` proves a library, after those that it stands on.
$(foreach it,$(CRATES),$(eval prove-$(it): $(addprefix prove-,$(call below,$(it)))))
$(LIBRARIES:%=prove-%): prove-%:
	@tests/gate/prove $* $(processors)

# Loads the log of a harbour, searches it and changes it: examples/search.sql.
demo: build
	@cd examples && ../bin/ft4sh < search.sql

# Every proof from nothing, the tests, the program as two compilers build it, and the edits that must fail of each crate where something
# changed since they were refused; then what the program that this left writes for the cases of tests/, the examples of the manual and the
# demonstration; and, where there are a C compiler and Python, the program with each of its allocations refused, stopped at each of its
# writes, killed, and over damaged files.
test:
	tests/gate/run

# The same with the edits of every crate.
test-all:
	tests/gate/run --all

# Tries the edits that must fail of the crates where something changed since they were refused, and writes where all were refused.
wrong-bodies:
	@crates="$(or $(CRATE),$$(tests/wrong-bodies --stale))"; [ -z "$$crates" ] || $(side_by_side) $$(printf 'prove-%s ' $$crates)
	tests/wrong-bodies $(CRATE)

install: build
	mkdir -p "$(DESTDIR)$(PREFIX)/bin" "$(DESTDIR)$(PREFIX)/share/man/man1" "$(DESTDIR)$(PREFIX)/share/doc/ft4sh"
	cp bin/ft4sh "$(DESTDIR)$(PREFIX)/bin/ft4sh"
	awk -f docs/man.awk docs/MANUAL.md > "$(DESTDIR)$(PREFIX)/share/man/man1/ft4sh.1"
	cp docs/MANUAL.md docs/FORMATS.md CHANGELOG.md examples/* "$(DESTDIR)$(PREFIX)/share/doc/ft4sh/"

clean:
	rm -rf bin crates/*/out
