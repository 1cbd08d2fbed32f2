# make demo       proves and builds the program, target/bin/drain, and runs it on the printed sheet of document 01
# make test       the gate: .ci/run
# make lib        build/libtervuola.a
# make install PREFIX=/usr/local    archive, header, pkg-config file
# make examples   build/minimal, build/ponds, build/culverts, build/sides, build/shape, build/write, build/stream, build/crews, build/tile
# make bench      ratios to the expert's C (bench/run 12 1000 for other sides)
# README.md says what each needs. CC, CXX, CFLAGS and DESTDIR are respected.
PREFIX ?= /usr/local
CFLAGS ?= -O2
ifeq ($(origin CC),default)
CC = gcc
endif
export CC CXX
VERSION := $(shell sed -n 's/^.define TERVUOLA_VERSION_[A-Z]* //p' include/tervuola.h | paste -sd.)
# folders too, so that a file that was taken away counts; not out/, which the kit makes
SOURCES := crates.txt $(shell find $(wildcard crates/*/src crates/*/specs crates/*/proofs))
LIBRARY = build/libtervuola.a
.PHONY: demo test tests lib install bench examples compiler second clean
.NOTPARALLEL:
.DELETE_ON_ERROR:

demo: target/bin/drain
	@echo "the printed sheet of document 01, and its elevations:"
	@examples/tables <crates/drain/stdin
	@echo "what target/bin/drain prints for it, and the four sheets in decimal:"
	@target/bin/drain <crates/drain/stdin | examples/tables

target/bin/drain: $(SOURCES)
	@.ci/prove drain "where nothing is proved yet, an hour of processor time"

test:
	@.ci/run

# what .ci/run runs beside `rt ci`
tests: second
	@tests/run

second:
	@$(MAKE) --no-print-directory -C tests/second

lib: $(LIBRARY)
	@echo $(LIBRARY)

$(LIBRARY): $(SOURCES)
	@tests/library >/dev/null

# an archive that is there is installed without the kit, or refused
install:
	@if [ ! -e $(LIBRARY) ]; then $(MAKE) --no-print-directory lib; \
	elif ! $(MAKE) --no-print-directory -q $(LIBRARY); then echo "$(LIBRARY) is older than the sources: run make lib" >&2; exit 1; fi
	install -d "$(DESTDIR)$(PREFIX)/lib/pkgconfig" "$(DESTDIR)$(PREFIX)/include"
	install -m 644 $(LIBRARY) "$(DESTDIR)$(PREFIX)/lib/"
	install -m 644 include/tervuola.h "$(DESTDIR)$(PREFIX)/include/"
	@printf '%s\n' "prefix=$(PREFIX)" 'Name: tervuola' 'Description: proved drainage of elevation sheets' 'Version: $(VERSION)' \
	    'Cflags: -I"$${prefix}/include"' 'Libs: -L"$${prefix}/lib" -ltervuola' >"$(DESTDIR)$(PREFIX)/lib/pkgconfig/tervuola.pc"

examples: compiler build/minimal build/ponds build/culverts build/sides build/shape build/write build/stream build/crews build/tile

compiler:
	@.ci/need $(firstword $(CC))

build/minimal build/ponds build/culverts build/sides build/shape build/write build/stream build/crews build/tile: build/%: examples/%.c include/tervuola.h $(LIBRARY)
	$(CC) -std=c99 $(CFLAGS) -Wall -Wextra -Wpedantic -Iinclude -o $@ $< $(LIBRARY) -lm

bench:
	@bench/run

clean:
	rm -rf target build crates/*/out tests/bin tests/second/bin bench/bin bench/data
