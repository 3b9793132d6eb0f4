# Builds the C library and the report program, and puts the library where a host's build finds it.
#
#   make                    target/staticlib/libbrentivex.a and target/bin/report
#   make install            the library, the header and the pkg-config file, under PREFIX in DESTDIR
#   make test               the gate
#   make report             the report on DRAWING
VERSION = 0.1.0
PREFIX ?= /usr/local
DESTDIR ?=
DRAWING = examples/bracket.drawing

library = target/staticlib/libbrentivex.a
program = target/bin/report
sources = crates.txt $(shell find crates -name out -prune -o -type f -print)
root = $(DESTDIR)$(PREFIX)

.PHONY: all install test report
# Both builds prove the crates below them first, so no two at once.
.NOTPARALLEL:

all: $(library) $(program)

# rt writes to the folder of a crate, from where `rt ci` takes it away. Without --cpu the archive would be for newer
# processors than the header says.
$(library): $(sources)
	cd crates/brentivex && rt lib --cpu x86-64
	install -D -m 644 crates/brentivex/out/libbrentivex.a $@

# rt builds a program where it runs it.
$(program): $(sources)
	cd crates/report && rt run < stdin > /dev/null
	install -D crates/report/out/report $@

install: $(library)
	install -d "$(root)/lib/pkgconfig" "$(root)/include"
	install -m 644 $(library) "$(root)/lib/libbrentivex.a"
	install -m 644 include/brentivex.h "$(root)/include/brentivex.h"
	sed -e 's|@PREFIX@|$(PREFIX)|' -e 's|@VERSION@|$(VERSION)|' packaging/brentivex.pc.in \
	    > "$(root)/lib/pkgconfig/brentivex.pc"

test:
	.ci/run

report: $(program)
	$(program) < $(DRAWING)
