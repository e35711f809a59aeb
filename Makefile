# The C side of the library: its archive, and where it is installed.
#
#   make                          builds target/staticlib/libnetkat.a, if it is missing or older than a file of crates/ (needs the Rattle kit)
#   make install PREFIX=/usr/local    header, archive, netkat.pc and the pages that the header names, with the example; DESTDIR is put before every path
#   make uninstall PREFIX=/usr/local
#   make test                     tests/run.sh
#   make stack                    the lines on stack of include/netkat.h, measured anew
#
# NETKAT_LIB=FILE takes that archive instead of building one.
PREFIX ?= /usr/local
prefix := $(abspath $(PREFIX))
INCLUDEDIR ?= $(prefix)/include
LIBDIR ?= $(prefix)/lib
PKGCONFIGDIR ?= $(LIBDIR)/pkgconfig
DOCDIR ?= $(prefix)/share/doc/netkat
CC ?= cc

built := target/staticlib/libnetkat.a
lib := $(or $(NETKAT_LIB),$(built))
pages := docs/FORMAT.md docs/REFUSALS.md docs/TERMS.md examples/c/desugar.c LICENSE NOTICE
# The header has the version: its lines for major, minor and patch, in this order.
version := $(shell sed -n 's/^.define NETKAT_VERSION_[A-Z]* \([0-9]*\)$$/\1/p' include/netkat.h | paste -sd . -)

.PHONY: lib install uninstall test stack
lib: $(lib)

# The static library is the crate netkat_c, over the library netkat; what rt makes lies in out/.
$(built): crates.txt $(shell find crates -name out -prune -o -type f -print)
	@command -v rt > /dev/null || { \
	    echo 'libnetkat.a is missing or older than crates/, and the Rattle kit (rt), which builds it, is not here.' >&2; \
	    echo 'With an archive from elsewhere: make ... NETKAT_LIB=path/to/libnetkat.a' >&2; exit 1; }
	cd crates/netkat_c && rt lib
	@mkdir -p $(@D)
	cp crates/netkat_c/out/libnetkat_c.a $@

install: $(lib)
	install -d '$(DESTDIR)$(INCLUDEDIR)' '$(DESTDIR)$(LIBDIR)' '$(DESTDIR)$(PKGCONFIGDIR)' '$(DESTDIR)$(DOCDIR)'
	install -m 644 include/netkat.h '$(DESTDIR)$(INCLUDEDIR)/netkat.h'
	install -m 644 '$(lib)' '$(DESTDIR)$(LIBDIR)/libnetkat.a'
	install -m 644 $(pages) '$(DESTDIR)$(DOCDIR)'
	printf '%s\n' 'prefix=$(prefix)' 'includedir=$(patsubst $(prefix)/%,$${prefix}/%,$(INCLUDEDIR))' \
	    'libdir=$(patsubst $(prefix)/%,$${prefix}/%,$(LIBDIR))' '' 'Name: netkat' \
	    'Description: From a written NetKAT policy to its one-bit core' 'Version: $(version)' \
	    'Libs: -L$${libdir} -lnetkat' 'Cflags: -I$${includedir}' > '$(DESTDIR)$(PKGCONFIGDIR)/netkat.pc'

uninstall:
	rm -f '$(DESTDIR)$(INCLUDEDIR)/netkat.h' '$(DESTDIR)$(LIBDIR)/libnetkat.a' '$(DESTDIR)$(PKGCONFIGDIR)/netkat.pc' \
	    $(patsubst %,'$(DESTDIR)$(DOCDIR)/%',$(notdir $(pages)))

test: $(lib)
	NETKAT_LIB='$(lib)' bash tests/run.sh

stack: $(lib)
	@mkdir -p target
	@$(CC) -std=c11 -O1 -pthread tests/stack.c '$(lib)' -o target/stack
	@target/stack define
