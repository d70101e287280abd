# For programs in C and C++: `make archive` proves and builds the archive (it needs the Rattle kit), and
# `make install PREFIX=/usr/local` installs it with the header and a file for pkg-config. No other target
# builds the archive, for that is a proof, and one older than its sources is not installed.
PREFIX ?= /usr/local
DESTDIR ?=
ROOT := $(patsubst %/,%,$(dir $(abspath $(lastword $(MAKEFILE_LIST)))))
HEADER := $(ROOT)/include/laea.h
VERSION := $(shell awk '$$2 == "LAEA_VERSION" { print int($$3 / 10000) "." int($$3 / 100) % 100 "." $$3 % 100 }' '$(HEADER)')
INTO := $(DESTDIR)$(abspath $(PREFIX))
INSTALLED := $(INTO)/lib/liblaea_c.a $(INTO)/include/laea.h $(INTO)/lib/pkgconfig/laea.pc

.PHONY: all archive check install uninstall

all:
	@folder=$$('$(ROOT)/scripts/archive') && echo "$$folder/liblaea_c.a is up to date; 'make install' installs it"

archive:
	cd '$(ROOT)/crates/laea_c' && rt lib

check:
	@'$(ROOT)/scripts/install-test'

install:
	@folder=$$('$(ROOT)/scripts/archive') && \
	install -d '$(INTO)/include' '$(INTO)/lib/pkgconfig' && \
	install -m 644 "$$folder/liblaea_c.a" '$(INTO)/lib/liblaea_c.a' && \
	install -m 644 '$(HEADER)' '$(INTO)/include/laea.h' && \
	sed 's|@PREFIX@|$(abspath $(PREFIX))|; s|@VERSION@|$(VERSION)|' '$(ROOT)/bindings/c/laea.pc.in' >'$(INTO)/lib/pkgconfig/laea.pc' && \
	chmod 644 '$(INTO)/lib/pkgconfig/laea.pc' && \
	ls $(INSTALLED:%='%')

uninstall:
	rm -f $(INSTALLED:%='%')
