# make                     proves the engine and builds the C library
# make install PREFIX=..   installs it: archive, header, pkg-config file, and the pages that a C programmer needs
# make check               the gate: everything from nothing
# The archive is compiled for x86-64, whatever machine builds it.
PREFIX ?= /usr/local
DESTDIR ?=
VERSION = $(shell cat VERSION)
ARCHIVE = target/staticlib/libfloodneedle.a
INSTALL ?= install
TO = $(DESTDIR)$(PREFIX)

.PHONY: all install check

all:
	tools/archive

install: all
	$(INSTALL) -d $(TO)/lib/pkgconfig $(TO)/include $(TO)/share/doc/floodneedle
	$(INSTALL) -m 644 $(ARCHIVE) $(TO)/lib/libfloodneedle.a
	$(INSTALL) -m 644 include/floodneedle.h $(TO)/include/floodneedle.h
	sed -e 's|@PREFIX@|$(PREFIX)|' -e 's|@VERSION@|$(VERSION)|' floodneedle.pc.in >$(TO)/lib/pkgconfig/floodneedle.pc
	$(INSTALL) -m 644 docs/CALLS.md docs/REFUSALS.md docs/MODEL.md docs/TREES.md docs/TABLE.md $(TO)/share/doc/floodneedle

check:
	bash .ci/run
