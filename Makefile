# Installs the library from a built tree: run `tools/build luppaneth` first, which proves it. `make install PREFIX=/usr/local` puts there
#   include/luppaneth.h, include/luppaneth_file.h
#   lib/libluppaneth.a            the proved library, and with it the file layer, which is C and tested, not proved
#   lib/pkgconfig/luppaneth.pc
#   bin/luppaneth-outcomes, -page, -check, and their man pages
# DESTDIR is put before every path, as packagers need it.
PREFIX ?= /usr/local
DESTDIR ?=
CC ?= cc
AR ?= ar
CFLAGS ?= -O2
WARNINGS = -std=c11 -Wall -Wextra -Wconversion -pedantic

VERSION := $(shell cat VERSION)
PROVED ?= target/staticlib/libluppaneth.a
OUT = target/install
PROGRAMS = outcomes page check
HEADERS = include/luppaneth.h include/luppaneth_file.h

.PHONY: all install clean FORCE

all: $(OUT)/libluppaneth.a $(OUT)/luppaneth.pc $(PROGRAMS:%=$(OUT)/luppaneth-%) $(PROGRAMS:%=$(OUT)/luppaneth-%.1)

$(PROVED):
	@echo "make: $@ is missing: run 'tools/build luppaneth' first, which proves and builds it (README.md)" >&2; exit 1

$(OUT)/luppaneth_file.o: src/luppaneth_file.c $(HEADERS)
	@mkdir -p $(OUT)
	$(CC) $(WARNINGS) $(CFLAGS) -Iinclude -c $< -o $@

$(OUT)/libluppaneth.a: $(PROVED) $(OUT)/luppaneth_file.o
	cp $(PROVED) $@
	$(AR) rs $@ $(OUT)/luppaneth_file.o

$(OUT)/luppaneth-%: programs/%.c $(OUT)/libluppaneth.a $(HEADERS)
	$(CC) $(WARNINGS) $(CFLAGS) -Iinclude $< $(OUT)/libluppaneth.a -o $@

$(OUT)/luppaneth-%.1: programs/%.1 VERSION
	@mkdir -p $(OUT)
	sed 's/@VERSION@/$(VERSION)/' $< > $@

$(OUT)/luppaneth.pc: luppaneth.pc.in VERSION FORCE
	@mkdir -p $(OUT)
	sed 's|@PREFIX@|$(PREFIX)|; s|@VERSION@|$(VERSION)|' $< > $@

install: all
	install -d $(DESTDIR)$(PREFIX)/include $(DESTDIR)$(PREFIX)/lib/pkgconfig $(DESTDIR)$(PREFIX)/bin $(DESTDIR)$(PREFIX)/share/man/man1
	install -m 644 $(HEADERS) $(DESTDIR)$(PREFIX)/include
	install -m 644 $(OUT)/libluppaneth.a $(DESTDIR)$(PREFIX)/lib
	install -m 644 $(OUT)/luppaneth.pc $(DESTDIR)$(PREFIX)/lib/pkgconfig
	install -m 755 $(PROGRAMS:%=$(OUT)/luppaneth-%) $(DESTDIR)$(PREFIX)/bin
	install -m 644 $(PROGRAMS:%=$(OUT)/luppaneth-%.1) $(DESTDIR)$(PREFIX)/share/man/man1

# PREFIX may be another one than last time.
FORCE:

clean:
	rm -rf $(OUT)
