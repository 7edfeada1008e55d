# Builds and installs the library for C, C++, Rust and Python: docs/LIBRARY.md says how to use it.
#
#   make                  proves the crates and makes out/libvex.a, out/libvex.so and out/vex.pc
#   make check            tests them from each language
#   make install          puts program, libraries, header and vex.pc below DESTDIR and PREFIX
#   make uninstall        takes them away again
#   make dist             makes an archive of what is installed, in out/
#   make clean            deletes what this file makes

PREFIX ?= /usr/local
CC ?= cc
CFLAGS ?= -O2
AR ?= ar
INSTALL ?= install
PYTHON ?= python3

VERSION := $(shell cat VERSION)
SONAME := libvex.so.0
bindir := $(PREFIX)/bin
libdir := $(PREFIX)/lib
includedir := $(PREFIX)/include
pcdir := $(libdir)/pkgconfig

HEADERS := include/vex.h include/vex_opcodes.h
SOURCES := HANDLES crates.txt $(shell find crates -name out -prune -o -type f \( -path '*/src/*' -o -path '*/specs/*' \
	-o -path '*/proofs/*' \) -print)
NAME := vex-$(VERSION)-$(shell uname -s | tr A-Z a-z)-$(shell uname -m)

.PHONY: all check install uninstall dist clean
.DELETE_ON_ERROR:

all: out/libvex.a out/libvex.so out/vex.pc

# What the crates were proved and built as; the check is in the crate's own out/.
crates/vex_c/out/libvex_c.a: $(SOURCES)
	cd crates/vex_c && rt lib
	touch $@

out/libvex.a: crates/vex_c/out/libvex_c.a tools/exported_names include/vex.h
	mkdir -p out
	tools/exported_names >out/exported_names
	$(CC) -r -nostdlib -o out/vex.o -Wl,--whole-archive crates/vex_c/out/libvex_c.a
	objcopy --keep-global-symbols=out/exported_names out/vex.o
	rm -f $@
	$(AR) rcsD $@ out/vex.o

out/$(SONAME): out/libvex.a
	tools/exported_names --map >out/vex.map
	$(CC) $(LDFLAGS) -shared -Wl,-soname,$(SONAME) -Wl,--version-script=out/vex.map -Wl,-z,defs -Wl,-z,noexecstack \
		-o $@ out/vex.o -lc

out/libvex.so: out/$(SONAME)
	ln -sf $(SONAME) $@

out/vex.pc: vex.pc.in Makefile
	mkdir -p out
	sed -e 's|@PREFIX@|$(PREFIX)|' -e 's|@VERSION@|$(VERSION)|' vex.pc.in >$@

check: all
	CC='$(CC)' CFLAGS='$(CFLAGS)' PYTHON='$(PYTHON)' tools/check_library

out/vex_tool: $(SOURCES) vex_tool
	./vex_tool --prove
	touch $@

install: all out/vex_tool
	$(INSTALL) -d $(DESTDIR)$(bindir) $(DESTDIR)$(libdir) $(DESTDIR)$(includedir) $(DESTDIR)$(pcdir)
	$(INSTALL) -m 755 out/vex_tool $(DESTDIR)$(bindir)/vex_tool
	$(INSTALL) -m 644 out/libvex.a $(DESTDIR)$(libdir)/libvex.a
	$(INSTALL) -m 755 out/$(SONAME) $(DESTDIR)$(libdir)/$(SONAME)
	ln -sf $(SONAME) $(DESTDIR)$(libdir)/libvex.so
	$(INSTALL) -m 644 $(HEADERS) $(DESTDIR)$(includedir)
	$(INSTALL) -m 644 out/vex.pc $(DESTDIR)$(pcdir)/vex.pc

uninstall:
	rm -f $(DESTDIR)$(bindir)/vex_tool $(DESTDIR)$(libdir)/libvex.a $(DESTDIR)$(libdir)/$(SONAME) \
		$(DESTDIR)$(libdir)/libvex.so $(DESTDIR)$(pcdir)/vex.pc \
		$(foreach header,$(notdir $(HEADERS)),$(DESTDIR)$(includedir)/$(header))

dist: all out/vex_tool
	rm -rf out/$(NAME)
	$(MAKE) install DESTDIR= PREFIX=$(CURDIR)/out/$(NAME)
	sed -e 's|@PREFIX@|$${pcfiledir}/../..|' -e 's|@VERSION@|$(VERSION)|' vex.pc.in >out/$(NAME)/lib/pkgconfig/vex.pc
	$(INSTALL) -m 644 docs/LIBRARY.md $(wildcard LICENSE) out/$(NAME)
	rt version >out/$(NAME)/PROVED_WITH
	cd out/$(NAME) && find . -type f ! -name SHA256SUMS | LC_ALL=C sort | xargs sha256sum >SHA256SUMS
	tar --sort=name --owner=0 --group=0 --numeric-owner --mtime=@0 -C out -czf out/$(NAME).tar.gz $(NAME)

clean:
	rm -rf out/libvex.a out/libvex.so out/$(SONAME) out/vex.o out/vex.pc out/vex.map out/exported_names out/vex-* \
		out/library
