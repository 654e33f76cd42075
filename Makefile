PREFIX ?= /usr/local
BINDIR ?= $(PREFIX)/bin
LIBDIR ?= $(PREFIX)/lib
INCLUDEDIR ?= $(PREFIX)/include
MANDIR ?= $(PREFIX)/share/man
BASHDIR ?= $(PREFIX)/share/bash-completion/completions
ZSHDIR ?= $(PREFIX)/share/zsh/site-functions
STRIP ?= strip

# What is installed; another program, or another folder that tools/build_library.sh made, may be named.
PROGRAM = bin/t1subset
LIB = lib
VERSION := $(shell sed -n '1s/.*"t1subset \([0-9.]*\)".*/\1/p' docs/t1subset.1)
SONAME := libt1subset.so.$(firstword $(subst ., ,$(VERSION)))
SHARED := libt1subset.so.$(VERSION)

.PHONY: all lib web install install-program uninstall dist test wrong-bodies clean
all: bin/t1subset

bin/t1subset: crates.txt $(shell find crates -name out -prune -o -type f -print)
	@tools/build.py
	install -D crates/t1subset/out/t1subset bin/t1subset

# The library for C. The crates below it are those of the program.
lib: lib/libt1subset.a

lib/libt1subset.a: bin/t1subset include/t1subset.h $(wildcard c/t1subset.*) tools/build_library.sh tools/build.py
	tools/build_library.sh lib

# The page of web/: the module, which stands in module.js.
web: web/module.js

web/module.js: bin/t1subset include/t1subset.h web/heap.c web/int128.c tools/build_web.sh tools/narrow_module.py tools/build.py
	tools/build_web.sh web

install: install-program $(LIB)/libt1subset.a docs/t1subset.3
	install -D -m 644 include/t1subset.h $(DESTDIR)$(INCLUDEDIR)/t1subset.h
	install -D -m 644 $(LIB)/libt1subset.a $(DESTDIR)$(LIBDIR)/libt1subset.a
	$(STRIP) --strip-debug --enable-deterministic-archives $(DESTDIR)$(LIBDIR)/libt1subset.a
	install -m 644 $(LIB)/$(SHARED) $(DESTDIR)$(LIBDIR)/$(SHARED)
	$(STRIP) --strip-unneeded $(DESTDIR)$(LIBDIR)/$(SHARED)
	ln -sf $(SHARED) $(DESTDIR)$(LIBDIR)/$(SONAME)
	ln -sf $(SONAME) $(DESTDIR)$(LIBDIR)/libt1subset.so
	install -d $(DESTDIR)$(LIBDIR)/pkgconfig
	prefix=$(PREFIX) libdir=$(LIBDIR) includedir=$(INCLUDEDIR); \
	    sed -e "s|@PREFIX@|$$prefix|" -e "s|@LIBDIR@|$$libdir|" -e "s|@INCLUDEDIR@|$$includedir|" -e "s|@VERSION@|$(VERSION)|" \
	    c/t1subset.pc.in > $(DESTDIR)$(LIBDIR)/pkgconfig/t1subset.pc
	chmod 644 $(DESTDIR)$(LIBDIR)/pkgconfig/t1subset.pc
	install -D -m 644 docs/t1subset.3 $(DESTDIR)$(MANDIR)/man3/t1subset.3

install-program: $(PROGRAM) docs/t1subset.1
	install -D $(PROGRAM) $(DESTDIR)$(BINDIR)/t1subset
	$(STRIP) --strip-unneeded $(DESTDIR)$(BINDIR)/t1subset
	install -D -m 644 docs/t1subset.1 $(DESTDIR)$(MANDIR)/man1/t1subset.1
	install -D -m 644 packaging/completions/t1subset.bash $(DESTDIR)$(BASHDIR)/t1subset
	install -D -m 644 packaging/completions/_t1subset $(DESTDIR)$(ZSHDIR)/_t1subset

uninstall:
	rm -f $(DESTDIR)$(BINDIR)/t1subset $(DESTDIR)$(MANDIR)/man1/t1subset.1 $(DESTDIR)$(MANDIR)/man3/t1subset.3
	rm -f $(DESTDIR)$(BASHDIR)/t1subset $(DESTDIR)$(ZSHDIR)/_t1subset
	rm -f $(DESTDIR)$(INCLUDEDIR)/t1subset.h $(DESTDIR)$(LIBDIR)/pkgconfig/t1subset.pc
	for name in libt1subset.a libt1subset.so $(SONAME) $(SHARED); do rm -f $(DESTDIR)$(LIBDIR)/$$name; done

# What can be installed without the toolchain: a tar file, and a Debian package.
dist: $(PROGRAM) $(LIB)/libt1subset.a
	tools/make_dist.sh $(PROGRAM) $(LIB) dist

test:
	.ci/run

# All wrong bodies, of which the gate tries those of tools/must-fail: before a release, and after a contract changes.
wrong-bodies:
	tools/wrong_bodies.py $(CRATES)

clean:
	rm -rf bin lib dist web/module.js crates/*/out
