# A release of Hocsimbur for Linux: libraries, header, man pages, documentation, examples and the command ./hocsimbur; on x86-64 also the
# programs. Needs cc and make; the command needs Python 3.9 or newer.
#
#   make check                        the checksums, the example by both libraries, a program and the command, against their stored lines;
#                                     with CC a cross compiler, RUN is what runs the example
#   make install PREFIX=/usr/local    also LIBDIR, INCLUDEDIR, MANDIR, BINDIR, PYTHONDIR, DESTDIR; uninstall takes the same
PREFIX ?= /usr/local
LIBDIR ?= $(PREFIX)/lib
INCLUDEDIR ?= $(PREFIX)/include
MANDIR ?= $(PREFIX)/share/man
BINDIR ?= $(PREFIX)/bin
PYTHONDIR ?= $(PREFIX)/share/hocsimbur
CC ?= cc
CFLAGS ?= -O2
LDFLAGS ?=
RUN ?=
VERSION = @VERSION@
SONAME = libhocsimbur.so.$(firstword $(subst ., ,$(VERSION)))
SHARED = libhocsimbur.so.$(VERSION)
PROGRAMS = $(notdir $(wildcard bin/*))

.PHONY: all check install uninstall clean

all: build/panel build/panel-shared

build/panel: examples/panel.c include/hocsimbur.h lib/libhocsimbur.a
	mkdir -p build
	$(CC) $(CFLAGS) $(LDFLAGS) -Iinclude examples/panel.c lib/libhocsimbur.a -o $@

build/panel-shared: examples/panel.c include/hocsimbur.h lib/$(SHARED)
	mkdir -p build
	cp lib/$(SHARED) build/$(SONAME)
	ln -sf $(SONAME) build/libhocsimbur.so
	$(CC) $(CFLAGS) $(LDFLAGS) -Iinclude examples/panel.c -Lbuild -lhocsimbur -Wl,-rpath,'$$ORIGIN' -o $@

check: all
	sha256sum --quiet -c SHA256SUMS
	for panel in build/panel build/panel-shared; do \
	    $(RUN) $$panel examples/sample.csv | cmp - examples/panel/sample.out || exit 1; \
	    $(RUN) $$panel examples/panel/refused.csv > build/lines; test $$? -eq 1 || exit 1; \
	    cmp build/lines examples/panel/refused.out || exit 1; \
	done
	test ! -e bin/verdict || bin/verdict < examples/sample.csv | cmp - examples/sample.verdicts
	test -n "$(RUN)" || ! command -v python3 > /dev/null || ./hocsimbur verdict --csv examples/sample.csv | cmp - examples/sample.verdicts
	@echo "hocsimbur $(VERSION): checked"

install:
	rm -rf $(DESTDIR)$(PYTHONDIR)/hocsimbur
	mkdir -p $(DESTDIR)$(INCLUDEDIR) $(DESTDIR)$(LIBDIR)/pkgconfig $(DESTDIR)$(MANDIR)/man1 $(DESTDIR)$(MANDIR)/man3 $(DESTDIR)$(BINDIR) \
	    $(DESTDIR)$(PYTHONDIR)/hocsimbur
	cp include/hocsimbur.h $(DESTDIR)$(INCLUDEDIR)/
	cp lib/libhocsimbur.a lib/$(SHARED) $(DESTDIR)$(LIBDIR)/
	ln -sf $(SHARED) $(DESTDIR)$(LIBDIR)/$(SONAME)
	ln -sf $(SONAME) $(DESTDIR)$(LIBDIR)/libhocsimbur.so
	cp man/man3/hocsimbur.3 $(DESTDIR)$(MANDIR)/man3/
	cp man/man1/hocsimbur.1 $(DESTDIR)$(MANDIR)/man1/
	for package in . sheets portfolio report command; do \
	    mkdir -p $(DESTDIR)$(PYTHONDIR)/hocsimbur/$$package && \
	    cp python/hocsimbur/$$package/*.py $(DESTDIR)$(PYTHONDIR)/hocsimbur/$$package/ || exit 1; \
	done
	cp python/hocsimbur/py.typed $(DESTDIR)$(PYTHONDIR)/hocsimbur/
	ln -sf $(LIBDIR)/$(SONAME) $(DESTDIR)$(PYTHONDIR)/hocsimbur/$(SONAME)
	sed 's|@PYTHONDIR@|$(PYTHONDIR)|' python/hocsimbur.in > $(DESTDIR)$(BINDIR)/hocsimbur
	chmod 755 $(DESTDIR)$(BINDIR)/hocsimbur
	for program in $(PROGRAMS); do cp bin/$$program $(DESTDIR)$(BINDIR)/hocsimbur-$$program || exit 1; done
	for name in hocsimbur hocsimbur-static; do \
	    sed 's|@PREFIX@|$(PREFIX)|; s|@LIBDIR@|$(LIBDIR)|; s|@INCLUDEDIR@|$(INCLUDEDIR)|; s|@VERSION@|$(VERSION)|' lib/$$name.pc.in \
	        > $(DESTDIR)$(LIBDIR)/pkgconfig/$$name.pc || exit 1; \
	done

uninstall:
	rm -rf $(DESTDIR)$(PYTHONDIR)/hocsimbur
	rm -f $(DESTDIR)$(INCLUDEDIR)/hocsimbur.h $(DESTDIR)$(LIBDIR)/libhocsimbur.a $(DESTDIR)$(LIBDIR)/$(SHARED) $(DESTDIR)$(LIBDIR)/$(SONAME) \
	    $(DESTDIR)$(LIBDIR)/libhocsimbur.so $(DESTDIR)$(MANDIR)/man3/hocsimbur.3 $(DESTDIR)$(LIBDIR)/pkgconfig/hocsimbur.pc \
	    $(DESTDIR)$(LIBDIR)/pkgconfig/hocsimbur-static.pc $(PROGRAMS:%=$(DESTDIR)$(BINDIR)/hocsimbur-%) $(DESTDIR)$(BINDIR)/hocsimbur \
	    $(DESTDIR)$(MANDIR)/man1/hocsimbur.1

clean:
	rm -rf build
