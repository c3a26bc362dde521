# For programs in C: both libraries, the header, pkg-config files and the man pages; the example, what tests and times the entries,
# and a release for a customer without the Rattle kit. For people: the command hocsimbur, a package in Python.
#
#   make                              the libraries and the example; ./hocsimbur then runs from here
#   make demo                         builds what is missing, prints the sample's verdicts, writes the desk page and a report
#   make test                         the gate, .ci/run
#   make install PREFIX=/usr/local    also LIBDIR, INCLUDEDIR, MANDIR, BINDIR, PYTHONDIR, DESTDIR; uninstall takes the same
#   make targets                      the library for Windows, Linux on aarch64 and WebAssembly (host/targets.mk)
#   make desk                         target/desk/hocsimbur.html: the desk page, one file
#   make wheel                        target/wheel/hocsimbur-VERSION-py3-none-PLATFORM.whl, with the library inside
#   make dist                         target/dist/hocsimbur-VERSION-PLATFORM.tar.gz or .zip
#   make check                        what the gate runs of it; make check-targets for the other platforms
PREFIX ?= /usr/local
LIBDIR ?= $(PREFIX)/lib
INCLUDEDIR ?= $(PREFIX)/include
MANDIR ?= $(PREFIX)/share/man
BINDIR ?= $(PREFIX)/bin
PYTHONDIR ?= $(PREFIX)/share/hocsimbur
PYTHON ?= python3
CC ?= cc
CXX ?= c++
CFLAGS ?= -O2
LDFLAGS ?=
STRICT = -Wall -Wextra -Werror -pedantic -std=c11 -Iinclude
SANITIZED = -g -O1 -fsanitize=address,undefined -fno-sanitize-recover=all

NUMBER := $(shell sed -n 's/^.define HOCSIMBUR_VERSION \([0-9]*\).*/\1/p' include/hocsimbur.h)
VERSION := $(shell echo $$(($(NUMBER) / 10000)).$$(($(NUMBER) / 100 % 100)).$$(($(NUMBER) % 100)))
SONAME = libhocsimbur.so.$(firstword $(subst ., ,$(VERSION)))
SHARED = libhocsimbur.so.$(VERSION)

OUT = target/host
WASM_FILES = target/wasm32/hocsimbur.wasm target/wasm32/hocsimbur.mjs
DESK_TESTS = words pieces drawings built
# three archives, so that the rows are compiled by themselves: what the compiler inlines for them does not hang on the other entries
ARCHIVES = target/staticlib/libc_entry.a target/staticlib/libc_questions.a target/staticlib/libc_lines.a
# what is proved: a change of it makes archives and programs anew
SOURCES := crates.txt $(shell find crates -name out -prune -o \( -name '*.rt' -o -name '*.antt' \) -print)
# the crates that are built here, and what each is built from: rattle's own command over the libraries in crates/*/out/rlib, which `rt check`
# and `rt ci` leave; it proves the crate, and none below it. `rt lib` and `rt run` would prove every crate below once more after `rt ci`,
# whose libraries have no stamp of theirs. rattle would compile for processors from 2009 on; this is for every processor.
STATIC = c_entry_c c_questions_c c_lines_c
TESTED = $(PROGRAMS) questions sheets
BUILD = bash $(CURDIR)/.ci/in_memory $(KIT)/bin/rattle build --crate-name $(1) src/$(2).rt --cpu x86-64 \
    --extern std=$(KIT)/rlibs/std.rlib -L dependency=$(KIT)/rlibs \
    $$(for name in $$(sed -n 's/^$(1)\( staticlib\)\{0,1\}: //p' ../../crates.txt); do echo --extern $$name=../$$name/out/rlib/$$name.rlib; done) \
    $$(for folder in ../*/out/rlib; do echo -L dependency=$$folder; done) \
    --antt-project $(KIT)/rattle/logic/antt-project.json --logic-built $(KIT)/logic_built
STATIC_LIBRARY = $(OUT)/libhocsimbur.a
SHARED_LIBRARY = $(OUT)/$(SHARED)
HARNESS = $(addprefix host/, harness.c random.c sheets.c serve.c times.c stack.c edges.c cases.c doubles.c)
HEADERS = host/cases.h host/harness.h include/hocsimbur.h
LIBS = -lm -pthread
# the one list of wrong entries: the cases of host/wrong.c
WRONG := $(shell sed -n 's/^    case WRONG_\([a-z_]*\):.*/\1/p' host/wrong.c)
WRAP = -Wl,--wrap=hocsimbur_rows,--wrap=hocsimbur_rows_at

# what a customer gets beside the libraries
PROGRAMS = verdict rows margins summary fewest carry carry_back
PLATFORMS = linux-x86_64 linux-aarch64 windows-x86_64 wasm32

.NOTPARALLEL:
.PHONY: all libraries programs demo test desk install uninstall clean dist wheel panel harness sanitized wrong wrong-names check check-python check-desk

all: libraries panel

libraries: $(STATIC_LIBRARY) $(SHARED_LIBRARY)

# status 2 is an answer: a season is unsafe, a station is held
demo: libraries desk
	@HOCSIMBUR_LIBRARY= ./hocsimbur verdict tests/sample.csv || [ $$? -eq 2 ]
	@HOCSIMBUR_LIBRARY= ./hocsimbur report examples/portfolio.csv --licence examples/licence.csv -o target/portfolio.html || [ $$? -eq 2 ]
	@echo 'open in a browser: target/desk/hocsimbur.html (the desk page) and target/portfolio.html (the report)'

test:
	bash .ci/run

$(STATIC_LIBRARY): $(ARCHIVES)
	rm -rf $(OUT)/objects
	mkdir -p $(OUT)/objects
	for archive in $(abspath $(ARCHIVES)); do (cd $(OUT)/objects && ar x $$archive) || exit 1; done
	rm -f $@
	ar rcsD $@ $(OUT)/objects/*.o

# the entries of host/symbols.txt and nothing else
$(OUT)/hocsimbur.map: host/symbols.txt include/hocsimbur.h
	mkdir -p $(OUT)
	{ printf 'HOCSIMBUR_%s {\n    global:\n' $(firstword $(subst ., ,$(VERSION))); \
	  sed 's/.*/        &;/' host/symbols.txt; \
	  printf '    local:\n        *;\n};\n'; } > $@

$(SHARED_LIBRARY): $(STATIC_LIBRARY) $(OUT)/hocsimbur.map
	$(CC) $(LDFLAGS) -shared -Wl,-soname,$(SONAME) -Wl,--version-script=$(OUT)/hocsimbur.map -Wl,-z,defs,-z,text,-z,now \
	    -Wl,--whole-archive $(STATIC_LIBRARY) -Wl,--no-whole-archive -o $@
	ln -sf $(SHARED) $(OUT)/$(SONAME)
	ln -sf $(SONAME) $(OUT)/libhocsimbur.so

$(OUT)/panel: examples/panel.c include/hocsimbur.h $(STATIC_LIBRARY)
	$(CC) $(STRICT) $(CFLAGS) $(LDFLAGS) examples/panel.c $(STATIC_LIBRARY) -o $@

$(OUT)/harness: $(HARNESS) $(HEADERS) $(STATIC_LIBRARY)
	$(CC) $(STRICT) $(CFLAGS) $(LDFLAGS) $(HARNESS) $(STATIC_LIBRARY) $(LIBS) -o $@

$(OUT)/sanitized: $(HARNESS) $(HEADERS) $(STATIC_LIBRARY)
	$(CC) $(STRICT) $(SANITIZED) $(LDFLAGS) $(HARNESS) $(STATIC_LIBRARY) $(LIBS) -o $@

$(OUT)/wrong-%: host/wrong.c $(OUT)/harness.o $(STATIC_LIBRARY)
	$(CC) $(STRICT) $(CFLAGS) $(LDFLAGS) -DWRONG=WRONG_$* $(WRAP) host/wrong.c $(OUT)/harness.o $(STATIC_LIBRARY) $(LIBS) -o $@

# the harness once, for every wrong entry
$(OUT)/harness.o: $(HARNESS) $(HEADERS)
	mkdir -p $(OUT)
	$(CC) $(STRICT) $(CFLAGS) -r -nostdlib $(HARNESS) -o $@

panel: $(OUT)/panel
harness: $(OUT)/harness
sanitized: $(OUT)/sanitized
wrong: $(WRONG:%=$(OUT)/wrong-%)
wrong-names:
	@echo $(WRONG)

install: libraries
	rm -rf $(DESTDIR)$(PYTHONDIR)/hocsimbur
	install -d $(DESTDIR)$(INCLUDEDIR) $(DESTDIR)$(LIBDIR)/pkgconfig $(DESTDIR)$(MANDIR)/man1 $(DESTDIR)$(MANDIR)/man3 \
	    $(DESTDIR)$(BINDIR) $(DESTDIR)$(PYTHONDIR)/hocsimbur
	install -m 644 include/hocsimbur.h $(DESTDIR)$(INCLUDEDIR)/hocsimbur.h
	install -m 644 $(STATIC_LIBRARY) $(DESTDIR)$(LIBDIR)/libhocsimbur.a
	install -m 755 $(SHARED_LIBRARY) $(DESTDIR)$(LIBDIR)/$(SHARED)
	ln -sf $(SHARED) $(DESTDIR)$(LIBDIR)/$(SONAME)
	ln -sf $(SONAME) $(DESTDIR)$(LIBDIR)/libhocsimbur.so
	install -m 644 host/hocsimbur.3 $(DESTDIR)$(MANDIR)/man3/hocsimbur.3
	for name in hocsimbur hocsimbur-static; do \
	    sed 's|@PREFIX@|$(PREFIX)|; s|@LIBDIR@|$(LIBDIR)|; s|@INCLUDEDIR@|$(INCLUDEDIR)|; s|@VERSION@|$(VERSION)|' host/$$name.pc.in \
	        > $(DESTDIR)$(LIBDIR)/pkgconfig/$$name.pc || exit 1; \
	done
	install -m 644 host/hocsimbur.1 $(DESTDIR)$(MANDIR)/man1/hocsimbur.1
	for package in . sheets portfolio report command; do \
	    install -d $(DESTDIR)$(PYTHONDIR)/hocsimbur/$$package && \
	    install -m 644 python/hocsimbur/$$package/*.py $(DESTDIR)$(PYTHONDIR)/hocsimbur/$$package || exit 1; \
	done
	install -m 644 python/hocsimbur/py.typed $(DESTDIR)$(PYTHONDIR)/hocsimbur
	ln -sf $(LIBDIR)/$(SONAME) $(DESTDIR)$(PYTHONDIR)/hocsimbur/$(SONAME)
	! command -v $(PYTHON) > /dev/null || $(PYTHON) -m compileall -q $(DESTDIR)$(PYTHONDIR)/hocsimbur
	sed 's|@PYTHONDIR@|$(PYTHONDIR)|' host/hocsimbur.in > $(DESTDIR)$(BINDIR)/hocsimbur
	chmod 755 $(DESTDIR)$(BINDIR)/hocsimbur

uninstall:
	rm -rf $(DESTDIR)$(PYTHONDIR)/hocsimbur
	rm -f $(DESTDIR)$(INCLUDEDIR)/hocsimbur.h $(DESTDIR)$(LIBDIR)/libhocsimbur.a $(DESTDIR)$(LIBDIR)/$(SHARED) $(DESTDIR)$(LIBDIR)/$(SONAME) \
	    $(DESTDIR)$(LIBDIR)/libhocsimbur.so $(DESTDIR)$(MANDIR)/man3/hocsimbur.3 $(DESTDIR)$(LIBDIR)/pkgconfig/hocsimbur.pc \
	    $(DESTDIR)$(LIBDIR)/pkgconfig/hocsimbur-static.pc $(DESTDIR)$(MANDIR)/man1/hocsimbur.1 $(DESTDIR)$(BINDIR)/hocsimbur

clean:
	rm -rf $(OUT) $(BITCODE) $(WINDOWS) $(AARCH64) $(WASM) target/toolchain target/objects target/proved target/desk target/dist target/wheel $(ARCHIVES)

wheel: libraries targets
	$(PYTHON) python/make_wheel.py $(VERSION) linux-x86_64 $(SHARED_LIBRARY) target/wheel
	$(PYTHON) python/make_wheel.py $(VERSION) linux-aarch64 $(AARCH64)/$(SHARED) target/wheel
	$(PYTHON) python/make_wheel.py $(VERSION) windows-x86_64 $(WINDOWS)/hocsimbur.dll target/wheel

# the desk page: the modules, the style, the command's words and the library in one file
desk: target/desk/hocsimbur.html
target/desk/hocsimbur.html: $(WASM_FILES) $(shell find desk/src -type f) $(wildcard desk/*.py python/hocsimbur/*.py python/hocsimbur/*/*.py) \
    examples/portfolio.csv examples/licence.csv
	$(PYTHON) desk/build.py target/wasm32/hocsimbur.wasm $@

# the libraries below what is built here; the gate, whose `rt ci` has left them, only touches it
target/proved: $(SOURCES)
	for crate in $(STATIC) verdict questions sheets; do (cd crates/$$crate && bash $(CURDIR)/.ci/in_memory rt check) || exit 1; done
	mkdir -p target
	touch $@

target/bin/%: target/proved
	mkdir -p target/bin target/objects
	cd crates/$* && $(call BUILD,$*,main) --toolchain $(KIT)/toolchain -o $(abspath target/objects/$*.o)
	$(KIT)/bin/rattle-link --target x86_64-unknown-linux-gnu --toolchain $(KIT)/toolchain -o $@ target/objects/$*.o \
	    $(KIT)/c/libos_c.a $(KIT)/c/liblibc_c.a

programs: $(TESTED:%=target/bin/%)

dist: wheel desk $(PROGRAMS:%=target/bin/%)
	rm -rf target/dist
	for platform in $(PLATFORMS); do \
	    bash host/dist.sh $$platform target/dist/hocsimbur-$(VERSION)-$$platform $(VERSION) $(PROGRAMS) || exit 1; \
	done

check: libraries panel harness sanitized wrong
	bash host/check.sh
	$(MAKE) -s check-python

# the page's modules under node, against the command word for word; and whether the wrong changes that the tests must see can be put in
check-desk: libraries desk
	HOCSIMBUR_LIBRARY= $(PYTHON) desk/tests/expected.py > target/desk/expected.json
	EXPECTED=target/desk/expected.json node --test $(DESK_TESTS:%=desk/tests/%.mjs) > target/desk/tests \
	    || (cat target/desk/tests; exit 1)
	$(PYTHON) -B desk/tests/wrong.py --check
	@sed -n 's/^# pass /desk: tests that pass: /p' target/desk/tests

# the tests of the package ask the library that was built here
check-python: libraries
	HOCSIMBUR_LIBRARY= $(PYTHON) -m unittest discover -s python/tests -t python

include host/targets.mk
