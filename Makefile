# make                          proves the library and writes target/staticlib/librail.a (needs the Rattle kit, rt)
# make check                    the tests of the header over it (tests/c/run)
# make install PREFIX=/usr/local DESTDIR=      header, library, rail.pc for pkg-config, documents and example
# make uninstall PREFIX=.. DESTDIR=..
# LIB_DIR=FOLDER                tries or installs the librail.a of that folder, built elsewhere: no rt is needed

VERSION = 0.2.0
PREFIX = /usr/local
DESTDIR =
LIB_DIR = target/staticlib
INSTALL = install

to = $(DESTDIR)$(PREFIX)
doc = $(to)/share/doc/rail
parts = $(notdir $(wildcard include/rail/*.h))
documents = CHANGELOG.md $(wildcard docs/*.md docs/changes/*.md) docs/desktop.svg docs/visible.svg
examples = $(wildcard examples/*)
sources = crates.txt $(shell find crates '(' -name must-fail -o -name out ')' -prune -o '(' -name '*.rt' -o -name '*.antt' ')' -print)

.PHONY: all check install uninstall

all: $(LIB_DIR)/librail.a

target/staticlib/librail.a: $(sources)
	@command -v rt >/dev/null 2>&1 || { \
	    echo "make: the Rattle kit is missing: there is no rt in the PATH." >&2; \
	    echo "make: it proves the library and compiles it. To try or install a librail.a that was built elsewhere: make install LIB_DIR=FOLDER" >&2; \
	    exit 1; }
	@echo "make: proves the library first; from nothing this took 16 minutes on four cores"
	cd crates/rail && rt lib
	@mkdir -p target/staticlib
	cp crates/rail/out/librail.a $@

check: $(LIB_DIR)/librail.a
	tests/c/run "$(LIB_DIR)"

install: $(LIB_DIR)/librail.a
	$(INSTALL) -d "$(to)/include/rail" "$(to)/lib/pkgconfig" "$(doc)/docs/changes" "$(doc)/examples"
	$(INSTALL) -m 644 include/rail.h "$(to)/include/rail.h"
	for part in $(parts); do $(INSTALL) -m 644 "include/rail/$$part" "$(to)/include/rail/$$part" || exit 1; done
	$(INSTALL) -m 644 "$(LIB_DIR)/librail.a" "$(to)/lib/librail.a"
	sed -e 's|@PREFIX@|$(PREFIX)|' -e 's|@VERSION@|$(VERSION)|' rail.pc.in >"$(to)/lib/pkgconfig/rail.pc"
	chmod 644 "$(to)/lib/pkgconfig/rail.pc"
	for file in $(documents) $(examples); do $(INSTALL) -m 644 "$$file" "$(doc)/$$file" || exit 1; done

uninstall:
	rm -f "$(to)/include/rail.h" "$(to)/lib/librail.a" "$(to)/lib/pkgconfig/rail.pc"
	for part in $(parts); do rm -f "$(to)/include/rail/$$part"; done
	for file in $(documents) $(examples); do rm -f "$(doc)/$$file"; done
	-rmdir "$(to)/include/rail" "$(doc)/docs/changes" "$(doc)/docs" "$(doc)/examples" "$(doc)" 2>/dev/null
