# Builds, checks, installs and packs krbtool and the library for C.
#
#   make                  krbtool, libfevstunik.a and libfevstunik.so, in build/
#   make check            all proofs and tests, as ./test runs them
#   make generate         the files that are made of tables (tools/generate): the header, lists of symbols, the manual page and others
#   make install          below DESTDIR and PREFIX (/usr/local), libraries in LIBDIR; without DESTDIR it runs ldconfig, if root
#   make uninstall        removes what install put there, and the folders of these files that are empty then
#   make dist             a tarball of what was built, with checksums, for people without the toolchain
#   make dist-src         a tarball of the sources, as they are committed
#   make wheel            a package for pip, which has the shared library inside
#   make clean            removes build/ and what packing left
#   make distclean        removes also the proofs and what they built (crates/*/out): all that isn't source

VERSION := $(shell packaging/version)
PREFIX ?= /usr/local
LIBDIR ?= $(PREFIX)/lib
DOCDIR ?= $(PREFIX)/share/doc/fevstunik
ZSHDIR ?= $(PREFIX)/share/zsh/site-functions
BINDIR = $(DESTDIR)$(PREFIX)/bin
INCLUDEDIR = $(DESTDIR)$(PREFIX)/include
SHARE = $(DESTDIR)$(PREFIX)/share
MANDIR = $(SHARE)/man
BASH_COMPLETION = $(SHARE)/bash-completion/completions/krbtool
ZSH_COMPLETION = $(DESTDIR)$(ZSHDIR)/_krbtool
TO_LIB = $(DESTDIR)$(LIBDIR)
TO_DOC = $(DESTDIR)$(DOCDIR)
# What install may have made and no system has from the start; inner folders first.
FOLDERS = $(NEWER:%=$(TO_LIB)/glibc-hwcaps/%) $(TO_LIB)/glibc-hwcaps $(TO_LIB)/pkgconfig $(MANDIR)/man1 $(MANDIR)/man3 \
  $(SHARE)/bash-completion/completions $(SHARE)/bash-completion $(DESTDIR)$(ZSHDIR) $(SHARE)/zsh \
  $(TO_DOC)/examples/negotiate $(TO_DOC)/examples/service $(TO_DOC)/examples/sign $(TO_DOC)/examples $(TO_DOC)/docs $(TO_DOC)/bench $(TO_DOC)/tests $(TO_DOC) $(SHARE)/doc
# The loader finds a new library when its cache has it. (A library that is staged for packing isn't in use yet.)
RUN_LDCONFIG = [ -n "$(DESTDIR)" ] || [ "$$(id -u)" != 0 ] || ldconfig
BUILD := build
# The libraries of the first kind run on every x86-64. The loader takes a shared library for a newer processor by itself.
NEWER := x86-64-v2 x86-64-v3
# krbtool has the proved code in these builds, and picks one when it starts.
PROGRAMS := $(BUILD)/x86-64/krbtool.o $(BUILD)/x86-64-v2/krbtool.o
# (the tests' programs are no part of what is built)
SOURCES := $(shell find crates \( -path '*/out' -o -path 'crates/krb_calls_*' \) -prune -o -type f \( -name '*.rt' -o -name '*.antt' \) -print) crates.txt
# What overwrites keys, around the proved code.
WIPING := $(wildcard packaging/wiping/*)
LIBRARIES := $(BUILD)/x86-64/libfevstunik.a $(NEWER:%=$(BUILD)/%/libfevstunik.a)
MANUALS := $(wildcard docs/man/*.[1-8])
# The documents link to each other, and the manual pages name them: they are installed in the folders in which they are here.
DOCUMENTS := README.md CHANGELOG.md CONTRIBUTING.md SECURITY.md bench/README.md tests/README.md $(wildcard docs/*.md)
EXAMPLES := $(shell find examples -name __pycache__ -prune -o -type f -print | LC_ALL=C sort)

.PHONY: all check generate install uninstall dist dist-src wheel clean distclean
all: $(BUILD)/krbtool $(LIBRARIES) $(BUILD)/NOTICES

generate:
	python3 -m tools.generate

# The program and the library are built side by side. What both stand on is proved in one run.
MAKEFLAGS += --jobs=2

$(BUILD)/proved-krbtool $(BUILD)/proved-krb_c &: $(SOURCES) packaging/prove
	packaging/prove --below krbtool krb_c
	mkdir -p $(BUILD) && touch $(BUILD)/proved-krbtool $(BUILD)/proved-krb_c

# (A crate's out/ has what was proved for one kind, and the next goes on from that: so kinds are built one after another, and the program beside the
# library.)
$(BUILD)/x86-64-v2/krbtool.o: | $(BUILD)/x86-64/krbtool.o
$(BUILD)/x86-64/libkrb_c.a: | $(BUILD)/x86-64-v2/libkrb_c.a
$(BUILD)/x86-64-v3/libkrb_c.a: | $(BUILD)/x86-64/libkrb_c.a
$(PROGRAMS): $(BUILD)/%/krbtool.o: $(BUILD)/proved-krbtool packaging/program.py packaging/archive.py
	flock $(BUILD)/.building-krbtool packaging/program.py $* $@

$(BUILD)/krbtool: $(PROGRAMS) packaging/link-program $(WIPING)
	packaging/link-program $@ $(PROGRAMS)

$(LIBRARIES:%/libfevstunik.a=%/libkrb_c.a): $(BUILD)/%/libkrb_c.a: $(BUILD)/proved-krb_c packaging/archive.py
	flock $(BUILD)/.building packaging/archive.py $* $@

$(BUILD)/%/libfevstunik.a: $(BUILD)/%/libkrb_c.a packaging/link-library packaging/depths.py packaging/fevstunik.map include/fevstunik.h $(WIPING)
	packaging/link-library $* $(BUILD)/$* $(VERSION)

$(BUILD)/NOTICES: crates.txt packaging/notices.py
	packaging/notices.py $@

check:
	./test

install: all
	install -D -m 755 $(BUILD)/krbtool $(BINDIR)/krbtool
	install -D -m 644 packaging/completion/krbtool.bash $(BASH_COMPLETION)
	install -D -m 644 packaging/completion/_krbtool $(ZSH_COMPLETION)
	install -D -m 644 include/fevstunik.h $(INCLUDEDIR)/fevstunik.h
	install -D -m 644 packaging/fevstunik.pc.in $(TO_LIB)/pkgconfig/fevstunik.pc
	sed -i 's|@PREFIX@|$(PREFIX)|; s|@LIBDIR@|$(LIBDIR)|; s|@VERSION@|$(VERSION)|' $(TO_LIB)/pkgconfig/fevstunik.pc
	install -D -m 644 $(BUILD)/x86-64/libfevstunik.a $(TO_LIB)/libfevstunik.a
	install -D -m 644 $(BUILD)/x86-64/libfevstunik.so.$(VERSION) $(TO_LIB)/libfevstunik.so.$(VERSION)
	ln -sf libfevstunik.so.$(VERSION) $(TO_LIB)/libfevstunik.so.0
	ln -sf libfevstunik.so.0 $(TO_LIB)/libfevstunik.so
	for cpu in $(NEWER); do \
	  install -D -m 644 $(BUILD)/$$cpu/libfevstunik.so.$(VERSION) $(TO_LIB)/glibc-hwcaps/$$cpu/libfevstunik.so.$(VERSION) && \
	  ln -sf libfevstunik.so.$(VERSION) $(TO_LIB)/glibc-hwcaps/$$cpu/libfevstunik.so.0 || exit; \
	done
	for page in $(MANUALS); do \
	  install -D -m 644 $$page $(MANDIR)/man$${page##*.}/$${page##*/} || exit; \
	done
	for file in $(DOCUMENTS) $(EXAMPLES); do \
	  if [ -x $$file ]; then mode=755; else mode=644; fi; \
	  install -D -m $$mode $$file $(TO_DOC)/$$file || exit; \
	done
	install -D -m 644 $(BUILD)/NOTICES $(TO_DOC)/NOTICES
	$(RUN_LDCONFIG)

uninstall:
	rm -f $(BASH_COMPLETION) $(ZSH_COMPLETION)
	rm -f $(BINDIR)/krbtool $(INCLUDEDIR)/fevstunik.h $(TO_LIB)/pkgconfig/fevstunik.pc $(TO_LIB)/libfevstunik.a
	rm -f $(TO_LIB)/libfevstunik.so $(TO_LIB)/libfevstunik.so.0 $(TO_LIB)/libfevstunik.so.$(VERSION)
	rm -f $(NEWER:%=$(TO_LIB)/glibc-hwcaps/%/libfevstunik.so.0) $(NEWER:%=$(TO_LIB)/glibc-hwcaps/%/libfevstunik.so.$(VERSION))
	for page in $(MANUALS); do rm -f $(MANDIR)/man$${page##*.}/$${page##*/}; done
	rm -f $(addprefix $(TO_DOC)/,$(DOCUMENTS) $(EXAMPLES) NOTICES)
	for folder in $(FOLDERS); do [ ! -d $$folder ] || rmdir --ignore-fail-on-non-empty $$folder; done
	$(RUN_LDCONFIG)

dist: all
	+packaging/dist $(VERSION) $(BUILD)

dist-src:
	packaging/dist-src $(VERSION) $(BUILD)

wheel: all
	packaging/wheel.py $(VERSION) $(BUILD)

# (the tests leave the others, if they are stopped)
clean:
	rm -rf $(BUILD) .pybuild python/build python/fevstunik.egg-info .build-*
	find bench examples packaging python tests -name __pycache__ -prune -exec rm -rf {} +

distclean: clean
	rm -rf crates/*/out crates/krb_calls_*/stdin crates/krb_calls_*/stdout .pytest_cache .mypy_cache

# ---- for contributors ----
PYTEST := /usr/bin/python3 -m pytest
SHELL_FILES := test krbtool packaging/build-library packaging/link-library packaging/link-program packaging/dist packaging/dist-src packaging/prove packaging/commit packaging/version

.PHONY: help lint test
help:
	@echo 'make              builds krbtool and the library for C (it proves them first)'
	@echo 'make install      installs them; the top of the Makefile has PREFIX, LIBDIR and others'
	@echo 'make check        proves, builds and tests everything: ./test'
	@echo 'make test         runs the tests of what is built'
	@echo 'make test T=NAME  runs the tests whose names contain NAME'
	@echo 'make lint         checks the layout of Python, C and shell, and looks for common mistakes'
	@echo 'make dist         packs what was built; make dist-src packs the sources, make wheel the Python package'

test:
	$(PYTEST) $(if $(T),-k '$(T)',-n auto --dist loadgroup) tests

lint:
	flake8 bench examples packaging python tests tools
	clang-format --dry-run --Werror $$(git ls-files 'tests/peers/*.[ch]' 'tests/support/*.[ch]' 'tests/context/*.[ch]' 'examples/service/*.[ch]' 'examples/sign/*.[ch]')
	shellcheck --severity=warning --exclude=SC2164 $(SHELL_FILES)
