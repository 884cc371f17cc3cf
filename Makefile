# SPDX-License-Identifier: BSD-2-Clause-Patent
# Builds, installs and packs the program fvtool and the library libfv. docs/INSTALL.md says what goes where.
#
#   make                  proves and builds the program and the library if sources have changed: out/ and libfv/out/
#   make try              runs the program over a volume
#   make check            does `make try`, and the checks that prove nothing (tests/run.py). The gate is .ci/run
#   make install          after `make`: installs the program, the tools that use it, manual pages, completion, documents
#   make install-lib      after `make`: installs the library, with files for pkg-config, CMake and Python
#   make uninstall        removes the installed program and the installed library
#   make dist             makes out/capstanolive-VERSION.tar.gz from the files of the last commit
#   make release          after `.ci/run --strict`: makes dist/ with all files of a release, which tools/verify can
#                         make again and compare
#   make version          writes VERSION into the files that show it
#   make clean            removes out/ and libfv/out/, but not the results of proofs
#
# `make install PREFIX=/usr DESTDIR=folder` puts the files for /usr into folder/usr. The targets that install prove
# nothing, and write nothing into this folder.
MAKEFLAGS += --no-builtin-rules
# With it, `cd` in a recipe could go to another folder.
unexport CDPATH
# The scripts in Python leave no compiled modules in this folder.
export PYTHONDONTWRITEBYTECODE := 1
VERSION := $(shell cat VERSION)
OUT ?= out
DIST ?= dist
PREFIX ?= /usr/local
BINDIR ?= $(PREFIX)/bin
MANDIR ?= $(PREFIX)/share/man
DOCDIR ?= $(PREFIX)/share/doc/fvtool
DATADIR ?= $(PREFIX)/share/fvtool
BASHDIR ?= $(PREFIX)/share/bash-completion/completions
ZSHDIR ?= $(PREFIX)/share/zsh/site-functions
OBJCOPY ?= objcopy
INSTALL ?= install

# The program and the library to install are by default those that `make` or rt ci has built. PROGRAM=FILE names another
# program, for example one that tools/static has made, and ARCHIVE=FILE another library.
BUILT := crates/fv_tool/out/fv_tool
PROGRAM ?= $(BUILT)
BUILT_ARCHIVE := crates/fv_c/out/libfv_c.a
ARCHIVE ?= $(BUILT_ARCHIVE)
# The folders are listed too, so that a removed file counts as a change.
SOURCES := crates.txt $(shell find crates/fv_*/src crates/fv_*/specs crates/fv_*/proofs)
DOCUMENTS := tools/installed.md CHANGELOG.md SECURITY.md docs/PROGRAM.md docs/FAULTS.md tools/copyright
# In BINDIR, the commands of the Python package are links to the installed LAUNCHER. LAUNCHER, the package and the
# library have the same places below DATADIR as in this folder, so that they find each other. fvmap was the name of
# fv-map in 1.0.
LAUNCHER := python/bin/run
COMMANDS = $(shell python3 -B python/backend.py commands) fvmap
# This calls libfv/Makefile, which defines INCLUDEDIR, LIBDIR and PYTHONDIR, with the variables of this run. Its targets
# `install-tools` and `uninstall-tools` are for the parts of the library that the tools need.
CLIB := $(MAKE) --no-print-directory -f libfv/Makefile PREFIX="$(PREFIX)" DESTDIR="$(DESTDIR)" LIBFV="$(ARCHIVE)" \
    TOOLDIR="$(DATADIR)/clib"

include libfv/folders.mk

.PHONY: all try check install install-lib uninstall dist release version clean FORCE
.DEFAULT_GOAL := all
all: $(OUT)/fvtool $(ARCHIVE)
	+$(CLIB) OUT=libfv/out lib

# Both commands prove nothing if a source has a newer date but the same bytes. They leave a file that is newer than its
# sources.
$(BUILT): $(SOURCES)
	tools/prove.py fv_tool

$(BUILT_ARCHIVE): $(SOURCES)
	tools/prove.py fv_c

# Makes FOLDER/fvtool from the program: removes its symbols, and adds a section that names the version. The section is
# not loaded, so the bytes that run are the bytes that were proved and built. `strings` shows the version.
shipped = rm -f $(1)/fvtool $(1)/version && printf 'fvtool %s\0' "$(VERSION)" > $(1)/version && \
    $(OBJCOPY) --strip-unneeded --remove-section=.comment --add-section=.fvtool.version=$(1)/version "$(PROGRAM)" $(1)/fvtool

# This file is made each time, because PROGRAM may have changed.
$(OUT)/fvtool: $(PROGRAM) VERSION FORCE
	mkdir -p "$(OUT)"
	$(call shipped,"$(OUT)")

try: $(OUT)/fvtool
	"$(OUT)/fvtool" < crates/fv_tool/stdin | cmp - crates/fv_tool/stdout
	test "$$("$(OUT)/fvtool" check --hex crates/fv_tool/stdin)" = canonical

check: try
	MAKEFLAGS= tests/run.py --quick

# Writes pages to a folder, with the folders of this run in place of those of a package.
page = tools/page --places "$(DOCDIR)" "$(DATADIR)" "$(BINDIR)/"

# With -T, a folder in the place of a file, or a link to a folder, is not taken for the folder of the file: a link is
# replaced, and a folder stops make.
install: folders
	@if [ "$(PROGRAM)" = "$(BUILT)" ]; then tools/prove.py --is-made fv_tool; fi
	@if [ "$(ARCHIVE)" = "$(BUILT_ARCHIVE)" ]; then tools/prove.py --is-made fv_c; fi
	$(INSTALL) -d "$(DESTDIR)$(BINDIR)" "$(DESTDIR)$(MANDIR)/man1" "$(DESTDIR)$(DOCDIR)"
	$(INSTALL) -d "$(DESTDIR)$(BASHDIR)" "$(DESTDIR)$(ZSHDIR)" "$(DESTDIR)$(DATADIR)"
	+room=$$(mktemp -d) && $(call shipped,"$$room") && $(INSTALL) -T -m 755 "$$room/fvtool" "$(DESTDIR)$(BINDIR)/fvtool" && \
	    $(CLIB) OUT="$$room" install-tools; status=$$?; rm -rf "$$room"; exit $$status
	$(INSTALL) -D -T -m 755 $(LAUNCHER) "$(DESTDIR)$(DATADIR)/clib/$(LAUNCHER)"
	for it in $(COMMANDS); do ln -srfT "$(DESTDIR)$(DATADIR)/clib/$(LAUNCHER)" "$(DESTDIR)$(BINDIR)/$$it" || exit; done
	$(page) "$(DESTDIR)$(DOCDIR)" $(DOCUMENTS)
	$(page) "$(DESTDIR)$(DATADIR)" tools/gitconfig
	python3 -B python/manual.py "$(DESTDIR)$(MANDIR)/man1" "$(DOCDIR)"
	$(INSTALL) -T -m 644 tools/completion.bash "$(DESTDIR)$(BASHDIR)/fvtool"
	$(INSTALL) -T -m 644 tools/completion.zsh "$(DESTDIR)$(ZSHDIR)/_fvtool"
	for it in $(COMMANDS); do { cat tools/commands.bash; echo "complete -o default -F _fv $$it"; } | \
	    $(INSTALL) -T -m 644 /dev/stdin "$(DESTDIR)$(BASHDIR)/$$it" || exit; done
	printf '#compdef %s\n_gnu_generic\n' "$(COMMANDS)" | $(INSTALL) -T -m 644 /dev/stdin "$(DESTDIR)$(ZSHDIR)/_fv"

install-lib: folders
	@if [ "$(ARCHIVE)" = "$(BUILT_ARCHIVE)" ]; then tools/prove.py --is-made fv_c; fi
	+room=$$(mktemp -d) && $(CLIB) OUT="$$room" install; status=$$?; rm -rf "$$room"; exit $$status

# Other packages may use the same folders, so this removes only the installed files, and then the folders of fvtool that
# are empty.
uninstall: folders
	rm -f $(foreach it,fvtool $(COMMANDS),"$(DESTDIR)$(BINDIR)/$(it)")
	rm -f $(foreach it,fvtool $(COMMANDS),"$(DESTDIR)$(BASHDIR)/$(it)") $(foreach it,_fvtool _fv,"$(DESTDIR)$(ZSHDIR)/$(it)")
	rm -f $(foreach it,fvtool $(COMMANDS),"$(DESTDIR)$(MANDIR)/man1/$(it).1")
	rm -f $(foreach it,README.md $(filter-out installed.md,$(notdir $(DOCUMENTS))),"$(DESTDIR)$(DOCDIR)/$(it)")
	rm -f $(foreach it,gitconfig clib/$(LAUNCHER),"$(DESTDIR)$(DATADIR)/$(it)")
	[ ! -d "$(DESTDIR)$(DATADIR)/clib/$(dir $(LAUNCHER))" ] || rmdir --ignore-fail-on-non-empty "$(DESTDIR)$(DATADIR)/clib/$(dir $(LAUNCHER))"
	+$(CLIB) uninstall uninstall-tools
	for it in "$(DESTDIR)$(DATADIR)" "$(DESTDIR)$(DOCDIR)"; do \
	    [ ! -d "$$it" ] || rmdir --ignore-fail-on-non-empty "$$it"; done

dist:
	mkdir -p "$(OUT)"
	git archive --format=tar.gz --prefix=capstanolive-$(VERSION)/ --output="$(OUT)/capstanolive-$(VERSION).tar.gz" HEAD

release:
	tools/statement --is-complete
	MAKEFLAGS= tools/release "$(DIST)"

# Python and Debian write a version under development in their own forms, which tools/version knows.
version:
	tools/version --write

clean:
	rm -rf "$(OUT)" libfv/out
