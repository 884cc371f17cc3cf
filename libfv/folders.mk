# SPDX-License-Identifier: BSD-2-Clause-Patent
# The target `folders` refuses the name of a folder, as in `make install PREFIX=..`, if it has a character that a shell,
# make, pkg-config or CMake reads as something else. A space and letters of any language are allowed.
FOLDERS := PREFIX DESTDIR BINDIR MANDIR DOCDIR DATADIR BASHDIR ZSHDIR INCLUDEDIR LIBDIR PYTHONDIR LIBDOCDIR TOOLDIR
# Only the shell sees the values, as they were given. The defaults are made from PREFIX.
export FOLDERS_GIVEN := $(foreach it,$(FOLDERS),$(if $(filter command environment,$(firstword $(origin $(it)))),$(value $(it))))

.PHONY: folders
folders:
	@if printf %s "$$FOLDERS_GIVEN" | LC_ALL=C grep -qz '[]["'\''$$\\`#%&|;<>*?(){}!^[:cntrl:]]'; then \
	    printf 'a folder has a character that is not allowed in its name: %s\n' "$$FOLDERS_GIVEN" >&2; exit 2; fi
