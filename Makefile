# Builds and installs the library for C and C++: headers, archive, files for pkg-config and CMake, and the licence.
#
#   make                              ./archive: target/libion_map.a
#   make install PREFIX=/usr/local    (DESTDIR, LIBDIR, INCLUDEDIR and DOCDIR as usual)
#   make uninstall PREFIX=/usr/local
#
# ARCHIVE may name an archive that is already made; then nothing is proved.

PREFIX = /usr/local
LIBDIR = $(PREFIX)/lib
INCLUDEDIR = $(PREFIX)/include
DOCDIR = $(PREFIX)/share/doc/ion_map
MADE = target/libion_map.a
ARCHIVE = $(MADE)
VERSION = $(shell sed -n 's/^.define ION_MAP_VERSION "\(.*\)"$$/\1/p' include/ion_map.h)

# Where each file goes. Those of PKGCONFIG and CMAKE are made of a file of include/ with .in behind its name.
HEADERS = ion_map.h ion_map_kit.h
PKGCONFIG = ion_map.pc
CMAKE = ion_map-config.cmake ion_map-config-version.cmake
DOCUMENTS = LICENSE NOTICE
PKGCONFIGDIR = $(LIBDIR)/pkgconfig
CMAKEDIR = $(LIBDIR)/cmake/ion_map
FILLED = sed -e 's|@PREFIX@|$(PREFIX)|' -e 's|@LIBDIR@|$(LIBDIR)|' -e 's|@INCLUDEDIR@|$(INCLUDEDIR)|' -e 's|@VERSION@|$(VERSION)|'

all:
	./archive

$(MADE): include/ion_map.h $(wildcard crates/*/src/*.rt)
	./archive

install: $(ARCHIVE)
	install -d '$(DESTDIR)$(INCLUDEDIR)' '$(DESTDIR)$(PKGCONFIGDIR)' '$(DESTDIR)$(CMAKEDIR)' '$(DESTDIR)$(DOCDIR)'
	install -m 644 $(HEADERS:%=include/%) '$(DESTDIR)$(INCLUDEDIR)'
	install -m 644 '$(ARCHIVE)' '$(DESTDIR)$(LIBDIR)/libion_map.a'
	install -m 644 $(DOCUMENTS) '$(DESTDIR)$(DOCDIR)'
	set -e; for file in $(PKGCONFIG); do $(FILLED) include/$$file.in >'$(DESTDIR)$(PKGCONFIGDIR)'/$$file; \
	    chmod 644 '$(DESTDIR)$(PKGCONFIGDIR)'/$$file; done
	set -e; for file in $(CMAKE); do $(FILLED) include/$$file.in >'$(DESTDIR)$(CMAKEDIR)'/$$file; \
	    chmod 644 '$(DESTDIR)$(CMAKEDIR)'/$$file; done

uninstall:
	rm -f $(HEADERS:%='$(DESTDIR)$(INCLUDEDIR)/%') '$(DESTDIR)$(LIBDIR)/libion_map.a' $(PKGCONFIG:%='$(DESTDIR)$(PKGCONFIGDIR)/%')
	rm -f $(CMAKE:%='$(DESTDIR)$(CMAKEDIR)/%') $(DOCUMENTS:%='$(DESTDIR)$(DOCDIR)/%')
	rmdir '$(DESTDIR)$(CMAKEDIR)' '$(DESTDIR)$(DOCDIR)' 2>/dev/null || :

.PHONY: all install uninstall
