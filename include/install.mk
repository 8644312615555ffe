# Installs the header, the library, the pkg-config file and, where LISTING names it, the listing program:
#
#     include include/install.mk
#
#     make install LIB=path/to/libcbqri.a LISTING=path/to/listing PREFIX=/usr/local
#
# or, alone, make -f include/install.mk install LIB=... PREFIX=...
# DESTDIR goes before every path, as packagers expect. make version prints the header's version.

PREFIX ?= /usr/local
LIB ?= libcbqri.a
LISTING ?=
CBQRI_INCLUDE := $(dir $(lastword $(MAKEFILE_LIST)))
# the header's version
CBQRI_VERSION := $(shell awk '$$2 == "CBQRI_VERSION_STRING" { gsub("\"", "", $$3); print $$3 }' $(CBQRI_INCLUDE)cbqri.h)
CBQRI_ROOT = $(DESTDIR)$(PREFIX)

.PHONY: install uninstall version

install: $(LIB) $(LISTING)
	install -d "$(CBQRI_ROOT)/include" "$(CBQRI_ROOT)/lib/pkgconfig" $(if $(LISTING),"$(CBQRI_ROOT)/bin")
	install -m 644 $(CBQRI_INCLUDE)cbqri.h "$(CBQRI_ROOT)/include/cbqri.h"
	install -m 644 $(LIB) "$(CBQRI_ROOT)/lib/libcbqri.a"
	$(if $(LISTING),install -m 755 $(LISTING) "$(CBQRI_ROOT)/bin/listing")
	sed -e 's|@PREFIX@|$(PREFIX)|' -e 's|@VERSION@|$(CBQRI_VERSION)|' $(CBQRI_INCLUDE)cbqri.pc.in \
		> "$(CBQRI_ROOT)/lib/pkgconfig/cbqri.pc"

uninstall:
	rm -f "$(CBQRI_ROOT)/include/cbqri.h" "$(CBQRI_ROOT)/lib/libcbqri.a" "$(CBQRI_ROOT)/lib/pkgconfig/cbqri.pc" \
		$(if $(LISTING),"$(CBQRI_ROOT)/bin/listing")

version:
	@echo $(CBQRI_VERSION)
