# make: builds the static library by the toolchain, which proves it, and the program tidy_trace over it. make install: puts header, library, pkg-config
# file and program in place; make uninstall takes them away. PREFIX is where they will stand, DESTDIR a folder before it, for packages. All tests: bash .ci/run.
PREFIX = /usr/local
INCLUDEDIR = $(PREFIX)/include
LIBDIR = $(PREFIX)/lib
BINDIR = $(PREFIX)/bin
PKGCONFIGDIR = $(LIBDIR)/pkgconfig
INSTALL = install
LIB = target/staticlib/libsam47.a
PROGRAM = target/programs/tidy_trace
# the header's, so that it is said once
VERSION = $(shell sed -n 's/^.define SAM47_VERSION "\(.*\)"$$/\1/p' include/sam47.h)

define PC
prefix=$(abspath $(PREFIX))
includedir=$(patsubst $(PREFIX)/%,$${prefix}/%,$(INCLUDEDIR))
libdir=$(patsubst $(PREFIX)/%,$${prefix}/%,$(LIBDIR))

Name: sam47
Description: A proved emulator of the KS57C0502 and KS57C0504 meter head
Version: $(VERSION)
Cflags: -I$${includedir}
Libs: -L$${libdir} -lsam47
endef
export PC

.PHONY: all install uninstall

all:
	tools/archive.sh
	$(MAKE) $(PROGRAM)

# Only a missing library is built here: who installs may have no toolchain.
$(LIB):
	tools/archive.sh

$(PROGRAM): programs/tidy_trace.c include/sam47.h $(LIB)
	$(MAKE) -C programs LIB="$(abspath $(LIB))"

install: $(LIB) $(PROGRAM)
	$(INSTALL) -d "$(DESTDIR)$(INCLUDEDIR)" "$(DESTDIR)$(LIBDIR)" "$(DESTDIR)$(PKGCONFIGDIR)" "$(DESTDIR)$(BINDIR)"
	$(INSTALL) -m 644 include/sam47.h "$(DESTDIR)$(INCLUDEDIR)/sam47.h"
	$(INSTALL) -m 644 $(LIB) "$(DESTDIR)$(LIBDIR)/libsam47.a"
	printf '%s\n' "$$PC" > "$(DESTDIR)$(PKGCONFIGDIR)/sam47.pc"
	chmod 644 "$(DESTDIR)$(PKGCONFIGDIR)/sam47.pc"
	$(INSTALL) -m 755 $(PROGRAM) "$(DESTDIR)$(BINDIR)/tidy_trace"

uninstall:
	rm -f "$(DESTDIR)$(INCLUDEDIR)/sam47.h" "$(DESTDIR)$(LIBDIR)/libsam47.a" "$(DESTDIR)$(PKGCONFIGDIR)/sam47.pc" "$(DESTDIR)$(BINDIR)/tidy_trace"
