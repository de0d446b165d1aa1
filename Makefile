# The C library and the journal program: building, installing, the example client.
#
#   make lib                         proves and builds the library
#   make journal                     proves and builds the journal program
#   make install PREFIX=/usr         installs library, header, pkg-config file, the program as fellunqa-journal and its man page;
#                                    DESTDIR is put before PREFIX
#   make uninstall PREFIX=/usr       removes them
#   make client                      builds the example client against the library here
#   make client-installed            builds it against the installed library, found by pkg-config
#   make check-client                tests library, header, client and installation
#   make inspect                     builds examples/inspect.c, which prints what a register holds
.POSIX:

# the version of include/fellunqa.h; tests/commands.sh holds the two equal
VERSION = 0.5.0
PREFIX = /usr/local
DESTDIR =
ROOT = $(DESTDIR)$(PREFIX)
LIB = target/staticlib/libfellunqa.a
JOURNAL = target/bin/journal
CLIENT = target/client

# rt builds in the folder of a crate; what is built is put into target/ under the name that it is installed and linked by
BUILD_LIB = cd crates/fellunqa_c && rt lib && mkdir -p ../../target/staticlib && \
	cp out/libfellunqa_c.a ../../target/staticlib/libfellunqa.a
# rt runs what it has built, here without lines
BUILD_JOURNAL = cd crates/journal && rt run < /dev/null && mkdir -p ../../target/bin && cp out/journal ../../target/bin/journal

CC = cc
CFLAGS = -O2 -std=c11 -Wall -Wextra -pedantic
# further libraries to link; the library itself needs none
LIBS =

lib:
	$(BUILD_LIB)

journal:
	$(BUILD_JOURNAL)

# Made only if they are not there; after a change of the sources, 'make lib' and 'make journal' make them anew.
$(LIB):
	$(BUILD_LIB)

$(JOURNAL):
	$(BUILD_JOURNAL)

install: $(LIB) $(JOURNAL)
	umask 022; mkdir -p '$(ROOT)/lib/pkgconfig' '$(ROOT)/include' '$(ROOT)/bin' '$(ROOT)/share/man/man1'
	install -m 644 '$(LIB)' '$(ROOT)/lib/libfellunqa.a'
	install -m 644 include/fellunqa.h '$(ROOT)/include/fellunqa.h'
	sed -e 's|@PREFIX@|$(PREFIX)|' -e 's|@VERSION@|$(VERSION)|' fellunqa.pc.in > '$(ROOT)/lib/pkgconfig/fellunqa.pc'
	chmod 644 '$(ROOT)/lib/pkgconfig/fellunqa.pc'
	install -m 755 '$(JOURNAL)' '$(ROOT)/bin/fellunqa-journal'
	install -m 644 docs/fellunqa-journal.1 '$(ROOT)/share/man/man1/fellunqa-journal.1'

uninstall:
	rm -f '$(ROOT)/lib/libfellunqa.a' '$(ROOT)/include/fellunqa.h'
	rm -f '$(ROOT)/lib/pkgconfig/fellunqa.pc'
	rm -f '$(ROOT)/bin/fellunqa-journal' '$(ROOT)/share/man/man1/fellunqa-journal.1'

client: $(LIB)
	mkdir -p target
	$(CC) $(CFLAGS) -Iinclude -o '$(CLIENT)' examples/client.c examples/store.c '$(LIB)' $(LIBS)

client-installed:
	mkdir -p target
	$(CC) $(CFLAGS) `pkg-config --cflags fellunqa` -o '$(CLIENT)' examples/client.c examples/store.c \
		`pkg-config --libs fellunqa` $(LIBS)

check-client:
	bash tests/client.sh

# prints what the file of a register holds
INSPECT = target/inspect

inspect: $(LIB)
	mkdir -p target
	$(CC) $(CFLAGS) -Iinclude -o '$(INSPECT)' examples/inspect.c examples/inspect/*.c '$(LIB)' $(LIBS)

.PHONY: lib journal install uninstall client client-installed check-client inspect
