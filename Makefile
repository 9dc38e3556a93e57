# libcockledrift.a and libcockledrift.so: the proved archive of `tools/staticlib capi`, and the messages of
# include/cockledrift.h. The program `cockledrift`, over the same archive.
#
#   make                              both libraries, in target/lib, and the program, in rust/target/release
#   make install PREFIX=/usr/local    program, man page, completions, header, libraries, pkg-config file and Python
#                                     module; DESTDIR goes before all; PROGRAM=FILE takes a program that is there
#   make uninstall PREFIX=/usr/local  takes them away again
#   make start                        the program `cockledrift`, with what is missing for it; then lists a file
#   make proved                       builds the proved archive anew, after a change in crates/

VERSION = 0.1.0
SONAME = libcockledrift.so.0
SHARED = libcockledrift.so.$(VERSION)

PREFIX ?= /usr/local
BINDIR ?= $(PREFIX)/bin
MANDIR ?= $(PREFIX)/share/man
BASHDIR ?= $(PREFIX)/share/bash-completion/completions
ZSHDIR ?= $(PREFIX)/share/zsh/site-functions
FISHDIR ?= $(PREFIX)/share/fish/vendor_completions.d
LIBDIR ?= $(PREFIX)/lib
INCLUDEDIR ?= $(PREFIX)/include
PYTHONDIR ?= $(PREFIX)/share/cockledrift
DESTDIR ?=

CC ?= cc
AR ?= ar
CFLAGS ?= -O2
INSTALL ?= install
PROVED ?= target/staticlib/libcapi.a
OUT ?= target/lib
BUILT = rust/target/release/cockledrift
PROGRAM ?= $(BUILT)

WARNINGS = -Wall -Wextra -pedantic -Werror

all: libraries $(PROGRAM)

libraries: $(OUT)/libcockledrift.a $(OUT)/$(SHARED) $(OUT)/cockledrift.pc

proved:
	tools/staticlib capi

# Where there is one already it is taken as it is: rt alone knows whether it is up to date.
$(PROVED):
	tools/staticlib capi

# What it does is told; what the proof says goes to a file.
start:
	@if [ ! -f $(PROVED) ]; then \
		command -v rt >/dev/null || { echo 'rt, the Rattle toolchain, is not on PATH: it proves the library.'; exit 1; }; \
		echo 'Proving the library: the first time this takes minutes. Its log is target/start.log.'; \
		mkdir -p target && tools/staticlib capi >target/start.log 2>&1 || { tail target/start.log; exit 1; }; \
	fi
	@command -v cargo >/dev/null || { echo 'cargo is not on PATH: it builds the program.'; exit 1; }
	@echo 'Building $(BUILT).'
	@cd rust && cargo build --release --offline --quiet -p cli
	$(BUILT) list rust/testdata/passage.v8.3d

# cargo alone knows whether it is up to date.
$(BUILT): $(PROVED) always
	cd rust && cargo build --release --offline --quiet -p cli

$(OUT)/message.o: c/message.c include/cockledrift.h
	mkdir -p $(OUT)
	$(CC) -std=c11 $(CFLAGS) -fPIC $(WARNINGS) -Iinclude -c -o $@ c/message.c

$(OUT)/libcockledrift.a: $(PROVED) $(OUT)/message.o
	cp $(PROVED) $@.new
	$(AR) rcs $@.new $(OUT)/message.o
	mv $@.new $@

$(OUT)/$(SHARED): $(OUT)/libcockledrift.a
	$(CC) -shared -Wl,-soname,$(SONAME) -Wl,-z,defs -Wl,-z,relro,-z,now $(LDFLAGS) -o $@ \
		-Wl,--whole-archive $(OUT)/libcockledrift.a -Wl,--no-whole-archive
	ln -sf $(SHARED) $(OUT)/$(SONAME)
	ln -sf $(SONAME) $(OUT)/libcockledrift.so

# Made at every run: it depends on what stands on the command line.
$(OUT)/cockledrift.pc: c/cockledrift.pc.in always
	mkdir -p $(OUT)
	sed -e 's|@PREFIX@|$(PREFIX)|' -e 's|@LIBDIR@|$(LIBDIR)|' -e 's|@INCLUDEDIR@|$(INCLUDEDIR)|' \
		-e 's|@VERSION@|$(VERSION)|' c/cockledrift.pc.in >$@

install: install-program install-library

install-program: $(PROGRAM)
	$(INSTALL) -d $(DESTDIR)$(BINDIR) $(DESTDIR)$(MANDIR)/man1
	$(INSTALL) -d $(DESTDIR)$(BASHDIR) $(DESTDIR)$(ZSHDIR) $(DESTDIR)$(FISHDIR)
	$(INSTALL) -m 755 $(PROGRAM) $(DESTDIR)$(BINDIR)/cockledrift
	$(INSTALL) -m 644 rust/cli/share/cockledrift.1 $(DESTDIR)$(MANDIR)/man1
	$(INSTALL) -m 644 rust/cli/share/cockledrift.bash $(DESTDIR)$(BASHDIR)/cockledrift
	$(INSTALL) -m 644 rust/cli/share/_cockledrift $(DESTDIR)$(ZSHDIR)
	$(INSTALL) -m 644 rust/cli/share/cockledrift.fish $(DESTDIR)$(FISHDIR)

install-library: libraries
	$(INSTALL) -d $(DESTDIR)$(INCLUDEDIR) $(DESTDIR)$(LIBDIR)/pkgconfig $(DESTDIR)$(PYTHONDIR)
	$(INSTALL) -m 644 include/cockledrift.h $(DESTDIR)$(INCLUDEDIR)
	$(INSTALL) -m 644 $(OUT)/libcockledrift.a $(DESTDIR)$(LIBDIR)
	$(INSTALL) -m 755 $(OUT)/$(SHARED) $(DESTDIR)$(LIBDIR)
	ln -sf $(SHARED) $(DESTDIR)$(LIBDIR)/$(SONAME)
	ln -sf $(SONAME) $(DESTDIR)$(LIBDIR)/libcockledrift.so
	$(INSTALL) -m 644 $(OUT)/cockledrift.pc $(DESTDIR)$(LIBDIR)/pkgconfig
	$(INSTALL) -m 644 python/cockledrift.py $(DESTDIR)$(PYTHONDIR)

# Folders that hold nothing else go too.
uninstall:
	rm -f $(DESTDIR)$(BINDIR)/cockledrift $(DESTDIR)$(MANDIR)/man1/cockledrift.1
	rm -f $(DESTDIR)$(BASHDIR)/cockledrift $(DESTDIR)$(ZSHDIR)/_cockledrift $(DESTDIR)$(FISHDIR)/cockledrift.fish
	rm -f $(DESTDIR)$(INCLUDEDIR)/cockledrift.h $(DESTDIR)$(LIBDIR)/libcockledrift.a
	rm -f $(DESTDIR)$(LIBDIR)/$(SHARED) $(DESTDIR)$(LIBDIR)/$(SONAME) $(DESTDIR)$(LIBDIR)/libcockledrift.so
	rm -f $(DESTDIR)$(LIBDIR)/pkgconfig/cockledrift.pc $(DESTDIR)$(PYTHONDIR)/cockledrift.py
	-rmdir $(DESTDIR)$(LIBDIR)/pkgconfig $(DESTDIR)$(PYTHONDIR) $(DESTDIR)$(FISHDIR) 2>/dev/null

clean:
	rm -rf $(OUT)

.PHONY: all libraries start proved install install-program install-library uninstall clean always
.DELETE_ON_ERROR:
