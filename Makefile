# make                            builds the commands, the libraries and the pages, into build/
# make install PREFIX=/usr/local  installs them; DESTDIR goes before every path, for packagers
# make uninstall                  removes what that installed
# make check                      runs the gate, .ci/run
#
# packaging/build finds what is out of date, and says what is missing. Where it
# built already, installing needs neither the prover nor cargo.

PREFIX ?= /usr/local
DESTDIR ?=
BINDIR ?= $(PREFIX)/bin
INCLUDEDIR ?= $(PREFIX)/include
LIBDIR ?= $(PREFIX)/lib
DATADIR ?= $(PREFIX)/share
INSTALL ?= install

PKGCONFIGDIR = $(LIBDIR)/pkgconfig
MANDIR = $(DATADIR)/man/man1
BASHDIR = $(DATADIR)/bash-completion/completions
ZSHDIR = $(DATADIR)/zsh/site-functions

.PHONY: all library shared command order check install uninstall clean

all:
	@packaging/build library shared command order pages

library shared command order:
	@packaging/build $@

check:
	@.ci/run

install:
	@case "$(PREFIX)" in /*) ;; *) echo "make install: PREFIX is an absolute path" >&2; exit 1 ;; esac
	@packaging/build library shared command order pages
	umask 022 && $(INSTALL) -d "$(DESTDIR)$(BINDIR)" "$(DESTDIR)$(INCLUDEDIR)" "$(DESTDIR)$(PKGCONFIGDIR)" \
	    "$(DESTDIR)$(MANDIR)" "$(DESTDIR)$(BASHDIR)" "$(DESTDIR)$(ZSHDIR)"
	$(INSTALL) -m 755 build/captions "$(DESTDIR)$(BINDIR)/captions"
	$(INSTALL) -m 755 build/captions-order "$(DESTDIR)$(BINDIR)/captions-order"
	$(INSTALL) -m 644 include/captions.h "$(DESTDIR)$(INCLUDEDIR)/captions.h"
	$(INSTALL) -m 644 build/libcaptions_c.a "$(DESTDIR)$(LIBDIR)/libcaptions_c.a"
	$(INSTALL) -m 644 build/libcaptions_c.so "$(DESTDIR)$(LIBDIR)/$$(packaging/build soname)"
	umask 022 && packaging/pkg-config "$(PREFIX)" "$(INCLUDEDIR)" "$(LIBDIR)" >"$(DESTDIR)$(PKGCONFIGDIR)/captions.pc"
	$(INSTALL) -m 644 build/captions.1 "$(DESTDIR)$(MANDIR)/captions.1"
	$(INSTALL) -m 644 build/completions/captions "$(DESTDIR)$(BASHDIR)/captions"
	$(INSTALL) -m 644 build/completions/_captions "$(DESTDIR)$(ZSHDIR)/_captions"

uninstall:
	rm -f "$(DESTDIR)$(BINDIR)/captions" "$(DESTDIR)$(BINDIR)/captions-order" \
	    "$(DESTDIR)$(INCLUDEDIR)/captions.h" \
	    "$(DESTDIR)$(LIBDIR)/libcaptions_c.a" "$(DESTDIR)$(LIBDIR)/$$(packaging/build soname)" \
	    "$(DESTDIR)$(PKGCONFIGDIR)/captions.pc" \
	    "$(DESTDIR)$(MANDIR)/captions.1" "$(DESTDIR)$(BASHDIR)/captions" "$(DESTDIR)$(ZSHDIR)/_captions"

clean:
	rm -rf build
