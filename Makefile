# Builds and installs the command jwt; packages/c/Makefile does the library for C.
#
#   make                                       proves and builds the command, if it has changed
#   make install PREFIX=/usr DESTDIR=folder    installs it with its manual page and its completions
#   make uninstall PREFIX=/usr DESTDIR=folder  removes what was installed
PREFIX ?= /usr/local
BINDIR ?= $(PREFIX)/bin
DATADIR ?= $(PREFIX)/share
MANDIR ?= $(DATADIR)/man
COMPLETIONS ?= $(DATADIR)/bash-completion/completions
ZSH_COMPLETIONS ?= $(DATADIR)/zsh/site-functions
FISH_COMPLETIONS ?= $(DATADIR)/fish/vendor_completions.d
INSTALL ?= install

.PHONY: all install uninstall

all:
	tools/prove build jwt

install: all
	$(INSTALL) -d '$(DESTDIR)$(BINDIR)' '$(DESTDIR)$(MANDIR)/man1'
	$(INSTALL) -d '$(DESTDIR)$(COMPLETIONS)' '$(DESTDIR)$(ZSH_COMPLETIONS)' '$(DESTDIR)$(FISH_COMPLETIONS)'
	$(INSTALL) -m 755 crates/jwt/out/jwt '$(DESTDIR)$(BINDIR)/jwt'
	$(INSTALL) -m 644 packages/cli/jwt.1 '$(DESTDIR)$(MANDIR)/man1/jwt.1'
	$(INSTALL) -m 644 packages/cli/completions/jwt.bash '$(DESTDIR)$(COMPLETIONS)/jwt'
	$(INSTALL) -m 644 packages/cli/completions/jwt.zsh '$(DESTDIR)$(ZSH_COMPLETIONS)/_jwt'
	$(INSTALL) -m 644 packages/cli/completions/jwt.fish '$(DESTDIR)$(FISH_COMPLETIONS)/jwt.fish'

uninstall:
	rm -f '$(DESTDIR)$(BINDIR)/jwt' '$(DESTDIR)$(MANDIR)/man1/jwt.1' '$(DESTDIR)$(COMPLETIONS)/jwt'
	rm -f '$(DESTDIR)$(ZSH_COMPLETIONS)/_jwt' '$(DESTDIR)$(FISH_COMPLETIONS)/jwt.fish'
