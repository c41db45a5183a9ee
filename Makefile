# Installs the program that ./build has proved and built, its manual page, and what completes its words in bash, zsh and fish.
#     make install PREFIX=/usr/local     needs Python; DESTDIR stands before PREFIX where a package is made
#     make uninstall PREFIX=/usr/local   removes these files again
PREFIX ?= /usr/local
PROGRAM = crates/factc/out/factc
BIN = $(DESTDIR)$(PREFIX)/bin
SHARE = $(DESTDIR)$(PREFIX)/share
MAN = $(SHARE)/man/man1
BASH = $(SHARE)/bash-completion/completions
ZSH = $(SHARE)/zsh/site-functions
FISH = $(SHARE)/fish/vendor_completions.d

help:
	@sed -n 's/^# //p' Makefile

install:
	@test -x $(PROGRAM) || { echo "there is no proved program $(PROGRAM): run ./build first" >&2; exit 1; }
	install -d $(BIN) $(MAN) $(BASH) $(ZSH) $(FISH)
	install -m 755 $(PROGRAM) $(BIN)/factc
	install -m 644 docs/factc.1 $(MAN)/factc.1
	umask 022 && docs/completions bash $(PROGRAM) > $(BASH)/factc
	umask 022 && docs/completions zsh $(PROGRAM) > $(ZSH)/_factc
	umask 022 && docs/completions fish $(PROGRAM) > $(FISH)/factc.fish

uninstall:
	rm -f $(BIN)/factc $(MAN)/factc.1 $(BASH)/factc $(ZSH)/_factc $(FISH)/factc.fish

.PHONY: help install uninstall
