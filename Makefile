# make install: puts the two programs, their manual pages and the syntax files for editors below PREFIX.
# The programs are those that 'rt run' builds in crates/simscript and crates/explain; PROGRAM and EXPLAIN name others.
PREFIX ?= /usr/local
DESTDIR ?=
PROGRAM ?= crates/simscript/out/simscript
EXPLAIN ?= crates/explain/out/explain

bin = $(DESTDIR)$(PREFIX)/bin
man = $(DESTDIR)$(PREFIX)/share/man/man1
vim = $(DESTDIR)$(PREFIX)/share/vim/vimfiles
vscode = $(DESTDIR)$(PREFIX)/share/simscript/vscode

.PHONY: help install uninstall

help:
	@echo "make install [PREFIX=$(PREFIX)] [DESTDIR=] [PROGRAM=$(PROGRAM)] [EXPLAIN=$(EXPLAIN)]"
	@echo "make uninstall, with the same words"

$(PROGRAM):
	@echo "there is no $(PROGRAM). 'rt run' in crates/simscript builds the proved program; PROGRAM=out/simscript is the one of ./simscript" >&2
	@exit 1

$(EXPLAIN):
	@echo "there is no $(EXPLAIN). 'rt run' in crates/explain builds it; EXPLAIN=out/explain is the one of ./explain" >&2
	@exit 1

install: $(PROGRAM) $(EXPLAIN)
	install -D -m 755 $(PROGRAM) $(bin)/simscript
	install -D -m 755 $(EXPLAIN) $(bin)/explain
	install -D -m 644 docs/simscript.1 $(man)/simscript.1
	install -D -m 644 docs/explain.1 $(man)/explain.1
	install -D -m 644 editors/vim/syntax/simscript.vim $(vim)/syntax/simscript.vim
	install -D -m 644 editors/vim/ftdetect/simscript.vim $(vim)/ftdetect/simscript.vim
	install -D -m 644 editors/vscode/package.json $(vscode)/package.json
	install -D -m 644 editors/vscode/language-configuration.json $(vscode)/language-configuration.json
	install -D -m 644 editors/vscode/syntaxes/simscript.tmLanguage.json $(vscode)/syntaxes/simscript.tmLanguage.json

uninstall:
	rm -f $(bin)/simscript $(bin)/explain $(man)/simscript.1 $(man)/explain.1 $(vim)/syntax/simscript.vim $(vim)/ftdetect/simscript.vim
	rm -rf $(vscode)
