# The program is proved and built by the launcher ./lotosseq, and kept up to date by it.
PREFIX ?= /usr/local
# DESTDIR and PREFIX are folders and not text of make or of a shell: no `$` in them is expanded. All that begins with BELOW is
# written between single quotes.
BELOW = $(subst ','\'',$(value DESTDIR)$(value PREFIX))
BIN = $(BELOW)/bin
MAN = $(BELOW)/share/man/man1
COMPLETIONS = $(BELOW)/share/bash-completion/completions
VIMFILES = $(BELOW)/share/vim/vimfiles
VSCODE = $(BELOW)/share/lotosseq/vscode
unexport DESTDIR PREFIX

help: ## lists these targets
	@sed -n 's/^\([a-z]*\):.*## /\1: /p' Makefile | awk -F ': ' '{ printf "make %-10s %s\n", $$1, $$2 }'

build: ## proves and builds the program if a source has changed
	./lotosseq --build

try: ## runs the tests without a proof, in minutes
	tools/try-tests

test: ## runs the gate, tools/check and then rt ci
	.ci/run

edits: ## tries every edit that makes code wrong, not only those of the gate
	tools/try-edits

install: build ## installs programs, manual page, completion and syntax files below PREFIX (/usr/local)
	install -D -m 755 crates/lotosseq/out/lotosseq '$(BIN)/lotosseq'
	install -D -m 755 share/lotosseq-chart '$(BIN)/lotosseq-chart'
	install -D -m 755 share/lotosseq-ask '$(BIN)/lotosseq-ask'
	install -D -m 755 share/lotosseq-draw '$(BIN)/lotosseq-draw'
	install -D -m 755 share/lotosseq-test '$(BIN)/lotosseq-test'
	install -D -m 755 share/lotosseq-walk '$(BIN)/lotosseq-walk'
	install -D -m 644 docs/lotosseq.1 '$(MAN)/lotosseq.1'
	install -D -m 644 share/bash-completion/completions/lotosseq '$(COMPLETIONS)/lotosseq'
	install -D -m 644 share/vim/vimfiles/ftdetect/lotos.vim '$(VIMFILES)/ftdetect/lotos.vim'
	install -D -m 644 share/vim/vimfiles/syntax/lotos.vim '$(VIMFILES)/syntax/lotos.vim'
	install -D -m 644 share/vscode/package.json '$(VSCODE)/package.json'
	install -D -m 644 share/vscode/language-configuration.json '$(VSCODE)/language-configuration.json'
	install -D -m 644 share/vscode/syntaxes/lotos.tmLanguage.json '$(VSCODE)/syntaxes/lotos.tmLanguage.json'

uninstall: ## removes what install has put there
	rm -f '$(BIN)/lotosseq' '$(BIN)/lotosseq-chart' '$(BIN)/lotosseq-ask' '$(BIN)/lotosseq-draw' '$(BIN)/lotosseq-test' '$(BIN)/lotosseq-walk'
	rm -f '$(MAN)/lotosseq.1' '$(COMPLETIONS)/lotosseq'
	rm -f '$(VIMFILES)/ftdetect/lotos.vim' '$(VIMFILES)/syntax/lotos.vim'
	rm -rf '$(BELOW)/share/lotosseq'

dist: build ## packs what install installs, with its origin, into lotosseq-VERSION-linux-x86_64.tar.gz
	tools/pack

clean: ## removes all that was proved and built; the next build proves everything
	rm -rf crates/*/out lotosseq-*-linux-x86_64.tar.gz

docs: build ## runs the commands of README.md and the tutorial and compares
	tools/ask run-docs ./lotosseq

examples: build ## asks the questions of the examples and compares
	examples/run

bench: build ## measures time and memory
	bench/check
	bench/terms
	bench/search
	bench/ever
	bench/growth

extra: build ## checks the texts and asks the program
	tools/check
	tools/ask

.PHONY: help build try test edits install uninstall dist clean docs examples bench extra
