# make proved         proves and builds tmhost: about an hour from nothing (so does make)
# make install        proves it where that is needed, and installs it at PREFIX; with PROGRAM=.. a program that is there, as one that was given
# make uninstall      removes what that installs, and the folders that it made and that are empty then
# make dist           proves it where that is needed, and packs what is installed as one archive, in this folder
# make deb            the same as a package of Debian, for `dpkg -i`
# make check-quick    runs all stored cases over a build that is checked as it runs, and not proved
# DESTDIR goes in front of each path, for packages.
PREFIX ?= /usr/local
DESTDIR ?=
PROGRAM = crates/tmhost/out/tmhost
PAGES = crates/tmhost/out/pages
SHARE = $(DESTDIR)$(PREFIX)/share
# The adapters and the clients lie there as they do here, since the clients find them and each other by their folders.
HERE = $(SHARE)/tmhost
ADAPTERS = gp jupyter python prompted.py texmacs
COMMANDS = $(notdir $(wildcard adapters/bin/*))
CLIENTS = import texmacs typeset notebook repl suite weave
OTHERS = import/tmhost-prose jupyter/tmhost-jupyter-kernel
# The folders below PREFIX that others use, too. Which of them `make install` made stands in the file MADE, which `make uninstall` reads.
SHARED = bin share/man/man1 share/man share/bash-completion/completions share/bash-completion share/zsh/site-functions share/zsh \
	share/fish/vendor_completions.d share/fish share/emacs/site-lisp share/emacs share
FOLDERS = $(addprefix $(PREFIX)/,$(SHARED)) $(PREFIX)
MADE = $(HERE)/made
# Where GNU TeXmacs looks for plugins: the system's, or the user's own. Ours is linked there if TeXmacs is here, a folder is named, or a package is made.
TEXMACS_PLUGINS ?= $(if $(filter /usr /usr/local,$(PREFIX)),/etc/texmacs/plugins,$(HOME)/.TeXmacs/plugins)

.PHONY: all proved check-quick deb dist install uninstall

all: proved

proved:
	install/proved

check-quick:
	.ci/quick

dist: proved
	install/dist

deb: proved
	install/deb

ifneq ($(origin PROGRAM),command line)
install: proved
endif

install:
	@! cmp -s $(PROGRAM) tmhost || { echo "$(PROGRAM) is the script that builds a program, and none" >&2; exit 1; }
	python3 install/pages.py $(PROGRAM) $(PAGES)
	@[ -n "$(DESTDIR)" ] || { made=$$(for folder in $(FOLDERS); do [ -d $$folder ] || echo $$folder; done); install -d $(HERE) && [ -z "$$made" ] || echo "$$made" >>$(MADE); }
	install -D $(PROGRAM) $(DESTDIR)$(PREFIX)/bin/tmhost
	install -Dm 644 $(PAGES)/tmhost.1 $(SHARE)/man/man1/tmhost.1
	install -Dm 644 $(PAGES)/tmhost.bash $(SHARE)/bash-completion/completions/tmhost
	install -Dm 644 $(PAGES)/_tmhost $(SHARE)/zsh/site-functions/_tmhost
	install -Dm 644 $(PAGES)/tmhost.fish $(SHARE)/fish/vendor_completions.d/tmhost.fish
	install -d $(HERE)/adapters
	install $(addprefix adapters/,$(ADAPTERS)) $(HERE)/adapters
	install -m 644 adapters/blocks.py adapters/errors.py adapters/gp_names.py adapters/jupyter_output.py adapters/pictures.py adapters/profiles.py adapters/python_lines.py adapters/python_names.py adapters/statements.py adapters/terminal.py adapters/texmacs_blocks.py adapters/texmacs_plugins.py adapters/texmacs_trees.py adapters/tmhost_figures.py adapters/waiting.py $(HERE)/adapters
	install -d $(HERE)/adapters/bin
	for command in $(COMMANDS); do \
		cp -P adapters/bin/$$command $(HERE)/adapters/bin && \
		ln -sf ../share/tmhost/adapters/bin/$$command $(DESTDIR)$(PREFIX)/bin/$$command || exit 1; \
	done
	install -d $(HERE)/adapters/loops
	install -m 644 adapters/languages.py $(HERE)/adapters
	install -m 644 adapters/loops/* $(HERE)/adapters/loops
	install -d $(HERE)/adapters/octave/lines $(HERE)/adapters/octave/formulas/@sym
	install -m 644 adapters/octave/lines/*.m $(HERE)/adapters/octave/lines
	install -m 644 adapters/octave/formulas/@sym/*.m $(HERE)/adapters/octave/formulas/@sym
	install -d $(HERE)/clients/python/tmhost $(HERE)/clients/fences/tmhost_fences $(HERE)/clients/typeset/lib $(HERE)/clients/notebook/page
	install -m 644 clients/python/tmhost/*.py clients/python/tmhost/py.typed $(HERE)/clients/python/tmhost
	install -m 644 clients/fences/tmhost_fences/*.py $(HERE)/clients/fences/tmhost_fences
	install -m 644 clients/typeset/lib/*.js $(HERE)/clients/typeset/lib
	install -m 644 clients/notebook/page/* $(HERE)/clients/notebook/page
	for client in import jupyter notebook repl suite texmacs weave; do \
		install -d $(HERE)/clients/$$client/tmhost_$$client && \
		install -m 644 clients/$$client/tmhost_$$client/*.py $(HERE)/clients/$$client/tmhost_$$client || exit 1; \
	done
	for client in $(CLIENTS); do \
		install clients/$$client/tmhost-$$client $(HERE)/clients/$$client && \
		ln -sf ../share/tmhost/clients/$$client/tmhost-$$client $(DESTDIR)$(PREFIX)/bin/tmhost-$$client || exit 1; \
	done
	for other in $(OTHERS); do \
		install clients/$$other $(HERE)/clients/$$(dirname $$other) && \
		ln -sf ../share/tmhost/clients/$$other $(DESTDIR)$(PREFIX)/bin || exit 1; \
	done
	install -d $(HERE)/clients/texmacs/plugins/tmhost/progs $(HERE)/clients/texmacs/plugins/tmhost/bin
	install -m 644 clients/texmacs/plugins/tmhost/progs/*.scm $(HERE)/clients/texmacs/plugins/tmhost/progs
	ln -sf ../../../tmhost-texmacs $(HERE)/clients/texmacs/plugins/tmhost/bin/tmhost-texmacs
	@if [ -z "$(DESTDIR)" ] && [ "$(origin TEXMACS_PLUGINS)" = file ] && [ ! -d $(dir $(TEXMACS_PLUGINS)) ] && ! command -v texmacs >/dev/null; then \
		echo "not linked: the plugin of TeXmacs, which isn't here (TEXMACS_PLUGINS=FOLDER links it)"; \
	else \
		[ -n "$(DESTDIR)" ] || for folder in $(TEXMACS_PLUGINS) $(patsubst %/,%,$(dir $(TEXMACS_PLUGINS))); do [ -d $$folder ] || echo $$folder >>$(MADE); done; \
		install -d $(DESTDIR)$(TEXMACS_PLUGINS) && \
		ln -sfn $(abspath $(PREFIX))/share/tmhost/clients/texmacs/plugins/tmhost $(DESTDIR)$(TEXMACS_PLUGINS)/tmhost; \
	fi
	install -d $(SHARE)/emacs/site-lisp/tmhost
	install -m 644 clients/emacs/*.el $(SHARE)/emacs/site-lisp/tmhost
	@echo "installed: $$($(PROGRAM) --version)"

uninstall:
	rm -f $(DESTDIR)$(PREFIX)/bin/tmhost $(SHARE)/man/man1/tmhost.1 $(SHARE)/bash-completion/completions/tmhost
	rm -rf $(SHARE)/emacs/site-lisp/tmhost
	rm -f $(DESTDIR)$(TEXMACS_PLUGINS)/tmhost
	rm -f $(addprefix $(DESTDIR)$(PREFIX)/bin/,$(addprefix tmhost-,$(CLIENTS)) $(notdir $(OTHERS)) $(COMMANDS))
	rm -f $(SHARE)/zsh/site-functions/_tmhost $(SHARE)/fish/vendor_completions.d/tmhost.fish
	@made=$$(LC_ALL=C sort -ru $(MADE) 2>/dev/null); rm -rf $(HERE); for folder in $$made; do rmdir $$folder 2>/dev/null || true; done
