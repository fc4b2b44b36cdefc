# `make install` puts the library and its programs below PREFIX, `make uninstall` removes them; DESTDIR is put before PREFIX. They take what
# stands in bin/, and say what builds what is missing. `make dist` makes the archive, `make deb` the package for Debian, both in OUT.
# `make install-test` tries all of that. docs/INSTALL.md says what goes where.
PREFIX ?= /usr/local
DESTDIR ?=
OUT = dist

.PHONY: install uninstall dist deb install-test
install uninstall: export TO_PREFIX = $(PREFIX)
install uninstall: export TO_DESTDIR = $(DESTDIR)
install uninstall:
	@python3 tools/install $@ --prefix "$$TO_PREFIX" --destdir "$$TO_DESTDIR"

dist deb: export TO_OUT = $(OUT)
dist:
	@python3 tools/install archive --out "$$TO_OUT"

deb:
	@python3 tools/install package --out "$$TO_OUT"

install-test:
	@tools/install_test.py
