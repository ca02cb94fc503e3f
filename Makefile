# make                          the program: the one in dist/ where it is of this source, else proved and built
# make install                  the program, its manual page, the documents and the examples, below PREFIX
# make deb                      a package for Debian, in dist/out/
# make check                    what README.md shows, and a file for each complaint
#
# DESTDIR is put before each path, for whoever packs what was installed.

PREFIX = /usr/local
DESTDIR =
DOCS = $(PREFIX)/share/doc/clockgate

all:
	@dist/program

install:
	program=$$(dist/program) && install -D -m 755 "$$program" $(DESTDIR)$(PREFIX)/bin/clockgate
	install -D -m 644 docs/clockgate.1 $(DESTDIR)$(PREFIX)/share/man/man1/clockgate.1
	install -d $(DESTDIR)$(DOCS)/docs
	install -m 644 README.md CHANGELOG.md $(DESTDIR)$(DOCS)
	install -m 644 docs/*.md $(DESTDIR)$(DOCS)/docs
	cp -R --preserve=mode examples $(DESTDIR)$(DOCS)
	ln -sf ../../../bin/clockgate $(DESTDIR)$(DOCS)/clockgate

deb:
	dist/deb

check:
	examples/check

.PHONY: all install deb check
