# Builds, tests, installs and packs the program. The work is done by tools/build, tests/run, tools/install and tools/package.
PREFIX = /usr/local
DESTDIR =
PROGRAM = crates/vs_main/out/vs_main

.PHONY: all test install uninstall deb dist

all:
	tools/build

test:
	tests/run

install:
	DESTDIR='$(DESTDIR)' PREFIX='$(PREFIX)' tools/install '$(PROGRAM)'

uninstall:
	rm -f '$(DESTDIR)$(PREFIX)/bin/levertaupe' '$(DESTDIR)$(PREFIX)/share/man/man1/levertaupe.1' \
		'$(DESTDIR)$(PREFIX)/share/bash-completion/completions/levertaupe'
	rm -rf '$(DESTDIR)$(PREFIX)/share/doc/levertaupe'

deb dist:
	tools/package $@ --program '$(PROGRAM)'
