# make install [PREFIX=/usr/local] [DESTDIR=]     the library for C, its header, pkg-config and CMake files, pages and examples
# make uninstall [PREFIX=..] [DESTDIR=..]         takes these files away again
# The first install proves and builds the library, which takes the Rattle kit and some twenty minutes. Tests and the gate: README.md.
PREFIX = /usr/local
DESTDIR =

help:
	@sed -n 's/^# //p' Makefile

install uninstall:
	@PREFIX='$(PREFIX)' DESTDIR='$(DESTDIR)' package/install.sh $@

.PHONY: help install uninstall
