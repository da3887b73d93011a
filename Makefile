# make          proves the program and builds it: crates/heif/out/heif
# make test     the merge gate: every proof, must-fail edit, test and program
# make install  copies the program to PREFIX/bin
# make bench    measures it
PREFIX ?= /usr/local
PROGRAM = crates/heif/out/heif

.PHONY: all test install bench

all:
	cd crates/heif && rt run -- boxes data/small.heic > /dev/null

test:
	rt ci

install: all
	install -D -m 755 $(PROGRAM) $(DESTDIR)$(PREFIX)/bin/heif

bench: all
	bench/boxes
	bench/list
	bench/edit
	bench/redact
