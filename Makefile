# Builds, tests and installs `bhttp`. Beside the toolchain's `rt`, `install` needs GNU install, `corpus` Python 3, and `measure` and
# `load` Python 3 and dd on Linux.
PREFIX ?= /usr/local
PROGRAM = crates/bhttp/out/bhttp

.PHONY: all check examples corpus manual measure load install uninstall

# proves all, and builds the program; it runs it once, on an example
all:
	cd crates/bhttp && rt run -- canon < ../../examples/get.bhttp > /dev/null

# every proof, must-fail edit, test and program
check:
	rt ci

# the program on each example
examples: all
	examples/check $(PROGRAM)

# the program on each case of the corpus
corpus: all
	corpus/check $(PROGRAM)

# the manual page, where there is mandoc
manual:
	if command -v mandoc >/dev/null; then mandoc -T lint -W warning docs/bhttp.1; fi

# time and memory of the program, beside dd
measure: all
	scripts/measure $(PROGRAM)

# 8 GiB of content through each command, in several shapes
load: all
	scripts/load 8 $(PROGRAM)

install: all
	install -D -m 755 $(PROGRAM) $(DESTDIR)$(PREFIX)/bin/bhttp
	install -D -m 644 docs/bhttp.1 $(DESTDIR)$(PREFIX)/share/man/man1/bhttp.1

uninstall:
	rm -f $(DESTDIR)$(PREFIX)/bin/bhttp $(DESTDIR)$(PREFIX)/share/man/man1/bhttp.1
