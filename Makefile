# run:  builds `ways`, proofs and all, and runs it on a book: make run BOOK=examples/gown.book
# test: the gate. rt ci proves every crate, tries the must-fail edits and runs the programs; then this tests what was proved and built: the
#       examples, the streams of `ways`, the collection program, the C header, the agreement with brute force and with clingo, the
#       installation. `proved` and `library` are its first two parts.
# install, uninstall: see people.mk.
SHELL := /bin/bash
.SHELLFLAGS := -euo pipefail -c
MAKEFLAGS += --no-print-directory

BOOK ?= examples/gown.book
LOG := build/ci.log
PACKAGES := gringo valgrind g++

.PHONY: run test packages proved library examples streams collection header agreement installed

# `rt run` looks for what changed, but knows nothing of what `rt ci` built: a `ways` newer than all crates runs as it is.
run:
	@mkdir -p build
	@if [ ! -x $(WAYS) ] || [ -n "$$(find crates crates.txt -regex 'crates/[^/]*/out' -prune -o -type f -newer $(WAYS) -print -quit)" ]; then \
	  (cd crates/ways && rt run < /dev/null) > build/run.log 2>&1 || { cat build/run.log; exit 1; }; fi
	@$(WAYS) < $(BOOK)

# One after the other; the last line is rt's own: how many passed, how many failed.
test:
	$(MAKE) proved
	$(MAKE) packages
	$(MAKE) library
	$(MAKE) -j2 -O examples streams collection header
	$(MAKE) agreement
	$(MAKE) installed
	tail -n 1 $(LOG)

# What a fresh machine with the kit lacks.
packages:
	missing=$$(for package in $(PACKAGES); do dpkg -s $$package > /dev/null 2>&1 || echo $$package; done); \
	if [ -n "$$missing" ]; then apt-get update -qq && DEBIAN_FRONTEND=noninteractive apt-get install -y -qq $$missing > /dev/null; fi

# Fails where rt ci does (pipefail: tee hides nothing), and where a must-fail edit could not be applied or read, which rt ci only tells.
# build/begun is for tests/archive: when rt ci began, and whether anything had been built before.
proved:
	mkdir -p build
	if compgen -G 'crates/*/out' > /dev/null; then echo built; else echo clean; fi > build/begun
	rt ci 2>&1 | tee $(LOG)
	grep -q '^rt: ok' $(LOG) || { echo 'no line of rt ci says ok' >&2; exit 1; }
	if grep -E '^rt: ok.*, [0-9]+ bad' $(LOG) >&2; then echo 'must-fail edits are bad: rt ci names them above' >&2; exit 1; fi

library:
	tests/archive $(LIBRARY)

# Every example prints what is stored beside it; of the long listing the sum is stored.
examples:
	count=0; \
	for book in examples/*.book; do \
	  stored=$${book%.book}.out; \
	  if [ -f "$$stored" ]; then $(WAYS) < "$$book" | cmp - "$$stored"; \
	  else $(WAYS) < "$$book" | sha256sum --quiet -c "$${book%.book}.sum"; fi; \
	  count=$$((count + 1)); \
	done; \
	echo "examples: $$count books print what is stored"
	tests/books_page $(WAYS) docs/BOOKS.md examples
	tests/symptoms $(WAYS) docs/BOOKS.md examples

# A listing is whole, or cut off and not closed, whatever reads and writes do.
streams:
	$(MAKE) -C tests streams

collection:
	LIB=$(LIBRARY) collection/test.sh

header:
	$(MAKE) -C tests header

agreement:
	$(MAKE) -C tests gate

# The installed programs run, the installed header and library build the collection program, and uninstalling leaves no file.
installed:
	to=$$(mktemp -d); trap 'rm -rf "$$to"' EXIT; \
	$(MAKE) install PREFIX="$$to" > /dev/null; \
	gcc -std=c11 -Wall -Wextra -Werror -I"$$to/include" collection/*.c -L"$$to/lib" -lbantameasel -o "$$to/built"; \
	"$$to/bin/ways" < examples/k7.book | cmp - examples/k7.out; \
	for program in "$$to/bin/collection" "$$to/built"; do \
	  "$$program" -p "$$to/point" examples/k7.book next | sed -n 's/^ *[0-9]*  A/A/p' | cmp - <(grep A examples/k7.out); \
	  rm "$$to/point"; \
	done; \
	grep -q -- '-lbantameasel' "$$to/lib/pkgconfig/bantameasel.pc"; \
	test -f "$$to/share/man/man1/ways.1"; \
	test -f "$$to/share/man/man1/collection.1"; \
	rm "$$to/built"; \
	$(MAKE) uninstall PREFIX="$$to" > /dev/null; \
	test -z "$$(find "$$to" -type f)"; \
	echo "installed: ways and collection run, the collection program builds against the header and the library; uninstalled: no file is left"

include people.mk
