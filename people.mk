# install: the programs `ways` and `collection` with their manual pages, the header, the static library and a pkg-config
#          file, under PREFIX.
# uninstall: takes these files away again.
#
#   make install PREFIX=path/of/a/folder
#
# `make test` makes WAYS and LIBRARY before this runs (`make run` makes WAYS alone, `make library` LIBRARY); only COLLECTION
# is built here, by the C compiler. DESTDIR is put before every path that is written to, for those who make packages.

PREFIX ?= /usr/local
DESTDIR ?=
VERSION ?= 2.5
WAYS ?= crates/ways/out/ways
LIBRARY ?= build/libbantameasel.a
COLLECTION ?= build/collection

prefix := $(abspath $(PREFIX))
root := $(DESTDIR)$(prefix)
pkgconfig := $(root)/lib/pkgconfig/bantameasel.pc

.PHONY: install uninstall

$(COLLECTION): $(wildcard collection/*.[ch]) include/bantameasel.h $(wildcard $(LIBRARY))
	@test -f "$(LIBRARY)" || { echo "$@: $(LIBRARY) is not there; build it first" >&2; exit 1; }
	mkdir -p "$(dir $@)"
	$(CC) -std=c11 -O2 -Wall -Wextra -Iinclude collection/*.c "$(LIBRARY)" -o "$@"

install: $(COLLECTION)
	@for file in "$(WAYS)" "$(LIBRARY)"; do \
	  test -f "$$file" || { echo "install: $$file is not there; build it first" >&2; exit 1; }; done
	install -d "$(root)/bin" "$(root)/include" "$(root)/lib/pkgconfig" "$(root)/share/man/man1"
	install -m 755 "$(WAYS)" "$(root)/bin/ways"
	install -m 755 "$(COLLECTION)" "$(root)/bin/collection"
	install -m 644 include/bantameasel.h "$(root)/include/bantameasel.h"
	install -m 644 "$(LIBRARY)" "$(root)/lib/libbantameasel.a"
	install -m 644 man/ways.1 man/collection.1 "$(root)/share/man/man1"
	printf '%s\n' 'prefix=$(prefix)' 'includedir=$${prefix}/include' 'libdir=$${prefix}/lib' '' \
	  'Name: bantameasel' 'Description: A rule engine for museum catalogues' 'Version: $(VERSION)' \
	  'Cflags: -I$${includedir}' 'Libs: -L$${libdir} -lbantameasel' >"$(pkgconfig)"
	chmod 644 "$(pkgconfig)"

uninstall:
	rm -f "$(root)/bin/ways" "$(root)/bin/collection" "$(root)/include/bantameasel.h" "$(root)/lib/libbantameasel.a" \
	  "$(root)/share/man/man1/ways.1" "$(root)/share/man/man1/collection.1" "$(pkgconfig)"
