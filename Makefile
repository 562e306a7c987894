# The library for C, the tool `quorum` over it, and where they are installed. What rt builds is below crates/NAME/out/, all else below target/, with
# copies of the archives.
#   make                       the archives and the tool
#   make day                   plays examples/m3.txt, the worked day of the README
#   make install PREFIX=DIR    tool, headers, archives, pkg-config file and page of the manual; DESTDIR is put before it
#   make uninstall PREFIX=DIR  takes them away again
#   make gate                  everything is proved and tested; needs more than the rest (README)
#   make clean
PREFIX ?= /usr/local
DESTDIR ?=
CFLAGS ?= -O2 -g
INSTALL ?= install
RT ?= rt

place := $(abspath $(PREFIX))
library := target/staticlib/libquorum.a
step_library := target/staticlib/libquorum_step.a
headers := include/quorum.h include/quorum_read.h include/quorum_step.h
version := $(shell awk '/define QC_VERSION_(MAJOR|MINOR) / { print $$3 }' include/quorum.h | paste -sd .)
# what the archives are made of
proved := crates.txt $(shell find crates -name out -prune -o \( -name '*.rt' -o -name '*.antt' \) -print)

bin_place := $(DESTDIR)$(place)/bin
lib_place := $(DESTDIR)$(place)/lib
man_place := $(DESTDIR)$(place)/share/man/man1
header_place := $(DESTDIR)$(place)/include

.PHONY: all day install uninstall gate clean
all: $(library) $(step_library) target/quorum

# rt lib proves the crates below, lowest first, and keeps their proofs; the second archive after the first, since both need the same crates
$(library): $(proved)
	cd crates/quorum_c && $(RT) lib
	mkdir -p target/staticlib
	cp crates/quorum_c/out/libquorum_c.a $@
$(step_library): $(proved) | $(library)
	cd crates/quorum_step_c && $(RT) lib
	cp crates/quorum_step_c/out/libquorum_step_c.a $@

target/quorum: $(wildcard tools/*.c tools/*.h) $(headers) $(library)
	$(CC) -std=c99 -Wall -Wextra $(CFLAGS) $(LDFLAGS) $(wildcard tools/*.c) $(library) -o $@

day: target/quorum
	target/quorum play examples/m3.txt

install: all
	$(INSTALL) -d $(bin_place) $(lib_place)/pkgconfig $(man_place) $(header_place)
	$(INSTALL) -m 755 target/quorum $(bin_place)
	$(INSTALL) -m 644 $(headers) $(header_place)
	$(INSTALL) -m 644 $(library) $(step_library) $(lib_place)
	sed -e 's|@PREFIX@|$(place)|' -e 's|@VERSION@|$(version)|' tools/quorum.pc.in > $(lib_place)/pkgconfig/quorum.pc
	$(INSTALL) -m 644 tools/quorum.1 $(man_place)

uninstall:
	rm -f $(bin_place)/quorum $(lib_place)/libquorum.a $(lib_place)/libquorum_step.a $(lib_place)/pkgconfig/quorum.pc $(man_place)/quorum.1
	rm -f $(addprefix $(DESTDIR)$(place)/,$(headers))

gate:
	.ci/run

clean:
	rm -rf target
