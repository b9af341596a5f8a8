# make             proves what is installed, and makes the library's archive, qik and echtext in target/make, for the processor of this machine
# make check       the gate: every proof from nothing, every edit, every test
# make install     header, archive, pkg-config's file, qik, echtext and their pages below PREFIX, and that below DESTDIR where one is said
# make uninstall   takes all of it away again
# make board       the library for a board's processor, TARGET=aarch64, held by the comparison: docs/BOARD.md
# make pictures    docs/pictures anew, by qik and Netpbm
# make clean       removes what make made; the proofs stay, in crates/*/out
PREFIX = /usr/local
DESTDIR =
TARGET = aarch64
PROGRAMS = qik echtext
CC = cc
CFLAGS = -O2
INSTALL = install

made := target/make
proved := crates.txt $(shell find crates/*/src crates/*/specs crates/*/proofs -type f)
version := $(shell sed -n 's/^\#define QIK_VERSION "\(.*\)"/\1/p' include/qiksavlut.h)
to = $(DESTDIR)$(PREFIX)

all: $(made)/libqiksavlut.a $(PROGRAMS:%=$(made)/%)

$(made)/libqiksavlut.a: $(proved) host/native-archive host/archive tools/prover
	@mkdir -p $(made)
	host/native-archive $@

$(made)/qik: host/qik.c $(wildcard host/qik-*.c host/qik-*.h) include/qiksavlut.h $(made)/libqiksavlut.a
	$(CC) -std=c99 $(CFLAGS) -Wall -Wextra -Wpedantic -Iinclude $(LDFLAGS) -o $@ $(filter %.c,$^) $(made)/libqiksavlut.a

# after the archive: one proof at a time
$(made)/echtext: $(proved) host/native-program | $(made)/libqiksavlut.a
	@mkdir -p $(made)
	host/native-program echtext $@

check:
	.ci/run

install: all
	$(INSTALL) -d "$(to)/include" "$(to)/lib/pkgconfig" "$(to)/bin" "$(to)/share/man/man1" "$(to)/share/man/man3"
	$(INSTALL) -m 644 include/qiksavlut.h "$(to)/include"
	$(INSTALL) -m 644 $(made)/libqiksavlut.a "$(to)/lib"
	sed 's|@PREFIX@|$(PREFIX)|; s|@VERSION@|$(version)|' host/qiksavlut.pc.in >"$(to)/lib/pkgconfig/qiksavlut.pc"
	$(INSTALL) -m 755 $(PROGRAMS:%=$(made)/%) "$(to)/bin"
	$(INSTALL) -m 644 $(PROGRAMS:%=docs/%.1) "$(to)/share/man/man1"
	$(INSTALL) -m 644 docs/qiksavlut.3 "$(to)/share/man/man3"

uninstall:
	rm -f "$(to)/include/qiksavlut.h" "$(to)/lib/libqiksavlut.a" "$(to)/lib/pkgconfig/qiksavlut.pc"
	rm -f $(foreach program,$(PROGRAMS),"$(to)/bin/$(program)" "$(to)/share/man/man1/$(program).1") "$(to)/share/man/man3/qiksavlut.3"

board:
	host/board $(TARGET)

pictures: $(made)/qik
	tools/pictures

clean:
	rm -rf target

.PHONY: all check install uninstall board pictures clean
