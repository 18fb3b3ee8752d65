# keleusma-wire in Rattle
#
#   make            prove every crate; build bin/kw, report, scrub, libkw.a, libkw.so.0 and a sample image
#   make demo       damage the sample, look at it, mend it, and see that it is as it was
#   make test       the gate: prove all from nothing, try every wrong program, compare with the Rust, run everything
#   make check      the same
#   make refused    see that each wrong program of crates/*/must-fail is refused where it is wrong
#   make compare    run ours and the Rust on the same inputs (SEED=N for other random ones)
#   make soak       the same with a hundred times the random inputs and a seed of its own
#   make replay     hold ours against the recorded answers; needs no Rust
#   make programs   report and scrub on every case of tests/answers/programs, and on bad files
#   make command    bin/kw on every such case, and on files, links and folders of every kind
#   make api        the C and Python examples on sample images, installed and not; the stack that a call takes
#   make bench      time ours beside the Rust
#   make record     make tests/answers anew from the Rust
#   make recorded   see that tests/answers is what 'make record' makes
#   make install    programs, header, libraries, kw.pc and man pages to prefix (/usr/local), below DESTDIR;
#                   PREFIX is another name for prefix, and bindir, libdir, includedir and mandir are GNU's
#   make uninstall  remove what 'make install' with the same prefix and DESTDIR put there
#   make clean      remove all that was built
#
#   KW_ORACLE=FOLDER   where the unchanged Rust is, if not in ../shared/docs/src
#   KW_TEST_LIB=FILE   an archive to compare, replay or bench in place of ours, and KW_LIB=FILE one in
#                      place of libkw.a; make test ignores them

MAKEFLAGS += --no-print-directory
.NOTPARALLEL:
.DELETE_ON_ERROR:
.PHONY: all archives test check refused demo compare soak replay programs command api bench record recorded install uninstall clean help

ifeq ($(strip $(KW_ORACLE)),)
KW_ORACLE = ../shared/docs/src
endif
export KW_ORACLE

KW_TEST_LIB = target/staticlib/libkw_test.a
KW_LIB = target/staticlib/libkw.a
PROGRAMS = target/bin/report target/bin/scrub
ARCHIVES = target/staticlib/libkw_test.a target/staticlib/libkw.a
PROVED = crates.txt $(shell find crates -name out -prune -o \( -name '*.rt' -o -name '*.antt' \) -print)

# The library's version, and its functions, are those of kw.h.
VERSION_OF = $(shell sed -n 's/^.define KW_LIBRARY_VERSION_$(1) //p' include/kw.h)
SONAME = libkw.so.$(call VERSION_OF,MAJOR)
VERSION = $(call VERSION_OF,MAJOR).$(call VERSION_OF,MINOR).$(call VERSION_OF,PATCH)
FUNCTIONS = $(shell sed -n 's/^[a-z].*[ *]\(kw_[a-z_]*\)[()].*/\1/p' include/kw.h)

USED = $(strip target/staticlib/libkw.a host/build/$(SONAME) $(PROGRAMS) bin/kw host/build/sample.kw)

all:
	@sh host/prove.sh
	@echo "all crates are proved; now the libraries, the programs and a sample image"
	@$(MAKE) -s $(USED)
	@echo "built $(USED)"

archives: $(ARCHIVES)

target/staticlib/lib%.a: $(PROVED)
	sh host/archive.sh $*

target/bin/%: $(PROVED)
	sh host/program.sh $* $@

# The command is run once by rt, and would have status 3 where it is asked for nothing.
bin/kw: $(PROVED)
	sh host/program.sh command $@ version

host/build/sample.kw: host/build/make_image
	host/build/make_image >$@

demo: bin/kw
	@$(MAKE) -s host/build/sample.kw
	@sh host/example/demo.sh bin/kw host/build/sample.kw

test check:
	@sh tests/gate.sh

refused:
	@tests/refused.py

compare: host/build/compare
	host/build/compare 10 $(SEED)

soak: host/build/compare
	host/build/compare 1000 $(or $(SEED),$(shell date +%s))

replay: host/build/replay
	host/build/replay tests/answers/*.txt

programs: $(PROGRAMS)
	sh tests/programs.sh target/bin

command: bin/kw
	sh tests/command.sh bin/kw

api: host/build/firmware host/build/make_image host/build/stack host/build/replay host/build/$(SONAME)
	sh tests/api.sh $(KW_LIB) host/build/$(SONAME)

bench: host/build/bench
	host/build/bench

record: host/build/record
	mkdir -p tests/answers
	host/build/record tests/answers

recorded: host/build/record
	rm -rf host/build/answers
	mkdir host/build/answers
	host/build/record host/build/answers
	diff -r tests/answers host/build/answers

# GNU's names for where things go; PREFIX is prefix.
PREFIX = /usr/local
prefix = $(PREFIX)
exec_prefix = $(prefix)
bindir = $(exec_prefix)/bin
libdir = $(exec_prefix)/lib
includedir = $(prefix)/include
mandir = $(prefix)/share/man
DESTDIR =

# Everything that is installed. The programs are not installed as report and scrub: scrub is a disk wiper.
INSTALLED = $(addprefix $(bindir)/,kw kw-report kw-scrub) $(includedir)/kw.h \
	$(addprefix $(libdir)/,libkw.a $(SONAME) libkw.so pkgconfig/kw.pc) \
	$(addprefix $(mandir)/man1/,kw.1 kw-report.1 kw-scrub.1) \
	$(addprefix $(mandir)/man3/,kw.3 $(FUNCTIONS:=.3))
PLACES = @prefix@|$(prefix) @includedir@|$(includedir) @libdir@|$(libdir) @version@|$(VERSION)

install: $(KW_LIB) host/build/$(SONAME) $(PROGRAMS) bin/kw
	install -d $(sort $(dir $(addprefix $(DESTDIR),$(INSTALLED))))
	install -m 755 bin/kw $(DESTDIR)$(bindir)/kw
	install -m 755 target/bin/report $(DESTDIR)$(bindir)/kw-report
	install -m 755 target/bin/scrub $(DESTDIR)$(bindir)/kw-scrub
	install -m 644 include/kw.h $(DESTDIR)$(includedir)/kw.h
	install -m 644 $(KW_LIB) $(DESTDIR)$(libdir)/libkw.a
	install -m 755 host/build/$(SONAME) $(DESTDIR)$(libdir)/$(SONAME)
	ln -sf $(SONAME) $(DESTDIR)$(libdir)/libkw.so
	sed $(PLACES:%=-e 's|%|') include/kw.pc.in >$(DESTDIR)$(libdir)/pkgconfig/kw.pc
	install -m 644 docs/man/kw.1 docs/man/kw-report.1 docs/man/kw-scrub.1 $(DESTDIR)$(mandir)/man1
	install -m 644 docs/man/kw.3 $(DESTDIR)$(mandir)/man3
	for name in $(FUNCTIONS); do echo .so man3/kw.3 >$(DESTDIR)$(mandir)/man3/$$name.3 || exit 1; done

uninstall:
	rm -f $(addprefix $(DESTDIR),$(INSTALLED))

clean:
	rm -rf target host/build bin crates/*/out

help:
	@sed -n 's/^#   //p' Makefile

# The Rust is built as it stands and never copied here: once with a panic at every overflow, for the
# comparison and the record, and once as it would be shipped, for the bench. Its inlined functions
# are compiled with the program that calls them, so the program is built with the same words.
RUSTC = rustc --edition 2021 -O
CHECKED = -C overflow-checks=on
SHIPPED = -C target-cpu=x86-64
ORACLE = --crate-type rlib --crate-name keleusma_wire $(KW_ORACLE)/keleusma-wire/src/lib.rs
WITH_ORACLE = --extern keleusma_wire=$<
WITH_OURS = -C link-arg=$(KW_TEST_LIB) -C link-arg=$(KW_LIB)
OURS = $(KW_TEST_LIB) $(KW_LIB)

# All built anew each time: it takes a second, and none is left over from another archive or Rust.
BUILT = $(addprefix host/build/,libchecked.rlib libshipped.rlib compare record bench replay firmware make_image stack $(SONAME))
.PHONY: $(BUILT)
$(BUILT): | host/build

host/build:
	mkdir -p $@

host/build/libchecked.rlib:
	$(RUSTC) $(CHECKED) $(ORACLE) -o $@

host/build/libshipped.rlib:
	$(RUSTC) $(SHIPPED) $(ORACLE) -o $@

host/build/compare: host/build/libchecked.rlib $(OURS)
	$(RUSTC) $(CHECKED) $(WITH_ORACLE) host/compare/main.rs $(WITH_OURS) -o $@

host/build/record: host/build/libchecked.rlib
	$(RUSTC) $(CHECKED) $(WITH_ORACLE) host/record/main.rs -o $@

host/build/bench: host/build/libshipped.rlib $(OURS)
	$(RUSTC) $(SHIPPED) $(WITH_ORACLE) host/bench/main.rs $(WITH_OURS) -o $@

CC_STRICT = gcc -std=c11 -Wall -Wextra -Werror -Iinclude

host/build/replay: $(OURS)
	$(CC_STRICT) -O1 tests/replay.c $(OURS) -o $@

host/build/firmware host/build/make_image: host/build/%: $(KW_LIB)
	$(CC_STRICT) -O2 host/example/$*.c $(KW_LIB) -o $@

# The frame pointer says where a caller's frame stands.
host/build/stack: $(OURS)
	$(CC_STRICT) -O1 -fno-omit-frame-pointer host/stack/main.c $(OURS) -pthread -o $@

# The archive as it is: its objects are position independent, and show the functions of kw.h alone.
host/build/$(SONAME): $(KW_LIB)
	gcc -shared -nostartfiles -Wl,-z,defs -Wl,-soname,$(SONAME) \
		-Wl,--whole-archive $(KW_LIB) -Wl,--no-whole-archive -o $@
