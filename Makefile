# make                          proves and builds the library and the programs
# make install PREFIX=/usr      installs them with the header, a pkg-config file and manual pages; DESTDIR=DIR stages them below DIR
# make uninstall PREFIX=/usr    removes what was installed
# make test                     runs all the tests
# make installcheck             tests an install into an empty prefix
# make clean                    removes what was built, and what rt keeps of its proofs in the crates' out/

PREFIX = /usr/local
BINDIR = $(PREFIX)/bin
LIBDIR = $(PREFIX)/lib
INCLUDEDIR = $(PREFIX)/include
PKGCONFIGDIR = $(LIBDIR)/pkgconfig
MANDIR = $(PREFIX)/share/man

version := $(shell sed -n 's/^.define RTT_VERSION "\(.*\)"/\1/p' include/rtt.h)
library := out/librtt.a
programs := $(foreach p,members credentials proof ends_list carry,crates/$p/out/$p)
installed := rtt-members rtt-credentials rtt-proof rtt-ends rtt-carry
pages1 := $(installed:%=%.1)
pages3 := rtt.3 rtt_complete.3 rtt_query.3 rtt_check.3 rtt_ends.3 rtt_intervals.3 rtt_forward.3 rtt_back.3
pages5 := rtt.5
sources := crates.txt $(shell find crates -name out -prune -o -name '*.rt' -print -o -name '*.antt' -print)

.PHONY: all install uninstall test installcheck clean
# A run of rt takes the processors and the memory that are free.
.NOTPARALLEL:

all: $(library) $(programs)

$(library): $(sources)
	cd crates/rtt_c && rt lib
	mkdir -p out
	cp crates/rtt_c/out/librtt_c.a $@

# rt builds a program only to run it: on the input and the arguments that the crate has.
$(programs): $(sources)
	cd crates/$(@F) && rt run -- $$(cat args 2>/dev/null) <stdin >/dev/null
	touch $@

install: all
	$(if $(filter /%,$(PREFIX)),,$(error PREFIX is not an absolute path))
	install -d $(DESTDIR)$(BINDIR) $(DESTDIR)$(LIBDIR) $(DESTDIR)$(INCLUDEDIR) $(DESTDIR)$(PKGCONFIGDIR)
	install -d $(DESTDIR)$(MANDIR)/man1 $(DESTDIR)$(MANDIR)/man3 $(DESTDIR)$(MANDIR)/man5
	install -m 644 $(library) $(DESTDIR)$(LIBDIR)/librtt.a
	install -m 644 include/rtt.h $(DESTDIR)$(INCLUDEDIR)/rtt.h
	sed 's|@PREFIX@|$(PREFIX)|; s|@LIBDIR@|$(LIBDIR)|; s|@INCLUDEDIR@|$(INCLUDEDIR)|; s|@VERSION@|$(version)|' \
	    packaging/rtt.pc.in >$(DESTDIR)$(PKGCONFIGDIR)/rtt.pc
	chmod 644 $(DESTDIR)$(PKGCONFIGDIR)/rtt.pc
	set -e; set -- $(installed); for p in $(programs); do install -m 755 $$p $(DESTDIR)$(BINDIR)/$$1; shift; done
	set -e; for p in $(pages1) $(pages3) $(pages5); do \
	    to=$(DESTDIR)$(MANDIR)/man$${p##*.}/$$p; sed 's|@VERSION@|$(version)|' man/$$p >$$to; chmod 644 $$to; done

uninstall:
	rm -f $(installed:%=$(DESTDIR)$(BINDIR)/%)
	rm -f $(DESTDIR)$(LIBDIR)/librtt.a $(DESTDIR)$(INCLUDEDIR)/rtt.h $(DESTDIR)$(PKGCONFIGDIR)/rtt.pc
	rm -f $(pages1:%=$(DESTDIR)$(MANDIR)/man1/%) $(pages3:%=$(DESTDIR)$(MANDIR)/man3/%) $(pages5:%=$(DESTDIR)$(MANDIR)/man5/%)

test:
	.ci/run

installcheck: all
	packaging/run

clean:
	rm -rf out crates/*/out compare/target
