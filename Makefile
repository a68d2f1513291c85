# Proves, builds, tries and installs Batqemulo. `make` needs the Rattle toolchain (rt); rt proves what it builds.
#
#   make                  the libraries and the programs, all code for x86-64
#   make check            the whole gate, .ci/run
#   make bench            the benchmark; on a quiet machine
#   make install          header, libraries, programs, man pages and rules below PREFIX; DESTDIR is put before it
#   make uninstall        removes those files, and no folder
#   make clean            removes all that was built

PREFIX = /usr/local
DESTDIR =
INSTALL = install

# the version has its place in the header alone; the soname has its first two parts
version := $(shell ./batqemulo --version | sed 's/.* //')
soname = libbatqemulo.so.$(basename $(version))

archive = target/staticlib/libbatqemulo.a
shared = target/staticlib/libbatqemulo.so
programs = list reason mend catalogue uncatalogue
words = sentences.txt help.txt explain.awk clean.awk

# the calls, each of which gets a man page that leads to batqemulo.3
calls := ${shell sed -n 's/^batqemulo_answer \(batqemulo_[a-z_]*\)(.*/\1/p' include/batqemulo.h}

to = $(DESTDIR)$(PREFIX)
pages = batqemulo.1 $(programs:%=batqemulo-%.1)
installed = include/batqemulo.h lib/libbatqemulo.a lib/libbatqemulo.so.$(version) lib/$(soname) lib/libbatqemulo.so \
    lib/pkgconfig/batqemulo.pc bin/batqemulo $(programs:%=bin/batqemulo-%) $(words:%=share/batqemulo/%) share/batqemulo/version \
    share/doc/batqemulo/RULES.md share/doc/batqemulo/LICENSE \
    $(pages:%=share/man/man1/%) share/man/man3/batqemulo.3 $(calls:%=share/man/man3/%.3)

all: $(archive) $(shared) programs

# whether the library or a program is older than its sources, command/build knows best
$(archive): always
	command/build batqemulo_c

$(shared): $(archive) include/batqemulo.h
	bash -c '. tests/programs.sh && shared $(shared) $(soname) $(archive)'

programs:
	for name in $(programs); do command/build $$name || exit; done

check:
	.ci/run

bench:
	bench/run

install: all
	for folder in $(sort $(dir $(installed))); do $(INSTALL) -d "$(to)/$$folder" || exit; done
	$(INSTALL) -m 644 include/batqemulo.h "$(to)/include/batqemulo.h"
	$(INSTALL) -m 644 $(archive) "$(to)/lib/libbatqemulo.a"
	$(INSTALL) -m 644 $(shared) "$(to)/lib/libbatqemulo.so.$(version)"
	ln -sf libbatqemulo.so.$(version) "$(to)/lib/$(soname)"
	ln -sf $(soname) "$(to)/lib/libbatqemulo.so"
	sed -e 's|@PREFIX@|$(PREFIX)|' -e 's|@VERSION@|$(version)|' batqemulo.pc.in >target/batqemulo.pc
	$(INSTALL) -m 644 target/batqemulo.pc "$(to)/lib/pkgconfig/batqemulo.pc"
	for name in $(programs); do $(INSTALL) -m 755 target/bin/program_$$name "$(to)/bin/batqemulo-$$name" || exit; done
	$(INSTALL) -m 755 batqemulo "$(to)/bin/batqemulo"
	for file in $(words); do $(INSTALL) -m 644 command/$$file "$(to)/share/batqemulo/$$file" || exit; done
	./batqemulo --version >target/version
	$(INSTALL) -m 644 target/version "$(to)/share/batqemulo/version"
	$(INSTALL) -m 644 docs/RULES.md "$(to)/share/doc/batqemulo/RULES.md"
	$(INSTALL) -m 644 LICENSE "$(to)/share/doc/batqemulo/LICENSE"
	for page in $(pages); do $(INSTALL) -m 644 docs/$$page "$(to)/share/man/man1/$$page" || exit; done
	$(INSTALL) -m 644 docs/batqemulo.3 "$(to)/share/man/man3/batqemulo.3"
	echo '.so man3/batqemulo.3' >target/call.3
	for call in $(calls); do $(INSTALL) -m 644 target/call.3 "$(to)/share/man/man3/$$call.3" || exit; done

uninstall:
	for file in $(installed); do rm -f "$(to)/$$file" || exit; done

clean:
	rm -rf target crates/*/out

# rt proves one thing after the other
.NOTPARALLEL:
.PHONY: all always programs check bench install uninstall clean
