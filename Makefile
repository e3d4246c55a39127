# For a C programmer. The work is done elsewhere: the toolchain proves and compiles, .ci/run tests, bench/run measures.
#
#   make lib                    the static and the shared library and their header, in build/lib and build/include (x86-64)
#   make install PREFIX=DIR     both, a pkg-config file, the program statement and two man pages, under DIR; DESTDIR is put before it
#   make uninstall PREFIX=DIR   removes these files, and no folder
#   make test                   every proof and every test, from nothing
#   make bench                  times beside a plain C program, and the stack
#   make clean                  removes build/; what was proved stays in crates/NAME/out/

PREFIX = /usr/local
DESTDIR =
INSTALL = install

# Said once, in the header. What stays the same within a version's first two numbers is the shared library's name for the loader.
version := $(shell sed -n 's/^\#define IBISLADDER_VERSION "\(.*\)"$$/\1/p' include/ibisladder.h)
soname = libibisladder.so.$(basename $(version))

proved = crates/host/out/libhost.a
program = crates/statement/out/statement
library = build/lib/libibisladder.a
shared = build/lib/libibisladder.so.$(version)
header = build/include/ibisladder.h

root = $(DESTDIR)$(PREFIX)
installed = include/ibisladder.h lib/libibisladder.a lib/libibisladder.so.$(version) lib/$(soname) lib/libibisladder.so \
	lib/pkgconfig/ibisladder.pc bin/statement share/man/man1/statement.1 share/man/man3/ibisladder.3

.PHONY: lib install uninstall check-folders test bench clean FORCE

lib: $(library) $(shared) $(header)

# What was made of these sources is left as it is, and then nothing that is made of it is made again either.
$(proved): FORCE
	@scripts/prove --library host

$(program): FORCE
	@scripts/prove statement

$(library): $(proved)
	$(INSTALL) -D -m 644 $< $@

# The archive's code stands anywhere in memory and has no state; bound at once, nothing in the library is left to be written to.
$(shared): $(proved)
	$(INSTALL) -d $(@D)
	scripts/x86-64-cc -shared -nostartfiles -Wl,-soname,$(soname) -Wl,-z,relro,-z,now -Wl,--whole-archive $< -Wl,--no-whole-archive -o $@

$(header): include/ibisladder.h
	$(INSTALL) -D -m 644 $< $@

# Neither make nor a pkg-config file can hold a path with a blank, and a relative one would be the caller's folder at each use.
check-folders:
	$(if $(filter 1,$(words $(PREFIX))),,$(error PREFIX has to be one path without blanks, not "$(PREFIX)"))
	$(if $(filter /%,$(PREFIX)),,$(error PREFIX has to begin with a slash, not "$(PREFIX)"))
	$(if $(word 2,$(DESTDIR)),$(error DESTDIR has to be one path without blanks, not "$(DESTDIR)"))

install: check-folders lib $(program)
	$(INSTALL) -d $(root)/include $(root)/lib/pkgconfig $(root)/bin $(root)/share/man/man1 $(root)/share/man/man3
	$(INSTALL) -m 644 $(header) $(root)/include
	$(INSTALL) -m 644 $(library) $(root)/lib
	$(INSTALL) -m 755 $(shared) $(root)/lib
	ln -sf $(notdir $(shared)) $(root)/lib/$(soname)
	ln -sf $(soname) $(root)/lib/libibisladder.so
	sed -e 's|@PREFIX@|$(PREFIX)|' -e 's|@VERSION@|$(version)|' ibisladder.pc.in >$(root)/lib/pkgconfig/ibisladder.pc
	$(INSTALL) -m 755 $(program) $(root)/bin
	$(INSTALL) -m 644 man/statement.1 $(root)/share/man/man1
	$(INSTALL) -m 644 man/ibisladder.3 $(root)/share/man/man3

uninstall: check-folders
	rm -f $(addprefix $(root)/,$(installed))

test:
	bash .ci/run

bench: $(proved) $(program)
	bench/run
	bench/run-statement

clean:
	rm -rf build
