# Builds, checks, installs and packs what users take.
#
#   make              the archive, the shared library and the command line
#   make lib          the archive alone, target/lib/libflamivorse.a: the functions that rt proves and compiles, whole.
#                     It needs no other library: where the compiler calls memcpy and memset, the archive calls its own
#                     (archive/), under names that no program sees.
#   make check        both libraries and the header as C, C++ and Python programs use them, installed and not
#   make install-lib  archive, shared library, header and pkg-config file under PREFIX, with DESTDIR before it, the
#                     libraries in LIBDIR; this needs no cargo
#   make install      these, program and man page
#   make uninstall    takes all of them away
#   make release      target/release/flamivorse-VERSION-x86_64-linux.tar.gz, for machines without Rattle

PREFIX ?= /usr/local
LIBDIR ?= $(PREFIX)/lib
OBJCOPY ?= objcopy
NM ?= nm
INSTALL ?= install

version := $(shell sed -n 's/^.define FLAMIVORSE_VERSION "\(.*\)"/\1/p' include/flamivorse.h)
# Before 1.0 the second number may change calls and layouts, and then a program must not find the library.
soname := libflamivorse.so.$(basename $(version))
copy = archive/copy.s
out = target/lib
proved = crates/flamivorse/out/libflamivorse.a
library = $(or $(FLAMIVORSE_LIB_DIR),$(out))/libflamivorse.a
shared = $(out)/$(soname)
program = rust/target/x86_64-unknown-linux-gnu/release/flamivorse
place = $(DESTDIR)$(PREFIX)
libraries = $(DESTDIR)$(LIBDIR)
manual = $(place)/share/man/man1

.PHONY: all lib check install-lib install uninstall release $(shared)
all: $(library) $(shared) $(program)

lib: $(out)/libflamivorse.a

check: all
	tests/c

install-lib: $(library) $(shared)
	$(INSTALL) -d $(libraries)/pkgconfig $(place)/include
	$(INSTALL) -m 644 $(library) $(shared) $(libraries)
	ln -sf $(soname) $(libraries)/libflamivorse.so
	$(INSTALL) -m 644 include/flamivorse.h $(place)/include
	sed 's|@PREFIX@|$(PREFIX)|; s|@LIBDIR@|$(LIBDIR:$(PREFIX)/%=$${prefix}/%)|; s|@VERSION@|$(version)|' \
	    package/flamivorse.pc.in >$(libraries)/pkgconfig/flamivorse.pc
	chmod 644 $(libraries)/pkgconfig/flamivorse.pc

install: install-lib $(program)
	$(INSTALL) -d $(place)/bin $(manual)
	$(INSTALL) -m 755 $(program) $(place)/bin
	$(INSTALL) -m 644 package/flamivorse.1 $(manual)

uninstall:
	rm -f $(addprefix $(libraries)/,libflamivorse.a $(soname) libflamivorse.so pkgconfig/flamivorse.pc)
	rm -f $(place)/include/flamivorse.h $(place)/bin/flamivorse $(manual)/flamivorse.1

release:
	package/release

$(out)/libflamivorse.a: $(proved) $(copy) archive/clear.s Makefile
	mkdir -p $(out)/parts
	$(AR) p $(proved) flamivorse.o >$(out)/parts/proved.o
	$(OBJCOPY) --redefine-sym memcpy=private_copy --redefine-sym memset=private_fill $(out)/parts/proved.o
	$(AS) $(copy) -o $(out)/parts/copy.o
	$(AS) archive/clear.s -o $(out)/parts/clear.o
	$(LD) -r -z shstk $(out)/parts/proved.o $(out)/parts/copy.o $(out)/parts/clear.o -o $(out)/parts/flamivorse.o
	$(OBJCOPY) --localize-hidden $(out)/parts/flamivorse.o
	! $(NM) -u $(out)/parts/flamivorse.o | grep .    # nothing is left for another library
	rm -f $@
	$(AR) rcs $@ $(out)/parts/flamivorse.o

# The archive's one object, so its machine code. It is linked each time, since FLAMIVORSE_LIB_DIR may name another now.
$(shared): $(library)
	mkdir -p $(out)
	$(LD) -shared -soname $(soname) -Bsymbolic -z defs -z text -z now --whole-archive $(library) -o $@
	ln -sf $(soname) $(out)/libflamivorse.so

# Folders are named as well, since a file that is gone changes them; not a crate's own, where rt keeps its work.
$(proved): crates.txt $(shell find $(wildcard crates/*/src crates/*/specs crates/*/proofs))
	@command -v rt >/dev/null || { printf 'flamivorse: %s\n' >&2 \
	    "Rattle's rt is missing, and proves and builds the library. With FLAMIVORSE_LIB_DIR an archive is taken" \
	    'from a folder, for example of a release.'; exit 2; }
	cd crates/flamivorse && rt all check    # side by side; the next line would go one by one
	cd crates/flamivorse && rt lib --cpu=x86-64    # for every such processor

$(program): $(library) rust/Cargo.toml $(shell find rust/cli rust/flamivorse)
	bash -euo pipefail -c '. tests/setup; build_program'
	touch $@
