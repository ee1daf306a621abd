# make: the library for x86-64, static and shared, in target/lib.
# make install PREFIX=/usr/local: both, the header and a pkg-config file; DESTDIR is put before PREFIX.
#
# Takes the Rattle toolchain alone: `rt` proves and compiles the crate `exports_c`, and the toolchain's own linker makes the shared library.
PREFIX = /usr/local
DESTDIR =
VERSION = 0.1.0

CRATES := $(shell sed -n 's/^exports_c staticlib://p' crates.txt) exports_c
SOURCES := crates.txt $(shell find $(CRATES:%=crates/%) -name out -prune -o \( -name '*.rt' -o -name '*.antt' \) -print)
# The folder of the toolchain.
TOOLS = $(dir $(shell rt doc))toolchain

all: target/lib/libitzahuemo.a target/lib/libitzahuemo.so

target/lib/libitzahuemo.a: $(SOURCES)
	@mkdir -p $(@D)
	@echo 'proving and compiling the library, which takes minutes; the log is target/library.log'
	@(cd crates/exports_c && rt lib) >target/library.log 2>&1 || { cat target/library.log; exit 1; }
	cp crates/exports_c/out/libexports_c.a $@

# `-z text` refuses code that is not position independent, `-z defs` a name that nothing defines.
target/lib/libitzahuemo.so: target/lib/libitzahuemo.a
	$(TOOLS)/bin/ld.lld -m elf_x86_64 -shared -soname $(@F) -z text -z defs -o $@ \
		--whole-archive $< --no-whole-archive $(TOOLS)/lib/libc.so.6

install: all
	install -d $(DESTDIR)$(PREFIX)/include $(DESTDIR)$(PREFIX)/lib/pkgconfig
	install -m 644 include/itzahuemo.h $(DESTDIR)$(PREFIX)/include/
	install -m 644 target/lib/libitzahuemo.a $(DESTDIR)$(PREFIX)/lib/
	install -m 755 target/lib/libitzahuemo.so $(DESTDIR)$(PREFIX)/lib/
	printf '%s\n' \
		'prefix=$(PREFIX)' 'libdir=$${prefix}/lib' 'includedir=$${prefix}/include' '' \
		'Name: itzahuemo' 'Description: Packets in and out of the frames of one AOS virtual channel' 'Version: $(VERSION)' \
		'Libs: -L$${libdir} -litzahuemo' 'Cflags: -I$${includedir}' >$(DESTDIR)$(PREFIX)/lib/pkgconfig/itzahuemo.pc

.PHONY: all install
.DELETE_ON_ERROR:
