# `make` proves and builds the library, `make install PREFIX=..` puts it where C and C++ programs find it.
PREFIX = /usr/local
archive = target/staticlib/libskytassel.a
version = $(shell sed -nE 's/^version = "(.*)"/\1/p' rust/Cargo.toml)
to = $(DESTDIR)$(PREFIX)

$(archive): include/library.sh $(wildcard crates/*/src/*.rt)
	bash include/library.sh

install: $(archive)
	install -d $(to)/include $(to)/lib/pkgconfig
	install -m 644 include/skytassel.h $(to)/include
	install -m 644 $(archive) $(to)/lib
	sed 's|@PREFIX@|$(PREFIX)|; s|@VERSION@|$(version)|' include/skytassel.pc.in > $(to)/lib/pkgconfig/skytassel.pc

.PHONY: install
