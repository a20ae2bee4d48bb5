# make: the library as a C or Rust program takes it: dist/libkeybasket.a and dist/keybasket.h, proved first; and the program dist/keybasket.
# make install PREFIX=..: what make has built, copied under PREFIX (DESTDIR is put before it), with a pkg-config file and the program's manual page.
# make test: all tests. make bench: our time beside the Rust's.
.PHONY: all lib install test bench clean

VERSION = 0.1.0
PREFIX = /usr/local
# An absolute folder: it stands in the pkg-config file.
prefix = $(abspath $(PREFIX))
to = $(DESTDIR)$(prefix)

# For every x86-64 processor; without this rt builds for x86-64-v2.
CPU = --cpu=x86-64

# rt run leaves the program in the crate's out/, once it is proved; here it is run on no bytes.
all: lib
	cd crates/keybasket && rt run $(CPU) </dev/null >/dev/null
	cp crates/keybasket/out/keybasket dist/keybasket

lib:
	cd crates/c_api_c && rt lib $(CPU)
	mkdir -p dist
	cp crates/c_api_c/out/libc_api_c.a dist/libkeybasket.a
	cp include/keybasket.h dist/keybasket.h

install:
	@test -x dist/keybasket || { echo "make install copies what make has built: run make first" >&2; exit 1; }
	sed -e 's|@prefix@|$(prefix)|' -e 's|@version@|$(VERSION)|' include/keybasket.pc.in > dist/keybasket.pc
	install -d $(to)/bin $(to)/include $(to)/lib/pkgconfig $(to)/share/man/man1
	install -m 755 dist/keybasket $(to)/bin/keybasket
	install -m 644 dist/keybasket.h $(to)/include/keybasket.h
	install -m 644 dist/libkeybasket.a $(to)/lib/libkeybasket.a
	install -m 644 dist/keybasket.pc $(to)/lib/pkgconfig/keybasket.pc
	install -m 644 docs/keybasket.1 $(to)/share/man/man1/keybasket.1

test:
	tests/all

bench:
	tests/bench

clean:
	rm -rf dist target crates/*/out
