# make                  proves and builds crates/grelfint/out/libgrelfint.a
# make check            runs the gate: all proofs, all wrong programs, all tests
# make install PREFIX=  installs header, archive and pkg-config file
PREFIX = /usr/local
VERSION = $(shell sed -n 's/^.define GRELFINT_VERSION "\(.*\)"$$/\1/p' include/grelfint.h)
installed = $(DESTDIR)$(PREFIX)
archive = crates/grelfint/out/libgrelfint.a
sources = crates.txt $(shell find crates \( -name must-fail -o -name out \) -prune -o -type f -print)

all: $(archive)

$(archive): $(sources)
	cd crates/grelfint && rt lib

check:
	.ci/run

install: $(archive)
	install -d "$(installed)/include" "$(installed)/lib/pkgconfig"
	install -m 644 include/grelfint.h "$(installed)/include"
	install -m 644 $(archive) "$(installed)/lib"
	sed 's|@PREFIX@|$(PREFIX)|; s|@VERSION@|$(VERSION)|' grelfint.pc.in >"$(installed)/lib/pkgconfig/grelfint.pc"

.PHONY: all check install
