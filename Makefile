# make                            proves and builds the library, and stages it with header and fabric.pc below target/prefix
# make panel                      builds the program over the staged library: target/rust/release/panel
# make install PREFIX=..          library, header, fabric.pc, the C example, two pages, and the program; PREFIX is /usr/local unless given
# make install-library PREFIX=..  the same without the program
PREFIX = /usr/local
STAGE = target/prefix
STAGED = $(STAGE)/lib/libfabric.a $(STAGE)/include/fabric.h $(STAGE)/lib/pkgconfig/fabric.pc
PROGRAM = target/rust/release/panel
TO = "$(DESTDIR)$(PREFIX)"

# The folders in a crate are among them, so that a file that is gone counts too. The edits that must fail are no part of the library, nor is what rt makes.
CRATES := crates.txt $(shell find crates -mindepth 2 \( -name must-fail -o -name out \) -prune -o -print)
PANEL := $(shell find .cargo Cargo.toml Cargo.lock panel reference -type f 2>/dev/null)

.DELETE_ON_ERROR:
.PHONY: library panel install install-library

library: $(STAGED)

$(STAGE)/lib/libfabric.a: $(CRATES)
	tools/prove kit_c
	install -d $(@D)
	install -m 644 crates/kit_c/out/libkit_c.a $@

$(STAGE)/include/fabric.h: include/fabric.h
	install -d $(@D)
	install -m 644 $< $@

$(STAGE)/lib/pkgconfig/fabric.pc: host/fabric.pc
	install -d $(@D)
	install -m 644 $< $@

panel: $(PROGRAM)

# cargo leaves the program as it is where nothing changed for it; it counts as made all the same.
$(PROGRAM): $(STAGED) $(PANEL)
	FABRIC_PREFIX="$(CURDIR)/$(STAGE)" cargo build --offline --release --package panel --target-dir target/rust
	touch $@

install: install-library $(PROGRAM)
	install -d $(TO)/bin
	install -m 755 $(PROGRAM) $(TO)/bin

install-library: $(STAGED)
	install -d $(TO)/lib/pkgconfig $(TO)/include $(TO)/share/fabric $(TO)/share/doc/fabric
	install -m 644 $(STAGE)/lib/libfabric.a $(TO)/lib
	install -m 644 $(STAGE)/include/fabric.h $(TO)/include
	install -m 644 $(STAGE)/lib/pkgconfig/fabric.pc $(TO)/lib/pkgconfig
	install -m 644 host/example.c host/explain.c host/explain.h $(TO)/share/fabric
	install -m 644 docs/FORMAT.md docs/NETLIST.md $(TO)/share/doc/fabric
