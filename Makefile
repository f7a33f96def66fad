PREFIX = /usr/local

.PHONY: all lib test install install-lib uninstall deb dist wheel clean

all: crates/fitsed/out/fitsed

# The crates of crates.txt, and what the line of one says that it stands on, lowest first.
crates := $(shell sed -n 's/^\([a-z_]*\)\( staticlib\)\{0,1\}:.*/\1/p' crates.txt)
stands_on = $(filter $(crates),$(shell sed -n 's/^$(1)\( staticlib\)\{0,1\}://p' crates.txt))
sources = $(shell find crates/$(1) -name out -prune -o \( -name '*.rt' -o -name '*.antt' \) -print)

# The jobs of a check: one for each processor that has 4 GB of memory, since mostly one crate is proved at a time.
jobs ?= $(shell awk -v most="$$(nproc)" '/^MemAvailable/ { n = int($$2 / 4000000); print n < 1 ? 1 : n < most ? n : most }' /proc/meminfo)

# A crate is proved once those are that it stands on; crates beside one another are proved at once by `make -j`.
define proved
crates/$(1)/out/proved: $(call sources,$(1)) $(patsubst %,crates/%/out/proved,$(call stands_on,$(1)))
	@mkdir -p crates/$(1)/out
	@echo 'fitsed: proving $(1)' >&2
	@cd crates/$(1) && { rt check --jobs $(jobs) >out/log 2>&1 || { cat out/log >&2; exit 1; }; }
	@touch $$@
endef
$(foreach crate,$(crates),$(eval $(call proved,$(crate))))

# The program is proved before it is built.
crates/fitsed/out/fitsed: crates/fitsed/out/proved
	@echo 'fitsed: building the program' >&2
	@cd crates/fitsed && { rt run -- --help >out/log 2>&1 || { cat out/log >&2; exit 1; }; }
	@touch $@

# The library, static and shared, is proved before it is built.
library = crates/fits_c/out/libfitsed.so.0

lib: $(library)

$(library): crates/fits_c/out/proved binding/link.sh
	@echo 'fitsed: building the library' >&2
	@cd crates/fits_c && { rt lib >out/log.lib 2>&1 || { cat out/log.lib >&2; exit 1; }; }
	@sh binding/link.sh

test:
	@sh .ci/test.sh

# What is installed stands in packaging/files.sh, for the package too.
install: crates/fitsed/out/fitsed
	sh packaging/files.sh $< '$(DESTDIR)' '$(PREFIX)'

install-lib: $(library)
	sh packaging/library.sh '$(DESTDIR)' '$(PREFIX)'

uninstall:
	rm -f $(DESTDIR)$(PREFIX)/bin/fitsed $(DESTDIR)$(PREFIX)/share/man/man1/fitsed.1
	rm -f $(DESTDIR)$(PREFIX)/share/bash-completion/completions/fitsed
	rm -rf $(DESTDIR)$(PREFIX)/share/doc/fitsed
	rm -f $(DESTDIR)$(PREFIX)/include/fitsed.h $(DESTDIR)$(PREFIX)/lib/pkgconfig/fitsed.pc
	rm -f $(DESTDIR)$(PREFIX)/lib/libfitsed.a $(DESTDIR)$(PREFIX)/lib/libfitsed.so $(DESTDIR)$(PREFIX)/lib/libfitsed.so.0

deb: crates/fitsed/out/fitsed $(library)
	sh packaging/deb.sh $< dist/fitsed.deb
	sh packaging/library_debs.sh dist

wheel: $(library)
	mkdir -p dist
	sh packaging/wheel.sh dist

dist: crates/fitsed/out/fitsed $(library)
	sh packaging/dist.sh

clean:
	rm -rf crates/*/out dist
