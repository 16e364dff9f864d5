# make            the library, static and shared, and the command
# make install    them, the header, a pkg-config file, the manual and the completions; below DESTDIR, for PREFIX (/usr/local)
# make uninstall  removes what install made
# make test       proves everything and runs all tests
#
# The library is proved first (tools/build sii_decode_c), unless SII_LIBRARY names the folder of an archive. install builds nothing, so it needs neither rt nor cargo.

PREFIX ?= /usr/local
DESTDIR ?=
BINDIR ?= $(PREFIX)/bin
LIBDIR ?= $(PREFIX)/lib
INCLUDEDIR ?= $(PREFIX)/include
DATADIR ?= $(PREFIX)/share
MANDIR ?= $(DATADIR)/man
INSTALL ?= install
# what make itself builds goes here
BUILD ?= target/make

header := include/sii_decode.h
number = $(shell sed -n 's/^.define SII_VERSION_$(1) //p' $(header))
version := $(call number,MAJOR).$(call number,MINOR).$(call number,PATCH)
# before 1.0 a new minor version may change the interface
soname := libsii_decode_c.so.$(call number,MAJOR).$(call number,MINOR)
archive := $(or $(SII_LIBRARY),target/staticlib)/libsii_decode_c.a
shared := $(BUILD)/libsii_decode_c.so.$(version)
cargo_target := $(or $(CARGO_TARGET_DIR),target)
command := $(if $(filter /%,$(cargo_target)),,host/)$(cargo_target)/release/sii-decode

all: $(archive) $(shared) command

ifndef SII_LIBRARY
$(archive): $(shell find crates -name out -prune -o '(' -name '*.rt' -o -name '*.antt' ')' -print) crates.txt
	tools/build sii_decode_c
	touch $@
endif

# The objects are position independent; the calls are their only global names.
$(shared): $(archive)
	mkdir -p $(BUILD)
	$(CC) -shared -Wl,-soname,$(soname) -Wl,-z,defs -Wl,--whole-archive $(archive) -Wl,--no-whole-archive $(LDFLAGS) -o $@

# cargo knows what is new
command: $(archive)
	cd host && SII_LIBRARY=$(abspath $(dir $(archive))) cargo build --release --offline -q -p command

# what install makes, below DESTDIR
installed := $(BINDIR)/sii-decode $(INCLUDEDIR)/sii_decode.h $(LIBDIR)/libsii_decode_c.a $(LIBDIR)/libsii_decode_c.so.$(version) \
	$(LIBDIR)/$(soname) $(LIBDIR)/libsii_decode_c.so $(LIBDIR)/pkgconfig/sii_decode.pc $(MANDIR)/man1/sii-decode.1 \
	$(DATADIR)/bash-completion/completions/sii-decode $(DATADIR)/zsh/site-functions/_sii-decode \
	$(DATADIR)/fish/vendor_completions.d/sii-decode.fish $(DATADIR)/doc/sii-decode/LICENSE $(DATADIR)/doc/sii-decode/NOTICE

install:
	@for file in $(archive) $(shared) $(command); do [ -e "$$file" ] || { echo "$$file is not there: run make first" >&2; exit 1; }; done
	$(INSTALL) -d $(sort $(dir $(addprefix $(DESTDIR),$(installed))))
	$(INSTALL) -m 755 $(command) $(DESTDIR)$(BINDIR)/sii-decode
	$(INSTALL) -m 644 $(header) $(DESTDIR)$(INCLUDEDIR)/sii_decode.h
	$(INSTALL) -m 644 $(archive) $(DESTDIR)$(LIBDIR)/libsii_decode_c.a
	$(INSTALL) -m 755 $(shared) $(DESTDIR)$(LIBDIR)/libsii_decode_c.so.$(version)
	ln -sf libsii_decode_c.so.$(version) $(DESTDIR)$(LIBDIR)/$(soname)
	ln -sf $(soname) $(DESTDIR)$(LIBDIR)/libsii_decode_c.so
	printf '%s\n' 'prefix=$(PREFIX)' 'libdir=$(LIBDIR)' 'includedir=$(INCLUDEDIR)' '' 'Name: sii_decode' 'Description: BSII saves to SiiNunit text, proved' \
		'Version: $(version)' 'Cflags: -I$${includedir}' 'Libs: -L$${libdir} -lsii_decode_c' > $(DESTDIR)$(LIBDIR)/pkgconfig/sii_decode.pc
	$(INSTALL) -m 644 man/sii-decode.1 $(DESTDIR)$(MANDIR)/man1/sii-decode.1
	$(INSTALL) -m 644 completions/sii-decode.bash $(DESTDIR)$(DATADIR)/bash-completion/completions/sii-decode
	$(INSTALL) -m 644 completions/_sii-decode $(DESTDIR)$(DATADIR)/zsh/site-functions/_sii-decode
	$(INSTALL) -m 644 completions/sii-decode.fish $(DESTDIR)$(DATADIR)/fish/vendor_completions.d/sii-decode.fish
	$(INSTALL) -m 644 LICENSE NOTICE $(DESTDIR)$(DATADIR)/doc/sii-decode

uninstall:
	rm -f $(addprefix $(DESTDIR),$(installed))

test:
	.ci/run

.PHONY: all command install uninstall test
