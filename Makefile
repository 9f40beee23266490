# make builds the libraries (which proves the port, some minutes) and the command; make install puts all of it below PREFIX:
# the command, both libraries, the header, what pkg-config asks, man page, completions and defaults. DESTDIR is put before it, for packages.
PREFIX ?= /usr/local
DESTDIR ?=
LIBDIR ?= lib

VERSION := $(shell cat VERSION)
MAJOR := $(firstword $(subst ., ,$(VERSION)))
ARCHIVE := target/native/libsillgarland.a
SHARED := target/native/libsillgarland.so
SILL := rust/target/release/sill
DEFAULTS := $(wildcard rust/sill/sill.defaults)

root := $(DESTDIR)$(PREFIX)
lib := $(root)/$(LIBDIR)

.PHONY: all install uninstall

all: $(ARCHIVE) $(SHARED)
	cargo build --release --offline --quiet -p sill

$(ARCHIVE):
	tools/staticlib

$(SHARED): $(ARCHIVE)
	tools/staticlib --shared

install: all
	install -d "$(root)/bin" "$(root)/include" "$(lib)/pkgconfig"
	install -m 755 $(SILL) "$(root)/bin/sill"
	install -m 644 include/sillgarland.h "$(root)/include/sillgarland.h"
	install -m 644 $(ARCHIVE) "$(lib)/libsillgarland.a"
	install -m 755 $(SHARED) "$(lib)/libsillgarland.so.$(VERSION)"
	ln -sf libsillgarland.so.$(VERSION) "$(lib)/libsillgarland.so.$(MAJOR)"
	ln -sf libsillgarland.so.$(MAJOR) "$(lib)/libsillgarland.so"
	$(call described,sillgarland,-L$${libdir} -lsillgarland)
	$(call described,sillgarland-static,$${libdir}/libsillgarland.a)
	@$(call told,manual --man,$(root)/share/man/man1/sill.1,^[.]TH)
	@$(call told,completions bash,$(root)/share/bash-completion/completions/sill,complete)
	@$(call told,completions zsh,$(root)/share/zsh/site-functions/_sill,^#compdef)
	@$(call told,completions fish,$(root)/share/fish/vendor_completions.d/sill.fish,complete)
	@$(if $(DEFAULTS),install -m 644 $(DEFAULTS) "$(root)/bin/sill.defaults",\
	    echo "make install: there is no file of defaults; it is left out")

uninstall:
	rm -f "$(root)/bin/sill" "$(root)/include/sillgarland.h" "$(lib)/libsillgarland.a" "$(lib)/libsillgarland.so" \
	    "$(lib)/libsillgarland.so.$(MAJOR)" "$(lib)/libsillgarland.so.$(VERSION)" "$(lib)/pkgconfig/sillgarland.pc" \
	    "$(lib)/pkgconfig/sillgarland-static.pc" "$(root)/share/man/man1/sill.1" \
	    "$(root)/share/bash-completion/completions/sill" "$(root)/share/zsh/site-functions/_sill" \
	    "$(root)/share/fish/vendor_completions.d/sill.fish" "$(root)/bin/sill.defaults"

# $(call described,NAME,LIBS): what pkg-config asks under this name.
described = sed -e 's|@PREFIX@|$(PREFIX)|' -e 's|@LIBDIR@|$(LIBDIR)|' -e 's|@VERSION@|$(VERSION)|' -e 's|@LIBS@|$(subst $$,\$$,$(2))|' \
    packaging/sillgarland.pc.in >"$(lib)/pkgconfig/$(1).pc"

# $(call told,WORDS,FILE,MARK): what `sill WORDS` prints, as a file that has the mark; where it prints none, that is told and the file left out.
told = install -d "$(dir $(2))" && if $(SILL) $(1) >"$(2)" 2>/dev/null && grep -q '$(3)' "$(2)"; then chmod 644 "$(2)"; \
    else rm -f "$(2)"; echo "make install: this sill has no '$(1)'; $(notdir $(2)) is left out"; fi
