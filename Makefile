# libtcap, for C and for all that calls C.
#
#   make                    out/libtcap.a and out/libtcap.so.VERSION
#   make install            with headers, tcap.pc and the man page, below PREFIX (/usr/local), itself below DESTDIR
#   make uninstall
#   make check              the tests of C, Python and Rust that need no `rt`; those whose tools are missing are left out
#   make dist               a tarball that needs no `rt`: out/libtcap-VERSION-MACHINE.tar.gz, and its checksum
#   make clean
#
# No folder that is named here has a space in its name. The proved part is an archive, ARCHIVE. A released tarball has
# it; a clone builds it by `rt lib`, from the Rattle toolchain, and anew where the sources of tcap_c or of a crate
# below it are newer. One that you name is taken as it is.
# docs/RELEASES.md says how versions are counted and what may change.
VERSION := $(shell sed -n 's/^VERSION = //p' c/Makefile)
MACHINE := $(shell $(CC) -dumpmachine)
NAME := libtcap-$(VERSION)-$(MACHINE)
PREFIX ?= /usr/local
INCLUDEDIR ?= $(PREFIX)/include
LIBDIR ?= $(PREFIX)/lib
MANDIR ?= $(PREFIX)/share/man
INSTALL ?= install
OUT := $(CURDIR)/out
SHARED := libtcap.so.$(VERSION)
SONAME := libtcap.so.0

RELEASED := $(wildcard lib/libtcap_c.a)
PROVED := crates/tcap_c/out/libtcap_c.a
ARCHIVE ?= $(or $(RELEASED),$(PROVED))

all: $(OUT)/libtcap.a $(OUT)/$(SHARED)

# tcap_c and the crates below it, each of which stands above what it uses in crates.txt; and what is compiled of them.
CRATES := $(shell tac crates.txt 2> /dev/null | awk '{ sub(":", "") } \
  $$1 == "tcap_c" || $$1 in below { print $$1; for (i = 2; i <= NF; i++) below[$$i] }')
SOURCES := $(if $(CRATES),$(shell find $(CRATES:%=crates/%/src) -name '*.rt'))

# It is proved and built, which takes `rt` and some time.
$(PROVED): $(if $(filter file,$(origin ARCHIVE)),$(SOURCES))
	@command -v rt > /dev/null || { \
	  echo "make: $@ isn't there, or older than its sources: it is built by rt, from the Rattle toolchain," >&2; \
	  echo "make: whose bin/ belongs into PATH. ARCHIVE=FILE takes one as it is. A released tarball (make dist) has it." >&2; \
	  exit 1; }
	cd crates/tcap_c && rt lib
	@touch $@

# The sum of the archive that out/ was made of: another one counts too where it is older.
$(OUT)/archive: $(ARCHIVE) FORCE
	@mkdir -p $(OUT)
	@sum=$$(cksum < $(ARCHIVE)); [ "$$(cat $@ 2> /dev/null)" = "$$sum" ] || echo "$$sum" > $@

$(OUT)/libtcap.a $(OUT)/$(SONAME) &: $(OUT)/archive c/tcap.c c/tcap_codec.c c/tcap_c.h c/tcap_codec_c.h c/tcap.map c/Makefile include/tcap.h include/tcap_codec.h
	@rm -f $(OUT)/libtcap.a $(OUT)/$(SONAME)
	$(MAKE) -C c ARCHIVE=$(abspath $(ARCHIVE)) OUT=$(OUT) $(OUT)/libtcap.a $(OUT)/$(SONAME)
	@touch $(OUT)/libtcap.a $(OUT)/$(SONAME)

# The names by which a linker finds it, as they stand after the installation.
$(OUT)/$(SHARED): $(OUT)/$(SONAME)
	ln -sf $(SONAME) $@
	ln -sf $(SONAME) $(OUT)/libtcap.so

install: all
	$(INSTALL) -d $(DESTDIR)$(INCLUDEDIR) $(DESTDIR)$(LIBDIR)/pkgconfig $(DESTDIR)$(MANDIR)/man3
	$(INSTALL) -m 644 include/*.h $(DESTDIR)$(INCLUDEDIR)
	$(INSTALL) -m 644 $(OUT)/libtcap.a $(DESTDIR)$(LIBDIR)
	$(INSTALL) -m 755 $(OUT)/$(SONAME) $(DESTDIR)$(LIBDIR)/$(SHARED)
	ln -sf $(SHARED) $(DESTDIR)$(LIBDIR)/$(SONAME)
	ln -sf $(SONAME) $(DESTDIR)$(LIBDIR)/libtcap.so
	sed 's|@PREFIX@|$(PREFIX)|; s|@VERSION@|$(VERSION)|; s|^libdir=.*|libdir=$(LIBDIR)|; s|^includedir=.*|includedir=$(INCLUDEDIR)|' \
	  c/tcap.pc.in > $(OUT)/tcap.pc
	$(INSTALL) -m 644 $(OUT)/tcap.pc $(DESTDIR)$(LIBDIR)/pkgconfig
	$(INSTALL) -m 644 man/libtcap.3 $(DESTDIR)$(MANDIR)/man3

uninstall:
	rm -f $(addprefix $(DESTDIR)$(INCLUDEDIR)/,$(notdir $(wildcard include/*.h)))
	rm -f $(addprefix $(DESTDIR)$(LIBDIR)/,libtcap.a libtcap.so $(SONAME) $(SHARED) pkgconfig/tcap.pc)
	rm -f $(DESTDIR)$(MANDIR)/man3/libtcap.3

check: all
	c/symbols $(abspath $(ARCHIVE))
	bindings/check $(OUT)

# What a tarball has, besides the archive: headers, the C side, man page, bindings, examples, and what checks them.
DIST := Makefile docs/RELEASES.md docs/USING.md docs/PROFILE.md docs/FORMATS.md include c man python rust bindings examples
dist: $(ARCHIVE)
	@git diff --quiet HEAD -- $(DIST) crates || { echo "make: files differ from the commit that is released" >&2; exit 1; }
	rm -rf $(OUT)/dist && mkdir -p $(OUT)/dist/$(NAME)/lib
	git ls-files -z $(DIST) | xargs -0 cp --parents -t $(OUT)/dist/$(NAME)
	mv $(OUT)/dist/$(NAME)/bindings/INSTALL.md $(OUT)/dist/$(NAME)/README.md
	cp $(ARCHIVE) $(OUT)/dist/$(NAME)/lib/libtcap_c.a
	cd $(OUT)/dist/$(NAME) && find . -type f ! -name SHA256SUMS | LC_ALL=C sort | xargs sha256sum > SHA256SUMS
	cd $(OUT)/dist && tar --sort=name --mtime=@$$(git -C $(CURDIR) log -1 --format=%ct) --owner=0 --group=0 \
	  --numeric-owner --mode=go=rX,u+rw -cf - $(NAME) | gzip -9n > $(OUT)/$(NAME).tar.gz
	cd $(OUT) && sha256sum $(NAME).tar.gz > $(NAME).tar.gz.sha256
	rm -rf $(OUT)/dist

clean:
	rm -rf $(OUT)

FORCE:
.PHONY: all install uninstall check dist clean FORCE
