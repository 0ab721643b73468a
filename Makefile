# make [TARGETS="NAME ..."]                proves the library and builds its archives, for all targets or for these; needs the Rattle toolchain
# make install [PREFIX=DIR] [TARGET=NAME]  installs archives, header, pkg-config file and Python module; TARGET, else this machine, is linked with -ljibrufath
# make uninstall [PREFIX=DIR]              takes all of that away
# make dist                                packs the archives of all targets with what uses them, and checksums, for people without the toolchain
#
# The archives are those in the folder archives, which only such a tarball has, and else those in target/archives, which targets/build writes.

PREFIX ?= /usr/local
LIBDIR ?= $(PREFIX)/lib
INCLUDEDIR ?= $(PREFIX)/include
PYTHONDIR ?= $(LIBDIR)/python3/dist-packages

# The version stands in the header.
number = $(shell sed -n 's/^.define JIBRUFATH_VERSION_$(1) //p' include/jibrufath.h)
VERSION := $(call number,MAJOR).$(call number,MINOR).$(call number,PATCH)
SHARED := libjibrufath.so.$(call number,MAJOR)

TARGET ?= $(patsubst x86_64,x86-64,$(patsubst armv7l,armv7,$(shell uname -m)))
ARCHIVES := $(or $(wildcard archives),target/archives)
# Where the loader looks first on processors with AVX2.
HWCAPS := glibc-hwcaps/x86-64-v3

DIST := jibrufath-$(VERSION)
SOURCE_DATE_EPOCH ?= $(or $(shell git -c safe.directory='*' log -1 --format=%ct 2>/dev/null),0)
PACKED := CHANGELOG.md LICENSE-APACHE LICENSE-MIT Makefile README.md docs examples include python rust

define PKGCONFIG
prefix=$(PREFIX)
libdir=$(LIBDIR)
includedir=$(INCLUDEDIR)

Name: jibrufath
Description: A proved packet cube for one-way broadcast
Version: $(VERSION)
Cflags: -I$${includedir}
Libs: -L$${libdir} -ljibrufath
endef
export PKGCONFIG

.PHONY: all whole install uninstall dist

all:
	targets/build $(TARGETS)

target/archives/SHA256SUMS: crates.txt include/jibrufath.h targets/build targets/clang targets/list $(shell find crates -name out -prune -o -type f -print 2>/dev/null)
	targets/build

# The archives are there, are what their checksums say, and belong to the header.
whole: $(ARCHIVES)/SHA256SUMS
	cd $(ARCHIVES) && sha256sum --check --quiet SHA256SUMS
	cmp include/jibrufath.h $(ARCHIVES)/jibrufath.h
	@test -f $(ARCHIVES)/$(TARGET)/libjibrufath.a || { echo "there is no archive for $(TARGET) in $(ARCHIVES)" >&2; exit 1; }

install: whole
	install -d $(addprefix $(DESTDIR),$(INCLUDEDIR) $(LIBDIR)/pkgconfig $(LIBDIR)/$(HWCAPS) $(PYTHONDIR))
	install -m 644 include/jibrufath.h $(DESTDIR)$(INCLUDEDIR)
	install -m 644 python/jibrufath.py $(DESTDIR)$(PYTHONDIR)
	rm -rf $(DESTDIR)$(LIBDIR)/jibrufath
	cp -R $(ARCHIVES) $(DESTDIR)$(LIBDIR)/jibrufath
	ln -sf jibrufath/$(TARGET)/libjibrufath.a $(DESTDIR)$(LIBDIR)/libjibrufath.a
	test ! -f $(ARCHIVES)/$(TARGET)/$(SHARED) || ln -sf jibrufath/$(TARGET)/$(SHARED) $(DESTDIR)$(LIBDIR)/$(SHARED)
	test $(TARGET) != x86-64 -o ! -f $(ARCHIVES)/x86-64-v3/$(SHARED) || ln -sf ../../jibrufath/x86-64-v3/$(SHARED) $(DESTDIR)$(LIBDIR)/$(HWCAPS)/$(SHARED)
	printf '%s\n' "$$PKGCONFIG" >$(DESTDIR)$(LIBDIR)/pkgconfig/jibrufath.pc

uninstall:
	rm -rf $(DESTDIR)$(LIBDIR)/jibrufath
	rm -f $(addprefix $(DESTDIR),$(INCLUDEDIR)/jibrufath.h $(PYTHONDIR)/jibrufath.py $(addprefix $(LIBDIR)/,libjibrufath.a $(SHARED) $(HWCAPS)/$(SHARED) pkgconfig/jibrufath.pc))

# All times are that of the commit, so that the same commit gives the same tarball; without a commit they are the first there is.
dist: whole
	@for target in $(shell cat targets/list); do test -d $(ARCHIVES)/$$target || { echo "there is no archive for $$target; make builds them all" >&2; exit 1; }; done
	rm -rf target/dist
	mkdir -p target/dist/$(DIST)
	tar -cf - --exclude=target --exclude=__pycache__ $(PACKED) | tar -xf - -C target/dist/$(DIST)
	cp -R $(ARCHIVES) target/dist/$(DIST)/archives
	cd target/dist && tar --sort=name --owner=0 --group=0 --numeric-owner --mtime=@$(SOURCE_DATE_EPOCH) -cf - $(DIST) | gzip -n >$(DIST).tar.gz
	cd target/dist && sha256sum $(DIST).tar.gz >$(DIST).tar.gz.sha256
	@cat target/dist/$(DIST).tar.gz.sha256
