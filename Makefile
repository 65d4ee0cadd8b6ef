# Proves, builds and installs, over the toolchain's rt.
#
#     make              proves the library and the programs with all below them, and builds them
#     make check        is the gate: proves the crates from nothing, and runs every test
#     make install      installs what make built, and proves nothing: PREFIX=/usr/local DESTDIR=
#     make uninstall    removes what it installed
#     make dist         a tarball and Debian packages of the same files, in out/

PREFIX = /usr/local
DESTDIR =
# The folder of the libraries below PREFIX.
LIB = lib
DOCDIR = $(PREFIX)/share/doc/syslog_loose
# Where syslog_loose.pc says that all of it lies, and where the examples for daemons say it.
PC_PREFIX = $(PREFIX)
CONF_PREFIX = $(PREFIX)

OUT = out
TIDY = crates/syslog_tidy/out/syslog_tidy
JSON = crates/syslog_json/out/syslog_json
STRICT = crates/syslog_5424/out/syslog_5424
LIBRARY = crates/syslog_c/out/libsyslog_c.a
# The toolchain's part of the library, which asks for memory. (Looked for where it is linked alone: no install needs
# rt.)
KIT = $(patsubst %/,%,$(dir $(shell rt doc)))
HEAP = $(KIT)/c/liblibc_c.a

VERSION := $(shell awk '/^.define SYSLOG_VERSION_(MAJOR|MINOR|PATCH) / { printf s $$3; s = "." }' \
	include/syslog_loose.h)
SONAME = libsyslog_loose.so.4
SHARED = libsyslog_loose.so.$(VERSION)
BUILT = $(TIDY) $(JSON) $(STRICT) $(OUT)/libsyslog_loose.a $(OUT)/$(SHARED)

TOP = $(DESTDIR)$(PREFIX)
# Each call of the library has its name as a page, which is the one of the library.
CALLS := $(shell sed -n 's/^\.Nm \(syslog_[a-z_0-9]*\).*/\1/p' man/syslog_loose.3)
PAGES = $(addprefix share/man/man1/,syslog_tidy.1 syslog_json.1 syslog_5424.1) \
	$(addprefix share/man/man3/,syslog_loose.3 $(addsuffix .3,$(CALLS)))
HELPERS = filter_to mapper
DOCUMENTS = LICENSE README.md CHANGELOG.md $(wildcard docs/*.md)
EXAMPLES = $(wildcard examples/*.c examples/*.rs examples/*.py)
CONFIGURATIONS = $(wildcard examples/daemons/*.conf)
INSTALLED = bin/syslog_tidy bin/syslog_json bin/syslog_5424 include/syslog_loose.h $(PAGES) \
	$(addprefix $(LIB)/,libsyslog_loose.a $(SHARED) $(SONAME) libsyslog_loose.so pkgconfig/syslog_loose.pc) \
	$(addprefix libexec/syslog_loose/,$(HELPERS))

.PHONY: all check install uninstall dist
all:
	cd crates/syslog_c && rt lib
	cd crates/syslog_tidy && rt run -- --version
	cd crates/syslog_json && rt run -- --version
	cd crates/syslog_5424 && rt run -- --version
	$(MAKE) $(OUT)/libsyslog_loose.a $(OUT)/$(SHARED)

check:
	.ci/run

$(TIDY) $(JSON) $(STRICT) $(LIBRARY):
	@echo '$@ is not there: make builds it' >&2; exit 1

# One archive, so that one -l links, which defines no name but the calls'.
$(OUT)/libsyslog_loose.a: $(LIBRARY)
	mkdir -p $(OUT)
	ld -r -o $(OUT)/syslog_loose.o --whole-archive $(LIBRARY) --no-whole-archive $(HEAP)
	objcopy --wildcard --keep-global-symbol='syslog_*' $(OUT)/syslog_loose.o
	rm -f $@
	ar rcs $@ $(OUT)/syslog_loose.o

$(OUT)/$(SHARED): $(OUT)/libsyslog_loose.a packaging/exports.map
	cc -shared -s -o $@ -Wl,-soname,$(SONAME) -Wl,--version-script,packaging/exports.map -Wl,-z,defs,-z,relro,-z,now \
		-Wl,--whole-archive $< -Wl,--no-whole-archive

install: $(BUILT)
	install -d $(addprefix $(TOP)/,bin include $(LIB)/pkgconfig libexec/syslog_loose share/man/man1 share/man/man3)
	install -m 755 $(TIDY) $(JSON) $(STRICT) $(TOP)/bin
	install -m 644 include/syslog_loose.h $(TOP)/include
	install -m 644 $(OUT)/libsyslog_loose.a $(OUT)/$(SHARED) $(TOP)/$(LIB)
	ln -sf $(SHARED) $(TOP)/$(LIB)/$(SONAME)
	ln -sf $(SONAME) $(TOP)/$(LIB)/libsyslog_loose.so
	sed 's|@prefix@|$(PC_PREFIX)|; s|@lib@|$(LIB)|; s|@version@|$(VERSION)|' packaging/syslog_loose.pc.in \
		>$(TOP)/$(LIB)/pkgconfig/syslog_loose.pc
	install -m 644 man/*.1 $(TOP)/share/man/man1
	install -m 644 man/*.3 $(TOP)/share/man/man3
	for call in $(CALLS); do echo '.so man3/syslog_loose.3' >$(TOP)/share/man/man3/$$call.3; done
	install -m 755 $(addprefix examples/daemons/,$(HELPERS)) $(TOP)/libexec/syslog_loose
	install -d $(DESTDIR)$(DOCDIR)/docs $(DESTDIR)$(DOCDIR)/examples/daemons
	install -m 644 LICENSE README.md CHANGELOG.md $(DESTDIR)$(DOCDIR)
	install -m 644 $(wildcard docs/*.md) $(DESTDIR)$(DOCDIR)/docs
	install -m 644 $(EXAMPLES) $(DESTDIR)$(DOCDIR)/examples
	for file in $(CONFIGURATIONS); do sed 's|@prefix@|$(CONF_PREFIX)|g' $$file >$(DESTDIR)$(DOCDIR)/$$file; done
	[ '$(DESTDIR)' ] || PATH=$$PATH:/sbin ldconfig 2>/dev/null || true

uninstall:
	rm -f $(addprefix $(TOP)/,$(INSTALLED)) $(addprefix $(DESTDIR)$(DOCDIR)/,$(DOCUMENTS) $(EXAMPLES) $(CONFIGURATIONS))
	-rmdir $(addprefix $(DESTDIR)$(DOCDIR)/,docs examples/daemons examples .) $(TOP)/libexec/syslog_loose

dist: $(BUILT)
	packaging/dist $(OUT) $(VERSION) $(SONAME)
