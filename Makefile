# Builds the static library, the shared one and the command, and installs them.
#
#   make            all three: needs rt, a C compiler and cargo
#   make shared     the two libraries alone
#   make install    what was built, with the header, the pkg-config file, the manual page and the licences: PREFIX, DESTDIR
#   make uninstall  takes the installed files away again
#   make check      the quick tests: needs python3 besides; .ci/run is the whole gate
#   make clean      removes what make has built; what is proved, in the crates' out/, stays, and so does the archive
#
# With YELDMUR_LIB_DIR the libyeldmur.a of that folder is taken as it is, and nothing is proved.

PREFIX ?= /usr/local
CARGO ?= cargo
INSTALL ?= install

# the version of all parts stands in the Rust crate
VERSION := $(shell sed -n 's/^version = "\(.*\)"$$/\1/p' bindings/rust/Cargo.toml)
SONAME := libyeldmur.so.0

lib_dir := $(abspath $(or $(YELDMUR_LIB_DIR),target/staticlib))
archive := $(lib_dir)/libyeldmur.a
built := target/package
shared := $(built)/libyeldmur.so.$(VERSION)
command := cli/target/release/yeldmur

include := $(DESTDIR)$(PREFIX)/include
lib := $(DESTDIR)$(PREFIX)/lib
bin := $(DESTDIR)$(PREFIX)/bin
man := $(DESTDIR)$(PREFIX)/share/man/man1
doc := $(DESTDIR)$(PREFIX)/share/doc/yeldmur

texts := LICENSE LICENSE-MIT LICENSE-APACHE NOTICE CHANGELOG.md
parts := $(archive) $(shared) $(command) cli/yeldmur.1

.PHONY: all static shared command install uninstall check clean

all: shared command

# rt tells by itself what has to be proved again
static:
ifndef YELDMUR_LIB_DIR
	tools/library
endif

# under its second name a copy, no link: rt ci refuses links in the checkout
shared: static
	mkdir -p $(built)
	$(CC) -shared -Wl,-soname,$(SONAME) -Wl,--version-script,packaging/yeldmur.map -Wl,--no-undefined -Wl,-z,relro,-z,now \
	    $(LDFLAGS) -Wl,--whole-archive $(archive) -Wl,--no-whole-archive -o $(shared)
	rm -f $(built)/$(SONAME)
	cp $(shared) $(built)/$(SONAME)

command: static
	cd cli && YELDMUR_LIB_DIR=$(lib_dir) $(CARGO) build --release --offline --locked

install:
	@for part in $(parts); do \
	    test -f $$part || { echo "make install: there is no $$part: run make first" >&2; exit 1; }; \
	done
	$(INSTALL) -d $(include) $(lib)/pkgconfig $(bin) $(man) $(doc)
	$(INSTALL) -m 644 include/yeldmur.h $(include)
	$(INSTALL) -m 644 $(archive) $(lib)
	$(INSTALL) -m 755 $(shared) $(lib)
	ln -sf $(notdir $(shared)) $(lib)/$(SONAME)
	ln -sf $(SONAME) $(lib)/libyeldmur.so
	sed 's|@PREFIX@|$(PREFIX)|; s|@VERSION@|$(VERSION)|' packaging/yeldmur.pc.in > $(lib)/pkgconfig/yeldmur.pc
	chmod 644 $(lib)/pkgconfig/yeldmur.pc
	$(INSTALL) -m 755 $(command) $(bin)
	$(INSTALL) -m 644 cli/yeldmur.1 $(man)
	$(INSTALL) -m 644 $(texts) $(doc)

uninstall:
	rm -f $(include)/yeldmur.h $(lib)/libyeldmur.a $(lib)/libyeldmur.so $(lib)/$(SONAME) $(lib)/$(notdir $(shared))
	rm -f $(lib)/pkgconfig/yeldmur.pc $(bin)/yeldmur $(man)/yeldmur.1
	rm -f $(addprefix $(doc)/,$(texts))
	-[ ! -d $(doc) ] || rmdir $(doc)

check:
	tools/check_kit
	tools/check_promises
	tools/check_sheet_page
	tools/test_bindings
	cd cli && YELDMUR_LIB_DIR=$(lib_dir) $(CARGO) test --offline --locked
	tools/test_python
	tools/test_judges
	tools/test_package

clean:
	rm -rf $(built) cli/target
