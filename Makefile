# make run joins the sample file, or another one: make run FILE=path. Its last lines are the result.
# make test is the gate. Both need the Rattle kit on the path, and run programs for x86-64 Linux.
# make help names every target, with how long it takes.
FILE = crates/pigrozd/stdin

run: say-first
	$(call program,pigrozd)
	target/bin/pigrozd < $(FILE)

test:
	rt ci

# What takes minutes says so before it begins.
say-first:
	@test -e crates/join/out || echo 'make: everything is proved before it is built: minutes, the first time' >&2

.PHONY: run test say-first

# rt run proves a program, leaves it in its crate's out/ and runs it: here over an empty file, which the programs refuse with status 0.
# It builds again only what has changed.
define program
	cd crates/$(1) && rt run < /dev/null > /dev/null
	mkdir -p target/bin
	cp crates/$(1)/out/$(1) target/bin/$(1)
endef

# make lib builds the library for C and what calls C: target/lib/libpigrozd.a and libpigrozd.so; include/pigrozd.h declares it.
# make check-users tests what users call: a part of it for each kind of user.
LIB = target/lib
EXAMPLES = target/examples
SOURCES = $(shell find crates -name out -prune -o \( -name '*.rt' -o -name '*.antt' \) -print)
WARNINGS = -pedantic -Wall -Wextra -Werror
STRICT = -std=c99 $(WARNINGS)

# The version is said once, in the header. The shared library's soname has its first number.
VERSION := $(shell sed -n 's/^.define PIGROZD_VERSION "\(.*\)"$$/\1/p' include/pigrozd.h)
SONAME := libpigrozd.so.$(firstword $(subst ., ,$(VERSION)))

lib: say-first $(LIB)/libpigrozd.a $(LIB)/libpigrozd.so $(LIB)/$(SONAME)

# The join, the slow engine, and the two functions for one result are an object each: a program that calls the join alone has nothing
# of the others in it. rt lib proves such a crate, and leaves its object NAME.o in out/libNAME.a there.
EXPORTS = capi_c capi_slow_c capi_access_c
OBJECTS = target/objects

$(LIB)/libpigrozd.a: crates.txt $(SOURCES)
	for crate in $(EXPORTS); do (cd crates/$$crate && rt lib) || exit 1; done
	mkdir -p $(LIB) $(OBJECTS)
	cd $(OBJECTS) && for crate in $(EXPORTS); do $(AR) x ../../crates/$$crate/out/lib$$crate.a || exit 1; done
	rm -f $@
	$(AR) rcs $@ $(EXPORTS:%=$(OBJECTS)/%.o)

$(LIB)/libpigrozd.so: $(LIB)/libpigrozd.a include/pigrozd.h
	$(CC) -shared -Wl,-soname,$(SONAME) -Wl,-z,defs -o $@ -Wl,--whole-archive $< -Wl,--no-whole-archive

# (a copy, since rt ci refuses a link anywhere in the repository)
$(LIB)/$(SONAME): $(LIB)/libpigrozd.so
	cp -f $< $@

check-users: check-c check-python check-commands

# The header as C and as C++, the examples with either library against their expected output or the programs, and an installation.
check-c: lib target/bin/pigrozd target/bin/accept
	mkdir -p $(EXAMPLES)
	$(CC) $(STRICT) -Iinclude -o $(EXAMPLES)/test_header tests/test_header.c $(LIB)/libpigrozd.a
	$(EXAMPLES)/test_header
	$(CXX) -std=c++98 $(WARNINGS) -Iinclude -o $(EXAMPLES)/test_header -x c++ tests/test_header.c -x none $(LIB)/libpigrozd.a
	$(EXAMPLES)/test_header
	$(CC) $(STRICT) -Iinclude -o $(EXAMPLES)/join_sample examples/c/join_sample.c $(LIB)/libpigrozd.a
	$(EXAMPLES)/join_sample > $(EXAMPLES)/printed
	diff examples/c/expected $(EXAMPLES)/printed
	$(CC) $(STRICT) -Iinclude -o $(EXAMPLES)/join_sample_shared examples/c/join_sample.c -L$(LIB) -lpigrozd
	LD_LIBRARY_PATH=$(LIB) $(EXAMPLES)/join_sample_shared > $(EXAMPLES)/printed
	diff examples/c/expected $(EXAMPLES)/printed
	$(CC) $(STRICT) -Iinclude -o $(EXAMPLES)/join_file examples/c/join_file.c $(LIB)/libpigrozd.a
	sh tests/test_join_file.sh $(EXAMPLES)/join_file
	$(CC) $(STRICT) -Iinclude -o $(EXAMPLES)/accept_file examples/c/accept_file.c $(LIB)/libpigrozd.a
	sh tests/test_accept.sh $(EXAMPLES)/accept_file
	$(CC) $(STRICT) -Iinclude -o $(EXAMPLES)/view_page examples/c/view_page.c $(LIB)/libpigrozd.a
	sh tests/test_view_page.sh $(EXAMPLES)/view_page $(EXAMPLES)/join_file
	MAKE='$(MAKE)' CC='$(CC)' sh tests/test_install.sh
	sh tests/test_pages.sh

# The Python package: the library through it, the slow engine beside the join, one result by its number and back, the totals that the
# join forms and their multiplications, plans mended and found by the reference and by the package, tables and values, those that were
# not recorded, rows with copies and tables that are folded, the file format, pip. Then its commands, the viewer on a terminal among
# them. What needs NumPy or pandas is skipped, in words, where they are not there; make check-users PYTHON=/usr/bin/python3 names
# another.
PYTHON = python3

check-python: lib
	$(PYTHON) tests/run.py test_library test_slow test_access test_products test_mending test_mended_plans test_finding test_found_plans \
	    test_python test_count test_counted test_not_recorded test_formats test_install

check-commands: lib
	$(PYTHON) tests/run.py test_commands test_join test_view test_damaged test_documents test_sources

# What the prover said of the must-fail edits, as rt must-fail printed it into target/must-fail.log, or rt ci into another file:
# make check-edits EDITS=FILE. Each edit is to be refused for what it says.
check-edits:
	$(PYTHON) tests/run.py test_edits

.PHONY: lib check-users check-c check-python check-commands check-edits

# make bench measures the join beside an unproved twin, a HashMap join, SQLite and the slow engine, results by number, and rows with
# copies beside the same rows written out (docs/PERFORMANCE.md); make check-bench says only whether they agree, after the twin's own tests. Both need cargo and Debian's sqlite3, the instructions valgrind too.
BENCH = target/bench/release/bench

$(BENCH): lib $(wildcard bench/src/*.rs)
	cargo build --quiet --release --offline --manifest-path bench/Cargo.toml --target-dir target/bench

bench: $(BENCH)
	$(BENCH)

check-bench: $(BENCH)
	cargo test --quiet --release --offline --manifest-path bench/Cargo.toml --target-dir target/bench
	$(BENCH) --check

.PHONY: bench check-bench

# make install puts the header, both libraries, the pkg-config file, the proved programs and the manual pages below PREFIX. The
# programs are installed as pigrozd-file and pigrozd-accept, since pigrozd is the command of the Python package. DESTDIR goes before
# every path.
PREFIX = /usr/local
BINDIR = $(PREFIX)/bin
INCLUDEDIR = $(PREFIX)/include
LIBDIR = $(PREFIX)/lib
PKGCONFIGDIR = $(LIBDIR)/pkgconfig
MANDIR = $(PREFIX)/share/man
INSTALL = install
SHARED = libpigrozd.so.$(VERSION)
INSTALLED = $(INCLUDEDIR)/pigrozd.h $(LIBDIR)/libpigrozd.a $(LIBDIR)/$(SHARED) $(LIBDIR)/$(SONAME) $(LIBDIR)/libpigrozd.so \
    $(PKGCONFIGDIR)/pigrozd.pc $(BINDIR)/pigrozd-file $(BINDIR)/pigrozd-accept $(MANDIR)/man1/pigrozd-file.1 \
    $(MANDIR)/man1/pigrozd-accept.1 $(MANDIR)/man3/pigrozd_join.3 $(MANDIR)/man3/pigrozd_slow_join.3 \
    $(MANDIR)/man3/pigrozd_result_at.3 $(MANDIR)/man3/pigrozd_number_of.3

# a path of pkg-config's file, as one below ${prefix} where it is
below = $(patsubst $(PREFIX)/%,$${prefix}/%,$(1))

# (behind the library, and one behind the other, so that rt runs once at a time under make -j)
target/bin/pigrozd: crates.txt $(SOURCES) | $(LIB)/libpigrozd.a
	$(call program,pigrozd)

target/bin/accept: crates.txt $(SOURCES) | $(LIB)/libpigrozd.a target/bin/pigrozd
	$(call program,accept)

install: lib target/bin/pigrozd target/bin/accept
	$(INSTALL) -d $(sort $(addprefix $(DESTDIR),$(dir $(INSTALLED))))
	$(INSTALL) -m 644 include/pigrozd.h $(DESTDIR)$(INCLUDEDIR)/pigrozd.h
	$(INSTALL) -m 644 $(LIB)/libpigrozd.a $(DESTDIR)$(LIBDIR)/libpigrozd.a
	$(INSTALL) -m 755 $(LIB)/libpigrozd.so $(DESTDIR)$(LIBDIR)/$(SHARED)
	ln -sf $(SHARED) $(DESTDIR)$(LIBDIR)/$(SONAME)
	ln -sf $(SONAME) $(DESTDIR)$(LIBDIR)/libpigrozd.so
	printf '%s\n' 'prefix=$(PREFIX)' 'includedir=$(call below,$(INCLUDEDIR))' 'libdir=$(call below,$(LIBDIR))' '' 'Name: pigrozd' \
	    'Description: Joins small tables by a plan; proved' 'Version: $(VERSION)' \
	    'Cflags: -I$${includedir}' 'Libs: -L$${libdir} -lpigrozd' > $(DESTDIR)$(PKGCONFIGDIR)/pigrozd.pc
	$(INSTALL) -m 755 target/bin/pigrozd $(DESTDIR)$(BINDIR)/pigrozd-file
	$(INSTALL) -m 755 target/bin/accept $(DESTDIR)$(BINDIR)/pigrozd-accept
	$(INSTALL) -m 644 man/pigrozd-file.1 man/pigrozd-accept.1 $(DESTDIR)$(MANDIR)/man1
	$(INSTALL) -m 644 man/pigrozd_join.3 man/pigrozd_slow_join.3 man/pigrozd_result_at.3 man/pigrozd_number_of.3 \
	    $(DESTDIR)$(MANDIR)/man3

uninstall:
	rm -f $(addprefix $(DESTDIR),$(INSTALLED))

clean:
	rm -rf target crates/*/out

.PHONY: install uninstall clean

# rt keeps what it has proved: minutes are those of a first time.
help:
	@printf '%s\n' \
	    'make run [FILE=path]   joins a file, or the sample; minutes the first time, since all is proved first, then a second' \
	    'make test              rt ci: proves everything and tries the must-fail edits, but for what it passed here before; the longest' \
	    'make lib               target/lib/libpigrozd.a and libpigrozd.so; minutes the first time, less after make run' \
	    'make install [PREFIX=/usr/local] [DESTDIR=]' \
	    '                       header, libraries, pkg-config file, programs and manual pages; seconds after make lib and make run' \
	    'make uninstall         removes what make install put there; the same PREFIX and DESTDIR' \
	    'make check-users       check-c, check-python and check-commands; 1 to 2 minutes after make lib and make run' \
	    'make check-c           the header, the C examples, the programs and an installation; seconds after make lib and make run' \
	    'make check-python      the Python package over the shared library; a minute after make lib' \
	    'make check-commands    the commands of the Python package; 20 seconds after make lib' \
	    'make check-edits       why each must-fail edit was refused, by target/must-fail.log (rt must-fail > target/must-fail.log); a second' \
	    'make bench             measures the join beside other joins, and results by number; 4 minutes' \
	    'make check-bench       only whether these joins agree; 20 seconds after make lib' \
	    'make clean             removes target/ and out/ of each crate, with all that is proved and built' \
	    'make help              this list'

.PHONY: help
