# make                 proves every crate that the program needs, says how far it is, and builds build/btcheck for the
#                      processor of this machine: x86-64-v3 where it has AVX2, else x86-64-v2; with the C library inside,
#                      if there are a C compiler and an archive of that library
# make help            prints this
# make CPU=x86-64-v2   builds for that kind of processor, over the same proofs; a program says so on a lesser one
# make check           runs what the merge gate runs: proofs, must-fail edits, all tests
# make run             builds it and prints the length and the root of README.md
# make try             runs the program once without any proof, in two minutes, on README.md; nothing is proved of it
# make test            runs the built program on real files
# make test-all        installs the Debian packages that tests use, and runs all tests
# make bench           measures the commands and what they stand on, compared with the digests alone
# make lib             proves the C library and builds build/lib/libbtcheck.a and libbtcheck.so.1 (docs/LIBRARY.md)
# make install         puts the program and `btcheck-many`, their manual pages and completions, the documents, the
#                      examples, the sources of the bindings and the relay `tools/record` below PREFIX (and DESTDIR); and
#                      the library, if `make lib` made it. `btcheck-many` has its modules in share/btcheck
# make uninstall       removes them
# make static          links what was proved with a static C library: build/static/btcheck, one file that needs no
#                      library, for any machine (x86-64-v2)
# make both            links it for both kinds: build/both/btcheck, one file that needs no library and picks by the
#                      processor that it runs on
# make dist            packs that program and the library with all that `make install` puts beside them, and a list of
#                      SHA-256 digests
# make deb             packs the same as Debian packages, by dpkg-deb: build/deb/btcheck_VERSION_amd64.deb, and the library
#                      as libbtcheck1, libbtcheck-dev and python3-btcheck
# make clean           removes all that was built, kept proofs too

RT ?= rt
PREFIX ?= /usr/local

# The kind of processor to build for. (A library does not ask for its processor, as a program does when it starts, so
# that one is for any machine where CPU= says nothing.)
CPU ?=
KIND := $(or $(CPU),$(shell tools/processor))

# The kit's archives of C code, which a program is linked with, and how it is linked with a static C library.
KIT_C = $(dir $(realpath $(shell command -v $(RT))))../c
STATIC = -O2 -static-pie

SOURCES := crates.txt $(shell find crates -name out -prune -o -type f -print)

define need_toolchain
@command -v $(RT) >/dev/null || { \
  echo "The Rattle toolchain is missing: there is no command '$(RT)' on the path." >&2; \
  echo "Install the kit that README.md names, or give its command as 'make RT=/path/to/rt'." >&2; \
  exit 1; }
endef

# What these goals need, looked for before anything is proved. (`make` itself needs no more than the kit and Python 3.)
GOALS := $(or $(MAKECMDGOALS),all)
OF_C := $(filter lib static both dist deb,$(GOALS))
NEEDED := $(if $(filter-out clean help uninstall,$(GOALS)),python3) $(if $(OF_C),$(CC) $(LD) $(AR) objcopy)
NEEDED += $(if $(filter deb,$(GOALS)),dpkg-deb strip)
LACKING := $(foreach it,$(NEEDED),$(if $(shell command -v $(it)),,$(it)))
LACKING += $(if $(filter python3,$(NEEDED)),$(if $(shell python3 -c 'import concurrent.futures, hashlib; print(1)'),,all-of-python3))
LACKING += $(if $(filter static both dist deb,$(GOALS)),$(if $(wildcard $(shell $(CC) -print-file-name=libc.a)),,libc.a))
ifneq ($(strip $(LACKING)),)
  $(error missing for '$(GOALS)': $(strip $(LACKING)). On Debian: apt install python3 gcc libc6-dev binutils dpkg-dev)
endif

all: build/btcheck
	@echo "build/btcheck is ready: try 'build/btcheck root README.md'"

# The one for this kind: copied anew where it is another. Times do not tell that, since two calls of make may come within
# one tick of the clock of files.
build/btcheck: build/$(KIND)/alone/btcheck FORCE
	@cmp -s $< $@ || install -m 755 $< $@

# The same with the C library inside, of which it then takes only what it uses: a third less memory. If the system has no C
# compiler, or no archive of its C library, it is the program as it is.
build/x86-64-%/alone/btcheck: build/x86-64-%/btcheck
	mkdir -p $(@D)
	$(CC) $(STATIC) -o $@ $<.o $(KIT_C)/libos_c.a $(KIT_C)/liblibc_c.a 2>/dev/null || install -m 755 $< $@

# The program for one kind of processor, and its object. The proofs are the same for each: only the code is made anew.
# On a lesser machine the program says so and ends with 127.
build/x86-64-%/btcheck build/x86-64-%/btcheck.o: $(SOURCES)
	$(need_toolchain)
	@echo "btcheck for x86-64-$*"
	@RT="$(RT)" tools/prove btcheck
	@RT="$(RT)" tools/compile btcheck x86-64-$*

# Programs for the tests alone: they make the libraries' calls with memory refused, over devices that fail, and with any
# bound on what is held.
build/memory_tests build/device_tests build/piece_tests: $(SOURCES)
	$(need_toolchain)
	@RT="$(RT)" tools/prove $(@F)
	@RT="$(RT)" tools/compile $(@F) $(KIND)
	install -m 755 build/$(KIND)/$(@F) $@

check:
	$(need_toolchain)
	RT=$(RT) .ci/run

# On the program whose C library stands apart, so that tests can stand before it.
test: build/$(KIND)/btcheck build/memory_tests build/device_tests build/piece_tests
	BTCHECK=$< tests/run --jobs "$$(nproc)"

test-all: build/$(KIND)/btcheck build/memory_tests build/device_tests build/piece_tests
	tests/packages
	$(MAKE) both lib
	BTCHECK=$< tests/run --all --jobs "$$(nproc)" $(if $(shell command -v go),,-test_go) $(if $(shell command -v cargo),,-test_rust)

run: build/btcheck
	@build/btcheck root README.md

# What stands at the top of this file.
help:
	@sed -n '/^$$/q; s/^# \{0,1\}//p' Makefile

# The kit's compiler builds a program without a proof in a folder of its own, runs it with checks, and removes it. What it
# says itself is shown if it fails.
try:
	$(need_toolchain)
	@echo "the program without any proof: some two minutes" >&2
	@mkdir -p build
	@cd crates/btcheck && $(RT) try --data README.md=../../README.md -- root README.md 2>../../build/try.log || \
	  { cat ../../build/try.log >&2; exit 1; }
	@echo "it ran, and nothing is proved of it: 'make run' proves it first"

bench: build/btcheck
	CPU=$(KIND) bench/run

# Where each file is installed: BELOW is DESTDIR and PREFIX, which may have spaces.
BELOW = "$(DESTDIR)$(PREFIX)
PROGRAM = $(BELOW)/bin/btcheck"
MANUAL = $(BELOW)/share/man/man1/btcheck.1"
FOR_BASH = $(BELOW)/share/bash-completion/completions/btcheck"
FOR_ZSH = $(BELOW)/share/zsh/site-functions/_btcheck"
FOR_FISH = $(BELOW)/share/fish/vendor_completions.d/btcheck.fish"
DOCUMENTS = $(BELOW)/share/doc/btcheck"
RELAY = $(BELOW)/share/doc/btcheck/tools/record"
MANY = $(BELOW)/bin/btcheck-many"
MANY_MODULES = $(BELOW)/share/btcheck/many"
MANY_MANUAL = $(BELOW)/share/man/man1/btcheck-many.1"
MANY_FOR_BASH = $(BELOW)/share/bash-completion/completions/btcheck-many"
MANY_FOR_ZSH = $(BELOW)/share/zsh/site-functions/_btcheck-many"
MANY_FOR_FISH = $(BELOW)/share/fish/vendor_completions.d/btcheck-many.fish"

# What other builds leave among the sources that are installed.
OF_BUILDS = \( -name target -o -name __pycache__ -o -name Cargo.lock -o -name '.*' \) -prune

# The program that is installed.
BUILT := build/btcheck

install: $(BUILT)
	install -D -m 755 $(BUILT) $(PROGRAM)
	install -D -m 644 man/btcheck.1 $(MANUAL)
	install -D -m 644 completions/btcheck.bash $(FOR_BASH)
	install -D -m 644 completions/_btcheck $(FOR_ZSH)
	install -D -m 644 completions/btcheck.fish $(FOR_FISH)
	install -D -m 755 tools/btcheck-many $(MANY)
	install -D -m 644 -t $(MANY_MODULES) tools/many/*.py
	install -D -m 644 man/btcheck-many.1 $(MANY_MANUAL)
	install -D -m 644 completions/btcheck-many.bash $(MANY_FOR_BASH)
	install -D -m 644 completions/_btcheck-many $(MANY_FOR_ZSH)
	install -D -m 644 completions/btcheck-many.fish $(MANY_FOR_FISH)
	install -D -m 644 -t $(DOCUMENTS) README.md CHANGELOG.md CONTRIBUTING.md SECURITY.md LICENSE-MIT LICENSE-APACHE
	find docs examples bindings $(OF_BUILDS) -o -type f -exec install -D -m 644 {} $(DOCUMENTS)/{} \;
	install -D -m 755 tools/record $(RELAY)

uninstall:
	rm -f $(PROGRAM) $(MANUAL) $(FOR_BASH) $(FOR_ZSH) $(FOR_FISH)
	rm -f $(MANY) $(MANY_MANUAL) $(MANY_FOR_BASH) $(MANY_FOR_ZSH) $(MANY_FOR_FISH)
	rm -rf $(DOCUMENTS) $(MANY_MODULES)
	-rmdir $(BELOW)/share/btcheck" 2>/dev/null

static: build/static/btcheck

build/static/btcheck: build/x86-64-v2/btcheck.o
	$(need_toolchain)
	mkdir -p $(@D)
	$(CC) $(STATIC) -o $@ $^ $(KIT_C)/libos_c.a $(KIT_C)/liblibc_c.a

both: build/both/btcheck

# An object whose `main` has a name of its own; no other name leaves it.
build/both/%.o: build/x86-64-%/btcheck.o
	mkdir -p $(@D)
	objcopy --redefine-sym main=btcheck_$* --keep-global-symbol=btcheck_$* $< $@

.PRECIOUS: build/x86-64-%/btcheck build/x86-64-%/btcheck.o build/x86-64-%/alone/btcheck

build/both/btcheck: packaging/picker.c build/both/v2.o build/both/v3.o
	$(need_toolchain)
	$(CC) $(STATIC) -o $@ $^ $(KIT_C)/libos_c.a $(KIT_C)/liblibc_c.a

# The same bytes for the same program and files, whenever and wherever it is packed.
RELEASE = btcheck-$(word 2,$(shell build/both/btcheck --version))-linux-x86_64
PACKED = build/dist/$(RELEASE)

dist: build/both/btcheck lib
	rm -rf build/dist
	$(MAKE) -s -o $< install BUILT=$< DESTDIR=build/dist/tree PREFIX=
	cd build/dist/tree && find . ! -type d | LC_ALL=C sort | xargs sha256sum > ../SHA256SUMS && mv ../SHA256SUMS .
	mv build/dist/tree $(PACKED)
	tar --sort=name --owner=0 --group=0 --numeric-owner --mode=go=rX --mtime=@0 \
	  -C build/dist -cf $(PACKED).tar $(RELEASE)
	gzip -9n $(PACKED).tar
	sha256sum $(PACKED).tar.gz

deb: build/both/btcheck lib
	packaging/deb $< build/deb

include library.mk

clean:
	rm -rf build crates/*/out

FORCE:

.PHONY: all check help run test test-all try bench install uninstall static both dist deb clean FORCE
