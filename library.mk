# The C library: what it is made of, and where it is installed. docs/LIBRARY.md says how to use it.

LIB := build/lib
ARCHIVE := crates/btcheck_c/out/libbtcheck_c.a
LIB_VERSION = $(shell sed -n 's/.*VERSION: &str = "\([0-9.]*\).*/\1/p' crates/command_line/src/help.rt)

# Where the libraries are installed below PREFIX: lib, or lib/x86_64-linux-gnu as Debian has it. UP leads back to PREFIX.
LIBDIR = lib
UP = $(shell echo $(LIBDIR) | sed 's|[^/]*|..|g')
FILLED = sed 's/@VERSION@/$(LIB_VERSION)/; s|@UP@|$(UP)|'
LIBRARIES = $(BELOW)/$(LIBDIR)

# Each call of the header, whose manual page is that of all.
CALLS = $(shell sed -nE 's/^(static inline )?(btcheck_status|void|uint32_t|const char \*) ?(btcheck_[a-z0-9_]+).*/\3/p' bindings/c/btcheck.h)

# Where the loader of the C library looks first on a processor that has all of x86-64-v3 (ld.so(8), "Hardware
# capabilities"), below each folder of libraries.
V3 := glibc-hwcaps/x86-64-v3

lib: $(addprefix $(LIB)/,libbtcheck.a libbtcheck.so.1 $(V3)/libbtcheck.a $(V3)/libbtcheck.so.1)
	@echo "$(LIB)/libbtcheck.a and $(LIB)/libbtcheck.so.1 are ready: docs/LIBRARY.md says how they are used"

$(ARCHIVE): $(SOURCES)
	$(need_toolchain)
	@RT="$(RT)" tools/prove btcheck_c
	@RT="$(RT)" tools/compile btcheck_c $(or $(CPU),x86-64-v2)
	install -D -m 644 build/$(or $(CPU),x86-64-v2)/libbtcheck_c.a $@

# The same proved code with other instructions.
build/x86-64-v3/libbtcheck_c.a: $(ARCHIVE)
	$(need_toolchain)
	@RT="$(RT)" tools/compile btcheck_c x86-64-v3

$(LIB)/btcheck.o: $(ARCHIVE)
$(LIB)/$(V3)/btcheck.o: build/x86-64-v3/libbtcheck_c.a

# One object with the kit's C code inside. Only the names of the header leave it, so that it stands in the way of no
# other library, and of no allocator that the client brings.
$(LIB)/btcheck.o $(LIB)/$(V3)/btcheck.o:
	mkdir -p $(@D)
	$(LD) -r -o $@ --whole-archive $< --no-whole-archive $(KIT_C)/liblibc_c.a
	objcopy --wildcard --keep-global-symbol='btcheck_*' $@

%/libbtcheck.a: %/btcheck.o
	rm -f $@
	$(AR) rcsD $@ $<

%/libbtcheck.so.1: %/btcheck.o
	$(CC) -shared -o $@ $< -Wl,-soname,libbtcheck.so.1 -Wl,-z,defs -Wl,-z,relro -Wl,-z,now -Wl,-z,noexecstack
	ln -sf libbtcheck.so.1 $(@D)/libbtcheck.so

.SECONDARY: $(LIB)/btcheck.o $(LIB)/$(V3)/btcheck.o

# `make install` installs the library too, if `make lib` made it.
install: $(if $(wildcard $(LIB)/libbtcheck.so.1),install-lib)

install-lib:
	install -D -m 644 -t $(BELOW)/include" bindings/c/btcheck.h bindings/cpp/btcheck.hpp
	install -D -m 644 -t $(LIBRARIES)" $(LIB)/libbtcheck.a
	install -D -m 755 -t $(LIBRARIES)" $(LIB)/libbtcheck.so.1
	install -D -m 644 -t $(LIBRARIES)/$(V3)" $(LIB)/$(V3)/libbtcheck.a
	install -D -m 755 -t $(LIBRARIES)/$(V3)" $(LIB)/$(V3)/libbtcheck.so.1
	ln -sf libbtcheck.so.1 $(LIBRARIES)/libbtcheck.so"
	install -d $(LIBRARIES)/pkgconfig" $(LIBRARIES)/cmake/btcheck"
	$(FILLED) bindings/c/btcheck.pc.in > $(LIBRARIES)/pkgconfig/btcheck.pc"
	for file in btcheck-config btcheck-config-version; do \
		$(FILLED) bindings/c/$$file.cmake.in > $(LIBRARIES)/cmake/btcheck/"$$file.cmake; done
	install -D -m 644 -t $(BELOW)/share/man/man3" man/libbtcheck.3
	for call in $(CALLS); do ln -sf libbtcheck.3 $(BELOW)/share/man/man3/"$$call.3; done
	@test -n "$(DESTDIR)" || echo "run 'ldconfig' as root before a program that is linked with libbtcheck.so.1; below another \
folder than /usr and /usr/local it needs LD_LIBRARY_PATH=$(PREFIX)/$(LIBDIR)"

uninstall: uninstall-lib

uninstall-lib:
	rm -f $(BELOW)/include/btcheck.h" $(BELOW)/include/btcheck.hpp"
	rm -f $(LIBRARIES)/libbtcheck.a" $(LIBRARIES)/libbtcheck.so.1" $(LIBRARIES)/libbtcheck.so"
	rm -f $(LIBRARIES)/$(V3)/libbtcheck.a" $(LIBRARIES)/$(V3)/libbtcheck.so.1"
	rm -f $(LIBRARIES)/pkgconfig/btcheck.pc" $(BELOW)/share/man/man3/libbtcheck.3"
	for call in $(CALLS); do rm -f $(BELOW)/share/man/man3/"$$call.3; done
	rm -rf $(LIBRARIES)/cmake/btcheck"

.PHONY: lib install-lib uninstall-lib
