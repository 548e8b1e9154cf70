# The C interface: the library, static and shared, its headers, its pkg-config files and manual pages.
#     make                     puts the library into build/, where it is missing or older than its sources: that of dist/ where
#                              that was built of these sources, else one that is proved and built first
#     make CC=COMPILER         the same for the machine that the compiler compiles for: Linux on x86-64, or on aarch64
#     make install PREFIX=..   puts program, library, headers, pkg-config files, manual pages and completions below PREFIX
#                              (/usr/local), and the library into LIBDIR: its lib, and where PREFIX is /usr the folder in that
#                              which the compiler has for its machine. There is a program for x86-64 alone. DESTDIR comes
#                              before both
#     make check               builds and runs the tests in C and C++: under AddressSanitizer and UndefinedBehaviorSanitizer,
#                              and under valgrind where it is there; those for aarch64 under qemu, where that is there; and
#                              those of the module for Python and of the crate for Rust
#     make check-install       installs into an empty folder, and builds and runs a program by what pkg-config says alone
#     make deb                 makes Debian's packages of these, in build/packages
#     make examples            builds the examples
# What is built lies in BUILD (build), and is of one machine: for another one all is built anew.
PREFIX = /usr/local
LIBDIR = $(PREFIX)/lib$(if $(filter /usr,$(PREFIX)),$(addprefix /,$(shell $(CC) -print-multiarch)))
DESTDIR =
BUILD = build
CC = gcc
CXX = $(subst clang,clang++,$(subst gcc,g++,$(CC)))
AR = $(shell $(CC) -print-prog-name=ar)
RANLIB = $(shell $(CC) -print-prog-name=ranlib)
CFLAGS = -O2 -g
WARNINGS = -Wall -Wextra -Wpedantic -Wconversion -Werror
WARNINGS_IN_CPP = $(WARNINGS) -Wzero-as-null-pointer-constant
VERSION = 0.3.0

# What the compiler compiles for, and the folder of dist/ that has the library for it, if one has.
machine := $(shell $(CC) -dumpmachine)
target := $(if $(filter %x32 %ilp32,$(machine)),,$(filter x86_64-linux aarch64-linux, \
    $(firstword $(subst -, ,$(machine)))-$(findstring linux,$(machine))))

library = $(BUILD)/libcupdaisy.a
# The shared library, and the name by which what is linked against it asks for it: another one, where that would run no more.
shared = $(BUILD)/libcupdaisy.so.$(VERSION)
soname = libcupdaisy.so.0
archive = crates/cupdaisy/out/$(target)/libcupdaisy.a
sources = crates.txt $(shell tools/sources --files cupdaisy)
in_cpp = $(patsubst examples/%.cpp,$(BUILD)/%,$(wildcard examples/*.cpp))
examples = $(patsubst examples/%.c,$(BUILD)/%,$(wildcard examples/*.c)) \
    $(if $(shell command -v $(firstword $(CXX))),$(in_cpp),no-cpp)

all: $(library) $(BUILD)/libcupdaisy.so $(BUILD)/cupdaisy.pc

# It is written where it names another machine, so that what is of another one is older.
$(BUILD)/machine: always
	@mkdir -p $(BUILD)
	@[ "$$(cat $@ 2>&1)" = '$(machine)' ] || echo '$(machine)' >$@

# tools/build-library proves what it builds; heap.c is added to the archive.
$(library): $(sources) c/heap.c $(BUILD)/machine
	$(if $(target),,$(error $(CC) compiles for $(or $(machine),nothing), and the library is for Linux on x86-64 and on aarch64))
	found=$$(tools/dist --find $(target)/libcupdaisy.a) || { tools/build-library cupdaisy $(target) && found=$(archive); } \
	    && cp "$$found" $(BUILD)/new.a
	$(CC) -std=c99 $(WARNINGS) -O2 -fPIC -c c/heap.c -o $(BUILD)/heap.o
	$(AR) qcD $(BUILD)/new.a $(BUILD)/heap.o
	$(RANLIB) -D $(BUILD)/new.a
	mv $(BUILD)/new.a $@

# Nothing is exported but what c/cupdaisy.map names.
$(shared): $(library) c/cupdaisy.map
	$(CC) -shared -Wl,-soname,$(soname) -Wl,--version-script=c/cupdaisy.map -Wl,-z,defs,-z,relro,-z,now \
	    -Wl,--whole-archive $(library) -Wl,--no-whole-archive -o $@

# The names that a loader and a linker look for.
$(BUILD)/libcupdaisy.so: $(shared)
	ln -sf libcupdaisy.so.$(VERSION) $(BUILD)/$(soname)
	ln -sf $(soname) $@

# A pkg-config file by its name and what it links.
pkg_config = sed 's|@NAME@|$(1)|; s|@LINKED@|$(2)|; s|@PREFIX@|$(PREFIX)|; s|@VERSION@|$(VERSION)|; \
    s|@LIBDIR@|$(patsubst $(PREFIX)/%,$${prefix}/%,$(LIBDIR))|' cupdaisy.pc.in
for_shared = $(call pkg_config,cupdaisy,-lcupdaisy)
for_static = $(call pkg_config,cupdaisy-static,-l:libcupdaisy.a)

$(BUILD)/cupdaisy.pc: cupdaisy.pc.in
	mkdir -p $(BUILD)
	$(for_shared) >$@

lib = $(DESTDIR)$(LIBDIR)
usr = $(DESTDIR)$(PREFIX)

install: $(library) $(shared) $(if $(filter x86_64-linux,$(target)),install-program,no-program)
	mkdir -p '$(lib)/pkgconfig' '$(usr)/include' '$(usr)/share/man/man3'
	install -m 644 $(library) '$(lib)/libcupdaisy.a'
	install -m 644 $(shared) '$(lib)/libcupdaisy.so.$(VERSION)'
	ln -sf libcupdaisy.so.$(VERSION) '$(lib)/$(soname)'
	ln -sf $(soname) '$(lib)/libcupdaisy.so'
	install -m 644 include/cupdaisy.h examples/cupdaisy.hpp '$(usr)/include'
	install -m 644 man/cupdaisy.3 '$(usr)/share/man/man3/cupdaisy.3'
	$(for_shared) >'$(lib)/pkgconfig/cupdaisy.pc'
	$(for_static) >'$(lib)/pkgconfig/cupdaisy-static.pc'
	@[ -n '$(DESTDIR)' ] || echo 'The loader finds the shared library in $(LIBDIR) once ldconfig has run, where that is a folder of its own.'

install-program:
	mkdir -p '$(usr)/bin' '$(usr)/share/man/man1'
	program=$$(tools/program) && install -m 755 "$$program" '$(usr)/bin/preview'
	install -m 644 man/preview.1 '$(usr)/share/man/man1/preview.1'
	mkdir -p '$(usr)/share/bash-completion/completions' '$(usr)/share/zsh/site-functions'
	install -m 644 packages/completions/preview.bash '$(usr)/share/bash-completion/completions/preview'
	install -m 644 packages/completions/_preview '$(usr)/share/zsh/site-functions/_preview'

no-program:
	@echo 'There is no program preview for $(machine); examples/plan_lines.c plans a file.'

check: $(library) examples
	tools/check-header
	tools/check-c
	tools/check-languages

check-install: $(library)
	tools/check-install

# tools/build-packages calls make for each machine.
deb:
	tools/build-packages

examples: $(examples) $(BUILD)/libcupdaisy.so

no-cpp:
	@echo 'There is no $(firstword $(CXX)), so the examples in C++ are not built.'

$(BUILD)/%: examples/%.c $(wildcard examples/*.h) include/cupdaisy.h $(library)
	$(CC) -std=c99 $(WARNINGS) $(CFLAGS) -Iinclude $< $(library) -o $@

$(BUILD)/%: examples/%.cpp $(wildcard examples/*.h examples/*.hpp) include/cupdaisy.h $(library)
	$(CXX) -std=c++11 $(WARNINGS_IN_CPP) $(CFLAGS) -Iinclude $< $(library) -o $@

clean:
	rm -rf $(BUILD)

always:

.PHONY: all install install-program no-program check check-install deb examples no-cpp clean always
