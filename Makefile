# make           build/libtandos.a: the proved calls and the C functions beside them;
#                build/tandos: the command
# make demo      builds and runs examples/demo.c
# make test-c    builds and runs the tests in C
# make test-cli  builds the command, plain and with sanitizers, and tests it
# make install   copies archive, header, command, manual pages and tandos.pc to
#                $(DESTDIR)$(PREFIX)
# make uninstall removes them there
# make clean     removes build/
#
# RT_LIB=FILE    takes FILE for the archive of the proved calls and runs no rt.

VERSION = 4.1.0
PREFIX = /usr/local

CC = gcc
CXX = g++
CFLAGS = -O2
WARNINGS = -Wall -Wextra -Wpedantic -Werror

# The Rattle archive is position-independent, so the C objects are too.
COMPILE = $(CC) -std=c99 $(WARNINGS) $(CFLAGS) -fPIC -Iinclude
SANITIZE = -g -fsanitize=address,undefined -fno-sanitize-recover=all

OBJECTS := $(patsubst c/%.c,build/%.o,$(wildcard c/*.c))
TESTS := $(wildcard tests/c/*.c)
HEADERS := include/tandos.h $(wildcard tests/c/*.h)
TEST_OBJECTS := $(patsubst tests/c/%.c,build/tests/%.o,$(TESTS))
CLI := $(wildcard cli/*.c)
CLI_HEADERS := include/tandos.h $(wildcard cli/*.h)
CLI_OBJECTS := $(patsubst cli/%.c,build/cli/%.o,$(CLI))

# The command asks the system for more than C99 has; realpath is of X/Open.
CLI_DEFINES = -D_POSIX_C_SOURCE=200809L -D_XOPEN_SOURCE=700 -DTANDOS_VERSION='"$(VERSION)"'

.PHONY: all demo test-c test-header test-sanitized test-cli install uninstall clean FORCE
.DELETE_ON_ERROR:

all: build/libtandos.a build/tandos

ifndef RT_LIB
RT_LIB := crates/tandos_c/out/libtandos_c.a
# Folders are named too: a file that is removed changes its folder alone. A crate's own is not: rt makes its out/ there.
RT_SOURCES := crates.txt $(shell find crates -mindepth 2 \( -name must-fail -o -name out \) -prune -o -print)

# make wants the archive newer than all of them.
$(RT_LIB): $(RT_SOURCES)
	cd crates/tandos_c && rt lib
	touch $@
endif

# 'ar q' adds members: 'ar r' would replace one of the same name.
build/libtandos.a: $(RT_LIB) $(OBJECTS) build/settings
	install -m 644 $(RT_LIB) $@.new
	$(AR) qs $@.new $(OBJECTS)
	mv $@.new $@

build/%.o: c/%.c include/tandos.h build/settings
	$(COMPILE) -c $< -o $@

# What was built with other settings, or from another RT_LIB, is built again.
SETTINGS := $(CC) $(CFLAGS) $(WARNINGS) $(AR) $(RT_LIB) $(VERSION)
build/settings: FORCE
	@mkdir -p build/tests build/cli
	@echo '$(SETTINGS)' | cmp -s - $@ || echo '$(SETTINGS)' > $@

build/demo: examples/demo.c build/libtandos.a include/tandos.h
	$(COMPILE) $< build/libtandos.a -o $@

demo: build/demo
	build/demo

build/cli/%.o: cli/%.c $(CLI_HEADERS) build/settings
	$(COMPILE) $(CLI_DEFINES) -c $< -o $@

build/tandos: $(CLI_OBJECTS) build/libtandos.a
	$(CC) $(CFLAGS) $^ -o $@

# The C functions are compiled again, so that they are watched as well.
build/tandos-sanitized: $(CLI) $(CLI_HEADERS) $(wildcard c/*.c) $(RT_LIB) build/settings
	$(COMPILE) $(SANITIZE) $(CLI_DEFINES) $(CLI) $(wildcard c/*.c) $(RT_LIB) -o $@

build/tests/%.o: tests/c/%.c $(HEADERS) build/settings
	$(COMPILE) -c $< -o $@

build/tests/run: $(TEST_OBJECTS) build/libtandos.a
	$(CC) $(CFLAGS) $^ -o $@

# The C functions are compiled again, so that they are watched as well.
build/tests/run-sanitized: $(TESTS) $(wildcard c/*.c) $(RT_LIB) $(HEADERS) build/settings
	$(COMPILE) $(SANITIZE) $(TESTS) $(wildcard c/*.c) $(RT_LIB) -o $@

build/tests/from-cpp: tests/c/header.cpp build/libtandos.a include/tandos.h
	$(CXX) -std=c++11 $(WARNINGS) -Iinclude $< build/libtandos.a -o $@

test-header: build/tests/from-cpp
	$(CC) -std=c99 $(WARNINGS) -Iinclude -x c -fsyntax-only tests/c/header.cpp
	$(CC) -std=c11 $(WARNINGS) -Iinclude -x c -fsyntax-only tests/c/header.cpp
	build/tests/from-cpp

# A compiler without the sanitizers is told of, not taken for a failure.
HAS_SANITIZERS = echo 'int main(void) { return 0; }' | \
	    $(CC) $(SANITIZE) -x c - -o build/tests/probe 2> build/tests/probe.log

test-sanitized: build/settings $(RT_LIB)
	@if $(HAS_SANITIZERS); \
	then $(MAKE) --no-print-directory build/tests/run-sanitized && \
	    ASAN_OPTIONS=detect_leaks=0 build/tests/run-sanitized; \
	else echo '$(CC) has no sanitizers: the run with them is left out'; fi

test-c: test-header test-sanitized build/tests/run
	build/tests/run

# Without the sanitized build the tests say that its cases are left out.
test-cli: all
	@if $(HAS_SANITIZERS); \
	then $(MAKE) --no-print-directory build/tandos-sanitized; \
	else rm -f build/tandos-sanitized; fi
	tests/cli/run

TO = $(DESTDIR)$(PREFIX)
INSTALLED = $(TO)/bin/tandos $(TO)/lib/libtandos.a $(TO)/include/tandos.h \
	$(TO)/lib/pkgconfig/tandos.pc $(TO)/share/man/man1/tandos.1 \
	$(TO)/share/man/man3/tandos.3

install: all
	sed 's|@PREFIX@|$(PREFIX)|; s|@VERSION@|$(VERSION)|' tandos.pc.in > build/tandos.pc
	mkdir -p $(dir $(INSTALLED))
	install -m 755 build/tandos $(TO)/bin/tandos
	install -m 644 build/libtandos.a $(TO)/lib/libtandos.a
	install -m 644 include/tandos.h $(TO)/include/tandos.h
	install -m 644 build/tandos.pc $(TO)/lib/pkgconfig/tandos.pc
	install -m 644 man/tandos.1 $(TO)/share/man/man1/tandos.1
	install -m 644 man/tandos.3 $(TO)/share/man/man3/tandos.3

uninstall:
	rm -f $(INSTALLED)

clean:
	rm -rf build
