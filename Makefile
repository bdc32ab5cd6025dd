# Corvezan as a part to link: the library for C, its examples, and their tests. `make help` lists what can be made.
#
# The library is proved and compiled by the kit. With ARCHIVE=FILE another archive of it is taken, and no kit is needed.

PREFIX = /usr/local
DESTDIR =
ARCHIVE = target/staticlib/libcapi.a
VERSION = 0.1.0

# For any x86-64 processor: without the flag the kit compiles for x86-64-v2, which has SSE4.2.
RT_FLAGS = --cpu=x86-64

CC = gcc
CXX = g++
PYTHON = python3
CARGO = cargo
VALGRIND = valgrind
INSTALL = install

# The Rust that the library follows, and the packages that it needs: neither is part of this repository (oracle/README.md).
INTERPN_SRC ?= ../shared/docs/src
REGISTRY = /usr/share/cargo/registry

OUT = target/make
LIBRARY = $(OUT)/libcorvezan.a
SHARED = $(OUT)/libcorvezan.so
BIN = $(OUT)/bin

WARNINGS = -Wall -Wextra -Wpedantic -Werror
CFLAGS = -O2 -g
CXXFLAGS = -O2 -g
C99 = -std=c99 $(WARNINGS) -Iinclude
CXX17 = -std=c++17 $(WARNINGS) -Iinclude

HEADER = include/corvezan.h
SOURCES = crates.txt $(wildcard crates/*/src/*.rt crates/*/specs/*.antt crates/*/proofs/*.antt crates/*/proofs/*/*.antt crates/*/proofs/*/*/*.antt)
PARTS = examples/c/explain.c examples/c/cells.c examples/c/table.c
SHEET = examples/c/rating_sheet.c examples/c/layout.c examples/c/place.c $(PARTS)
SLICE = examples/c/task_slice.c examples/c/tasks.c $(PARTS)
CALLS = $(addprefix examples/c/tests/,main.c shape.c regular.c rectilinear.c words.c edges.c) examples/c/explain.c
C_HEADERS = $(HEADER) $(wildcard examples/c/*.h examples/c/tests/*.h)
PROGRAMS = rating_sheet task_slice calls calls_cxx

HEAT_PUMP = examples/heat_pump
SANITIZERS = -fsanitize=address,undefined -fno-sanitize-recover=all -O1 -g
MEMCHECK = $(VALGRIND) --quiet --error-exitcode=99 --leak-check=full --errors-for-leak-kinds=all

.PHONY: all help map examples shared install uninstall sanitize memcheck clean
.PHONY: test test-house test-header test-symbols test-c test-install test-rust test-python test-differences
.DELETE_ON_ERROR:

all: $(LIBRARY)

help:
	@echo "make             the library, $(LIBRARY)"
	@echo "make map         the map program, target/bin/map"
	@echo "make shared      the shared library, $(SHARED)"
	@echo "make examples    the C examples, in $(BIN)"
	@echo "make install     header, library and pkg-config file, under DESTDIR and PREFIX ($(PREFIX))"
	@echo "make uninstall   removes them"
	@echo "make test        header, C, Rust and Python tests, docs/PROMISES.md, and the rows of docs/DIFFERENCES.md"
	@echo "make sanitize    the C tests with the address and undefined-behaviour sanitizers"
	@echo "make memcheck    the C tests under valgrind"
	@echo "make clean       removes $(OUT)"

# ---- the library

target/staticlib/libcapi.a: $(SOURCES)
	@mkdir -p $(@D)
	cd crates/capi && rt lib $(RT_FLAGS)
	cp crates/capi/out/libcapi.a $@

# ---- the map program, proved and compiled; the run that rt ends with reads nothing

map: target/bin/map

target/bin/map: $(SOURCES)
	@mkdir -p $(@D)
	cd crates/map && rt run $(RT_FLAGS) < /dev/null > /dev/null
	cp crates/map/out/map $@

# Compared each time, as ARCHIVE may name another file than the last time, and an older one.
$(LIBRARY): $(ARCHIVE) FORCE
	@mkdir -p $(@D)
	cmp -s $(ARCHIVE) $@ || cp $(ARCHIVE) $@

FORCE:

# Only the functions of the header are seen from outside.
$(OUT)/exports:
	@mkdir -p $(@D)
	echo '{ global: corvezan_*; local: *; };' > $@

$(SHARED): $(LIBRARY) $(OUT)/exports
	$(CC) -shared -o $@ -Wl,--whole-archive $(LIBRARY) -Wl,--no-whole-archive -Wl,--no-undefined \
	    -Wl,--version-script=$(OUT)/exports -Wl,-soname,libcorvezan.so

shared: $(SHARED)

# ---- the examples

examples: $(BIN)/rating_sheet $(BIN)/task_slice

$(BIN)/rating_sheet: $(SHEET) $(C_HEADERS) $(LIBRARY)
	@mkdir -p $(@D)
	$(CC) $(C99) $(CFLAGS) -o $@ $(SHEET) $(LIBRARY)

$(BIN)/task_slice: $(SLICE) $(C_HEADERS) $(LIBRARY)
	@mkdir -p $(@D)
	$(CC) $(C99) $(CFLAGS) -o $@ $(SLICE) $(LIBRARY)

$(BIN)/calls: $(CALLS) $(C_HEADERS) $(LIBRARY)
	@mkdir -p $(@D)
	$(CC) $(C99) $(CFLAGS) -o $@ $(CALLS) $(LIBRARY) -lm

$(BIN)/calls_cxx: $(CALLS) $(C_HEADERS) $(LIBRARY)
	@mkdir -p $(@D)
	$(CXX) $(CXX17) $(CXXFLAGS) -o $@ -x c++ $(CALLS) -x none $(LIBRARY)

# ---- installing

install: $(LIBRARY)
	$(INSTALL) -d $(DESTDIR)$(PREFIX)/include $(DESTDIR)$(PREFIX)/lib/pkgconfig
	$(INSTALL) -m 644 $(HEADER) $(DESTDIR)$(PREFIX)/include/corvezan.h
	$(INSTALL) -m 644 $(LIBRARY) $(DESTDIR)$(PREFIX)/lib/libcorvezan.a
	sed -e 's,@PREFIX@,$(PREFIX),' -e 's,@VERSION@,$(VERSION),' corvezan.pc.in > $(OUT)/corvezan.pc
	$(INSTALL) -m 644 $(OUT)/corvezan.pc $(DESTDIR)$(PREFIX)/lib/pkgconfig/corvezan.pc

uninstall:
	rm -f $(DESTDIR)$(PREFIX)/include/corvezan.h $(DESTDIR)$(PREFIX)/lib/libcorvezan.a
	rm -f $(DESTDIR)$(PREFIX)/lib/pkgconfig/corvezan.pc

# ---- tests

test: test-house test-header test-symbols test-c test-install test-rust test-python test-differences

# The sources against docs/PROMISES.md and the limits that the house has set itself.
test-house:
	$(PYTHON) tools/promises.py --check
	$(PYTHON) tools/house.py --check

# The header by itself, in both languages: it needs nothing to be included before it.
test-header:
	$(CC) $(C99) -fsyntax-only -x c $(HEADER)
	$(CXX) $(CXX17) -fsyntax-only -x c++ $(HEADER)

# The archive has the functions of the header and no other name, and each declaration agrees with its source.
test-symbols: $(LIBRARY)
	sh tools/symbols.sh $(LIBRARY)

test-c: $(addprefix $(BIN)/,$(PROGRAMS))
	$(BIN)/calls
	$(BIN)/calls_cxx
	cd examples/c && CORVEZAN_BIN=$(CURDIR)/$(BIN) $(PYTHON) -m unittest

# Installs into a folder of its own, builds the first example over it by pkg-config alone, and takes it away again.
test-install: TRIED = $(CURDIR)/$(OUT)/tried
test-install: $(LIBRARY)
	rm -rf $(TRIED)
	$(MAKE) install PREFIX=$(TRIED) DESTDIR=
	$(CC) -std=c99 -o $(TRIED)/rating_sheet $(SHEET) \
	    $$(PKG_CONFIG_PATH=$(TRIED)/lib/pkgconfig pkg-config --cflags --libs corvezan)
	$(TRIED)/rating_sheet $(HEAT_PUMP)/compressor.csv $(HEAT_PUMP)/points.csv > $(TRIED)/sheet
	diff $(TRIED)/sheet $(HEAT_PUMP)/stored/straight.sheet
	rm $(TRIED)/rating_sheet $(TRIED)/sheet
	$(MAKE) uninstall PREFIX=$(TRIED) DESTDIR=
	test -z "$$(find $(TRIED) -type f)"

test-rust: $(LIBRARY)
	cd examples/rust && CORVEZAN_LIB_DIR=$(CURDIR)/$(OUT) CARGO_TARGET_DIR=$(CURDIR)/$(OUT)/cargo $(CARGO) test --offline

test-python: $(SHARED)
	cd python && CORVEZAN_LIBRARY=$(CURDIR)/$(SHARED) $(PYTHON) -m unittest

# Every row of docs/DIFFERENCES.md, on the Rust and on the library. Without the Rust and its packages there is nothing to run.
test-differences: $(LIBRARY)
	@if [ ! -f $(INTERPN_SRC)/src/lib.rs ]; then \
	    echo "test-differences: left out, as there is no Rust in $(INTERPN_SRC); INTERPN_SRC names its folder"; \
	elif [ ! -d $(REGISTRY) ]; then \
	    echo "test-differences: left out, as the packages of oracle/README.md are not in $(REGISTRY)"; \
	else \
	    cd compare && INTERPN_SRC=$(INTERPN_SRC) CORVEZAN_ARCHIVE=$(CURDIR)/$(LIBRARY) \
	        CARGO_TARGET_DIR=$(CURDIR)/$(OUT)/cargo $(CARGO) test --offline --test differences; \
	fi

sanitize: $(LIBRARY)
	$(MAKE) BIN=$(OUT)/sanitize CFLAGS='$(SANITIZERS)' CXXFLAGS='$(SANITIZERS)' test-c

memcheck: $(addprefix $(BIN)/,$(PROGRAMS))
	$(MEMCHECK) $(BIN)/calls
	$(MEMCHECK) $(BIN)/calls_cxx
	cd examples/c && CORVEZAN_BIN=$(CURDIR)/$(BIN) CORVEZAN_UNDER='$(MEMCHECK)' $(PYTHON) -m unittest

clean:
	rm -rf $(OUT)
