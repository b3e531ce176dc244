# The engine's static library, the host programs over it, their tests and measurements. `make help` lists what to make.

CC ?= cc
CXX ?= c++
CFLAGS ?= -std=c11 -Wall -Wextra -Werror -O2
RUSTC ?= rustc
LUA ?= lua5.4
OBJCOPY ?= objcopy
ROUNDS ?= 25
AR ?= ar
NM ?= nm
PREFIX ?= /usr/local
PROVED_LIBRARY := crates/engine_c/out/libengine_c.a
LIBRARY ?= $(PROVED_LIBRARY)
ENGINE := build/libruschoep.a
LINKED := $(ENGINE) build/stamp
VECTORS ?= $(wildcard $(foreach name,translate check deliver swap code,crates/*/data/$(name)*.txt))
SANITIZERS := -O1 -g -fsanitize=address,undefined -fno-sanitize-recover=all
PEDANTIC := -Wall -Wextra -Wpedantic -Wconversion -Wsign-conversion -Werror
SCRIPT ?= build/forecourt.script

SOURCES := crates.txt $(shell find crates -name out -prune -o \( -name '*.rt' -o -name '*.antt' \) -print)
ENGINE_HEADERS := $(wildcard include/*.h)
HOST_HEADERS := $(ENGINE_HEADERS) $(wildcard host/*.h)
SHARED_FILES := day lock message names place text totals tuned_file
CONTROLLER := $(patsubst %,host/%.c,controller diagnosis display input options plot plot_totals report report_json \
	show site store_file totals_file $(SHARED_FILES))
SCRIPT_TOOL := $(patsubst %,host/%.c,script_tool script_text script_file script_say script_check script_explain \
	script_depths script_bindings script_warn script_need script_format script_code play play_place play_day meaning \
	value levels code code_form code_scope code_holds tune node_kinds $(SHARED_FILES))
RUST_SOURCES := $(shell find tests/rust -name '*.rs')

# ---- what a goal needs is looked for before any work is done ----

# the library that rt makes, unless LIBRARY names another
RT := $(if $(filter $(PROVED_LIBRARY),$(LIBRARY)),rt)
goals := $(or $(MAKECMDGOALS),all)
COMPILER := $(firstword $(CC))
TOOLS_all := $(RT) $(COMPILER) $(AR) $(NM)
TOOLS_library := $(TOOLS_all)
TOOLS_install := $(TOOLS_all)
TOOLS_run := $(TOOLS_all)
TOOLS_test := rt
TOOLS_print-script := rt $(COMPILER)
TOOLS_link-tests := $(TOOLS_all)
TOOLS_check-header := $(COMPILER)
TOOLS_check-c := $(TOOLS_all)
TOOLS_check-library := $(TOOLS_all)
TOOLS_check-rust := $(TOOLS_all) $(RUSTC)
TOOLS_check-tool := $(TOOLS_all)
TOOLS_check-sanitized := $(TOOLS_all)
TOOLS_bench := $(TOOLS_all) $(LUA) $(if $(BASE),$(OBJCOPY))
HINT_rt := it proves and compiles the engine; LIBRARY=FILE uses a library that is there
HINT_$(COMPILER) := a C compiler; CC=NAME names another
HINT_$(AR) := it makes archives (on Debian: apt-get install binutils); AR=NAME names another
HINT_$(NM) := it lists the symbols of archives (on Debian: apt-get install binutils); NM=NAME names another
HINT_$(RUSTC) := the Rust compiler; RUSTC=NAME names another
HINT_$(LUA) := Lua 5.4 (on Debian: apt-get install lua5.4); LUA=NAME names another
HINT_$(OBJCOPY) := it renames the calls of BASE (on Debian: apt-get install binutils); OBJCOPY=NAME names another

has = $(shell command -v $(1))
demand = $(if $(call has,$(1)),,$(error $(1) is missing: $(HINT_$(1))))
$(foreach tool,$(sort $(foreach goal,$(goals),$(TOOLS_$(goal)))),$(call demand,$(tool)))
# a library that is named is there, and is an archive; the proved one is made first
needs_library := $(filter-out help clean test print-script check-header,$(goals))
library_mark = $(shell test -f '$(LIBRARY)' && echo "file $$(head -c 7 '$(LIBRARY)' | tr -d '\0')")
is_archive = $(findstring !<arch>,$(library_mark))
library_fault = $(if $(library_mark),$(if $(is_archive),,it is no archive),there is no such file)
$(if $(and $(needs_library),$(if $(RT),,named)),$(if $(library_fault),$(error LIBRARY=$(LIBRARY): $(library_fault))))
missing_base = $(if $(BASE),$(if $(shell test -f '$(BASE)' && echo yes),,$(BASE)))
$(if $(filter bench,$(goals)),$(if $(missing_base),$(error BASE: there is no file $(missing_base))))

.PHONY: help all library install run test print-script link-tests check-header check-c check-library check-rust \
	check-tool check-sanitized bench clean anew

all: build/controller build/script_tool build/forecourt.script

help:
	@echo 'make run           prove and compile the engine, build the host programs, play the sample day and draw it as'
	@echo '                   build/day.svg'
	@echo 'make test          the gate: prove everything from nothing, try the must-fail edits, run each program'
	@echo 'make all           the host programs, build/controller and build/script_tool, and the sample script'
	@echo 'make library       build/libruschoep.a, the library that firmware links'
	@echo 'make install       install it, its headers and ruschoep.pc under PREFIX=FOLDER (default: /usr/local), and with'
	@echo '                   DESTDIR=FOLDER below that one'
	@echo 'make print-script  prove and build the program that prints a script as document 01 says, and run it on'
	@echo '                   SCRIPT=FILE (default: the sample script)'
	@echo 'make link-tests    test the header, the library from C and Rust, and the host programs; what cannot be'
	@echo '                   run here is named at the end. Its parts: check-header, check-c, check-library, check-rust,'
	@echo '                   check-tool, check-sanitized'
	@echo 'make bench         measure beside Lua 5.4, and write docs/PERFORMANCE.md; with BASE=FILE beside another library'
	@echo '                   of the engine too, in turns. ROUNDS=NUMBER of each call, 25 where nothing is said'
	@echo 'make clean         remove build/; what is proved stays in crates/*/out'
	@echo 'LIBRARY=FILE       use this library of the engine, as rt or make library made it, and prove nothing'

run: all
	@echo 'A sample day: 7 of its 16 deliveries are done; the other 9 fail on purpose, as examples.'
	@build/controller --check --cells 32 --changes --names host/sample/forecourt.txt --plot build/day.svg \
		build/forecourt.script host/sample/day.txt
	@echo 'The totals and the cells of this day as a picture: build/day.svg'

test:
	.ci/run

# ---- what rt makes ----

$(PROVED_LIBRARY): $(SOURCES)
	tools/prove lib engine_c

PRINT_SCRIPT := crates/print_script/out/print_script

# rt also runs it, on nothing
$(PRINT_SCRIPT): $(SOURCES)
	tools/prove run print_script </dev/null

print-script: $(PRINT_SCRIPT) $(SCRIPT)
	@$(PRINT_SCRIPT) <$(SCRIPT)

# ---- the library for hosts: the engine, and beside it the interface's version and the commit ----

# that of a bare library from elsewhere is not known
COMMIT := $(if $(RT),$(shell tools/commit),unknown)
version_part = $(shell sed -n 's/^.define ENGINE_VERSION_$(1) //p' include/engine.h)
VERSION = $(call version_part,MAJOR).$(call version_part,MINOR)

# written anew only where it has changed
build/commit: anew | build
	@echo '$(COMMIT)' | cmp -s - $@ || echo '$(COMMIT)' > $@

build/interface.o: library/interface.c $(ENGINE_HEADERS) build/commit build/stamp | build
	$(CC) $(CFLAGS) -DENGINE_COMMIT='"$(COMMIT)"' -Iinclude -c -o $@ $<

$(ENGINE): $(LIBRARY) build/interface.o tools/make-library build/stamp
	@AR='$(AR)' NM='$(NM)' tools/make-library $(LIBRARY) build/interface.o $@

library: $(ENGINE)

build/ruschoep.pc: library/ruschoep.pc.in anew | build
	@sed 's|@PREFIX@|$(PREFIX)|; s|@VERSION@|$(VERSION)|' $< > $@

install: $(ENGINE) build/ruschoep.pc
	install -d $(patsubst %,'$(DESTDIR)$(PREFIX)/%',include/ruschoep lib/pkgconfig share/doc/ruschoep)
	install -m 644 $(ENGINE_HEADERS) '$(DESTDIR)$(PREFIX)/include/ruschoep'
	install -m 644 $(ENGINE) '$(DESTDIR)$(PREFIX)/lib'
	install -m 644 build/ruschoep.pc '$(DESTDIR)$(PREFIX)/lib/pkgconfig'
	install -m 644 CHANGELOG.md docs/FIRMWARE.md '$(DESTDIR)$(PREFIX)/share/doc/ruschoep'

# ---- the host programs; those in build/sanitized stop at any slip ----

build build/sanitized:
	mkdir -p $@

# What all programs are made with: it changes only where one of these does, whatever dates the files have.
build/stamp: $(LIBRARY) anew | build
	@{ echo 'LIBRARY=$(LIBRARY)' && cksum <'$(LIBRARY)' && echo 'CC=$(CC)' && echo 'CFLAGS=$(CFLAGS)'; } >$@.now
	@if cmp -s $@.now $@; then rm $@.now; else mv $@.now $@; fi

build/sanitized/%: EXTRA := $(SANITIZERS)

build/controller build/sanitized/controller: $(CONTROLLER) $(HOST_HEADERS) $(LINKED) | build build/sanitized
	$(CC) $(CFLAGS) $(EXTRA) -Iinclude -o $@ $(CONTROLLER) $(ENGINE)

build/script_tool build/sanitized/script_tool: $(SCRIPT_TOOL) $(HOST_HEADERS) $(LINKED) | build build/sanitized
	$(CC) $(CFLAGS) $(EXTRA) -Iinclude -o $@ $(SCRIPT_TOOL) $(ENGINE)

build/forecourt.script: host/sample/forecourt.txt build/script_tool
	build/script_tool assemble $< $@

# ---- tests of the library and the programs ----

# what this machine can run, and what is left out
RUST_TESTS := $(if $(call has,$(RUSTC)),check-rust)
has_sanitizers = $(shell echo 'int main(void) { return 0; }' | \
	$(CC) $(SANITIZERS) -x c -o /dev/null - 2>/dev/null && echo yes)
SANITIZED_TESTS := $(if $(filter link-tests,$(goals)),$(if $(has_sanitizers),check-sanitized))

link-tests: check-header check-c check-library $(RUST_TESTS) check-tool $(SANITIZED_TESTS)
	@$(if $(call has,$(firstword $(CXX))),:,echo 'left out: the header in C++, for there is no $(CXX)')
	@$(if $(RUST_TESTS),:,echo 'left out: the tests from Rust, for there is no $(RUSTC)')
	@$(if $(SANITIZED_TESTS),:,echo 'left out: the tests under sanitizers, which $(CC) does not have')
	@echo 'link tests: all that could be run passed'

check-header:
	$(CC) -std=c11 $(PEDANTIC) -Iinclude -fsyntax-only tests/c/header.c
	$(CC) -std=c11 $(PEDANTIC) -Iinclude -fsyntax-only examples/flash_store.c
	$(CC) -std=c11 $(PEDANTIC) -Iinclude -fsyntax-only -DENGINE_COMMIT='""' library/interface.c
	$(if $(call has,$(firstword $(CXX))),$(CXX) -std=c++11 -x c++ $(PEDANTIC) -Iinclude -fsyntax-only tests/c/header.c)

C_TESTS := $(filter-out tests/c/header.c,$(wildcard tests/c/*.c)) bench/worst_scripts.c
C_HEADERS := $(ENGINE_HEADERS) $(wildcard tests/c/*.h bench/*.h)

build/c_link_test build/sanitized/c_link_test: $(C_TESTS) $(C_HEADERS) $(LINKED) | build build/sanitized
	$(CC) $(CFLAGS) $(EXTRA) -Iinclude -Ibench -pthread -o $@ $(C_TESTS) $(ENGINE)

FLASH_TESTS := examples/flash_store.c $(wildcard tests/flash/*.c) tests/c/expect.c
FLASH_HEADERS := $(ENGINE_HEADERS) $(wildcard examples/*.h tests/flash/*.h) tests/c/expect.h

build/flash_test build/sanitized/flash_test: $(FLASH_TESTS) $(FLASH_HEADERS) $(LINKED) | build build/sanitized
	$(CC) $(CFLAGS) $(EXTRA) -Iinclude -Iexamples -Itests/flash -Itests/c -o $@ $(FLASH_TESTS) $(ENGINE)

check-c: build/c_link_test build/flash_test
	build/c_link_test $(VECTORS)
	build/flash_test

check-library: $(ENGINE)
	CC='$(CC)' CXX='$(CXX)' AR='$(AR)' NM='$(NM)' LIBRARY='$(LIBRARY)' MAKE='$(MAKE)' tests/library/library_test build

build/rust_link_test: $(RUST_SOURCES) $(LINKED) | build
	$(RUSTC) -O --edition 2021 -D warnings -o $@ tests/rust/main.rs -C link-arg=$(ENGINE)

check-rust: build/rust_link_test
	build/rust_link_test $(VECTORS)

build/fault: tests/host/fault.c build/stamp | build
	$(CC) $(CFLAGS) -o $@ $<

STORE_BITS := tests/host/store_bits.c host/store_file.c host/text.c host/message.c
build/store_bits: $(STORE_BITS) $(HOST_HEADERS) build/stamp | build
	$(CC) $(CFLAGS) -Iinclude -o $@ $(filter %.c,$^)

# the meaning of the written nodes beside the engine, on made scripts
MEANING_TEST := $(filter-out host/script_tool.c,$(SCRIPT_TOOL)) tests/host/meaning_test.c tests/host/made_scripts.c
build/meaning_test build/sanitized/meaning_test: $(MEANING_TEST) tests/host/made_scripts.h $(HOST_HEADERS) $(LINKED) \
	| build build/sanitized
	$(CC) $(CFLAGS) $(EXTRA) -Iinclude -o $@ $(MEANING_TEST) $(ENGINE)

# lent code beside the engine: the code of made scripts, and changes of it
CODE_TEST := $(filter-out tests/host/meaning_test.c,$(MEANING_TEST)) tests/host/code_test.c
build/code_test build/sanitized/code_test: $(CODE_TEST) tests/host/made_scripts.h $(HOST_HEADERS) $(LINKED) \
	| build build/sanitized
	$(CC) $(CFLAGS) $(EXTRA) -Iinclude -o $@ $(CODE_TEST) $(ENGINE)

# a script tool whose engine answers wrongly
build/wrong_tool: $(SCRIPT_TOOL) tests/host/wrong_engine.c $(HOST_HEADERS) $(LINKED) | build
	$(CC) $(CFLAGS) -Wl,--wrap=engine_deliver,--wrap=engine_check_code -Iinclude -o $@ $(SCRIPT_TOOL) \
		tests/host/wrong_engine.c $(ENGINE)

STRIKERS := build/fault build/store_bits build/wrong_tool
HOST_TESTS := controller_test output_test store_test loss_test totals_test fault_test script_test refusal_test \
	depths_test check_test play_test tune_test manual_test

check-tool: all $(STRIKERS) build/meaning_test build/code_test
	build/meaning_test 4000
	build/code_test 4000
	$(foreach test,$(HOST_TESTS) makefile_test,CC='$(CC)' LIBRARY='$(ENGINE)' tests/host/$(test) build &&) :

SANITIZED := $(patsubst %,build/sanitized/%,c_link_test flash_test controller script_tool meaning_test code_test)

check-sanitized: $(SANITIZED) build/forecourt.script $(STRIKERS)
	build/sanitized/c_link_test $(VECTORS)
	build/sanitized/flash_test
	build/sanitized/meaning_test 1000
	build/sanitized/code_test 1000
	$(foreach test,$(HOST_TESTS),CC='$(CC)' LIBRARY='$(ENGINE)' tests/host/$(test) build/sanitized &&) :

# ---- measurements ----

# The program is built anew each time, whatever LIBRARY and BASE were before. The base's calls get names of their own.
CALLS := translate open check deliver save restore check_code deliver_code
RENAMED := $(foreach call,$(CALLS),--redefine-sym engine_$(call)=base_engine_$(call))
BASE_RENAMED := $(if $(BASE),build/bench_base.a)

build/bench_base.a: $(BASE) anew | build
	$(OBJCOPY) $(RENAMED) $(BASE) $@

build/bench: $(wildcard bench/*.c bench/*.h) $(ENGINE_HEADERS) $(LINKED) $(BASE_RENAMED) anew | build
	$(CC) $(CFLAGS) $(if $(BASE),-DWITH_BASE) -Iinclude -pthread -o $@ $(filter %.c,$^) $(ENGINE) $(BASE_RENAMED)

bench: build/bench
	LUA='$(LUA)' ROUNDS='$(ROUNDS)' BASE='$(notdir $(BASE))' bench/report build/bench > build/PERFORMANCE.md
	mv build/PERFORMANCE.md docs/PERFORMANCE.md

clean:
	rm -rf build
