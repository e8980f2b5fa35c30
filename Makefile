# The host side of the model: library, example, tests, benchmark.
#
#   make lib         prove the Rattle crates and build the library, build/libxosera.a
#   make example     draw the cross, and the cross with last spring's fault
#   make boot        boot once and save the adapter, then load it instead
#   make border      change the border in mid-frame by a copper list, and by one that waits for a wrong line
#   make screen      paint the cross with its border, line by line as the beam goes, to build/screen.ppm
#   make grey        the same in the sixteen levels of a monochrome tube, to build/screen.pgm
#   make polling     wait in loops of the firmware's own, recorded, and play the recording
#   make test-c      the C tests: each header alone; programs that must not compile; all tests plain, by clang, under
#                    ASan and UBSan, under valgrind; the examples; the C of README.md and docs/; recordings
#                    played on libraries with a rule changed
#                    (one kind alone: test-plain, test-clang, test-sanitized, test-valgrind, test-examples, test-docs, ..)
#   make test-rust   the library against a plain Rust model, call by call;
#                    XOSERA_CALLS=100000000 for a long run, XOSERA_SEED=n for the same calls again
#   make test-install  install to a temporary folder and build against it: by flags, pkg-config, CMake
#   make lint        formats, shellcheck, clippy, clang-tidy, one version in all places, that the old text of every
#                    edit stands once, and that the table of levels is what its script prints
#   make bench       words and calls a second
#   make install     header, library, pkg-config file, CMake package and documents to PREFIX, /usr/local
#                    if not given, below DESTDIR if given; make uninstall removes them
#   make dist        the same as build/dist/xosera-VERSION-x86_64-linux.tar.gz, for those without Rattle
#   make clean       remove what this file built
#
# XOSERA_LIB_DIR names a folder with another libxosera.a to use instead.

ifdef XOSERA_LIB_DIR
override XOSERA_LIB_DIR := $(abspath $(XOSERA_LIB_DIR))
LIB := $(XOSERA_LIB_DIR)/libxosera.a
else
XOSERA_LIB_DIR := $(abspath build)
LIB := build/libxosera.a
endif
export XOSERA_LIB_DIR

VERSION := $(shell sed -n 's/.* XOSERA_VERSION  *"\(.*\)"$$/\1/p' include/xosera/version.h)
PREFIX  := /usr/local
DESTDIR :=

WARN     := -Wall -Wextra -Wpedantic -Werror
CFLAGS   := -std=c11 -O1 -gdwarf-4 $(WARN) -Iinclude
CXXFLAGS := -std=c++17 -O1 -gdwarf-4 $(WARN) -Iinclude
# With XOSERA_QUICK, under valgrind, the test that changes each byte of a file takes fewer values, and two of the beam fewer lines.
VALGRIND := valgrind -q --error-exitcode=9 --leak-check=full --errors-for-leak-kinds=all
SANITIZE := -fsanitize=address,undefined -fno-sanitize-recover=all

HEADER    := include/xosera_model.h $(wildcard include/xosera/*.h)
TESTS_C   := $(wildcard tests/c/*.c)
TESTS_CPP := $(wildcard tests/c/*.cpp)
TESTS_H   := $(HEADER) $(wildcard tests/c/*.h)
OBJECTS    = $(TESTS_C:tests/c/%.c=build/$(1)/%.o) $(TESTS_CPP:tests/c/%.cpp=build/$(1)/%.o)

.PHONY: all lib example boot border screen grey polling test test-c test-headers test-rust test-install lint bench
.PHONY: install uninstall dist clean
all: lib example

lib: $(LIB)

# rt names the archive after the crate. It proves crate firmware_c, and the crates below it that have changed.
build/libxosera.a: $(shell find crates -name out -prune -o \( -type d -o -name '*.rt' -o -name '*.antt' \) -print) crates.txt | build
	cd crates/firmware_c && rt lib
	cp crates/firmware_c/out/libfirmware_c.a $@

example: build/cross
	build/cross
	build/cross -f 10 1 21 build/cross.pbm

boot: build/boot
	@rm -f build/boot.saved
	build/boot build/boot.saved
	build/boot build/boot.saved

border: build/border
	build/border

screen: build/screen
	build/screen build/screen.ppm

grey: build/screen
	build/screen --grey build/screen.pgm

polling: build/polling build/replay
	build/polling -r build/polling.txt
	build/replay build/polling.txt

EXAMPLES := $(patsubst examples/%,build/%,$(wildcard examples/*))
.SECONDEXPANSION:
$(EXAMPLES): build/%: examples/%/$$*.c $(HEADER) $(LIB) | build
	@echo "  cc $<"; $(CC) $(CFLAGS) -o $@ $< $(LIB)

test: test-c test-rust test-install

# Runs $(1) and prints its last line, or all that did not go well.
run_tests = $(1) >$(2) 2>&1 || { grep -v -e ' RUN ' -e ' OK ' $(2); exit 1; }; tail -n 1 $(2)

test-c: test-headers test-names test-compile test-docs test-replay test-plain test-clang test-sanitized test-valgrind test-examples

# All C tests, by compiler and checker. Each run has a folder of its own, since the tests write files, so `make -j` does several at
# once.
.PHONY: test-plain test-clang test-sanitized test-valgrind test-examples
run_c = mkdir -p build/$(1)/build && $(call run_tests,$(2) env -C build/$(1) $(3),build/$(1)/log)
test-plain: build/plain/tests
	@printf 'plain: '
	@$(call run_c,run-plain,,../plain/tests)
test-clang: build/clang/tests
	@printf 'by clang: '
	@$(call run_c,run-clang,,../clang/tests)
test-sanitized: build/sanitized/tests
	@printf 'AddressSanitizer and UBSan: '
	@$(call run_c,run-sanitized,,../sanitized/tests)
test-valgrind: build/plain/tests
	@printf 'valgrind: '
	@$(call run_c,run-valgrind,XOSERA_QUICK=1,$(VALGRIND) ../plain/tests)

# The examples print what their files say.
test-examples: $(EXAMPLES)
	@build/cross -f | diff examples/cross/fault.txt -
	@build/cross -s | diff examples/cross/steps.txt -
	@build/cross -s -f | diff examples/cross/fault_steps.txt -
	@build/cross -f -s | diff examples/cross/fault_steps.txt -
	@build/cross -w 31 3 | diff examples/cross/why.txt -
	@cat examples/cross/fault_steps.txt examples/cross/why.txt >build/cross_why.txt
	@build/cross -s -w 31 3 -f 10 1 21 | diff build/cross_why.txt -
	@echo "examples/cross shows fault, single steps and why as in its fault.txt, steps.txt, fault_steps.txt and why.txt"
	@build/border | diff examples/border/border.txt -
	@echo "examples/border changes the border where its border.txt says"
	@build/screen build/screen.ppm | diff examples/screen/screen.txt -
	@pngtopam docs/screen.png | cmp - build/screen.ppm
	@build/screen --grey build/screen.pgm | diff examples/screen/grey.txt -
	@pngtopam docs/screen_grey.png | cmp - build/screen.pgm
	@echo "examples/screen paints what its screen.txt and grey.txt say and docs/screen.png and docs/screen_grey.png show"
	@build/polling -r build/session.txt | diff examples/polling/polling.txt -
	@printf 'examples/polling and replay: '
	@$(call run_tests,build/replay build/session.txt,build/replay.log)
	@build/replay tests/recordings/*
	@rm -f build/session.txt
	@rm -f build/quick.saved
	@printf 'examples/boot: '
	@$(call run_tests,{ build/boot build/quick.saved 1 && build/boot build/quick.saved 1; },build/boot.log)

# What the library takes from outside: no name but memset's, which compilers call by themselves.
.PHONY: test-names
test-names: $(LIB) | build
	@nm -u $(LIB) >build/needs && awk '$$1 == "U" && $$2 != "memset" { print "$(LIB) needs " $$2; bad = 1 } END { exit bad }' build/needs
	@echo "library: needs no name from outside but memset"

# What must not compile beside the header, or with it.
.PHONY: test-compile
test-compile:
	@tests/compile/run.sh

# Each header included alone, without the warnings that a strict project asks for. It needs no library.
STRICT := -Wconversion -Wsign-conversion -Wshadow -Wcast-qual -Wcast-align -Wundef -Wformat=2 -Wredundant-decls \
	  -Wwrite-strings
test-headers:
	@for header in $(HEADER:include/%=%); do \
	    printf '#include "%s"\n' $$header | $(CC) $(CFLAGS) $(STRICT) -fsyntax-only -x c - && \
	    printf '#include "%s"\n' $$header | $(CXX) $(CXXFLAGS) $(STRICT) -fsyntax-only -x c++ - || exit 1; \
	done
	@echo "headers: each compiles by itself as C11 and as C++17 ($(words $(HEADER)))"

# The tests in build/$(1), built by $(2) and $(3) with the flags $(4). One test includes an example.
define tests
build/$(1)/tests: $$(call OBJECTS,$(1)) $$(LIB)
	@echo "  link $$@"; $(3) $(4) -o $$@ $$^ -lcmocka
build/$(1)/%.o: tests/c/%.c $$(TESTS_H) | build/$(1)
	@echo "  $(2) $$<"; $(2) $$(CFLAGS) $(4) -c -o $$@ $$<
build/$(1)/%.o: tests/c/%.cpp $$(TESTS_H) | build/$(1)
	@echo "  $(3) $$<"; $(3) $$(CXXFLAGS) $(4) -c -o $$@ $$<
build/$(1)/test_cross.o: examples/cross/cross.c
endef
$(eval $(call tests,plain,$(CC),$(CXX),))
$(eval $(call tests,clang,clang,clang++,))
$(eval $(call tests,sanitized,$(CC),$(CXX),$(SANITIZE)))

# All C of README.md and docs/, as it stands there; what the examples say of bad arguments.
.PHONY: test-docs
test-docs: $(LIB) $(EXAMPLES)
	@CC='$(CC)' CFLAGS='$(CFLAGS)' LIB='$(LIB)' tests/docs/run.sh
	@tests/docs/arguments.sh

# Recordings played on libraries with one rule changed.
.PHONY: test-replay
test-replay: $(LIB)
	@CC='$(CC)' CFLAGS='$(CFLAGS)' LIB='$(LIB)' tests/replay/run.sh

build build/plain build/clang build/sanitized build/packaging build/dist:
	@mkdir -p $@

test-rust: $(LIB) | build
	@(cd tests/rust && env -u MAKEFLAGS cargo test --release -- --nocapture) >build/rust.log 2>&1 || \
	    { cat build/rust.log; exit 1; }
	@grep -e '^copper' -e '^grey' -e '^masks' -e '^order' -e '^paint' -e '^random calls' -e '^recording' -e '^saved' -e '^why' -e '^  [a-zA-Z]' build/rust.log
	@awk '/^test result/ { n += $$4 } END { print "Rust tests: " n " passed, 0 failed" }' build/rust.log

test-install: $(LIB)
	@env -u MAKEFLAGS tests/install/run.sh

lint:
	@scripts/lint.sh

bench: $(LIB)
	@cd tests/rust && cargo run --profile bench --quiet --bin bench

# Stand-ins for the board's headers, of an #error each; a board's own header in their place is left alone.
STUBS := include/xosera_m68k_api.h include/xosera_m68k_defs.h

# Where things are installed.
TO        = $(DESTDIR)$(PREFIX)
PACKAGING = build/packaging/xosera.pc build/packaging/XoseraConfigVersion.cmake

build/packaging/%: packaging/%.in include/xosera/version.h | build/packaging
	@sed 's/@VERSION@/$(VERSION)/' $< >$@

install: $(LIB) $(PACKAGING)
	@install -d '$(TO)/include/xosera' '$(TO)/lib/pkgconfig' '$(TO)/lib/cmake/Xosera' \
	    '$(TO)/share/doc/xosera/docs/changes' '$(TO)/share/doc/xosera/examples'
	@install -m 644 include/xosera_model.h '$(TO)/include'
	@for stub in $(STUBS); do to='$(TO)'/$$stub; \
	    if [ ! -e "$$to" ] || cmp -s $$stub "$$to"; then install -m 644 $$stub "$$to"; fi; done
	@install -m 644 include/xosera/*.h '$(TO)/include/xosera'
	@install -m 644 $(LIB) '$(TO)/lib'
	@install -m 644 build/packaging/xosera.pc '$(TO)/lib/pkgconfig'
	@install -m 644 packaging/XoseraConfig.cmake build/packaging/XoseraConfigVersion.cmake '$(TO)/lib/cmake/Xosera'
	@install -m 644 README.md CHANGELOG.md LICENSE '$(TO)/share/doc/xosera'
	@install -m 644 docs/*.md docs/*.png '$(TO)/share/doc/xosera/docs'
	@install -m 644 docs/changes/*.md '$(TO)/share/doc/xosera/docs/changes'
	@install -m 644 examples/*/*.c '$(TO)/share/doc/xosera/examples'
	@echo "Xosera $(VERSION) is installed to $(TO)"

uninstall:
	rm -rf '$(TO)/include/xosera' '$(TO)/lib/cmake/Xosera' '$(TO)/share/doc/xosera'
	@for stub in $(STUBS); do if cmp -s $$stub '$(TO)'/$$stub; then rm -f '$(TO)'/$$stub; fi; done
	rm -f '$(TO)/include/xosera_model.h' '$(TO)/lib/libxosera.a' '$(TO)/lib/pkgconfig/xosera.pc'

# The same files make the same tarball: sorted names, one owner, the time of the last commit.
DIST              := xosera-$(VERSION)-x86_64-linux
SOURCE_DATE_EPOCH ?= $(shell git log -1 --format=%ct 2>/dev/null || echo 0)

dist: $(LIB) | build/dist
	@rm -rf build/dist/$(DIST)
	@$(MAKE) -s install DESTDIR= PREFIX=build/dist/$(DIST) >build/dist/log
	@install -m 644 packaging/INSTALL CHANGELOG.md LICENSE build/dist/$(DIST)
	@echo $(VERSION) >build/dist/$(DIST)/VERSION
	@tar --sort=name --format=ustar --owner=0 --group=0 --numeric-owner --mode=u=rwX,go=rX \
	    --mtime=@$(SOURCE_DATE_EPOCH) -C build/dist -cf - $(DIST) | gzip -9n >build/dist/$(DIST).tar.gz
	@echo build/dist/$(DIST).tar.gz

clean:
	rm -rf build
