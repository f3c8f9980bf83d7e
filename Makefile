# make run        proves and runs the program that shows the library at work
# make test       everything: what the pages say, the gate, and then the C and Rust tests of the archive and the
#                 comparison with the original where it is at hand
# make proved     proves all crates, over what earlier checks of them kept. Of some: rt check in a crate's folder, and
#                 rt ci NAME.. here, as the gate does it
# make archive    proves the library and builds the archive
# make install    installs the archive, the header and the pkg-config file below PREFIX (/usr/local); DESTDIR is put
#                 before it. The archive is proved and built first, unless it is there and nothing has changed since
# make uninstall  takes them away
# make record     writes the lists of the replay programs anew, from the original
# make speed      times the archive beside the original
#
# ORACLE is the folder of the original's build (../shared/oracle).

ORACLE ?= ../shared/oracle
CARGO := cargo
# The crates with the functions that C calls: the static libraries.
EXPORTS := $(shell sed -n 's/^\([a-z0-9_]*\)  *staticlib *:.*/\1/p' crates.txt)
ARCHIVE := target/staticlib/libfetulombo.a
OBJECTS := target/archive

# The archive is for x86-64. On another processor what links it is built by a cross compiler and run
# under an emulator, where both are at hand.
ifeq ($(shell uname -m),x86_64)
TOOLS := cc
EMULATOR :=
CC := cc
AR := ar
NM := nm
BUILT := release
else
TRIPLE := x86_64-unknown-linux-gnu
RUSTC := $(firstword $(foreach r,$(shell which -a rustc),$(if $(wildcard $(shell $r --print target-libdir --target $(TRIPLE))/libstd-*),$r)))
# The loader of the libraries that the cross compiler has, unless those of x86-64 are installed.
EMULATOR := qemu-x86_64 $(if $(wildcard /lib64/ld-linux-x86-64.so.2),,-L /usr/x86_64-linux-gnu)
CC := x86_64-linux-gnu-gcc
AR := x86_64-linux-gnu-ar
NM := x86_64-linux-gnu-nm
TOOLS := $(and $(RUSTC),$(shell which $(CC)),$(shell which qemu-x86_64))
BUILT := $(TRIPLE)/release
export RUSTC
export RUSTDOC := $(dir $(RUSTC))rustdoc
export CARGO_BUILD_TARGET := $(TRIPLE)
export CARGO_TARGET_X86_64_UNKNOWN_LINUX_GNU_LINKER := $(CC)
export CARGO_TARGET_X86_64_UNKNOWN_LINUX_GNU_RUNNER := $(EMULATOR)
endif

COMPARE := compare/target/$(BUILT)/compare

# Where `make install` puts what.
PREFIX ?= /usr/local
LIBDIR ?= $(PREFIX)/lib
INCLUDEDIR ?= $(PREFIX)/include
DOCDIR ?= $(PREFIX)/share/doc/fetulombo
LICENCES := LICENSE-APACHE LICENSE-MIT NOTICE
VERSION = $(shell sed -n 's/^.define FETULOMBO_VERSION "\(.*\)"/\1/p' include/fetulombo.h)

# What is not run is said, and said again before the verdict (tests/all).
not_run = echo "NOT RUN: $(1)" | tee -a "$${NOT_RUN:-/dev/null}"

.PHONY: run test words proved archive install uninstall calls comparison record speed clean

run:
	@echo "The program and what it needs are proved first: from a fresh clone in some minutes,"
	@echo "in a moment where nothing has changed since. What the prover says goes to target/run.log."
	@mkdir -p target
	@cd crates/show && rt run >../../target/run.txt 2>../../target/run.log && \
	  cmp ../../target/run.txt stdout >>../../target/run.log 2>&1 || { tail -n 3 ../../target/run.log; \
	  echo "FAILED: the program is not proved, or did not write what it must. The whole is in target/run.log."; exit 1; }
	@echo
	@cat target/run.txt

test:
	tests/all

# Which definitions must be believed, and what the pages say, held against the crates.
words:
	tests/believed
	tests/pages

proved:
	rt all check

# Each static library is one object, in which the exported functions alone are global. It is for every x86-64, where
# rt's own choice is for the newer ones.
archive:
	rm -rf $(OBJECTS) $(ARCHIVE)
	mkdir -p $(OBJECTS) target/staticlib
	for e in $(EXPORTS); do (cd crates/$$e && rt lib --cpu x86-64) || exit; done
	cd $(OBJECTS) && for e in $(EXPORTS); do $(AR) x ../../crates/$$e/out/lib$$e.a || exit; done
	$(AR) rcs $(ARCHIVE) $(EXPORTS:%=$(OBJECTS)/%.o)

# For `make install`: the archive that is there, unless a crate or this file has changed since.
$(ARCHIVE): Makefile crates.txt $(shell find crates -name out -prune -o \( -name '*.rt' -o -name '*.antt' \) -print)
	$(MAKE) --no-print-directory archive

install: $(ARCHIVE)
	install -d "$(DESTDIR)$(LIBDIR)/pkgconfig" "$(DESTDIR)$(INCLUDEDIR)" "$(DESTDIR)$(DOCDIR)"
	install -m 644 $(ARCHIVE) "$(DESTDIR)$(LIBDIR)"
	install -m 644 include/fetulombo.h "$(DESTDIR)$(INCLUDEDIR)"
	install -m 644 $(LICENCES) "$(DESTDIR)$(DOCDIR)"
	sed -e 's|@PREFIX@|$(PREFIX)|' -e 's|@LIBDIR@|$(LIBDIR)|' -e 's|@INCLUDEDIR@|$(INCLUDEDIR)|' \
	  -e 's|@VERSION@|$(VERSION)|' fetulombo.pc.in >"$(DESTDIR)$(LIBDIR)/pkgconfig/fetulombo.pc"
	chmod 644 "$(DESTDIR)$(LIBDIR)/pkgconfig/fetulombo.pc"

uninstall:
	rm -f "$(DESTDIR)$(LIBDIR)/libfetulombo.a" "$(DESTDIR)$(LIBDIR)/pkgconfig/fetulombo.pc" \
	  "$(DESTDIR)$(INCLUDEDIR)/fetulombo.h" $(patsubst %,"$(DESTDIR)$(DOCDIR)/%",$(LICENCES))
	[ ! -d "$(DESTDIR)$(DOCDIR)" ] || rmdir --ignore-fail-on-non-empty "$(DESTDIR)$(DOCDIR)"

ifneq ($(TOOLS),)
calls: archive
	mkdir -p target/c
	$(CC) -std=c11 -Wall -Wextra -Werror -O2 -Iinclude tests/c/calls.c $(ARCHIVE) -o target/c/calls
	$(EMULATOR) target/c/calls fixtures/lot/liblot.so
	CC="$(CC)" NM="$(NM)" tests/header $(ARCHIVE)
	CC="$(CC)" EMULATOR="$(EMULATOR)" tests/install
	$(CARGO) test --offline --quiet --manifest-path rust/Cargo.toml
	fixtures/lot/make --check

ifneq ($(wildcard $(ORACLE)/Cargo.toml),)
# Builds with the original, to which cargo is led by a link. It is taken away again: rt wants a checkout without links.
with_original = ln -sfn $(abspath $(ORACLE)) compare/oracle && { $(1); built=$$?; rm -f compare/oracle; exit $$built; }

# Under an emulator, an eighth of the random inputs.
comparison: $(COMPARE)
	$(EMULATOR) $(COMPARE) $(if $(EMULATOR),--short)
	@$(if $(EMULATOR),$(call not_run,seven eighths of the random inputs of the comparison and the long parts that are answered (under an emulator)))

record: $(COMPARE)
	$(EMULATOR) $(COMPARE) --record crates

# A time under an emulator says nothing.
ifeq ($(EMULATOR),)
speed: archive
	$(call with_original,$(CARGO) build --offline --quiet --profile speed --manifest-path compare/Cargo.toml)
	compare/target/speed/compare --speed
else
speed:
	@$(call not_run,$@ (a time under an emulator says nothing, and the archive is for x86-64))
	@echo "docs/SPEED.md has the last times."
endif

.PHONY: $(COMPARE)
$(COMPARE): archive
	$(call with_original,$(CARGO) build --offline --quiet --release --manifest-path compare/Cargo.toml)
else
comparison record speed:
	@$(call not_run,$@ (the original is not at hand: $(ORACLE)))
	@echo "docs/COMPARISON.md has the last comparison, docs/SPEED.md the last times; the replay programs of the gate run the original's recorded answers."
endif
else
calls comparison record speed:
	@$(call not_run,$@ (the archive is for x86-64, and no cross compiler and emulator for it are at hand))
	@echo "The replay programs of the gate run the original's recorded answers."
endif

clean:
	rm -rf target rust/target compare/target compare/oracle crates/*/out
