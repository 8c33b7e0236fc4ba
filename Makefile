# Each target says what it does and how long it may take, on a machine of 4 processors.
# `rt` is the command of the Rattle kit (README.md, "Install"); RT names another one.
RT ?= rt
# The end of the kit's identity: its logic. A proof holds with each kit that has this one.
KIT = logic dac8208d650f15bf
CRATES = $(notdir $(wildcard crates/*))
RUSTC ?= rustc
PYTHON ?= python3
PREFIX ?= /usr/local
OUT = bench/out
COMMA = ,
# The library for C: the archive that is handed out, what rt makes of crates/pukzarn, the kit's functions for the heap.
LIBRARY ?= lib/libpukzarn.a
ARCHIVE ?= crates/pukzarn/out/libpukzarn.a
HEAP ?= $(dir $(shell $(RT) doc))c/liblibc_c.a
VERSION = $(shell sed -n 's/.*\.version("\(.*\)").*/\1/p' crates/tracer_cli/src/arguments.rt)

.PHONY: all kit demo try examples scarce-memory refused-memory man-page documents one-source one-meaning refused-code \
	check wrong-bodies wrong-bodies-changed wrong-bodies-test test build-test bench bench-rounds bench-rust bench-test \
	tools library archive c-header library-test rust-test install-library install-program install clean

all: kit
	@echo "make: proving the program and what it stands on, over what earlier runs kept (the first time: 40 minutes)"
	@RT="$(RT)" $(PYTHON) tools/build.py tracer
	@mkdir -p bin && cp crates/tracer/out/tracer bin/tracer
	@echo "make: bin/tracer is built"

kit:
	@command -v $(RT) > /dev/null || { \
		echo "make: there is no command $(RT): put the Rattle kit's rt on the PATH, or give its place as RT=/path/to/rt"; \
		echo "make: README.md, \"Install\", says which kit"; exit 2; }
	@case "$$($(RT) --version)" in *"$(KIT)") ;; *) \
		echo "make: proved with a kit of $(KIT), but $(RT) is $$($(RT) --version): a proof may fail";; esac

demo: kit
	@echo "demo: running the program on seven files of examples/, without the proofs (a minute)"
	@RT="$(RT)" $(PYTHON) tools/cases.py demo replay/first replay/refused run/fork.case run/signal.case run/shown.case \
		explore/race.litmus explore/double_claim.litmus

# FILE is a case, replay or litmus file; ARGS are the program's words, as ARGS="explore --ends", where the command of the
# file's ending is not what is wanted.
try: kit
	@test -n "$(FILE)" || { echo "try: say which file, as make try FILE=examples/run/fork.case"; exit 2; }
	@echo "try: running the program on $(FILE) without its proofs: nothing that it prints is proved (two minutes)" >&2
	@RT="$(RT)" $(PYTHON) tools/cases.py try $(FILE) $(if $(ARGS),-- $(ARGS))

# PROGRAM=FILE runs a program that is built already, as bin/tracer: some seconds.
examples: kit
	@echo "examples: running $(or $(PROGRAM),the program without its proofs) on examples/ and tests/cases/"
	@echo "examples: (six minutes; with PROGRAM=bin/tracer seconds)"
	@echo "examples/run/fork.case:"; cat examples/run/fork.case; echo "prints:"; cat examples/run/fork.case.stdout
	@$(PYTHON) tools/cases.py --self-test
	@RT="$(RT)" $(PYTHON) tools/cases.py check $(if $(PROGRAM),--program $(PROGRAM))

# PROGRAM=FILE is the program, which is built already.
scarce-memory: PROGRAM ?= bin/tracer
scarce-memory:
	@echo "scarce-memory: running $(PROGRAM) with less and less address space (some seconds)"
	@$(PYTHON) tools/scarce_memory.py $(PROGRAM)

# PROGRAM=FILE is the program, which is built already. It needs a C compiler, and so is no part of the gate.
refused-memory: PROGRAM ?= bin/tracer
refused-memory:
	@echo "refused-memory: running $(PROGRAM) on examples with each allocation refused in turn (a few minutes)"
	@$(PYTHON) tools/refused_memory.py $(PROGRAM)

man-page: kit
	@echo "man-page: comparing man/tracer.1 with the program's help, and running its examples (two minutes)"
	@rm -rf $(OUT)/man_page && $(PYTHON) tools/man_page.py inputs man/tracer.1 $(OUT)/man_page
	@(cd crates/tracer && $(RT) try --cases ../../$(OUT)/man_page) > $(OUT)/man_page.txt 2>&1 \
	  || { cat $(OUT)/man_page.txt; echo "man-page: FAILED: an example printed another text than the page says" >&2; exit 1; }
	@$(PYTHON) tools/man_page.py compare man/tracer.1 $(OUT)/man_page.txt
	@echo "man-page: the page has the options of the help, and its examples print what it says"

# PROGRAM=FILE runs the commands of the pages too, with a program that is built already, as bin/tracer.
documents:
	@echo "documents: width and links of the pages$(if $(PROGRAM),$(COMMA) and what their commands print) (some seconds)"
	@$(PYTHON) tools/documents.py --self-test
	@$(PYTHON) tools/documents.py $(if $(PROGRAM),--program $(PROGRAM))

one-source:
	@echo "one-source: comparing what is written in several places with the place that decides (a second)"
	@$(PYTHON) tools/one_source.py --self-test
	@$(PYTHON) tools/one_source.py

one-meaning:
	@echo "one-meaning: looking for names that are given to two things (a second)"
	@$(PYTHON) tools/one_meaning.py --self-test
	@$(PYTHON) tools/one_meaning.py

refused-code:
	@echo "refused-code: compiling programs that must not compile, and one that must (a minute and a half)"
	@RT=$(RT) tools/must_not_compile/check.sh $(OUT)/refused_code
	@echo "refused-code: each was refused by the error that it names"

# How many checks run side by side: one a processor, where memory allows it. By its own estimate of memory rt ci would run
# two or three on 4 processors with 24 GB, and let the longest chain of proofs wait; RT_JOBS in the environment overrules.
CHECKS = $(shell $(PYTHON) tools/checks_at_once.py 2> /dev/null || echo 1)

# Says when a part of the gate begins, so that its output shows where the time goes.
define part
	@echo "check: $(1), at $$(date -u +%H:%M:%S)"
endef

check: kit
	@echo "check: docs/STATUS.md has the time"
	@$(MAKE) --no-print-directory one-source
	@$(MAKE) --no-print-directory one-meaning
	@$(MAKE) --no-print-directory c-header
	@$(MAKE) --no-print-directory documents
	@$(MAKE) --no-print-directory bench-test
	@$(MAKE) --no-print-directory build-test
	$(call part,proofs from nothing$(COMMA) must-fail edits$(COMMA) tests and programs)
	@RT_JOBS=$${RT_JOBS:-$(CHECKS)} $(RT) ci
	$(call part,the library for C: its archive$(COMMA) proved once more$(COMMA) and the programs that use it)
	@RT=$(RT) RT_JOBS=$${RT_JOBS:-$(CHECKS)} $(PYTHON) tools/proved_archive.py pukzarn $(OUT)/proved_pukzarn.a
	@$(MAKE) --no-print-directory archive ARCHIVE=$(OUT)/proved_pukzarn.a
	@$(MAKE) --no-print-directory --jobs=$(CHECKS) library-test
	$(call part,the crate for Rust$(COMMA) and tracers in C by it)
	@$(MAKE) --no-print-directory rust-test
	@$(MAKE) --no-print-directory c-model-test
	$(call part,wrong bodies)
	@$(MAKE) --no-print-directory wrong-bodies-changed
	$(call part,the tool for wrong bodies$(COMMA) examples$(COMMA) pages$(COMMA) refused code$(COMMA) tarball: side by side)
	@mkdir -p $(OUT) && cp crates/tracer/out/tracer $(OUT)/proved_tracer
	@$(MAKE) --no-print-directory --jobs=$(CHECKS) --output-sync=target PROGRAM=$(OUT)/proved_tracer \
		wrong-bodies-test examples man-page documents refused-code dist-test
	$(call part,scarce memory)
	@$(MAKE) --no-print-directory scarce-memory PROGRAM=$(OUT)/proved_tracer
	$(call part,done)

# The edits of wrong-bodies/; those of must-fail/ are tried by rt ci. CRATE=NAME tries those of one crate.
wrong-bodies: kit
	@echo "wrong-bodies: trying crates/$(or $(CRATE),*)/wrong-bodies, many in one check (docs/STATUS.md has the time)"
	@RT=$(RT) $(PYTHON) tools/wrong_bodies.py --jobs $(CHECKS) $(CRATE)

wrong-bodies-changed: kit
	@echo "wrong-bodies: trying the edits of the crates that have changed since (nothing to do: a second)"
	@RT=$(RT) $(PYTHON) tools/wrong_bodies.py --jobs $(CHECKS) --changed

wrong-bodies-test: kit
	@echo "wrong-bodies: trying the tool on a crate of four functions (a minute)"
	@RT=$(RT) $(PYTHON) tools/wrong_bodies_test.py

test: kit
	@echo "test: running the tests of each crate, without the proofs (twelve minutes)"
	@for crate in $(CRATES); do \
		grep -rqs '#\[test\]' crates/$$crate/src || continue; \
		echo "test: $$crate"; (cd crates/$$crate && $(RT) try --test --seconds 300) || exit 1; \
	done
	@echo "test: every test passed"

# A bench is a row of the table in bench/benches.py; `make bench` runs all but bench-rust. PROGRAM=FILE is a program
# that is built already, for the benches that time bin/tracer.
BENCH = RT="$(RT)" RUSTC="$(RUSTC)" CC="$(CC)" CARGO="$(CARGO)" LIBRARY="$(LIBRARY)" $(PYTHON) bench/bench.py \
	$(if $(PROGRAM),--program $(PROGRAM))

bench: tools $(if $(PROGRAM),,all) library
	@$(BENCH)

bench-%: tools kit
	@$(BENCH) $*

bench-replay bench-threads bench-large bench-explore: $(if $(PROGRAM),,all)
bench-c: library

bench-rounds: kit
	@$(BENCH) rounds

build-test:
	@echo "build-test: going through the plan of a build of made-up crates (a second)"
	@$(PYTHON) tools/build.py --self-test

bench-test:
	@echo "bench-test: looking at the table of benches, and at how they are read, divided and limited (a second)"
	@$(PYTHON) bench/bench.py --self-test

tools:
	@for command in $(RUSTC) $(PYTHON); do \
		command -v $$command > /dev/null || { echo "bench: there is no command $$command, which it needs"; exit 2; }; \
	done

library: kit
	@echo "library: proving the calls for C and what they stand on, over what earlier runs kept (at first: up to 40 minutes)"
	@RT="$(RT)" $(PYTHON) tools/build.py pukzarn
	@$(MAKE) --no-print-directory archive

# The two archives become one, in which nothing but the calls of include/pukzarn.h is global.
archive:
	@echo "archive: making $(LIBRARY) of $(ARCHIVE) (a second)"
	@mkdir -p $(dir $(LIBRARY)) && rm -f $(LIBRARY)
	@ld -r -o $(LIBRARY:.a=.o) --whole-archive $(ARCHIVE) --no-whole-archive $(HEAP)
	@objcopy --wildcard --keep-global-symbol='pukzarn_*' $(LIBRARY:.a=.o)
	@ar rcs $(LIBRARY) $(LIBRARY:.a=.o) && rm $(LIBRARY:.a=.o)

c-header:
	@echo "c-header: comparing include/pukzarn.h with the calls that crates/pukzarn exports (a second)"
	@$(PYTHON) tools/c_library.py --self-test
	@$(PYTHON) tools/c_library.py

# How the programs of tests/c are built: each as C99, each with the sanitizers, and one as C++17.
C_OUT = $(OUT)/c
C_PROGRAMS = $(filter-out model,$(basename $(notdir $(wildcard tests/c/*.c))))
CXX_PROGRAMS = misuse
C_WARNINGS = -Wall -Wextra -Werror -D_POSIX_C_SOURCE=200809L -DLIBRARY_VERSION='"$(VERSION)"' -Iinclude
C_LINKED = $(LIBRARY) $(C_WRAPPED) -lpthread
$(C_OUT)/random_calls $(C_OUT)/random_calls.sanitized: tests/c/model.c
$(C_OUT)/refused_memory $(C_OUT)/refused_memory.sanitized: C_WRAPPED = -Wl,--wrap=malloc,--wrap=realloc,--wrap=free

$(C_OUT)/%: tests/c/%.c $(wildcard tests/c/*.h include/*.h) $(LIBRARY)
	@$(CC) -O2 -std=c99 $(C_WARNINGS) $(filter %.c,$^) $(C_LINKED) -o $@

$(C_OUT)/%.sanitized: tests/c/%.c $(wildcard tests/c/*.h include/*.h) $(LIBRARY)
	@$(CC) -O1 -g -std=c99 $(C_WARNINGS) -fsanitize=address,undefined -fno-sanitize-recover $(filter %.c,$^) \
	  $(C_LINKED) -o $@

$(C_OUT)/%.c++: tests/c/%.c $(wildcard tests/c/*.h include/*.h) $(LIBRARY)
	@$(CXX) -O2 -std=c++17 $(C_WARNINGS) -x c++ $(filter %.c,$^) -x none $(C_LINKED) -o $@

$(LIBRARY):
	@$(MAKE) --no-print-directory library

C_BUILT = $(C_PROGRAMS:%=$(C_OUT)/%) $(C_PROGRAMS:%=$(C_OUT)/%.sanitized) $(CXX_PROGRAMS:%=$(C_OUT)/%.c++)

# LIBRARY=FILE is the archive, which is made where it is not there.
library-test: $(LIBRARY)
	@echo "library-test: building and running the programs of tests/c with $(LIBRARY) (a minute)"
	@$(MAKE) --no-print-directory c-header
	@$(PYTHON) tools/c_library.py archive $(LIBRARY)
	@mkdir -p $(C_OUT)
	@$(MAKE) --no-print-directory $(C_BUILT)
	@for program in $(C_BUILT); do timeout 600 $$program > $(C_OUT)/printed.txt || { cat $(C_OUT)/printed.txt; \
	  echo "library-test: FAILED: $$program, or it took more than 600 s" >&2; exit 1; }; done
	@$(PYTHON) tools/c_library.py page $(C_OUT)/small_tracer
	@rm -rf $(C_OUT)/root
	@$(MAKE) --no-print-directory install-library DESTDIR=$(abspath $(C_OUT)/root)
	@$(CC) -std=c99 -o $(C_OUT)/installed tests/c/small_tracer.c $$(PKG_CONFIG_SYSROOT_DIR=$(abspath $(C_OUT)/root) \
	  PKG_CONFIG_PATH=$(abspath $(C_OUT)/root)$(PREFIX)/lib/pkgconfig pkg-config --cflags --libs pukzarn)
	@$(PYTHON) tools/c_library.py page $(C_OUT)/installed
	@echo "library-test: every program passed"

# The crate for Rust, its examples, and the program that times it. LIBRARY=FILE is the archive, which is called
# libpukzarn.a, and is made where it is not there. No crate needs a registry.
CARGO ?= cargo
CARGO_TARGET_DIR ?= $(abspath $(OUT))/rust
IN_RUST = PUKZARN_LIB_DIR=$(abspath $(dir $(LIBRARY))) CARGO_TARGET_DIR=$(CARGO_TARGET_DIR) CARGO_NET_OFFLINE=true
RUST_EXAMPLES = examples/rust/counter/Cargo.toml examples/rust/tutorial/Cargo.toml
RUST_MANIFESTS = bindings/Cargo.toml $(RUST_EXAMPLES) bench/schedules/Cargo.toml

rust-test: $(LIBRARY)
	@echo "rust-test: layout, lints, tests and pages of the crate for Rust, and its examples (three minutes)"
	@for manifest in $(RUST_MANIFESTS) examples/rust/counter/linux/Cargo.toml bindings/nix_stub/Cargo.toml; do \
		$(CARGO) fmt --all --check --manifest-path $$manifest || exit 1; done
	@for manifest in $(RUST_MANIFESTS); do \
		$(IN_RUST) $(CARGO) clippy --quiet --tests --manifest-path $$manifest -- -D warnings || exit 1; done
	@$(IN_RUST) $(CARGO) clippy --quiet --package pukzarn --features nix-0-26 --manifest-path bindings/Cargo.toml -- -D warnings
	@$(IN_RUST) $(CARGO) test --quiet --workspace --manifest-path bindings/Cargo.toml
	@for manifest in $(RUST_EXAMPLES); do $(IN_RUST) $(CARGO) test --quiet --manifest-path $$manifest || exit 1; done
	@$(IN_RUST) RUSTDOCFLAGS="-D warnings" $(CARGO) doc --quiet --no-deps --manifest-path bindings/Cargo.toml
	@echo "rust-test: every test passed"

bench-rust: $(LIBRARY)
	@$(IN_RUST) $(BENCH) rust

include tools/c_model.mk
include tools/dist.mk

install: install-program install-library

install-program: all
	@echo "install: copying bin/tracer and its manual page to $(DESTDIR)$(PREFIX)"
	@install -d $(DESTDIR)$(PREFIX)/bin $(DESTDIR)$(PREFIX)/share/man/man1
	@install -m 755 bin/tracer $(DESTDIR)$(PREFIX)/bin/tracer
	@install -m 644 man/tracer.1 $(DESTDIR)$(PREFIX)/share/man/man1/tracer.1

install-library: $(LIBRARY)
	@echo "install: copying $(LIBRARY) and its headers to $(DESTDIR)$(PREFIX)"
	@install -d $(DESTDIR)$(PREFIX)/include $(DESTDIR)$(PREFIX)/lib/pkgconfig
	@install -m 644 include/pukzarn.h include/pukzarn_checked.h $(DESTDIR)$(PREFIX)/include
	@install -m 644 $(LIBRARY) $(DESTDIR)$(PREFIX)/lib/libpukzarn.a
	@sed 's|@PREFIX@|$(PREFIX)|; s|@VERSION@|$(VERSION)|' tools/pukzarn.pc.in \
	  > $(DESTDIR)$(PREFIX)/lib/pkgconfig/pukzarn.pc
	@chmod 644 $(DESTDIR)$(PREFIX)/lib/pkgconfig/pukzarn.pc

clean:
	@echo "clean: removing what was built and what earlier checks kept; the next check starts from nothing"
	@rm -rf bin lib $(DIST) $(OUT) $(addsuffix /out,$(wildcard crates/*))
