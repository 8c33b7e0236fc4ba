# The model for C (docs/C_MODEL.md): libpukzarn_model.a, with libpukzarn.a inside, and the programs of tests/c_model.
MODEL_LIBRARY ?= lib/libpukzarn_model.a
# What a tracer is linked with: the archive needs the real functions, and so each of these.
MODEL_CALLS = waitpid wait wait3 wait4 waitid ptrace kill tgkill process_vm_readv process_vm_writev syscall \
	pthread_create fork sleep usleep nanosleep clock_nanosleep sched_yield exit _exit abort __assert_fail
# What the archive needs of the C library: before glibc 2.34 threads and dlsym(3) are libraries of their own.
MODEL_NEEDS = -lpthread -ldl
MODEL_WRAPS = $(dir $(MODEL_LIBRARY))pukzarn_model.wraps
MODEL_EXPORTS = $(MODEL_CALLS:%=__wrap_%) \
	$(shell sed -n 's/^[a-zA-Z].*\(pukzarn_[a-z_]*\)(.*);$$/\1/p' include/pukzarn_model.h | grep -v '^pukzarn_test$$')

.PHONY: c-model c-model-test install-c-model

# Nothing is global but what the header has and the calls' replacements. Its own calls of std are the real ones.
c-model: $(LIBRARY)
	@echo "c-model: building $(MODEL_LIBRARY), with $(LIBRARY) inside (some seconds; at first up to two minutes)"
	@$(IN_RUST) $(CARGO) build --quiet --release --package pukzarn_model --manifest-path bindings/Cargo.toml
	@mkdir -p $(dir $(MODEL_LIBRARY)) && rm -f $(MODEL_LIBRARY)
	@ld -r --gc-sections $(MODEL_EXPORTS:%=-u %) -T tools/c_model.ld -o $(MODEL_LIBRARY:.a=.o) \
	  $(CARGO_TARGET_DIR)/release/libpukzarn_model.a
	@objcopy --strip-debug $(MODEL_EXPORTS:%=--keep-global-symbol=%) \
	  $(foreach call,$(MODEL_CALLS),--redefine-sym $(call)=__real_$(call)) $(MODEL_LIBRARY:.a=.o)
	@printf -- '%s\n' $(MODEL_CALLS:%=-Wl,--wrap=%) $(MODEL_NEEDS) > $(MODEL_WRAPS)
	@ar rcs $(MODEL_LIBRARY) $(MODEL_LIBRARY:.a=.o) && rm $(MODEL_LIBRARY:.a=.o)

# Each program as C99, with the sanitizers, and with what gcc leaves out where it may.
MODEL_OUT = $(OUT)/c_model
MODEL_PROGRAMS = $(basename $(notdir $(wildcard tests/c_model/*.c)))
MODEL_TESTS = $(foreach kind,plain sanitized bare,$(MODEL_PROGRAMS:%=$(MODEL_OUT)/%.$(kind)))
MODEL_FLAGS = -std=c99 -D_DEFAULT_SOURCE -Wall -Wextra -Werror -Iinclude
$(MODEL_OUT)/%.plain: MODEL_KIND = -O2
$(MODEL_OUT)/%.sanitized: MODEL_KIND = -O1 -g -fsanitize=address,undefined -fno-sanitize-recover
$(MODEL_OUT)/%.bare: MODEL_KIND = -O3 -fno-exceptions -fomit-frame-pointer

$(MODEL_TESTS): $(wildcard tests/c_model/*.[ch] include/*.h) $(MODEL_LIBRARY)
	@$(CC) $(MODEL_FLAGS) $(MODEL_KIND) $(basename tests/c_model/$(@F)).c $(MODEL_LIBRARY) @$(MODEL_WRAPS) -o $@

install-c-model: $(MODEL_LIBRARY)
	@echo "install: copying $(MODEL_LIBRARY) and its headers to $(DESTDIR)$(PREFIX)"
	@install -d $(DESTDIR)$(PREFIX)/include $(DESTDIR)$(PREFIX)/lib/pkgconfig
	@install -m 644 include/pukzarn.h include/pukzarn_model.h $(DESTDIR)$(PREFIX)/include
	@install -m 644 $(MODEL_LIBRARY) $(DESTDIR)$(PREFIX)/lib/libpukzarn_model.a
	@sed 's|@PREFIX@|$(PREFIX)|; s|@VERSION@|$(VERSION)|; s|@WRAPS@|$(MODEL_CALLS:%=-Wl,--wrap=%) $(MODEL_NEEDS)|' \
	  tools/pukzarn_model.pc.in > $(DESTDIR)$(PREFIX)/lib/pkgconfig/pukzarn_model.pc
	@chmod 644 $(DESTDIR)$(PREFIX)/lib/pkgconfig/pukzarn_model.pc

$(MODEL_LIBRARY):
	@$(MAKE) --no-print-directory c-model

c-model-test: c-model
	@echo "c-model-test: building and running the programs of tests/c_model (a minute or two)"
	@mkdir -p $(MODEL_OUT)
	@echo '#include <pukzarn_model.h>' | $(CXX) -std=c++17 -Wall -Wextra -Werror -Iinclude -fsyntax-only -x c++ -
	@$(MAKE) --no-print-directory $(MODEL_TESTS)
	@for program in $(MODEL_TESTS); do timeout 120 $$program > $(MODEL_OUT)/printed.txt 2>&1 || { \
	  cat $(MODEL_OUT)/printed.txt; echo "c-model-test: FAILED: $$program, or it took more than 120 s" >&2; exit 1; }; done
	@$(MAKE) --no-print-directory install-c-model PREFIX=$(abspath $(MODEL_OUT)/installed)
	@$(CC) -o $(MODEL_OUT)/early_child tests/c_model/early_child.c $$(PKG_CONFIG_PATH=$(MODEL_OUT)/installed/lib/pkgconfig \
	  pkg-config --cflags --libs pukzarn_model)
	@(cd $(MODEL_OUT) && ./early_child) 2>&1 \
	  | sed '/^pukzarn: mended/,$$d' > $(MODEL_OUT)/printed.txt
	@sed -n '/^```text$$/,/^```$$/{/^```/!p}' docs/C_MODEL.md | diff - $(MODEL_OUT)/printed.txt \
	  || { echo "c-model-test: FAILED: docs/C_MODEL.md shows another text than early_child prints" >&2; exit 1; }
	@echo "c-model-test: every program passed"
