# The tarball for users (docs/INSTALL.md): what make builds, packed by tools/dist.py, and tried as its user does.
DIST = dist
# PROGRAM=FILE is a program that is built already, as for examples; the libraries are LIBRARY and MODEL_LIBRARY.
DIST_FILES = RT="$(RT)" CC="$(CC)" PROGRAM="$(PROGRAM)" LIBRARY="$(LIBRARY)" MODEL_LIBRARY="$(MODEL_LIBRARY)"

.PHONY: dist dist-test

dist: $(if $(PROGRAM),,all)
	@$(if $(PROGRAM),,$(MAKE) --no-print-directory library)
	@$(MAKE) --no-print-directory c-model
	@echo "dist: packing the program, the libraries and their pages (some seconds)"
	@$(DIST_FILES) $(PYTHON) tools/dist.py --static $(DIST)

# ROOT=FOLDER is the tree of another system, in which it is tried by chroot, as root.
dist-test: $(if $(PROGRAM),,all) $(LIBRARY) $(MODEL_LIBRARY)
	@echo "dist-test: packing twice, unpacking and using what make dist packs (a minute)"
	@$(PYTHON) tools/dist.py --self-test
	@$(DIST_FILES) ALLOW_DIRTY=1 $(PYTHON) tools/dist_test.py $(if $(ROOT),--root $(ROOT))
