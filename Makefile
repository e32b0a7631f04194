# What can be built here. `make help` lists it.

PREFIX ?= /usr/local
DESTDIR ?=
# With QUICK=1 the program is built without a proof.
QUICK ?=
PROVED = crates/dunkelva/out/dunkelva
UNPROVED = out/quick/dunkelva
PROGRAM ?= $(if $(QUICK),$(UNPROVED),$(PROVED))
BIN = $(DESTDIR)$(PREFIX)/bin
SHARE = $(DESTDIR)$(PREFIX)/share

LIBRARY = out/library

.PHONY: help quick program prove test bench site install install-files uninstall deb library \
    install-library uninstall-library wheel

help: ## List what can be made
	@sed -n 's/^\([a-z-]*\):.*## /  \1\t/p' Makefile | expand -t 20

quick: ## Build the program without a proof (out/quick/dunkelva; minutes)
	packaging/build_quick

program: ## Prove and build the program (crates/dunkelva/out/dunkelva; about an hour)
	cd crates/dunkelva && rt run -- --version

prove: ## Prove everything and run the tests (the gate; an hour and three quarters)
	.ci/run

test: ## Run most stored inputs without a proof (minutes)
	tests/quick

bench: ## Time the kernels beside plain Rust (half an hour once they are proved; QUICK=1: two minutes)
	bench/run.sh

site: ## Make the pages as a site (out/site; needs mkdocs)
	packaging/make_site

install: $(if $(QUICK),quick,program) install-files ## Build, and install below PREFIX; QUICK=1: without a proof
	@echo "$(BIN)/dunkelva is installed$(if $(QUICK),. It is not proved,).";

# Installs a program that is built.
install-files:
	install -D -m 755 $(PROGRAM) $(BIN)/dunkelva
	cd share && find . -type f -exec install -D -m 644 {} $(SHARE)/{} \;

uninstall: ## Remove what install put below PREFIX
	rm -f $(BIN)/dunkelva
	cd share && find . -type f -exec rm -f $(SHARE)/{} \;

deb: $(if $(QUICK),quick,program) ## Make a Debian package in out/; QUICK=1: without a proof
	packaging/make_deb $(PROGRAM)

library: ## Prove the kernels and make the library for C (out/library)
	packaging/make_library

wheel: library ## Prove the kernels and make a wheel for Python (out/wheel)
	packaging/make_wheel

# Installs a library that is made.
install-library: ## Install the library for C, which is made, below PREFIX
	install -D -m 644 $(LIBRARY)/dunkelva.h $(DESTDIR)$(PREFIX)/include/dunkelva.h
	install -D -m 644 $(LIBRARY)/dunkelva.pc $(DESTDIR)$(PREFIX)/lib/pkgconfig/dunkelva.pc
	install -D -m 644 $(LIBRARY)/libdunkelva.a $(DESTDIR)$(PREFIX)/lib/libdunkelva.a
	install -m 644 $(LIBRARY)/libdunkelva.so.*.*.* $(DESTDIR)$(PREFIX)/lib
	cp -P $(LIBRARY)/libdunkelva.so $(LIBRARY)/libdunkelva.so.0 $(DESTDIR)$(PREFIX)/lib

uninstall-library: ## Remove what install-library put below PREFIX
	rm -f $(DESTDIR)$(PREFIX)/include/dunkelva.h $(DESTDIR)$(PREFIX)/lib/pkgconfig/dunkelva.pc
	rm -f $(DESTDIR)$(PREFIX)/lib/libdunkelva.*
