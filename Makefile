# udsnorm: what a user does with it. Everything is built and proved by `rt`, the command of the Rattle kit.

LOG ?= examples/first.log
PREFIX ?= /usr/local
PROGRAM_CRATE := crates/udsnorm
PROGRAM := $(PROGRAM_CRATE)/out/udsnorm
BUILD_LOG := $(PROGRAM_CRATE)/out/build.txt
VERSION := $(shell cat VERSION)

LIBRARY_CRATE := crates/udsnorm_c
LIBRARY := out/lib
LIBRARY_LOG := $(LIBRARY)/build.txt
SONAME := libudsnorm.so.$(shell cat library/SONAME)
LIBDIR ?= $(PREFIX)/lib
HEADER := $(PREFIX)/include/udsnorm.h
PKG_CONFIG := $(LIBDIR)/pkgconfig/udsnorm.pc

MAN := $(PREFIX)/share/man/man1/udsnorm.1
BASH := $(PREFIX)/share/bash-completion/completions/udsnorm
ZSH := $(PREFIX)/share/zsh/site-functions/_udsnorm
FISH := $(PREFIX)/share/fish/vendor_completions.d/udsnorm.fish
BENCH := $(PREFIX)/share/udsnorm/profiles/bench.toml
PAGES := $(PREFIX)/share/doc/udsnorm

EVIDENCE ?= out/udsnorm-$(VERSION)-evidence.md

.PHONY: build help lib run check attack test gate evidence install install-built install-lib install-built-lib uninstall dist deb wheel interop
.PHONY: browser bench rival

# Proves the program and what it stands on, and builds it. It says when it starts and when it ends on standard error; what
# `rt` says is in a file, and shown where the build fails.
build:
	@mkdir -p $(PROGRAM_CRATE)/out
	@begun=$$(date +%s); \
	echo 'udsnorm: proving and building, the first time for some minutes; what rt says goes to $(BUILD_LOG)' >&2; \
	if (cd $(PROGRAM_CRATE) && rt run < /dev/null > /dev/null 2> out/build.txt); then \
		echo "udsnorm: built in $$(($$(date +%s) - begun)) s: $(PROGRAM)" >&2; \
	else \
		cat $(BUILD_LOG) >&2; \
		echo "udsnorm: not built, after $$(($$(date +%s) - begun)) s" >&2; \
		exit 1; \
	fi

# Prints this list: each goal, with the first sentence of what the Makefile says above it.
help:
	@awk '/^# / { text = text substr($$0, 2); next } \
		/^[a-z-]+:/ && text { sub(/:.*/, ""); sub(/[.:] .*|[.:]$$/, "", text); printf "%-19s%s\n", $$0, text } \
		{ text = "" }' Makefile

# Proves the library for C, and builds it, static and shared, into out/lib. One that needs a newer glibc than the README names
# is refused. Where gcc or binutils are missing they are installed, which needs root and Debian.
lib:
	@mkdir -p $(LIBRARY)
	@(command -v gcc && command -v ld) > /dev/null || scripts/install-tools compiler
	@echo 'udsnorm: proving and building the library; what rt says goes to $(LIBRARY_LOG)' >&2; \
	(cd $(LIBRARY_CRATE) && rt lib < /dev/null) > $(LIBRARY_LOG) 2>&1 || { cat $(LIBRARY_LOG) >&2; exit 1; }
	@scripts/build-library $(LIBRARY_CRATE)/out/libudsnorm_c.a $(LIBRARY)
	@echo 'udsnorm: built the library: $(LIBRARY)' >&2

# Prints the canonical log of LOG, and nothing else. Where the log has none, the program says why, and
# then its exit status is told: make itself ends with 2 whatever it is, since it has no other status for a failure.
run: build
	@$(PROGRAM) normalise '$(LOG)' || { status=$$?; echo "udsnorm: exit status $$status" >&2; exit $$status; }

# Checks what a change of CRATE touches, the program first: a line for each step, up to the first that fails.
check:
	@scripts/check $(CRATE)

# Tries the wrong bodies of attacks/, those of CRATE alone where it is given. The prover has to refuse each. They take hours
# of one processor in all, and are no part of `gate`, which tries those of must-fail/.
attack:
	@scripts/attack $(CRATE)

# Tests what is built, and the documents. They run side by side: tests/run.py has their list.
test: build lib
	@python3 tests/run.py $(PROGRAM) $(LIBRARY)

# Proves everything from nothing, and tries the tests and the wrong bodies of each crate.
gate:
	@rt ci

# Writes EVIDENCE, a file for auditors: what was released, and what the gate said of it, which is in the file GATE. It stands
# beside the release, and says so where GATE is not given.
evidence:
	@scripts/evidence '$(EVIDENCE)' $(if $(GATE),'$(GATE)')

# Installs the program with manual page, completions, pages, samples and the library. They go below PREFIX; DESTDIR is put in
# front of each path.
install: build lib
	@$(MAKE) --no-print-directory install-built install-built-lib

# Installs the library alone.
install-lib: lib
	@$(MAKE) --no-print-directory install-built-lib

# Installs the program as it was built before. The manual page has each command as the program's help tells it.
install-built:
	install -D -m 755 $(PROGRAM) $(DESTDIR)$(PREFIX)/bin/udsnorm
	install -D -m 644 /dev/null $(DESTDIR)$(MAN)
	packaging/manual $(PROGRAM) > $(DESTDIR)$(MAN)
	install -D -m 644 share/completions/udsnorm.bash $(DESTDIR)$(BASH)
	install -D -m 644 share/completions/_udsnorm $(DESTDIR)$(ZSH)
	install -D -m 644 share/completions/udsnorm.fish $(DESTDIR)$(FISH)
	install -D -m 644 share/profiles/bench.toml $(DESTDIR)$(BENCH)
	packaging/pages $(DESTDIR)$(PAGES)

# Installs the library as it was built before, with its header and what pkg-config reads.
install-built-lib:
	install -D -m 644 library/udsnorm.h $(DESTDIR)$(HEADER)
	install -D -m 644 $(LIBRARY)/libudsnorm.a $(DESTDIR)$(LIBDIR)/libudsnorm.a
	install -D -m 644 $(LIBRARY)/libudsnorm.so.$(VERSION) $(DESTDIR)$(LIBDIR)/libudsnorm.so.$(VERSION)
	ln -sf libudsnorm.so.$(VERSION) $(DESTDIR)$(LIBDIR)/$(SONAME)
	ln -sf $(SONAME) $(DESTDIR)$(LIBDIR)/libudsnorm.so
	sed 's|@PREFIX@|$(PREFIX)|; s|@LIBDIR@|$(LIBDIR)|; s|@VERSION@|$(VERSION)|' library/udsnorm.pc.in | install -D -m 644 /dev/stdin $(DESTDIR)$(PKG_CONFIG)

# Removes what `install` put there.
uninstall:
	rm -f $(DESTDIR)$(PREFIX)/bin/udsnorm $(DESTDIR)$(MAN) $(DESTDIR)$(BASH) $(DESTDIR)$(ZSH) $(DESTDIR)$(FISH) $(DESTDIR)$(BENCH)
	rm -f $(DESTDIR)$(HEADER) $(DESTDIR)$(PKG_CONFIG) $(DESTDIR)$(LIBDIR)/libudsnorm.a
	rm -f $(DESTDIR)$(LIBDIR)/libudsnorm.so $(DESTDIR)$(LIBDIR)/$(SONAME) $(DESTDIR)$(LIBDIR)/libudsnorm.so.$(VERSION)
	rm -rf $(DESTDIR)$(PAGES)

# Makes a release for other machines as a tarball, and prints its path.
dist: build lib
	@packaging/dist $(PROGRAM) $(LIBRARY) out

# Makes Debian packages of the same contents, and prints their paths.
deb: build lib
	@packaging/deb $(PROGRAM) out
	@packaging/deb-library $(LIBRARY) out

# Tries what other tools make of canonical logs, and the program of theirs. No part of `test`, since it needs these tools.
interop: build
	@python3 tests/program/interop.py $(PROGRAM)

# Tries the pages of `udsnorm report` in the browsers that are here. No part of `test`, since it needs them; .ci/run has it too. What
# Debian packages for Python is for Debian's own, where another one comes first.
browser: build
	@$(or $(wildcard /usr/bin/python3),python3) tests/pages/browser.py $(PROGRAM)

# Makes a wheel of the Python package, with library and program inside, and prints its path.
wheel: build lib
	@packaging/wheel $(PROGRAM) $(LIBRARY) out

# Prints how fast it is, beside other programs. A table, and no test.
bench: build
	@bench/whole-logs

# Tries whether the yardstick of bench/rival, built by cargo, writes what the program writes. No part of `test`, since it needs cargo.
rival: build
	@python3 tests/program/rival.py $(PROGRAM)
