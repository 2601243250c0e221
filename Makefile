# The targets of this repository. Those listed above `With the toolchain` do not need rt, and a
# release of the sources has only those.
.PHONY: help lib export rust rust-i686 test rust-c dist prove c check wrong bench install uninstall release-tier release verify-release

# Ends a target that needs the toolchain, where it is not there.
needs_rt = @command -v rt >/dev/null || { echo "make $@: needs the toolchain rt, which is not \
	installed (CONTRIBUTING.md). Without it, make export builds the crate in Rust, make lib the \
	library for C, and make test runs the tests that need no prover." | tr -s '\t ' ' ' >&2; exit 2; }

help:
	@echo "make lib      export the calls for C, and build libstunp.a and libstunp.so to target/c;"
	@echo "              UNWIND=yes with tables that debuggers and profilers read"
	@echo "make install  install the libraries, or the proved archives if they are built, headers,"
	@echo "              manual and programs; PREFIX=/usr/local LIBDIR=PREFIX/lib DESTDIR="
	@echo "make uninstall  remove them again"
	@echo "make export   export the proved sources as plain Rust to target/export, and build them"
	@echo "make rust     export the proved sources as plain Rust to target/export, and run its tests"
	@echo "make test     the same: what is tested without rt"
	@echo "make rust-i686  the tests in Rust for i686-unknown-linux-gnu, by the compilers of Debian 12"
	@echo "              or 13; root lets it install qemu-user and gcc-i686-linux-gnu"
	@echo "make rust-c   after 'make rust': build libstunp.a and libstunp.so to target/c, and test them"
	@echo "make dist     release/stunp-VERSION-source.tar.gz, with other crates, to build without network;"
	@echo "              it needs git"
	@echo "With the toolchain (rt):"
	@echo "make c        prove and build the archives for C (minutes)"
	@echo "make prove    prove everything (rt ci), and record it in PROOF.txt"
	@echo "make check    the merge tier of the tests (.ci/run)"
	@echo "make wrong    try all wrong edits, which the prover must refuse, and record it (an hour)"
	@echo "make bench    prove and build the archive of messages (minutes), and time its calls"
	@echo "make release-tier  the release tier of the tests (hours); PARTS= names some of its parts"
	@echo "make release  release/ from what the release tier built; make verify-release tries it"

lib:
	@tools/rust_c.sh --build

export:
	@tools/rust.sh --build

rust:
	@tools/rust.sh

rust-i686:
	@tests/export/foreign.sh i686

test: rust

rust-c:
	@tools/rust_c.sh udp

c:
	$(needs_rt)
	@tools/archives.sh

install:
	@$(MAKE) --no-print-directory -C include install

uninstall:
	@$(MAKE) --no-print-directory -C include uninstall

dist:
	@python3 tools/release.py --source release

prove:
	$(needs_rt)
	@python3 tools/proof.py

check:
	$(needs_rt)
	.ci/run

wrong:
	$(needs_rt)
	@python3 tools/wrong.py --all

bench:
	$(needs_rt)
	bench/run.sh

release-tier:
	$(needs_rt)
	@python3 tools/parts.py release $(PARTS)

release:
	$(needs_rt)
	@python3 tools/release.py release $(LOG)

verify-release:
	$(needs_rt)
	@python3 tools/release.py --verify release $(LOG)
