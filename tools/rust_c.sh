#!/bin/sh
# Builds the calls for C of the exported crate, and leaves in target/c libstunp.a, libstunp.so and
# the latter under the name that the loader looks for. With --build it exports first, as `make lib`
# does, and tests and installs nothing; a second word names another folder than target/c. With
# --link FOLDER HEADERS it links what cargo has built with the calls of other headers
# (tests/next.sh). Otherwise target/export must be there (tools/rust.sh), and tests/rust_c.sh
# follows with the same words. It needs cargo, a C compiler and the binutils; the variables of make (CC, CFLAGS,
# LDFLAGS, AR, LD, NM, OBJCOPY) and of cargo (CARGO_BUILD_TARGET, CARGO_TARGET_DIR) name others.
# UNWIND=yes keeps the tables by which debuggers and profilers unwind the stack, an eighth of the
# shared library.
set -eu
cd "$(dirname "$0")/.."
out=$PWD/target/c cc=${CC:-cc} headers=include
case ${1-} in
--build) out=${2:-$out} && tools/rust.sh --export ;;
--link) out=$2 headers=$3 ;;
esac
mkdir -p "$out"
rm -f "$out"/libstunp*
# All functions but those of the hash crates are optimized for size, and loops over whole vectors
# are still done by vectors, in contrast to `opt-level = "s"`. Fewer functions than by default are
# copied to where they are called, fewer loops are unrolled, no value is computed early, functions
# begin at multiples of 4 bytes and not of 16, and loops anywhere: the shared library is a quarter
# smaller, and calls take 4 to 11 percent more instructions (docs/maintainers/DECISIONS.md).
[ "${1-}" = --link ] || (cd target/export && cargo rustc --quiet --release -p seatcrane-stun-c -- \
    -C llvm-args='-force-attribute=optsize -inline-threshold=70 -unroll-threshold=30
    -unroll-runtime=0 -unroll-allow-partial=0 -enable-pre=false -enable-load-pre=false
    -align-all-functions=2 -align-loops=1')
built=${CARGO_TARGET_DIR:-target/export/target}
built=$built/${CARGO_BUILD_TARGET:+$CARGO_BUILD_TARGET/}release/libstunp.a
# What programs in C have from the headers is here for others: small, and without tables to unwind.
$cc -std=c99 ${CFLAGS--Os -fno-asynchronous-unwind-tables} -fPIC -ffunction-sections \
    -fdata-sections -I"$headers" -c rust/capi/inline.c -o "$out/inline.o"

# One object, in which no symbol is seen but the calls. Each function is a section of its own, so a
# linker that is told --gc-sections takes in what a program calls.
names=$(${NM:-nm} --defined-only "$built" "$out/inline.o" 2> /dev/null |
    sed -n 's/^.* T \(stunp_.*\)/ -u \1/p')
${LD:-ld} -r --force-group-allocation --gc-sections $names "$out/inline.o" "$built" -o "$out/one.o"
tables='-R .eh_frame'
[ "${UNWIND-}" != yes ] || tables=''
${OBJCOPY:-objcopy} -w --keep-global-symbol='stunp_*' -R .llvmbc -R .llvmcmd -R .comment $tables \
    "$out/one.o"
${AR:-ar} rcsD "$out/libstunp.a" "$out/one.o"
# The name for the loader has as many numbers of the version as releases that go together share.
shared=libstunp.so.$(sed 's/^\(0\.[0-9]*\)\..*/\1/; s/^\([1-9][0-9]*\)\..*/\1/' VERSION)
# Its own calls go directly to each other, and its segments have no padding of a page between them.
$cc -shared -nostartfiles -Wl,-Bsymbolic-functions ${LDFLAGS--Wl,-z,relro,-z,now,-z,noseparate-code} \
    -Wl,-soname,"$shared" "$out/one.o" -o "$out/$shared"
# A copy: `rt ci` refuses a repository in which a link stands.
cp "$out/$shared" "$out/libstunp.so"
rm "$out/one.o" "$out/inline.o"
case ${1-} in
--link) ;;
--build) echo "The libraries are in ${out#"$PWD/"}: libstunp.a and $shared." ;;
*) exec tests/rust_c.sh "$@" ;;
esac
