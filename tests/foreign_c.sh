#!/bin/sh
# Runs the tests in C over the library for other processors, under qemu, and for aarch64 also the
# transcripts, whose player takes sizes and orders of bytes for those of x86-64:
# usage: tests/foreign_c.sh [i686|armv7|aarch64|s390x] ..; all four where none is named. The first
# two have sizes of 32 bits, and the last has the other order of bytes. It takes what Debian has, as
# tests/export/foreign.sh does: the least Rust, the standard libraries, C compilers and qemu-user
# (i686 runs without it where this processor can). TESTS names some of the programs: `hostile`
# takes minutes under qemu.
set -eu
cd "$(dirname "$0")/.."
. tests/export/debian_rust.sh

# names TARGET: the target of rustc, Debian's architecture, the name of its tools, and qemu's.
names() {
    case $1 in
    i686) echo i686-unknown-linux-gnu i386 i686-linux-gnu i386 ;;
    armv7) echo armv7-unknown-linux-gnueabihf armhf arm-linux-gnueabihf arm ;;
    aarch64) echo aarch64-unknown-linux-gnu arm64 aarch64-linux-gnu aarch64 ;;
    s390x) echo s390x-unknown-linux-gnu s390x s390x-linux-gnu s390x ;;
    *) echo "usage: tests/foreign_c.sh [i686|armv7|aarch64|s390x] .." >&2; return 1 ;;
    esac
}

# passes TARGET RUSTC'S-TARGET ARCHITECTURE TOOLS QEMU'S-NAME
passes() {
    packages="qemu-user gcc-$4"
    dpkg -s $packages >/dev/null 2>&1 ||
        apt-get install -qq -y -o DPkg::Lock::Timeout=300 --no-install-recommends $packages \
            libc6-dev-"$3"-cross >/dev/null
    upper=$(echo "$2" | tr a-z- A-Z_)
    export "CARGO_TARGET_${upper}_LINKER=$4-gcc" \
        "CARGO_TARGET_${upper}_RUSTFLAGS=--sysroot $(library "$3")"
    out=$PWD/target/foreign_c/$1
    CARGO_BUILD_TARGET=$2 CC=$4-gcc LD=$4-ld AR=$4-ar NM=$4-nm OBJCOPY=$4-objcopy \
        tools/rust_c.sh --build "$out"
    sed -n 's/^ \*     //p; /\*\/$/q' include/stunp.h >"$out/answer.h"
    sed -n 's/^ \*     //p; /\*\/$/q' include/stunp_endpoint.h >"$out/serve.h"
    strict='-std=c99 -O1 -Wall -Wextra -Wpedantic -Werror -Iinclude -Iexamples/c -D_DEFAULT_SOURCE'
    # This processor may run them itself.
    runs="qemu-$5 -L /usr/$4" own="/usr/$4/lib/ld-linux.so.2 --library-path /usr/$4/lib"
    [ "$1" != i686 ] || ! $own --version >/dev/null 2>&1 || runs=$own
    for name in ${TESTS-$every} play; do
        heap=examples/c/heap.c
        case $name in arguments | attributes | extra) heap='' ;; esac
        $4-gcc $strict -I"$out" tests/c/$name.c $heap "$out/libstunp.a" -o "$out/$name.foreign"
        printf '#!/bin/sh\nexec %s "%s" "$@"\n' "$runs" "$out/$name.foreign" >"$out/$name"
        chmod +x "$out/$name"
        [ $name != play ] || continue
        [ "$("$out/$name")" = "$name: passed" ] || return 1
        echo "$name: passed"
    done
    [ "$1" != aarch64 ] || python3 tests/play.py "$out/play" tests/transcripts/*.txt
}

every='arguments attributes extra client endpoint hostile ice ice_checks texts worked'
[ $# -gt 0 ] || set -- i686 armv7 aarch64 s390x
fetched || { echo "Debian's rustc-web $least cannot be fetched here." >&2; exit 1; }
export RUSTC="$at/usr/bin/rustc" CARGO_TARGET_DIR="$PWD/target/foreign"
export LD_LIBRARY_PATH="$at/usr/lib/x86_64-linux-gnu${LD_LIBRARY_PATH:+:$LD_LIBRARY_PATH}"
mkdir -p target/foreign_c
for target; do
    of=$(names "$target")
    log=$PWD/target/foreign_c/$target.log
    trap 'tail -n 20 "$log" >&2' EXIT
    # (an error ends what runs behind no `||`)
    (passes "$target" $of) >"$log" 2>&1
    echo "$target: $(grep -c ': passed$' "$log") programs passed" \
        "$(grep ^transcripts: "$log" || true)"
    trap - EXIT
done
