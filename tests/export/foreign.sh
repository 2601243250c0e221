#!/bin/sh
# Runs the tests and the transcripts of target/export as programs for other processors, under qemu
# (those of i686 without it where this processor can):
# usage: tests/export/foreign.sh [i686|armv7|aarch64|s390x] ..; all four where none is named. The
# first two have sizes of 32 bits, and the last has the other order of bytes. It takes what Debian 12
# or 13 has: its rustc of the least Rust that is promised and the standard libraries for it (fetched,
# not installed), linkers and qemu-user, which it installs where root runs it.
set -eu
cd "$(dirname "$0")/../.."
. tests/export/debian_rust.sh

# names TARGET: the target of rustc, Debian's architecture, the name of its tools, and qemu's.
names() {
    case $1 in
    i686) echo i686-unknown-linux-gnu i386 i686-linux-gnu i386 ;;
    armv7) echo armv7-unknown-linux-gnueabihf armhf arm-linux-gnueabihf arm ;;
    aarch64) echo aarch64-unknown-linux-gnu arm64 aarch64-linux-gnu aarch64 ;;
    s390x) echo s390x-unknown-linux-gnu s390x s390x-linux-gnu s390x ;;
    *) echo "usage: tests/export/foreign.sh [i686|armv7|aarch64|s390x] .." >&2; return 1 ;;
    esac
}

# passes TARGET RUSTC'S-TARGET ARCHITECTURE TOOLS QEMU'S-NAME
passes() {
    packages="qemu-user gcc-$4 libc6-dev-$3-cross"
    dpkg -s $packages >/dev/null 2>&1 ||
        apt-get install -qq -y --no-install-recommends $packages >/dev/null ||
        { echo "foreign: $1 needs these packages, which root can install: $packages"; return 1; }
    sysroot=$(library "$3") ||
        { echo "foreign: Debian's standard library of Rust $least for $3 cannot be fetched"; return 1; }
    upper=$(echo "$2" | tr a-z- A-Z_)
    qemu="qemu-$5 -L /usr/$4"
    # This processor may run them itself.
    own="/usr/$4/lib/ld-linux.so.2 --library-path /usr/$4/lib"
    [ "$1" != i686 ] || ! $own --version >/dev/null 2>&1 || qemu=$own
    export "CARGO_TARGET_${upper}_LINKER=$4-gcc" "CARGO_TARGET_${upper}_RUNNER=$qemu" \
        "CARGO_TARGET_${upper}_RUSTFLAGS=--sysroot $sysroot"
    # Tests of pages would want a rustdoc of the same version. The calls for C are linked by a
    # program alone.
    # No length of 64 bits is one on a target of 32.
    data=$CARGO_TARGET_DIR/data
    rm -rf "$data" && cp -r tests/transcripts "$data"
    case $1 in i686 | armv7) sed -i '/^attribute takes 18446744073709551615 /d' "$data"/*.txt ;; esac
    cd target/export
    cargo test --quiet --workspace --exclude seatcrane-stun-c --features tracing --lib --tests \
        --target "$2"
    cargo build --quiet --package seatcrane-checks --target "$2"
    $qemu "$CARGO_TARGET_DIR/$2/debug/transcripts" "$data"/*.txt
}

[ $# -gt 0 ] || set -- i686 armv7 aarch64 s390x
fetched || {
    echo "foreign: Rust $least cannot be fetched: it is rustc-web of Debian 12, and rustc of 13" >&2
    exit 1
}
export RUSTC="$at/usr/bin/rustc" CARGO_TARGET_DIR="$PWD/target/foreign"
export CARGO_PROFILE_DEV_DEBUG=0 CARGO_PROFILE_DEV_OPT_LEVEL=1 CARGO_INCREMENTAL=0
libraries=$at/usr/lib/x86_64-linux-gnu
export LD_LIBRARY_PATH="$libraries${LD_LIBRARY_PATH:+:$LD_LIBRARY_PATH}"
# A clone has no target/export and no folder of targets before the first run.
[ -d target/export ] || tools/rust.sh --export >/dev/null
mkdir -p "$CARGO_TARGET_DIR"
for target; do
    of=$(names "$target")
    log=$CARGO_TARGET_DIR.$target.log
    trap 'cat "$log" >&2' EXIT
    # (an error ends what runs behind no `||`)
    (passes "$target" $of) >"$log" 2>&1
    tests=$(awk '/^test result: ok/ { all += $4 } END { print all }' "$log")
    echo "$target: $tests tests and $(grep -c ': right, ' "$log") transcripts passed"
    trap - EXIT
done
