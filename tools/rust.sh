#!/bin/sh
# Exports the library as plain Rust to target/export, and tries what comes out: warnings, pages,
# tests, transcripts. It needs cargo, the Rust of rust/Cargo.toml and Python 3.9. Cargo takes its
# crates from vendor/ if that is there, as in the release of the sources, or else those of Debian if
# they are installed (or can be, by root): then it needs no network. --build exports and builds,
# checks the sample request, and tests nothing; --export only exports, and installs nothing; --can
# only tests, by its status, whether all that it needs is installed, the crates included. Nothing but
# the test of the feature `asm` needs a C compiler. The last line is the verdict, or, with --build,
# the command to try next.
set -eu
cd "$(dirname "$0")/.."
. tools/compiler.sh
mode=${1:-} out=target/export now='' left=''
packages="librust-getrandom-dev librust-md-5-dev librust-sha1-dev librust-sha2-dev librust-tracing-dev"

# step WORDS: says what comes next.
step() {
    now=$*
    echo "== $now"
}

# omit WHAT WHY: a part is left out, which the verdict repeats.
omit() {
    left="$left${left:+, }$1 ($2)"
}

# verdict STATUS: of the tests, or where building ended.
verdict() {
    if [ "$1" = 0 ]; then
        [ "$mode" ] || echo "passed: the tests in Rust, which need no prover${left:+; left out: $left}"
    elif [ "$now" ]; then
        echo "FAILED: $now" >&2
    fi
}
trap 'verdict $?' EXIT

has_crates() {
    [ -d vendor ] || { command -v dpkg > /dev/null && dpkg -s $packages > /dev/null 2>&1; }
}

# has_rust VERSION: whether this Rust is as new, and cargo is there.
has_rust() {
    minor=$("${RUSTC:-rustc}" --version 2> /dev/null | sed -n 's/^rustc 1\.\([0-9]*\).*/\1/p')
    [ "${minor:-0}" -ge "${1#1.}" ] && cargo --version > /dev/null 2>&1
}

# found PROGRAM: its version in brackets, or that it is not there.
found() {
    version=$("$1" --version 2> /dev/null | sed 's/^[^ ]* \([^ ]*\).*/\1/') || version=''
    echo "$1: ${version:-not found}"
}

# install_crates: those of Debian, by root. What apt-get says is shown if it fails.
install_crates() {
    step "installing Debian's packages of the crates that this one uses"
    said=$(mktemp)
    { apt-get update -qq && DEBIAN_FRONTEND=noninteractive apt-get install -qq -y \
        --no-install-recommends $packages; } > "$said" 2>&1 || {
        cat "$said" >&2
        echo "Debian's packages of crates cannot be installed, so cargo fetches the crates." >&2
    }
    rm -f "$said"
}

least=$(sed -n 's/^rust-version = "\(.*\)"/\1/p' rust/Cargo.toml) missing=''
has_rust "$least" || missing="cargo and rustc $least"
python3 -c 'import sys; sys.exit(sys.version_info < (3, 9))' 2> /dev/null ||
    missing="$missing${missing:+, }Python 3.9"
if [ -n "$missing" ]; then
    echo "The exported crate needs $missing ($(found cargo), $(found "${RUSTC:-rustc}")," \
        "$(found python3)). On Debian 13 install the packages rustc, cargo and python3, and on" \
        "Debian 12 rustc-web, cargo-web and python3." >&2
    exit 1
fi
if [ "$mode" = --can ]; then
    has_crates && exit
    echo "Debian's packages of crates are not installed: $packages." >&2
    exit 1
fi
if ! { mkdir -p "$out" && [ -w "$out" ]; } 2> /dev/null; then
    echo "The folder $PWD/$out, to which the crate is exported, cannot be written." \
        "Copy the repository to a folder that is yours, and run this there." >&2
    exit 1
fi
if [ "$mode" != --export ] && ! has_crates && command -v apt-get > /dev/null &&
    [ "$(id -u)" = 0 ]; then
    install_crates
fi

step "exporting the sources as Rust to $out"
[ "$mode" ] || python3 tests/export/export_test.py
python3 tools/export/export.py "$out"
mkdir -p "$out/.cargo"
if has_crates; then
    from=/usr/share/cargo/registry
    [ ! -d vendor ] || from=$PWD/vendor
    printf '%s\n' '[source.crates-io]' 'replace-with = "here"' '[source.here]' \
        "directory = \"$from\"" '[net]' 'offline = true' > "$out/.cargo/config.toml"
else
    rm -f "$out/.cargo/config.toml"
    echo "Cargo fetches the crates that this one uses, unless it has them. Without network, have" \
        "root install them: on Debian, apt-get install $packages"
fi
[ "$mode" != --export ] || exit 0

if [ "$mode" = --build ]; then
    step 'building the crate, its programs, and the examples udp_client and udp_server'
    (cd "$out" &&
        cargo build --quiet --package seatcrane-stun --package seatcrane-checks &&
        cargo build --quiet --package seatcrane-stun --example udp_client --example udp_server)
    step 'checking the sample request of RFC 5769, section 2.1'
    built=$out/target/debug
    echo "$built/stun_tool check 'VOkJxbRl1RmTxUk/WvJxBt' < examples/request.hex"
    "$built/stun_tool" check 'VOkJxbRl1RmTxUk/WvJxBt' < examples/request.hex
    echo "next: $built/examples/udp_client HOST 3478"
    exit 0
fi
python3 tests/export/same_tokens.py "$out"
python3 tests/export/same_c_tokens.py "$out"
cd "$out"
export RUSTFLAGS="-D warnings" RUSTDOCFLAGS="-D warnings"
if cargo clippy --version > /dev/null 2>&1; then
    step 'warnings of clippy'
    python3 ../../tests/export/argued.py .
    cargo clippy --quiet --no-default-features
else
    omit 'warnings of clippy' 'not installed'
fi
step 'pages'
cargo doc --quiet --no-deps
# The tests of the calls for C are in C (rust_c.sh).
step 'tests in Rust, and those of the pages'
cargo test --quiet --workspace --exclude seatcrane-stun-c --features tracing
# The feature `asm` has no code of the crate, so the tests of digests are enough.
if there "${CC-}" cc; then
    step 'tests of digests by assembly'
    cargo test --quiet --features asm --test rfc5769 --test long_term
else
    omit 'the feature asm' 'no C compiler'
fi
step 'transcripts, programs and captures'
cargo build --quiet --package seatcrane-checks
target/debug/transcripts ../../tests/transcripts/*.txt
python3 ../../tests/programs/tool/check.py --exported target/debug/stun_tool
python3 ../../tests/programs/tool/transcripts.py target/debug/stun_tool
python3 ../../tests/programs/captures/check.py "$PWD/target/debug/stun_inspect"
