#!/bin/sh
# Tests target/export with the least Rust that rust/Cargo.toml promises. It takes the compiler of
# Debian, which apt-get fetches without installing it, and the cargo that is here. Where that version
# cannot be fetched it says so, and ends with 77.
set -eu
cd "$(dirname "$0")/../.."
. tests/export/debian_rust.sh
libraries=$at/usr/lib/x86_64-linux-gnu

if ! fetched; then
    echo "rust $least, the least: left out, Debian's package of it cannot be fetched here"
    exit 77
fi
export RUSTC="$at/usr/bin/rustc" CARGO_TARGET_DIR="$PWD/target/least"
export CARGO_PROFILE_DEV_DEBUG=0 CARGO_INCREMENTAL=0
export LD_LIBRARY_PATH="$libraries${LD_LIBRARY_PATH:+:$LD_LIBRARY_PATH}"
"$RUSTC" --version | grep -q "^rustc $least\."
cd target/export
# Warnings are those of a newer compiler (rust.sh), and tests of pages are run by that.
cargo test --quiet --workspace --exclude seatcrane-stun-c --features tracing --lib --bins --tests \
    --examples >"$CARGO_TARGET_DIR.log" 2>&1 || { cat "$CARGO_TARGET_DIR.log" >&2; exit 1; }
cargo build --quiet --no-default-features
cargo build --quiet --package seatcrane-stun-c --package seatcrane-checks
"$CARGO_TARGET_DIR/debug/transcripts" ../../tests/transcripts/*.txt
echo "rust $least, the least: passed"
