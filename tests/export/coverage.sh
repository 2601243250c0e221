#!/bin/sh
# Prints how much of the Rust that is written by hand the tests reach: the lines that ran of each
# folder of rust/src. Examples in comments are left out, and so is the border to C, which the tests in
# C reach. It takes the least Rust (debian_rust.sh), whose profiles the llvm-cov of Debian reads
# (llvm-19), and ends with 77 if one of them is not there. With a file after it, that file gets every
# line that no test reaches.
set -eu
cd "$(dirname "$0")/../.."
. tests/export/debian_rust.sh
cov=$(command -v llvm-cov-19 || true) merge=$(command -v llvm-profdata-19 || true)
if [ -z "$cov" ] || [ -z "$merge" ] || ! fetched; then
    echo "coverage: left out, llvm-19 or Debian's rustc-web of $least is not there"
    exit 77
fi
target=$PWD/target/coverage
rm -rf "$target/raw"
mkdir -p "$target"
export RUSTC="$at/usr/bin/rustc" CARGO_TARGET_DIR="$target" CARGO_INCREMENTAL=0
export RUSTFLAGS='-C instrument-coverage' CARGO_PROFILE_DEV_DEBUG=0
export LLVM_PROFILE_FILE="$target/raw/%p-%m.profraw"
export LD_LIBRARY_PATH="$at/usr/lib/x86_64-linux-gnu${LD_LIBRARY_PATH:+:$LD_LIBRARY_PATH}"
tools/rust.sh --export >/dev/null
(cd target/export && cargo test --quiet --workspace --exclude seatcrane-stun-c --features tracing \
    --lib --bins --tests --examples && cargo build --quiet --package seatcrane-checks) \
    >"$target/log" 2>&1 || { cat "$target/log" >&2; exit 1; }
"$target/debug/transcripts" tests/transcripts/*.txt >>"$target/log"
python3 tests/programs/captures/check.py "$target/debug/stun_inspect" >>"$target/log"
"$merge" merge -sparse -o "$target/all.profdata" "$target"/raw/*.profraw
objects=$(find "$target/debug" -maxdepth 2 -type f -perm -u+x ! -name '*.so' ! -name '*.rlib' |
    sed 's/^/--object=/')
# shellcheck disable=SC2086
"$cov" export --format=lcov --instr-profile="$target/all.profdata" $objects \
    >"$target/lcov" 2>>"$target/log"
python3 tests/export/covered.py "$target/lcov" "$@"
