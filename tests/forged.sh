#!/bin/sh
# Plays forged datagrams against endpoint::Client of the exported crate, after `make export`. The
# last line counts the faults.
#   tests/forged.sh            a share of the cases of tests/forged, some 460,000 attacked requests
#                              in half a minute of the processor
#   tests/forged.sh --all      all 186 million cases: some two hours of the processor, shared by
#                              all processors
#   tests/forged.sh --all I/N  the I-th of N parts of all cases, for I from 1 to N
# THREADS says on how many threads; by default on half of the processors, with --all on all of them.
set -eu
cd "$(dirname "$0")/.."
usage() {
    echo "usage: tests/forged.sh [--all [I/N]]" >&2
    exit 2
}
single=151 pairs=701 first=0 threads=$((($(nproc) + 1) / 2))
case "$#:${1-}" in
    0:) ;;
    1:--all | 2:--all)
        part=${2:-1/1} threads=$(nproc)
        single=${part#*/} pairs=${part#*/} first=$((${part%/*} - 1))
        [ "$part" = "$((first + 1))/$single" ] || usage
        [ 0 -le "$first" ] && [ "$first" -lt "$single" ] || usage
        ;;
    *) usage ;;
esac
top=$PWD
cd target/export
cargo build --quiet --release --package seatcrane-stun
built=target/release
"${RUSTC:-rustc}" --edition 2024 -D warnings -C opt-level=3 -C panic=abort --crate-name forged \
    --extern "seatcrane_stun=$built/libseatcrane_stun.rlib" -L "dependency=$built/deps" \
    -o "$built/forged" "$top/tests/forged/main.rs"
"$built/forged" "$single" "$pairs" "$first" "${THREADS:-$threads}"
