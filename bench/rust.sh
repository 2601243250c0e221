#!/bin/sh
# Times the exported crate beside OpenSSL's bare digest calls (its calls for C, by bench.c). It is
# timed beside plain code over the same crates of digests, too (rust/bench/bench.rs). Both are
# done with and without the processor's SHA instructions, where it has them. Then it tells how long
# a program is that verifies one message. It wants `make rust` before, cargo, a C compiler and
# OpenSSL's headers (libssl-dev).
set -eu
cd "$(dirname "$0")"
CC=${CC:-cc}
out=$PWD/out/rust
mkdir -p "$out"
model=$(sed -n 's/^model name.*: //p' /proc/cpuinfo | head -n 1)
features=$(sed -n 's/^flags.*: //p' /proc/cpuinfo | head -n 1 | tr ' ' '\n' |
    grep -E '^(ssse3|avx2|bmi2|avx512f|sha_ni)$' | tr '\n' ' ')
echo "$(date -u +%Y-%m-%d), $model, features: ${features% }; \
$(openssl version | cut -d' ' -f1,2); $(rustc --version | cut -d' ' -f1,2); \
load $(cut -d' ' -f1 /proc/loadavg)"

# measured FEATURES..: both tables.
measured() {
    (cd ../target/export
     cargo build --quiet --release -p seatcrane-stun-c --target-dir "$out" "$@"
     cargo build --quiet --release -p seatcrane-stun --example bench --target-dir "$out" "$@")
    $CC -O2 -Wno-deprecated-declarations -I../include -DSTUNP_INLINE_CALLS=1 bench.c \
        "$out/release/libstunp.a" \
        -lcrypto -lpthread -ldl -lm -o "$out/bench"
    : > "$out/counts"
    printf '\nThe calls for C beside OpenSSL:\n\n'
    "$out/bench" "$out/counts"
    case " $features" in *avx2*)
        printf '\nWith OpenSSL kept from AVX, AVX2 and the SHA instructions:\n\n'
        OPENSSL_ia32cap='~0x1000000000000000:~0x20000020' "$out/bench" "$out/counts" ;;
    esac
    printf '\nThe crate beside plain code over the same digests:\n\n'
    "$out/release/examples/bench"
}
measured
case " $features" in *sha_ni*)
    printf '\nWithout the SHA instructions:\n'
    measured --features sha1/force-soft,sha2/force-soft ;;
esac

# Bytes of programs, without symbols: one that verifies a message, and one that reads one and prints
# a line.
cat > "$out/nothing.rs" <<'RUST'
use std::io::Read;
fn main() {
    let mut bytes = Vec::new();
    std::io::stdin().read_to_end(&mut bytes).unwrap();
    println!("{} {}", bytes.len(), std::env::args().count());
}
RUST
rustc -O -C lto -C codegen-units=1 -C panic=abort -C strip=symbols --edition 2024 \
    "$out/nothing.rs" -o "$out/nothing"
(cd ../target/export && CARGO_PROFILE_RELEASE_PANIC=abort CARGO_PROFILE_RELEASE_STRIP=symbols \
    cargo build --quiet --release -p seatcrane-stun --no-default-features --example verify \
    --target-dir "$out/small")
size() { wc -c < "$1" | tr -d ' '; }
verifies=$(size "$out/small/release/examples/verify")
printf '\nA program that verifies one message: %s bytes, ' "$verifies"
printf '%s more than one that reads it and prints its length.\n' \
    $((verifies - $(size "$out/nothing")))
