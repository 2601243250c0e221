#!/bin/sh
# Builds the archive and the driver, counts instructions by callgrind, times the calls and prints
# the table. It needs a C compiler, OpenSSL's headers (libssl-dev) and valgrind; without valgrind it
# counts nothing.
set -eu
cd "$(dirname "$0")"
. ./common.sh
tried 'the driver' $CC -O2 -Wall -Wextra -Werror -Wno-deprecated-declarations -I../include \
    -DSTUNP_INLINE_CALLS=1 \
    bench.c "$archive" -lcrypto -o out/bench

# Instructions of one call: those from entering its function to leaving it, over so many calls.
# `prepare` makes a few calls before them, so two counts are taken, and the difference counts.
collected() {
    if ! valgrind --tool=callgrind --callgrind-out-file=/dev/null --toggle-collect="$2" \
        out/bench call "$1" "$3" >out/log 2>&1; then
        cat out/log >&2
        echo "bench: failed: valgrind .. out/bench call $1 $3" >&2
        exit 1
    fi
    sed -n 's/.*Collected : \([0-9]*\).*/\1/p' out/log
}
: >out/counts
if command -v valgrind >/dev/null; then
    out/bench names | while read -r name function; do
        few=$(collected "$name" "$function" 100)
        many=$(collected "$name" "$function" 1100)
        echo "$name $(((many - few) / 1000))" >>out/counts
    done
fi

model=$(sed -n 's/^model name.*: //p' /proc/cpuinfo | head -n 1)
features=$(sed -n 's/^flags.*: //p' /proc/cpuinfo | head -n 1 | tr ' ' '\n' |
    grep -E '^(ssse3|avx2|bmi2|avx512f|sha_ni)$' | tr '\n' ' ')
echo "$(date -u +%Y-%m-%d), $model, features: ${features% }; $(openssl version | cut -d' ' -f1,2)"
echo
out/bench out/counts
# The archive is built for x86-64-v2, which has SSSE3; OpenSSL picks AVX, AVX2 and the SHA
# instructions where they are.
printf '\nWith OpenSSL kept from the SHA instructions:\n\n'
OPENSSL_ia32cap=':~0x20000000' out/bench out/counts
printf '\nWith OpenSSL kept from AVX, AVX2 and the SHA instructions, as the archive is:\n\n'
OPENSSL_ia32cap='~0x1000000000000000:~0x20000020' out/bench out/counts
