#!/bin/sh
# Tests that a program which was built with this library runs with a later one of the same release
# line: with the next patch version, which is made here. Its calls that are done in C have other
# bodies, and the structs that may grow have another field (Releases in stunp.h).
#
#     tests/next.sh          with target/c and target/export of tools/rust_c.sh
#     tests/next.sh results  the results of calls grow too, for which cargo builds the library anew
set -eu
cd "$(dirname "$0")/.."
folder=$PWD/target/c cc=${CC:-cc}
scratch=$(mktemp -d)
trap 'rm -rf "$scratch"' EXIT

fail() {
    echo "next: $*" >&2
    exit 1
}

# prints WANTED FOLDER: the program, with the library of this folder, prints this.
prints() {
    printed=$(LD_LIBRARY_PATH=$2 "$scratch/program") || fail "the program ended with $?"
    [ "$printed" = "$1" ] || fail "the program printed '$printed', not '$1'"
}

$cc -std=c99 -Wall -Wextra ${WERROR--Werror} -O2 -Iinclude tests/c/next.c -L"$folder" -lstunp \
    -o "$scratch/program"
! nm "$scratch/program" | grep -i ' [tw] stunp_' >&2 || fail 'the program has calls of the library'
version=$(sed -n 's/^#define STUNP_VERSION //p' include/stunp.h)
prints 'bytes are missing at the end: 11 answers' "$folder"

# changed FILE FROM TO: an edit of sed that must change the file.
changed() {
    sed "s|$2|$3|" "$1" >"$1.new"
    ! cmp -s "$1" "$1.new" || fail "$1 has no $2"
    mv "$1.new" "$1"
}

# grown NAME: the struct gets another field.
grown() { changed "$scratch/next/stunp_endpoint.h" "^} $1;" "    uint64_t later[4]; } $1;"; }
cp -R include "$scratch/next"
changed "$scratch/next/stunp.h" "^#define STUNP_VERSION .*" "#define STUNP_VERSION $((version + 1))"
changed "$scratch/next/stunp_inline.h" '"bytes are missing at the end"' '"it is cut"'
changed "$scratch/next/stunp_inline.h" 'stunp_verify(message, length, key, key_length) > 0' \
    'stunp_verify(message, length, key, key_length) >= STUNP_SHA1'
for name in endpoint_server_settings endpoint_client_settings found_user ice_settings; do
    grown stunp_$name
done
mkdir "$scratch/c"
if [ "${1-}" != results ]; then
    tools/rust_c.sh --link "$scratch/c" "$scratch/next"
    prints 'it is cut: 11 answers' "$scratch/c"
    # A program of a later version has larger structs than this library, which refuses them.
    $cc -std=c99 -Wall -Wextra ${WERROR--Werror} -O2 -I"$scratch/next" tests/c/next.c -L"$scratch/c" -lstunp \
        -o "$scratch/program"
    prints 'it is cut: 11 answers' "$scratch/c"
    ! LD_LIBRARY_PATH=$folder "$scratch/program" >/dev/null 2>&1 ||
        fail 'an earlier library takes the structs of a later program'
    echo 'next: a program of this version runs with the next one, and not the other way round'
    exit 0
fi
for name in received ice_received event; do grown stunp_$name; done
cp -R target/export "$scratch/export"
calls=$scratch/export/capi/src/calls/stun_c_endpoint
changed "$calls/received.rs" '^    pub is_hash: bool,' '    pub is_hash: bool, pub later: [u64; 4],'
changed "$calls/ice/told.rs" '^    pub mapped: Address,' \
    '    pub mapped: Address, pub later: [u64; 4],'
changed "$calls/client/event.rs" '^    pub dropped: Dropped,' \
    '    pub dropped: Dropped, pub later: [u64; 4],'
(cd "$scratch/export" && cargo rustc --quiet --release -p seatcrane-stun-c)
CARGO_TARGET_DIR=$scratch/export/target tools/rust_c.sh --link "$scratch/c" "$scratch/next"
prints 'it is cut: 11 answers' "$scratch/c"
echo 'next: the structs of results may grow too'
