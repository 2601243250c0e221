#!/bin/sh
# Builds the archives and the examples over them, and compares what the examples print. It installs
# the archives into a scratch folder and builds over that, too (tests/install.sh). What the archives
# return is tested by tests/check.sh. STUN_C and STUN_ENDPOINT may name other archives, such as
# the libstunp.a of tools/rust_c.sh for both; then nothing is proved. LIBRARIES has what these archives need in addition. Without a C
# compiler and make nothing is tested. The last line says what was tested.
set -eu
cd "$(dirname "$0")"
python3 ../bench/bars.py >/dev/null # the tables of bench/README.md have the bars of the programs
. ../tools/compiler.sh
if ! there "${CC-}" cc || ! command -v make >/dev/null; then
    echo "examples: left out, no C compiler and make are there"
    exit 0
fi
scratch=$(mktemp -d)
trap 'rm -rf "$scratch"' EXIT
if [ -z "${STUN_C-}" ] || [ -z "${STUN_ENDPOINT-}" ]; then
    if ! ../tools/archives.sh >"$scratch/lib" 2>&1; then
        cat "$scratch/lib" >&2
        exit 1
    fi
    STUN_C=$PWD/../crates/stun_c/out/libstun_c.a
    STUN_ENDPOINT=$PWD/../crates/stun_c_endpoint/out/libstun_c_endpoint.a
    LIBRARIES=''
fi
: "${LIBRARIES=-lpthread -ldl -lm}"
export STUN_C STUN_ENDPOINT LIBRARIES

# expect STATUS WANTED COMMAND..: the command ends with this status, and prints this.
expect() {
    status=$1 wanted=$2 ended=0
    shift 2
    printed=$("$@") || ended=$?
    if [ "$ended" != "$status" ] || [ "$printed" != "$wanted" ]; then
        echo "examples: $*: status $ended, printed '$printed', not $status, '$wanted'" >&2
        exit 1
    fi
}

rm -rf ../examples/c/out
make -s -C ../examples/c CC="${CC:-cc}" LIBRARY="$STUN_C" \
    ENDPOINT="$STUN_ENDPOINT" SYSTEM="$LIBRARIES"

password='VOkJxbRl1RmTxUk/WvJxBt'

# The request of RFC 5769, section 2.1, without white space.
{
    printf '\000\001\000\130\041\022\244\102\267\347\247\001\274\064\326\206\372\207\337\256'
    printf '\200\042\000\020STUN test client\000\044\000\004\156\000\001\377'
    printf '\200\051\000\010\223\057\371\261\121\046\073\066\000\006\000\011evtj:h6vY   '
    printf '\000\010\000\024\232\352\247\014\277\330\313\126\170\036\362\265\262\323\362\111'
    printf '\301\265\161\242\200\050\000\004\345\172\073\317'
} >"$scratch/sample"
expect 0 'valid MESSAGE-INTEGRITY' ../examples/c/out/verify "$password" <"$scratch/sample"
expect 1 'invalid' ../examples/c/out/verify 'another password' <"$scratch/sample"
expect 1 'not a message' ../examples/c/out/verify "$password" </dev/null

../examples/c/out/build 1 evtj:h6vY "$password" >"$scratch/sha1"
expect 0 'valid MESSAGE-INTEGRITY' ../examples/c/out/verify "$password" <"$scratch/sha1"
../examples/c/out/build 2 evtj:h6vY "$password" >"$scratch/sha256"
expect 0 'valid MESSAGE-INTEGRITY-SHA256' ../examples/c/out/verify "$password" <"$scratch/sha256"
checked='C'

# The header for C++17, under sanitizers where the compiler has them.
if there "${CXX-}" c++; then
    sanitized='-fsanitize=address,undefined -fno-sanitize-recover=all'
    { echo 'int main() {}' | ${CXX:-c++} $sanitized -x c++ - -o "$scratch/empty" &&
        "$scratch/empty"; } 2>/dev/null || sanitized=''
    ${CC:-cc} -O1 -I../include -c ../examples/c/heap.c -o "$scratch/heap.o"
    ${CXX:-c++} -std=c++17 -Wall -Wextra -Wpedantic -Werror $sanitized -I../include \
        $(inlined "$STUN_C") \
        cpp/check.cpp "$scratch/heap.o" "$STUN_ENDPOINT" "$STUN_C" $LIBRARIES -o "$scratch/wrapped"
    "$scratch/wrapped" >"$scratch/said"
    cmp "$scratch/said" cpp/check.txt
    checked='C, C++'
fi

# The example for Rust is of edition 2024.
if echo 'fn main() {}' |
    rustc --edition 2024 --emit metadata -o "$scratch/probe" - >/dev/null 2>&1; then
    mkdir "$scratch/libraries"
    cp "$STUN_C" "$scratch/libraries/libstun_c.a"
    rustc --edition 2024 -O ../examples/rust/main.rs -L "$scratch/libraries" -o "$scratch/main"
    expect 0 '1
2' "$scratch/main"
    checked="$checked, Rust"
fi

if ! ./install.sh >"$scratch/install" 2>&1; then
    cat "$scratch/install" >&2
    exit 1
fi
checked="$checked; $(tail -n 1 "$scratch/install")"

# The programs on UDP sockets against each other, and those of the exported crate where `make rust`
# built them, where a datagram can be sent.
loopback='import socket
s = socket.socket(socket.AF_INET, socket.SOCK_DGRAM)
s.bind(("127.0.0.1", 0))
s.settimeout(5)
s.sendto(b"x", s.getsockname()); s.recv(1)'
if python3 -c "$loopback" >/dev/null 2>&1; then
    set --
    for one in server client; do
        built="../target/export/target/debug/examples/udp_$one"
        if [ -x "$built" ]; then set -- "$@" "--$one" "$built"; fi
    done
    # The client on tokio, over the exported crate and Debian's tokio.
    registry=/usr/share/cargo/registry
    tokio=''
    if [ ! -f ../target/export/Cargo.toml ] || ! ls -d $registry/tokio-1.* >/dev/null 2>&1; then
        checked="$checked; tokio: left out: no exported crate or no librust-tokio-dev"
    else
        (cd ../examples/rust/tokio_client && CARGO_TARGET_DIR=../../../target/tokio cargo \
            --config 'source.crates-io.replace-with="debian"' \
            --config "source.debian.directory=\"$registry\"" build --quiet --offline)
        tokio=../target/tokio/debug/tokio_client
        checked="$checked; tokio"
    fi
    # Once more where a case failed: a machine that is very busy may hold a datagram for longer than
    # a case waits.
    udp() { python3 udp/check.py "$@" ${tokio:+--tokio "$tokio"} >"$scratch/udp" 2>&1; }
    if ! udp "$@" && ! { cat "$scratch/udp" >&2 && udp "$@"; }; then
        cat "$scratch/udp" >&2
        exit 1
    fi
    checked="$checked; $(tail -n 1 "$scratch/udp")"
    # Three servers behind one address, and a server with several networks, where network namespaces
    # can be made; reloads, and newcomers beside silent connections; once more for the same reason.
    once() { python3 "$@" >"$scratch/twice" 2>&1; }
    twice() {
        once "$@" || { cat "$scratch/twice" >&2 && once "$@"; } ||
            { cat "$scratch/twice" >&2 && exit 1; }
    }
    twice udp/shards.py
    checked="$checked; $(tail -n 1 "$scratch/twice")"
    twice udp/reloads.py "$@"
    checked="$checked; $(tail -n 1 "$scratch/twice")"
    twice udp/lossy.py "$@"
    checked="$checked; $(tail -n 1 "$scratch/twice")"
    twice udp/service.py "$@"
    checked="$checked; $(tail -n 1 "$scratch/twice")"
    twice udp/newcomers.py "$@"
    checked="$checked; $(tail -n 1 "$scratch/twice")"
    twice udp/ways.py "$@"
    checked="$checked; $(tail -n 1 "$scratch/twice")"
    twice udp/nat.py
    checked="$checked; $(tail -n 1 "$scratch/twice")"
    # ICE between two of the programs, and with libnice and aioice, TURN with coturn and pion where
    # they are installed.
    set --
    built="../target/export/target/debug/examples/turn_client"
    if [ -x "$built" ]; then set -- --turn-client "$built"; fi
    twice udp/ice_turn.py "$@"
    checked="$checked; $(tail -n 1 "$scratch/twice")"
fi
echo "examples: passed in $checked"
