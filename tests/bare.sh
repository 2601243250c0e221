#!/bin/sh
# Runs the commands of README.md that need no `rt` on a minimal Debian that has the packages which
# README.md names, and nothing else of this machine: `make export`, whose last three lines are the
# check of the sample request, its answer and a command to try next; the public address from a server
# beside it, the jobs in Rust as a program of another folder, both commands of stun_inspect, `make
# lib` and the program in C, and `make install`. With --test also `make test` and `make rust-c`.
# Others are left to other tests: `make dist` (tests/package.sh) and a release (tests/release.sh).
#
#     tests/bare.sh [--test] [--newest] [SUITE ..]
#
# SUITE is trixie, unless a word names another release of Debian. Each Debian is made by debootstrap
# and kept in ~/.cache/stunp-bare-SUITE. It is left out where there is no debootstrap, root or network
# to make it, and the status is 77 then. Rust is Debian's rustc, but in bookworm its rustc-web; with
# --newest it is rustc-web in each, which follows the newest Rust.
set -eu
top=$(cd "$(dirname "$0")/.." && pwd)
cache=${XDG_CACHE_HOME:-$HOME/.cache}
scratch=$(mktemp -d)
trap 'rm -rf "$scratch"' EXIT
PATH=$PATH:/usr/sbin:/sbin
tests='' newest=''
[ "${1-}" != --test ] || { tests=yes && shift; }
[ "${1-}" != --newest ] || { newest=-newest && shift; }

# packages SUITE: those that README.md names for this Debian.
packages() {
    case $1$newest in
    bookworm* | *-newest) echo make gcc python3 rustc-web cargo-web ;;
    *) echo make gcc python3 rustc cargo ;;
    esac
}

# based SUITE ROOT: whether the Debian is there; it is made where it can be.
based() {
    [ "$(cat "$2/made" 2>/dev/null)" != "$(packages "$1")" ] || return 0
    [ "$(id -u)" = 0 ] || return 1
    command -v debootstrap >/dev/null ||
        timeout 120 apt-get install -qq -y debootstrap >/dev/null 2>&1 || return 1
    rm -rf "$2"
    mkdir -p "$2"
    { timeout 1800 debootstrap --variant=minbase --include=ca-certificates "$1" "$2" &&
        echo "deb http://deb.debian.org/debian-security $1-security main" \
            >>"$2/etc/apt/sources.list" &&
        cp /etc/resolv.conf "$2/etc/resolv.conf" &&
        timeout 60 chroot "$2" apt-get update -qq &&
        timeout 1800 chroot "$2" apt-get install -qq -y --no-install-recommends $(packages "$1") &&
        packages "$1" >"$2/made"; } >"$2.log" 2>&1
}

# shown LINE: README.md has this line as a command.
shown() {
    grep -qF "    $1" "$top/README.md" || {
        echo "bare: README.md does not show '$1'" >&2
        exit 1
    }
}

# named WORDS: README.md has these words, on one line or two.
named() {
    tr '\n' ' ' <"$top/README.md" | grep -qF "$1" || {
        echo "bare: README.md does not name '$1'" >&2
        exit 1
    }
}

# What runs in the root, in the folder of the repository. `expect WANTED COMMAND..` compares.
inside() {
    cat <<'INSIDE'
set -eu
cd /stun_proto
expect() {
    wanted=$1
    shift
    printed=$("$@")
    [ "$printed" = "$wanted" ] || { echo "bare: $* printed '$printed', not '$wanted'" >&2; exit 1; }
}
begun=$(date +%s)
make export >/tmp/export 2>&1 || { cat /tmp/export >&2; exit 1; }
first="target/export/target/debug/stun_tool check 'VOkJxbRl1RmTxUk/WvJxBt' < examples/request.hex"
expect "$first
valid MESSAGE-INTEGRITY
next: target/export/target/debug/examples/udp_client HOST 3478" tail -n 3 /tmp/export
expect 'valid MESSAGE-INTEGRITY' sh -c "$first"
echo "bare: make export and the sample request: $(($(date +%s) - begun)) s"
if [ "$TESTS" ]; then
    begun=$(date +%s)
    make test >/tmp/test 2>&1 || { cat /tmp/test >&2; exit 1; }
    tail -n 1 /tmp/test | grep '^passed: '
    echo "bare: make test: $(($(date +%s) - begun)) s, $(du -sh target | cut -f 1)"
fi
target/export/target/debug/examples/udp_server 34780 >/dev/null 2>&1 &
server=$!
trap 'kill $server' EXIT
sleep 1
address=$(target/export/target/debug/examples/udp_client 127.0.0.1 34780)
echo "$address" | grep -qE '^127\.0\.0\.1:[0-9]+$' || { echo "bare: my address: $address" >&2; exit 1; }
mkdir -p /tmp/mine/src
cp -r target/export/.cargo /tmp/mine
python3 tools/transcripts.py --jobs /tmp/mine/src/main.rs
printf '%s\n' '[package]' 'name = "mine"' 'version = "0.1.0"' 'edition = "2021"' '[dependencies]' \
    'seatcrane-stun = { path = "/stun_proto/target/export" }' >/tmp/mine/Cargo.toml
expect 401 sh -c 'cd /tmp/mine && RUSTFLAGS="-A dead_code" cargo run --quiet'
inspect=target/export/target/debug/stun_inspect
sed -n '/^sample = bytes /{s/.*bytes //p;q}' tests/transcripts/message.rfc8489-b1.txt >/tmp/sample
expect 'class                        request' sh -c "$inspect decode /tmp/sample | head -n 1"
expect 'valid MESSAGE-INTEGRITY-SHA256' \
    sh -c "$inspect verify マトリックス example.org TheMatrIX /tmp/sample | head -n 1"
make lib >/tmp/lib 2>&1 || { cat /tmp/lib >&2; exit 1; }
sed -n '/^    #include <stdio.h>/,/^    }/s/^    //p' README.md >/tmp/check.c
cc -Iinclude /tmp/check.c target/c/libstunp.a -Wl,--gc-sections -o /tmp/check
expect 'valid' /tmp/check <examples/request.hex
make install DESTDIR=/tmp/root >/tmp/install 2>&1 || { cat /tmp/install >&2; exit 1; }
expect 'installed: the exported libraries: tested, not proved' tail -n 1 /tmp/install
cc -I/tmp/root/usr/local/include /tmp/check.c -L/tmp/root/usr/local/lib -lstunp -o /tmp/check
LD_LIBRARY_PATH=/tmp/root/usr/local/lib expect 'valid' /tmp/check <examples/request.hex
[ -s /tmp/root/usr/local/share/man/man3/stunp_verify.3 ] || { echo 'bare: no manual' >&2; exit 1; }
if [ "$TESTS" ]; then
    begun=$(date +%s)
    make rust-c >/tmp/rust-c 2>&1 || { cat /tmp/rust-c >&2; exit 1; }
    echo "bare: make rust-c: $(($(date +%s) - begun)) s, $(rustc --version), $(gcc --version | head -n 1)"
fi
INSIDE
}

shown 'make export'
shown "target/export/target/debug/stun_tool check 'VOkJxbRl1RmTxUk/WvJxBt'"
shown 'target/export/target/debug/examples/udp_client HOST 3478'
shown 'make test'
named '`make gcc python3 rustc cargo`'
named '`make gcc python3 rustc-web cargo-web`'
shown 'stun_inspect decode FILE'
shown 'stun_inspect verify NAME REALM PASSWORD FILE'
named '`cc -Iinclude check.c target/c/libstunp.a -Wl,--gc-sections`'
named '`./a.out < examples/request.hex` prints `valid`'
ended=0
for suite in "${@:-trixie}"; do
    root=$cache/stunp-bare-$suite$newest
    if ! based "$suite" "$root"; then
        echo "bare: a minimal Debian ($suite): left out, no debootstrap, root or network"
        ended=77
        continue
    fi
    cp /etc/resolv.conf "$root/etc/resolv.conf"
    if ! timeout 60 chroot "$root" apt-get update -qq >/dev/null 2>&1; then
        echo "bare: a minimal Debian ($suite): left out, no network for the crates of Debian"
        ended=77
        continue
    fi
    rm -rf "$root/stun_proto"
    mkdir "$root/stun_proto"
    git -C "$top" archive HEAD | tar -x -C "$root/stun_proto"
    inside >"$root/stun_proto.sh"
    # Cargo and its linker ask /proc where they are. `make export` installs crates of Debian.
    env -i PATH=/usr/local/bin:/usr/bin:/bin:/usr/sbin:/sbin HOME=/root LC_ALL=C.UTF-8 ROOT="$root" \
        TESTS="$tests" unshare -m sh -c \
            'mount -t proc proc "$ROOT/proc" && exec chroot "$ROOT" sh /stun_proto.sh' || exit 1
    rm -rf "$root/stun_proto" "$root/stun_proto.sh"
    echo "bare: a minimal Debian ($suite): the commands of README.md do what it says"
done
exit $ended
