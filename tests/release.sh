#!/bin/sh
# Tries a release on clean roots, by released.sh: it is unpacked, installed into a prefix and taken
# away, and programs in C and Rust are built over the prefix, without network.
#
#     tests/release.sh RELEASE.tar.gz [ROOT ..]       both roots, unless ROOTS or these words tell
#
# bare     a folder with the tools of this machine, an empty environment and, where mounts can be
#          made, without a sight of this repository
# debian   a minimal Debian with a C compiler, make, CMake and pkg-config, made by debootstrap and
#          kept in ~/.cache/stunp-debian. It is left out where there is no debootstrap, root or
#          network. Cargo is that of this machine, where it is in a folder of its own.
#
# The last line of each root says what was tried.
set -eu
[ $# -ge 1 ] || { sed -n '2,/^set/s/^# \{0,1\}//p' "$0" >&2 && exit 1; }
release=$(realpath "$1")
shift
top=$(cd "$(dirname "$0")/.." && pwd)
scratch=$(mktemp -d)
trap 'rm -rf "$scratch"' EXIT
. "$top/tools/compiler.sh"
tools=/usr/bin:/bin
PATH=$PATH:/usr/sbin:/sbin
rust=$(rustc --print sysroot 2>/dev/null) || rust=''

# laid FOLDER RUST: what released.sh takes: the release, transcripts of the pages, crates for cargo
# where RUST is a folder.
laid() {
    mkdir -p "$1/home"
    cp "$release" "$1/release.tar.gz"
    cp "$top/tests/released.sh" "$top/tests/c/installed.c" "$top/tests/export/readme_main.rs" "$1"
    python3 "$top/tools/transcripts.py" --write "$1/pages"
    if [ -n "$2" ]; then
        (cd "$top/target/export" &&
         cargo vendor --quiet --offline --respect-source-config "$1/vendor" >/dev/null)
    fi
}

# empty PATH COMMAND..: with no more than this in its environment.
empty() {
    path=$1
    shift
    env -i PATH="$path" LC_ALL=C.UTF-8 "$@"
}

bare() {
    laid "$scratch/bare" "$rust"
    cd "$scratch/bare"
    set -- sh released.sh "$PWD/prefix"
    path=${rust:+$rust/bin:}$tools has=0
    (PATH=$path && there "${CC-}" cc && command -v make >/dev/null) || has=$?
    [ "$has" != 2 ] || exit 1
    if [ "$has" != 0 ]; then
        echo 'release: a bare folder: left out, no C compiler and make'
        return
    fi
    for private in 'unshare -m' 'unshare -rm' ''; do
        $private true 2>/dev/null || continue
        [ -z "$private" ] || $private mount -t tmpfs none "$top" 2>/dev/null || continue
        break
    done
    if [ -n "$private" ]; then
        echo 'release: a bare folder, the repository out of sight:'
        empty "$path" ${CC:+"CC=$CC"} HOME="$PWD/home" TOP="$top" $private sh -c \
            'mount -t tmpfs none "$TOP" && [ ! -e "$TOP/Makefile" ] && exec "$@"' - "$@"
    else
        echo 'release: a bare folder, the repository in sight (no mount can be made):'
        empty "$path" ${CC:+"CC=$CC"} HOME="$PWD/home" "$@"
    fi
    cd "$top"
}

# based: whether the minimal Debian is there; it is made where it can be.
based() {
    [ -e "$1/made" ] && return
    command -v debootstrap >/dev/null && [ "$(id -u)" = 0 ] || return
    rm -rf "$1"
    mkdir -p "$1"
    debootstrap --variant=minbase --include=gcc,libc6-dev,make,cmake,pkg-config,xxd bookworm \
        "$1" >"$scratch/made" 2>&1 || return
    touch "$1/made"
}

debian() {
    # Not in the repository: `rt ci` refuses one in which a link stands.
    root=${XDG_CACHE_HOME:-$HOME/.cache}/stunp-debian
    if ! based "$root"; then
        echo 'release: a minimal Debian: left out, no debootstrap, root or network'
        return
    fi
    own=$rust
    case $own in / | /usr | /usr/local) own='' ;; esac
    # Cargo and its linker ask /proc where they are.
    proc='unshare -m'
    if ! $proc mount -t proc proc "$root/proc" 2>/dev/null; then proc='' own=''; fi
    rm -rf "$root/work" "$root/opt/rust" "$root/usr/local"
    mkdir "$root/usr/local"
    laid "$root/work" "$own"
    if [ -n "$own" ]; then
        mkdir "$root/opt/rust"
        cp -al "$own/bin" "$own/lib" "$root/opt/rust" 2>/dev/null ||
            cp -a "$own/bin" "$own/lib" "$root/opt/rust"
    fi
    inside='exec chroot "$ROOT" sh -c "cd /work && exec sh released.sh /usr/local"'
    [ -z "$proc" ] || inside="mount -t proc proc \"\$ROOT/proc\" && $inside"
    echo 'release: a minimal Debian:'
    empty "${own:+/opt/rust/bin:}/usr/local/bin:$tools:/usr/sbin" HOME=/work/home ROOT="$root" \
        $proc sh -c "$inside"
    rm -rf "$root/work" "$root/opt/rust"
}

for root in ${*:-${ROOTS:-bare debian}}; do
    case $root in
    bare | debian) $root ;;
    *) echo "release: no root $root" >&2 && exit 1 ;;
    esac
done
