# The least Rust that rust/Cargo.toml promises, as Debian has it (rustc-web of Debian 12, rustc of
# Debian 13): fetched and unpacked in a cache, and not installed. For least.sh and foreign.sh, which
# source this at the top of the repository.

least=$(sed -n 's/^rust-version = "\(.*\)"/\1/p' rust/Cargo.toml)
# It has links, so it is not in the repository: `rt ci` refuses one with a link.
cache=${XDG_CACHE_HOME:-$HOME/.cache}
at=$cache/stunp-rust-$least

# version PACKAGE LISTS: the version of this package that is of the least Rust, by these lists.
version() { apt-cache $2 madison "$1" | sed -n "s/^[^|]*| *\($least\.[^ ]*\) .*/\1/p" | head -n 1; }

# find_rust: in `web` what the names of the packages end with, and in `found` their version.
find_rust() {
    web=-web && found=$(version rustc-web '')
    [ -n "$found" ] || { web='' && found=$(version rustc ''); }
}

# fetched: whether the compiler is there, or could be fetched.
fetched() {
    [ ! -e "$at/web" ] || return 0
    command -v apt-get >/dev/null && command -v dpkg-deb >/dev/null || return 1
    find_rust
    if [ -z "$found" ] && [ "$(id -u)" = 0 ]; then
        timeout 120 apt-get update -qq >/dev/null 2>&1 || true
        find_rust
    fi
    [ -n "$found" ] || return 1
    rm -rf "$at"
    mkdir -p "$at"
    (cd "$at"
     llvm=$(apt-cache show "libstd-rust$web-$least=$found" | grep -o 'libllvm[0-9]*' | head -n 1)
     timeout 300 apt-get download -qq "rustc$web=$found" "libstd-rust$web-dev=$found" \
        "libstd-rust$web-$least=$found" "$llvm"
     for package in *.deb; do dpkg-deb -x "$package" . || exit 1; done
     rm -- *.deb) >/dev/null 2>&1 || return 1
    echo "$web" >"$at/web"
}

# library ARCHITECTURE: the folder with the standard library for another architecture of Debian, which
# is fetched where it is not there. The lists of packages of that architecture lie in the cache too.
library() {
    there=$cache/stunp-rust-$least-$1
    if [ ! -e "$there/whole" ]; then
        rm -rf "$there"
        mkdir -p "$there/lists/partial"
        (cd "$there"
         lists="-o APT::Architectures::=$1 -o APT::Architectures::=amd64 -o Dir::State::lists=$there/lists"
         timeout 300 apt-get -qq $lists update || true
         package=libstd-rust$(cat "$at/web")-dev:$1
         timeout 300 apt-get -qq $lists download "$package=$(version "$package" "$lists")"
         dpkg-deb -x libstd-rust*-dev_*.deb .
         rm -r -- *.deb lists) >/dev/null 2>&1 || return 1
        touch "$there/whole"
    fi
    echo "$there/usr"
}
