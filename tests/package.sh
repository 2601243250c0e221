#!/bin/sh
# Builds the package of debian/ from the sources of a release, as a distribution would: in a bare
# Debian without network, with nothing but what the package says that it needs to be built. The
# third-party crates are Debian's, and the sources have no vendor/. The build runs the tests in C
# and the transcripts. Then lintian looks at the packages, apt installs them, autopkgtest runs the
# test of what is installed, and a program that was built against the library runs with a later one.
#
#     tests/package.sh [STUNP-VERSION-source.tar.gz] [SUITE ..]    bookworm and trixie
#
# Without an archive, that of `make dist` is made. Each Debian is made by debootstrap and kept in
# ~/.cache/stunp-package-SUITE. It is left out where there is no debootstrap, root or network to make
# it. Rust is the newest of that Debian (rustc-web, cargo-web).
set -eu
release=''
case ${1-} in *.tar.gz) release=$(realpath "$1") && shift ;; esac
cd "$(dirname "$0")/.."
PATH=$PATH:/usr/sbin:/sbin
version=$(cat VERSION)
# The name for the loader ends with as much of the version as releases that go together share.
soname=$(echo "$version" | sed 's/^\(0\.[0-9]*\)\..*/\1/; s/^\([1-9][0-9]*\)\..*/\1/')
grep -qx "Package: libstunp$soname" debian/control && [ -e "debian/libstunp$soname.install" ] ||
    { echo "package: debian/ is not of libstunp$soname: rename its files and the package" && exit 1; }
# It has links, so it is not in the repository: `rt ci` refuses one with a link.
cache=${XDG_CACHE_HOME:-$HOME/.cache}
# What the package says that it needs, each without its version and its alternatives.
needed=$(sed -n '/^Build-Depends:/,/^[^ B]/{/^Standards/d; s/^Build-Depends://
    s/[:|(<,].*//; s/ //g; p}' debian/control | sed 's/^debhelper-compat$/debhelper/')
needed="build-essential lintian autopkgtest $(echo $needed)"

# based SUITE: whether the Debian is there; it is made where it can be.
based() {
    root=$cache/stunp-package-$1
    [ "$(cat "$root/made" 2>/dev/null)" != "$needed" ] || return 0
    command -v debootstrap >/dev/null && [ "$(id -u)" = 0 ] || return 1
    rm -rf "$root"
    mkdir -p "$root"
    { debootstrap --variant=minbase "$1" "$root" &&
        echo "deb http://deb.debian.org/debian-security $1-security main" \
            >>"$root/etc/apt/sources.list" &&
        cp /etc/resolv.conf "$root/etc/resolv.conf" &&
        chroot "$root" apt-get update -qq &&
        chroot "$root" apt-get install -qq -y --no-install-recommends $needed &&
        echo "$needed" >"$root/made"; } >"$root.log" 2>&1
}

# What runs in the root, in which /work has the sources and the folder debian.
inside() {
    cat <<'INSIDE'
set -eu
cd /work
mv debian stunp
(cd stunp && debian/generate.sh --check)
library=$(sed -n 's/^Package: \(libstunp[0-9].*\)/\1/p' stunp/debian/control)
(cd stunp && DPKG_GENSYMBOLS_CHECK_LEVEL=4 dpkg-buildpackage -us -uc) >built 2>&1 ||
    { tail -n 60 built && exit 1; }
grep -q '^rust_c: passed' built || { echo 'the build ran no tests' && exit 1; }
grep -q /usr/share/cargo/registry stunp/target/export/.cargo/config.toml ||
    { echo 'the crates are not those of Debian' && exit 1; }
lintian --allow-root --tag-display-limit 0 --display-info --fail-on none stunp_*.changes \
    >found 2>&1
! grep '^[EW]: ' found || exit 1
# What is there already is enough, so apt needs no network.
apt-get install -qq -y --no-install-recommends ./libstunp*_*.deb >installed 2>&1 ||
    { cat installed && exit 1; }
# The symbols are those of the sources in Rust.
dpkg-deb -x "$library"-dbgsym_*.deb symbols
find symbols -name '*.debug' -exec readelf --debug-dump=info {} + 2>/dev/null |
    grep -q 'stun_endpoint' || { echo 'the package with symbols has none of Rust' && exit 1; }
copyright=/usr/share/doc/$library/copyright
grep -q '^License: Apache-2.0' $copyright && grep -q '^License: Expat' $copyright ||
    { echo "$copyright has no license" && exit 1; }
[ "$(stat -L -c %a /usr/lib/*/libstunp.so."${library#libstunp}")" = 644 ] ||
    { echo 'dh_fixperms left another mode' && exit 1; }
! pkg-config --static --libs stunp 2>/dev/null | grep -q gc-sections ||
    { echo "stunp.pc has flags of the program's link" && exit 1; }
(cd stunp && autopkgtest -B . -- null) >tested 2>&1 || autopkg=$?
if ! grep -q '^three-calls *PASS' tested; then
    # (autopkgtest has apt look for what the test depends on, which may need a network)
    mkdir -p scratch && (cd stunp && AUTOPKGTEST_TMP=/work/scratch debian/tests/three-calls) ||
        { tail -n 20 tested && exit 1; }
    echo "autopkgtest does not run here (${autopkg-}), so its test ran without it"
fi
printf '#include <stunp.h>\nint main(void) { return stunp_is_proved(); }\n' >is.c
cc is.c -lstunp -o is && ./is
man -w 3 stunp_parse >/dev/null
# A later library of the release line, in which a call that is done in C says something else, serves
# the program that was built before.
printf '#include <stdio.h>\n#include <stunp.h>\n%s\n' \
    'int main(void) { return puts(stunp_strerror(-1)) < 0; }' >says.c
cc says.c -lstunp -o says
[ "$(./says)" = 'bytes are missing at the end' ] || { echo "a program says $(./says)" && exit 1; }
sed -i 's/bytes are missing at the end/bytes are lacking at the end/' stunp/include/stunp*_inline.h \
    stunp/include/stunp_inline.h
(cd stunp && tools/rust_c.sh --build) >later 2>&1 || { cat later && exit 1; }
[ "$(LD_LIBRARY_PATH=stunp/target/c ./says)" = 'bytes are lacking at the end' ] ||
    { echo 'a later library does not correct a program' && exit 1; }
ls -1 ./*.deb
grep '^I: ' found | sed 's/^I: [^ ]* //; s/ .*//' | sort | uniq -c
INSIDE
}

private=''
if unshare -mn true 2>/dev/null; then private='unshare -mn'; fi
[ -n "$private" ] || { echo 'package: left out, the network cannot be taken away'; exit 0; }
for suite in ${*:-bookworm trixie}; do
    if ! based "$suite"; then
        echo "package: $suite: left out, no debootstrap, root or network"
        continue
    fi
    if [ -z "$release" ]; then
        python3 tools/release.py --source target
        release=$PWD/target/stunp-$version-source.tar.gz
    fi
    begun=$(date +%s)
    rm -rf "$root/work"
    mkdir "$root/work"
    # A distribution has the crates, so the sources go without them, which the version says.
    tar xzf "$release" -C "$root/work"
    mv "$root/work/stunp-$version-source" "$root/work/stunp"
    rm -rf "$root/work/stunp/vendor"
    mv "$root/work/stunp/debian" "$root/work/debian"
    tar czf "$root/work/stunp_$version+ds.orig.tar.gz" -C "$root/work" stunp
    inside >"$root/work/build.sh"
    env -i PATH=/usr/sbin:/usr/bin:/sbin:/bin LC_ALL=C.UTF-8 HOME=/root ROOT="$root" $private sh -c '
        mount -t proc proc "$ROOT/proc" && exec chroot "$ROOT" sh /work/build.sh'
    echo "package: stunp $version is built and tested on $suite without network ($(
        chroot "$root" rustc --version | cut -d' ' -f1,2), $(($(date +%s) - begun)) s, $(
        du -sm "$root/work" | cut -f1) MB), and lintian finds no error or warning"
done
