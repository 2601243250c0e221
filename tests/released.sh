#!/bin/sh
# Tries the release of the current folder, installed into PREFIX. release.sh lays the folder out and
# starts this on a clean root: `released.sh PREFIX`. Beside release.tar.gz there are installed.c,
# readme_main.rs, pages/ (commands of the pages with what they print) and vendor/ (crates for cargo).
set -eu
prefix=$1
here=$PWD
cc=${CC:-cc}
strict='-std=c99 -Wall -Wextra -Wpedantic -Werror'

fail() {
    echo "release: $*" >&2
    exit 1
}

# quiet COMMAND..: prints the output of the command only if it fails.
quiet() { "$@" >"$here/output" 2>&1 || { cat "$here/output" >&2 && fail "$* failed"; }; }

# prints WANTED COMMAND..
prints() {
    wanted=$1
    shift
    printed=$("$@") || fail "$* ended with $?"
    [ "$printed" = "$wanted" ] || fail "$* printed '$printed', not '$wanted'"
}

tar xzf release.tar.gz
folder=$(echo stunp-*)
version=$(cat "$folder/VERSION")
[ "$folder" = "stunp-$version" ] || fail "$folder has version $version"
(cd "$folder" && quiet sha256sum -c SHA256SUMS)
[ "$(cd "$folder" && find . -type f ! -name SHA256SUMS | wc -l)" = \
    "$(wc -l <"$folder/SHA256SUMS")" ] || fail 'SHA256SUMS does not name each file'
for file in README.md SECURITY.md CHANGELOG.md CONTENTS.md LICENSE-APACHE LICENSE-MIT \
    docs/README.md docs/pictures/sansio.svg transcripts/README.md \
    transcripts/server.refusals.txt transcripts/endpoints/client.requests.txt \
    crate/seatcrane-stun/src/lib.rs; do
    [ -s "$folder/$file" ] || fail "no $file"
done
for word in commit: toolchain: 'the gate: ' 'rt: ok; ' 'libstun_c.a: logic=proved' \
    'libstun_c_endpoint.a: logic=proved'; do
    grep -q "^$word" "$folder/PROOF" || fail "PROOF has no line $word"
done

# in_c SAYS: the program of README.md and one that uses all archives, where pkg-config finds them.
in_c() {
    sed -n '/^    #include <stdio.h>/,/^    }$/s/^    //p' "$folder/README.md" >check.c
    $cc $strict check.c $(pkg-config --cflags --libs stunp) -o check
    prints valid ./check <pages/request.hex
    for memory in LIBRARYS_MEMORY OWN_MEMORY; do
        $cc $strict -D$memory installed.c $(pkg-config --cflags --libs stunp_endpoint) -o installed
        prints "$version" ./installed
    done
    prints "$version" pkg-config --modversion stunp_heap
}
checked='make'
if command -v pkg-config >/dev/null; then
    checked="$checked, pkg-config"
    # Where the folder lies, then installed.
    (export PKG_CONFIG_PATH="$PWD/$folder/lib/pkgconfig" && in_c)
fi
before=$(find "$prefix" ! -type d 2>/dev/null | sort || true)
quiet make -C "$folder" install PREFIX="$prefix"
mv "$folder" taken
for file in share/man/man1/stun_tool.1 share/man/man1/stun_inspect.1 share/stunp/heap.c; do
    [ -s "$prefix/$file" ] || fail "no $file is installed"
done
if command -v man >/dev/null; then
    quiet man -M "$prefix/share/man" -w stun_tool stun_inspect
fi
# Nothing that is installed names the folder that it came from. (No archive: it may tell sources.)
! grep -rl "$PWD/$folder" "$prefix/lib/pkgconfig" "$prefix/lib/cmake" "$prefix/include" >&2 ||
    fail 'what is installed names the folder'
folder=taken
if command -v pkg-config >/dev/null; then
    (export PKG_CONFIG_PATH="$prefix/lib/pkgconfig" && in_c)
fi

if command -v cmake >/dev/null; then
    mkdir project
    cat >project/CMakeLists.txt <<'PROJECT'
cmake_minimum_required(VERSION 3.13)
project(users C)
find_package(stunp ${RELEASE} EXACT REQUIRED)
add_executable(check ${PLACE}/check.c)
target_link_libraries(check stunp::stunp)
add_executable(installed ${PLACE}/installed.c)
target_link_libraries(installed stunp::stunp_endpoint)
PROJECT
    sed -n '/^    #include <stdio.h>/,/^    }$/s/^    //p' "$folder/README.md" >check.c
    quiet cmake -S project -B built -DCMAKE_PREFIX_PATH="$prefix" -DRELEASE="$version" \
        -DPLACE="$PWD"
    quiet cmake --build built
    prints valid built/check <pages/request.hex
    prints "$version" built/installed
    checked="$checked, CMake"
fi

# The programs, by the transcripts of the pages. One that uses a tool which is not here is left out.
export PATH="$prefix/bin:$PATH"
tried=0
for command in pages/*.command; do
    if grep -q '\<xxd\>' "$command" && ! command -v xxd >/dev/null; then continue; fi
    (cd pages && sh "$(basename "$command")") >printed 2>&1 || true
    cmp -s printed "${command%.command}.wanted" ||
        { cat printed >&2 && fail "another output of: $(head -n 1 "$command")"; }
    tried=$((tried + 1))
done
[ "$tried" -gt 0 ] || fail 'no transcript of the pages'
checked="$checked, both programs as $tried places of the pages show"

if command -v cargo >/dev/null && [ -d vendor ]; then
    # The packed crate as one of a registry, beside those that it needs.
    crate=$folder/crate/seatcrane-stun-$version.crate
    tar xzf "$crate" -C vendor
    printf '{"files":{},"package":"%s"}' "$(sha256sum "$crate" | cut -d' ' -f1)" \
        >"vendor/seatcrane-stun-$version/.cargo-checksum.json"
    mkdir .cargo
    printf '%s\n' '[source.crates-io]' 'replace-with = "here"' '[source.here]' \
        "directory = \"$PWD/vendor\"" '[net]' 'offline = true' >.cargo/config.toml
    # A program with the jobs of README.md, each in a module of its own.
    mkdir -p user/src
    printf '%s\n' '[package]' 'name = "user"' 'version = "0.0.0"' 'edition = "2024"' \
        '[dependencies]' "seatcrane-stun = \"=$version\"" >user/Cargo.toml
    awk 'BEGIN { n = 0 }
        /^    use seatcrane_stun::/ && !inside { print "mod job" n++ " {"; inside = 1 }
        inside { sub(/^    /, ""); print }
        inside && /^}$/ { print "}"; inside = 0 }' "$folder/README.md" >user/src/main.rs
    cat readme_main.rs >>user/src/main.rs
    prints 401 cargo run --quiet --manifest-path user/Cargo.toml
    # All transcripts, by the source.
    quiet cargo run --quiet --manifest-path "$folder/crate/seatcrane-stun/Cargo.toml" \
        --package seatcrane-checks --bin transcripts "$folder"/transcripts/*.txt
    played=$(grep -c ': right, ' output)
    [ "$played" = "$(ls "$folder"/transcripts/*.txt | wc -l)" ] || fail 'not each file is right'
    checked="$checked, cargo over the packed crate, $played files of transcripts over its source"
fi

for tool in pkg-config cmake cargo; do
    command -v $tool >/dev/null || checked="$checked; no $tool is here"
done
quiet make -C "$folder" uninstall PREFIX="$prefix"
[ "$(find "$prefix" ! -type d | sort)" = "$before" ] || fail 'uninstall leaves files'
[ -z "$(find "$prefix" -name '*stun*')" ] || fail 'uninstall leaves folders'
echo "release: $version passed with $checked"
