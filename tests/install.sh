#!/bin/sh
# Installs archives into a scratch folder, builds programs over it, by pkg-config and by CMake if
# they are installed, and uninstalls all of it. STUN_C and STUN_ENDPOINT name the archives by
# absolute paths; without them they are those of `rt lib`. If STUN_ENDPOINT is the exported archive,
# the shared library beside it is installed too. If an archive is missing, make says what to run, and nothing is proved. Without a C
# compiler and make nothing is tested. The last line says what was tested.
set -eu
cd "$(dirname "$0")"
cc=${CC:-cc}
. ../tools/compiler.sh
if ! there "${CC-}" cc || ! command -v make >/dev/null; then
    echo 'install: no C compiler and make'
    exit 0
fi
scratch=$(mktemp -d)
trap 'rm -rf "$scratch"' EXIT
STUN_ENDPOINT=${STUN_ENDPOINT:-../crates/stun_c_endpoint/out/libstun_c_endpoint.a}
STUN_C=${STUN_C:-../crates/stun_c/out/libstun_c.a}
kind=proved
if ${NM:-nm} "$STUN_ENDPOINT" 2>/dev/null | grep -q ' T stunp_is_proved$'; then
    kind=exported
fi
machine=$($cc -print-multiarch 2>/dev/null) || machine=''
libdir=/usr/lib${machine:+/$machine}
root=$scratch/root lib=$scratch/root$libdir
unset MAKEFLAGS MAKELEVEL

fail() {
    echo "install: $*" >&2
    exit 1
}

# quiet COMMAND..: its output is told only where it fails.
quiet() { "$@" >"$scratch/output" 2>&1 || { cat "$scratch/output" >&2 && exit 1; }; }

# refuses FOLDER WORD..: make fails there with one line that names `rt lib`, and starts no rt.
mkdir "$scratch/bin"
printf '#!/bin/sh\necho "$@" >>%s/started\n' "$scratch" >"$scratch/bin/rt"
chmod +x "$scratch/bin/rt"
refuses() {
    ! PATH="$scratch/bin:$PATH" make -s -C "$@" >"$scratch/told" 2>&1 || fail "make -C $* passed"
    grep -q 'is missing: .*`rt lib`' "$scratch/told" && [ "$(wc -l <"$scratch/told")" = 1 ] ||
        fail "make -C $* told $(cat "$scratch/told")"
    [ ! -e "$scratch/started" ] || fail "make -C $* started rt"
}
absent=$scratch/absent.a
refuses ../include install KIND=proved DESTDIR="$root" MESSAGES="$absent" \
    ENDPOINT="$STUN_ENDPOINT" OUT="$scratch"
refuses ../include install DESTDIR="$root" MESSAGES="$STUN_C" ENDPOINT="$absent" OUT="$scratch"
refuses ../include install DESTDIR="$root" MESSAGES="$absent" EXPORTED="$scratch" OUT="$scratch"
refuses ../examples/c OUT="$scratch/examples" LIBRARY="$absent" ENDPOINT="$STUN_ENDPOINT"
refuses ../examples/c udp OUT="$scratch/examples" LIBRARY="$STUN_C" ENDPOINT="$absent"

# One program is built, and one is not.
echo tool >"$scratch/bin/stun_tool"
chmod +x "$scratch/bin/stun_tool"
# in_root FOLDER WORD..
in_root() {
    make -s -C "$@" CC="$cc" DESTDIR="$root" PREFIX=/usr LIBDIR="$libdir" OUT="$scratch/heap" \
        MESSAGES="$STUN_C" ENDPOINT="$STUN_ENDPOINT" EXPORTED="$(dirname "$STUN_ENDPOINT")" \
        PROGRAMS="$scratch/bin/stun_tool $scratch/bin/stun_inspect"
}
if [ $kind = proved ]; then
    told=$(in_root .. install)
    wanted='the proved archives'
    cmp -s "$STUN_ENDPOINT" "$lib/libstunp_endpoint.a" || fail 'another archive'
else
    # Nobody is told that they are proved.
    ! in_root .. install KIND=proved >/dev/null 2>&1 || fail 'the exported archive counts as proved'
    rm -rf "$root"
    told=$(in_root .. install KIND=exported)
    wanted='the exported libraries: tested, not proved'
    cmp -s "$STUN_ENDPOINT" "$lib/libstunp.a" || fail 'another archive'
    loaded=$(objdump -p "$lib/libstunp.so" | sed -n 's/^ *SONAME *//p')
    [ "$(readlink "$lib/libstunp.so")" = "$loaded" ] && [ -f "$lib/$loaded" ] ||
        fail "no library of the name $loaded"
fi
[ "$told" = "left out: $scratch/bin/stun_inspect is not built
installed: $wanted" ] || fail "told $told"
# The proved archives need a heap. The exported library has malloc, and heap.c is there to bound it.
heap='' source="$root/usr/share/stunp/heap.c"
if [ $kind = exported ]; then
    heap="-DHEAP_SOURCE -I$root/usr/share/stunp $source"
    absent=$(find "$root" -name '*stunp_heap*')
    [ -z "$absent" ] || fail "installed $absent beside the exported library"
    [ -x "$lib/$loaded" ] || fail "$loaded has no mode that lets tools for packages see its symbols"
fi
for file in bin/stun_tool share/man/man1/stun_tool.1 share/man/man3/stunp_parse.3 \
    share/stunp/heap.c include/stunp.hpp; do
    [ -s "$root/usr/$file" ] || fail "no $file"
done
[ ! -e "$root/usr/share/man/man1/stun_inspect.1" ] || fail 'a page of a program that is left out'

# prints WANTED PROGRAM
prints() {
    printed=$(LD_LIBRARY_PATH=$lib "$2") || fail "$2 ended with $?"
    [ "$printed" = "$1" ] || fail "$2 printed '$printed', not '$1'"
}
version=$(sed -n 's/^Version: //p' "$lib/pkgconfig/stunp.pc")
checked='make'

# flags NAME..: for a compiler, of the files for pkg-config.
flags() {
    if command -v pkg-config >/dev/null; then
        PKG_CONFIG_PATH="$lib/pkgconfig" PKG_CONFIG_SYSROOT_DIR="$root" \
            PKG_CONFIG_ALLOW_SYSTEM_CFLAGS=1 PKG_CONFIG_ALLOW_SYSTEM_LIBS=1 \
            pkg-config --cflags --libs "$@"
    elif [ $kind = proved ]; then
        echo "-I$root/usr/include -L$lib -lstunp_endpoint -lstunp -lstunp_heap"
    else
        echo "-I$root/usr/include -L$lib -lstunp"
    fi
}
strict="-std=c99 -Wall -Wextra -Wpedantic ${WERROR--Werror}"
for memory in "$heap" -DOWN_MEMORY; do
    $cc $strict $memory c/installed.c $(flags stunp_endpoint) -o "$scratch/installed"
    prints "$version" "$scratch/installed"
done
# The first archive wants no memory.
$cc c/arguments.c $(flags stunp) -o "$scratch/arguments"
prints 'arguments: passed' "$scratch/arguments"
# What is installed says which it is.
printf '#include <stdio.h>\n#include <stunp.h>\n%s\n' \
    'int main(void) { puts(stunp_is_proved() ? "proved" : "exported"); return 0; }' >"$scratch/is.c"
$cc $strict "$scratch/is.c" $(flags stunp) -o "$scratch/is"
prints $kind "$scratch/is"
if command -v pkg-config >/dev/null; then checked="$checked, pkg-config"; fi
# The header for C++.
if there "${CXX-}" c++; then
    printf '#include <stunp.hpp>\nint main() { return stunp::userhash("name", "realm") ? 0 : 1; }\n' \
        >"$scratch/made.cpp"
    ${CXX:-c++} -std=c++17 -Wall -Wextra -Wpedantic ${WERROR--Werror} "$scratch/made.cpp" \
        $(flags stunp_endpoint) -o "$scratch/made"
    prints '' "$scratch/made"
    checked="$checked, C++"
fi
# The memory functions under other names, by the recipe of stunp_endpoint.h.
if command -v objcopy >/dev/null; then
    renamed='' archive=$lib/libstunp_endpoint.a
    [ $kind = proved ] || archive=$lib/libstunp.a
    for name in alloc realloc dealloc; do
        renamed="$renamed --redefine-sym rattle_$name=mine_$name"
        strict="$strict -Drattle_$name=mine_$name"
    done
    objcopy $renamed "$archive" "$scratch/renamed.a"
    $cc $strict -DOWN_MEMORY c/installed.c "$scratch/renamed.a" $(flags stunp) -o "$scratch/renamed"
    prints "$version" "$scratch/renamed"
    checked="$checked, renamed memory"
fi

if command -v cmake >/dev/null; then
    mkdir "$scratch/project"
    cat >"$scratch/project/CMakeLists.txt" <<'PROJECT'
cmake_minimum_required(VERSION 3.13)
project(installed C)
find_package(stunp 99 QUIET)
if(stunp_FOUND)
    message(FATAL_ERROR "version 99 is found")
endif()
find_package(stunp ${RELEASE} REQUIRED)
if(TARGET stunp::stunp_heap)
    add_executable(installed ${SOURCE})
    target_link_libraries(installed stunp::stunp_endpoint stunp::stunp_heap)
else()
    add_executable(installed ${SOURCE} ${HEAP})
    target_compile_definitions(installed PRIVATE HEAP_SOURCE)
    get_filename_component(folder ${HEAP} DIRECTORY)
    target_include_directories(installed PRIVATE ${folder})
    target_link_libraries(installed stunp::stunp_endpoint)
endif()
add_executable(alone ${SOURCE})
target_compile_definitions(alone PRIVATE OWN_MEMORY)
if(TARGET stunp::stunp_static)
    target_link_libraries(alone stunp::stunp_static)
else()
    target_link_libraries(alone stunp::stunp_endpoint)
endif()
PROJECT
    quiet env CC="$cc" cmake -S "$scratch/project" -B "$scratch/built" \
        -DCMAKE_PREFIX_PATH="$root/usr" -DRELEASE="$version" -DSOURCE="$PWD/c/installed.c" -DHEAP="$source"
    quiet cmake --build "$scratch/built"
    prints "$version" "$scratch/built/installed"
    prints "$version" "$scratch/built/alone"
    checked="$checked, CMake"
fi

in_root ../include uninstall
left=$(find "$root" ! -type d)
[ -z "$left" ] || fail "left $left"
left=$(find "$root" -name '*stun*')
[ -z "$left" ] || fail "left $left"
in_root ../include uninstall
echo "install: passed with the $kind libraries, $checked"
