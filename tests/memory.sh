#!/bin/sh
# Tests which memory the exported library uses, for each way in which a program may be linked: the
# functions that are passed (stunp_set_memory), the program's three functions, wherever they are,
# malloc if the program has none of these, and nothing if it has only some.
#
#     tests/memory.sh FOLDER      with libstunp.a and libstunp.so of tools/rust_c.sh
#
# LIBRARIES has what the archive needs in addition. The last line says what was tested.
set -eu
folder=$(cd "$1" && pwd)
cd "$(dirname "$0")"
cc=${CC:-cc}
: "${LIBRARIES=-lpthread -ldl -lm}"
scratch=$(mktemp -d)
trap 'rm -rf "$scratch"' EXIT
strict="-std=c99 -O1 -Wall -Wextra -Wpedantic ${WERROR--Werror} -fPIC -I../include"
archive=$folder/libstunp.a
main=$scratch/main.o three=$scratch/three.o two=$scratch/two.o passed=$scratch/passed.o
$cc $strict -c c/memory.c -o "$main"
$cc $strict -DFUNCTIONS -c c/memory.c -o "$three"
$cc $strict -DFUNCTIONS -DPART -c c/memory.c -o "$two"
$cc $strict -DPASSED -c c/memory.c -o "$passed"
ar rcs "$scratch/libthree.a" "$three"
$cc -shared "$three" -o "$scratch/libthree.so"

whole='of the program
all given back
done'
count=0

# prints WANTED OPTION..: a program that is linked so prints this.
prints() {
    wanted=$1
    shift
    $cc "$@" -o "$scratch/linked" || { echo "memory: $*: is not linked" >&2; exit 1; }
    printed=$("$scratch/linked") || { echo "memory: $*: ended with $?" >&2; exit 1; }
    # A program that is freed in steps gives back more than once.
    printed=$(printf '%s\n' "$printed" | uniq)
    [ "$printed" = "$wanted" ] ||
        { echo "memory: $*: printed '$printed', not '$wanted'" >&2; exit 1; }
    count=$((count + 1))
}

# refuses OPTION..: a program that is linked so gets no memory.
refuses() {
    $cc "$@" -o "$scratch/linked" || { echo "memory: $*: is not linked" >&2; exit 1; }
    printed=$("$scratch/linked") || { echo "memory: $*: ended with $?" >&2; exit 1; }
    [ "$printed" = 'an allocation failed' ] ||
        { echo "memory: $*: printed '$printed'" >&2; exit 1; }
    count=$((count + 1))
}

# What is passed counts before all others.
through='passed
all given back
done'
prints "$through" "$passed" "$archive" $LIBRARIES
prints "$through" "$passed" "$three" "$archive" $LIBRARIES
prints "$through" "$passed" "$two" "$archive" $LIBRARIES
prints "$through" "$passed" "-L$folder" -l:libstunp.so "-Wl,-rpath,$folder"
# Objects of the program, in each order.
prints "$whole" "$main" "$three" "$archive" $LIBRARIES
prints "$whole" "$archive" "$main" "$three" "$archive" $LIBRARIES
prints "$whole" "$three" "$archive" "$main" "$archive" $LIBRARIES
prints "$whole" -no-pie "$main" "$archive" "$three" $LIBRARIES
# Archives of the program, which nothing else would take in.
take='-Wl,-u,rattle_alloc'
prints "$whole" $take "$main" "$archive" "$scratch/libthree.a" $LIBRARIES
prints "$whole" $take "$main" "$scratch/libthree.a" "$archive" $LIBRARIES
# A library that is shared, ours or the program's.
prints "$whole" "$main" "$three" "-L$folder" -l:libstunp.so "-Wl,-rpath,$folder"
prints "$whole" "-L$folder" -l:libstunp.so "$three" "$main" -l:libstunp.so "-Wl,-rpath,$folder"
prints "$whole" $take "$main" "-L$folder" -l:libstunp.so "$scratch/libthree.a" \
    "-Wl,-rpath,$folder"
prints "$whole" "$main" "$archive" -Wl,--no-as-needed "$scratch/libthree.so" \
    "-Wl,-rpath,$scratch" $LIBRARIES
prints "$whole" "$main" "-L$folder" -l:libstunp.so -Wl,--no-as-needed "$scratch/libthree.so" \
    "-Wl,-rpath,$folder:$scratch"
# No functions, or not all.
prints done "$main" "$archive" $LIBRARIES
prints done -no-pie "$main" "$archive" $LIBRARIES
refuses "$main" "$two" "$archive" $LIBRARIES
prints done "$main" "-L$folder" -l:libstunp.so "-Wl,-rpath,$folder"
refuses "$main" "$two" "-L$folder" -l:libstunp.so "-Wl,-rpath,$folder"
prints done "$main" "$archive" "$scratch/libthree.a" $LIBRARIES
# Static programs, where the C library can be linked so.
for static in -static -static-pie; do
    if echo 'int main(void) { return 0; }' | $cc $static -x c - -o "$scratch/probe" 2>/dev/null &&
        "$scratch/probe"; then
        prints "$whole" $static "$main" "$archive" "$three" $LIBRARIES
        prints done $static "$main" "$archive" $LIBRARIES
    fi
done
# Other linkers, where they are there.
for linker in lld gold; do
    if echo 'int main(void) { return 0; }' |
        $cc -fuse-ld=$linker -x c - -o "$scratch/probe" 2>/dev/null; then
        prints "$whole" -fuse-ld=$linker "$main" "$archive" "$three" $LIBRARIES
        prints done -fuse-ld=$linker "$main" "$archive" $LIBRARIES
        prints "$whole" -fuse-ld=$linker "$main" "$three" "-L$folder" -l:libstunp.so \
            "-Wl,-rpath,$folder"
    fi
done
echo "memory: passed in $count ways"
