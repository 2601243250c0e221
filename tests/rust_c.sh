#!/bin/sh
# Runs tests of tests/c and the transcripts over the libraries that tools/rust_c.sh left in
# target/c, looks at their symbols, reads the manual and installs all of it.
#
#     tests/rust_c.sh [udp] [strict] [sizes]
#
# udp      it also runs programs on sockets
# strict   a warning of the C compiler is an error: for the compilers of the gate, because a
#          distribution has others, which may warn of more
# sizes    the libraries may have at most so many bytes: for the compiler of a release
set -eu
cd "$(dirname "$0")/.."
out=$PWD/target/c
has() { case " $words " in *" $1 "*) ;; *) return 1 ;; esac; }
words=$*
export WERROR=''
if has strict; then WERROR=-Werror; fi

fail() {
    echo "rust_c: $*" >&2
    exit 1
}

# The libraries have the calls that the headers declare, also those with a body there, and show no
# other symbol.
cat include/stunp.h include/stunp_endpoint.h |
    sed -n '/^template/d; s/^\([A-Za-z].*[ *]\)\{0,1\}\(stunp_[a-z0-9_]*\)(.*/\2/p' |
    sort > "$out/declared"
for seen in "-g $out/libstunp.a" "-D $out/libstunp.so"; do
    nm --defined-only $seen 2>/dev/null | awk 'NF == 3 {print $3}' | sort > "$out/defined"
    diff "$out/declared" "$out/defined" >&2
done
named=$(objdump -p "$out/libstunp.so" | sed -n 's/^ *SONAME *//p')
cmp "$out/$named" "$out/libstunp.so"
# They want few functions of a C library, and none of a thread or of a system. The table is the
# linker's.
wanted=$(nm -u "$out/libstunp.a" | sed -n 's/^.* U //p' | grep -vx _GLOBAL_OFFSET_TABLE_ | sort |
    paste -sd' ')
# A distribution's CFLAGS can have the compiler guard the stack, which needs one function more.
guarded=''
case "$wanted " in
'__stack_chk_fail '*) guarded=yes wanted=${wanted#* } ;;
esac
case "$wanted" in
'abort bcmp free malloc memcmp memcpy memmove memset realloc strlen') ;;
*) echo "rust_c: the archive wants other functions: $wanted" >&2 && [ "$(uname -m)" != x86_64 ] ;;
esac
! readelf -SW "$out/libstunp.so" | grep -E ' \.(tdata|tbss|init_array) ' >&2 ||
    fail 'the shared library has thread-locals, or runs code when it is loaded'
# To include a header is to link nothing.
printf '#include "%s"\n' stunp.h stunp_endpoint.h > "$out/included.c"
${CC:-cc} -O0 -Iinclude -c "$out/included.c" -o "$out/included.o"
[ -z "$(nm -u "$out/included.o")" ] || fail 'a program that includes the headers wants the library'
# The calls that are done in C are the library's, so that a later one corrects programs.
sed -n 's/^ \*     //p; /\*\/$/q' include/stunp_endpoint.h > "$out/serve.h"
${CC:-cc} -O2 -w -Iinclude -x c -c "$out/serve.h" -o "$out/serve.o"
! nm "$out/serve.o" | grep -i ' [tw] stunp_' >&2 ||
    fail 'calls of the headers are compiled into programs'
nm -u "$out/serve.o" | grep -q ' U stunp_reply_finish$' || fail 'the example does not end a reply'

# Calls with a body in the headers, for a program that reads no C.
python3 - "$out/libstunp.so" <<'CALLS'
import ctypes, sys
library = ctypes.CDLL(sys.argv[1])
library.stunp_strerror.restype = ctypes.c_char_p
library.stunp_is_signed.restype = ctypes.c_bool
assert library.stunp_strerror(ctypes.c_int64(-1)) == b"bytes are missing at the end"
assert not library.stunp_is_signed(b"", ctypes.c_size_t(0), b"", ctypes.c_size_t(0))
CALLS

# size_of FILE: its bytes, without symbols and without the tables of UNWIND=yes.
size_of() {
    strip -R .eh_frame -R .eh_frame_hdr -o "$out/stripped" "$1"
    wc -c < "$out/stripped"
}
${CC:-cc} -std=c99 -Os -Wall -Wextra -Wpedantic $WERROR -Iinclude tests/c/three_calls.c \
    "$out/libstunp.a" -Wl,--gc-sections -o "$out/three_calls"
three=$(size_of "$out/three_calls") shared=$(size_of "$out/libstunp.so")
echo "rust_c: a program of three calls has $three bytes, the shared library $shared"
if has sizes && { [ "$three" -gt 20000 ] || [ "$shared" -gt 262000 ]; }; then
    fail 'the program may have 20000 bytes, and the shared library 262000'
fi
case $(uname -sm)$guarded in
'Linux x86_64' | 'Linux aarch64')
    ${CC:-cc} -std=c11 -O2 -ffreestanding -fno-builtin -nostdlib -static -fno-stack-protector \
        -Wall -Wextra $WERROR -Iinclude tests/c/freestanding.c "$out/libstunp.a" \
        -o "$out/freestanding"
    "$out/freestanding" || fail "the program without a C library ended with $?"
    echo 'rust_c: a program without a C library passed' ;;
esac

# expect WANTED COMMAND..: the command prints this, with status 0.
expect() {
    wanted=$1
    shift
    printed=$("$@") || { echo "rust_c: $*: ended with $?, printed '$printed'" >&2; exit 1; }
    [ "$printed" = "$wanted" ] ||
        { echo "rust_c: $*: printed '$printed', not '$wanted'" >&2; exit 1; }
}
strict="-std=c99 -O1 -g -Wall -Wextra -Wpedantic $WERROR -Iinclude -Iexamples/c -D_DEFAULT_SOURCE"
libraries=''
for name in arguments attributes extra log sockaddr; do
    ${CC:-cc} $strict tests/c/$name.c "$out/libstunp.a" $libraries -o "$out/$name"
    ${CC:-cc} $strict tests/c/$name.c -L"$out" -lstunp "-Wl,-rpath,$out" -o "$out/$name-shared"
    expect "$name: passed" "$out/$name"
    expect "$name: passed" "$out/$name-shared"
done
expect "refused: passed" env STUN_C="$out/libstunp.a" STUN_ENDPOINT="$out/libstunp.a" \
    LIBRARIES="$libraries" tests/refused.sh
LIBRARIES="$libraries" tests/memory.sh "$out"
# Programs that use the calls as they are not meant, and one that is built for this library and runs
# with the next.
tests/misuse.sh "$out"
tests/next.sh
# These look at the memory that is taken. `worked` has the examples of the headers.
sed -n 's/^ \*     //p; /\*\/$/q' include/stunp.h > "$out/answer.h"
sed -n 's/^ \*     //p; /\*\/$/q' include/stunp_endpoint.h > "$out/serve.h"
for name in client endpoint hostile ice ice_checks texts worked play; do
    ${CC:-cc} $strict -I"$out" "tests/c/$name.c" examples/c/heap.c "$out/libstunp.a" $libraries \
        -o "$out/$name"
    [ $name = play ] || expect "$name: passed" "$out/$name"
done
endpoints=tests/transcripts/endpoints
python3 tests/play.py "$out/play" tests/transcripts/*.txt $endpoints/look-ups.*.txt \
    $endpoints/ice.*.txt $endpoints/client.*.txt > "$out/played" ||
    { cat "$out/played" >&2; exit 1; }
tail -n 1 "$out/played"
# The same installed, in the place of both archives, and the manual.
tests/manual.sh
STUN_C="$out/libstunp.a" STUN_ENDPOINT="$out/libstunp.a" LIBRARIES="$libraries" tests/install.sh
if has udp; then
    built=target/export/target/debug/examples
    (cd target/export && cargo build --quiet --examples)
    STUN_C="$out/libstunp.a" STUN_ENDPOINT="$out/libstunp.a" LIBRARIES="$libraries" \
        python3 tests/udp/check.py --server "$built/udp_server" --client "$built/udp_client"
fi
echo "rust_c: passed"
