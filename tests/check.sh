#!/bin/sh
# Builds the archives, and tests them: by the transcripts (play.py), and by programs in C that pass
# what only C can pass. STUN_C and STUN_ENDPOINT may name other archives, such as the libstunp.a of
# tools/rust_c.sh for both; then nothing is proved. LIBRARIES has what these archives need in
# addition. The programs are built with sanitizers if the compiler has them. Without a C compiler
# nothing is tested. The last line says what was tested.
set -eu
cd "$(dirname "$0")"
cc=${CC:-cc} plus=${CXX:-c++}
. ../tools/compiler.sh
if ! there "${CC-}" cc; then
    echo 'tests: left out, no C compiler is there'
    exit 0
fi
scratch=$(mktemp -d)
trap 'rm -rf "$scratch"' EXIT

# quiet COMMAND..: prints the output of the command only if it fails.
quiet() { "$@" >"$scratch/output" 2>&1 || { cat "$scratch/output" >&2 && exit 1; }; }

# passes NAME COMMAND..: the command prints only `NAME: passed`, and ends with status 0.
passes() {
    wanted="$1: passed"
    shift
    printed=$("$@") || { echo "tests: $*: ended with $?, printed '$printed'" >&2 && exit 1; }
    if [ "$printed" != "$wanted" ]; then
        echo "tests: $*: printed '$printed', not '$wanted'" >&2
        exit 1
    fi
}

proved=''
if [ -z "${STUN_C-}" ] || [ -z "${STUN_ENDPOINT-}" ]; then
    quiet ../tools/archives.sh
    STUN_C=$PWD/../crates/stun_c/out/libstun_c.a
    STUN_ENDPOINT=$PWD/../crates/stun_c_endpoint/out/libstun_c_endpoint.a
    proved=yes LIBRARIES=''
fi
: "${LIBRARIES=-lpthread -ldl -lm}"
export STUN_C STUN_ENDPOINT LIBRARIES
messages="$STUN_C $LIBRARIES" archives="$STUN_ENDPOINT $STUN_C $LIBRARIES"
heap='../examples/c/heap.c'

# The headers declare what the archives export, and so does the example for Rust.
(cd .. && quiet python3 tools/exports.py)

# The headers are C99 and C++17, with all warnings.
strict='-Wall -Wextra -Wpedantic -Wconversion -Werror -I../include -I../examples/c'
bodies=$(inlined "$STUN_C")
strict="$strict $bodies"
has_plus=''
if there "${CXX-}" c++; then has_plus=yes; fi
for header in stunp stunp_endpoint stunp_log; do
    alone="$strict -fsyntax-only -include ../include/$header.h"
    $cc -std=c99 $alone -x c /dev/null
    [ -z "$has_plus" ] || $plus -std=c++17 $alone -x c++ /dev/null
done

# runs COMPILER..: whether what it builds runs.
runs() {
    echo 'int main(void) { return 0; }' >"$scratch/empty.c"
    "$@" "$scratch/empty.c" -o "$scratch/empty" 2>/dev/null && "$scratch/empty" 2>/dev/null
}

# sanitizers COMPILER..: those that it has.
sanitizers() {
    all='-fsanitize=address,undefined -fno-sanitize-recover=all'
    ! runs "$@" $all || echo "$all"
}
sanitized=$(sanitizers $cc)
c99="-std=c99 -D_DEFAULT_SOURCE -O1 -g $strict $sanitized"
[ -z "$has_plus" ] || plus17="-std=c++17 $strict $(sanitizers $plus -x c++)"

# The transcripts, and each allocation refused.
$cc $c99 c/play.c $heap $archives -o "$scratch/play"
endpoints=transcripts/endpoints
python3 play.py "$scratch/play" transcripts/*.txt $endpoints/look-ups.*.txt \
    $endpoints/ice.*.txt $endpoints/client.*.txt >"$scratch/played" ||
    { cat "$scratch/played" >&2 && exit 1; }

# What only C can pass, what strangers may send, and the worked examples of both headers, without
# the comment round them. No call of the archive of stunp.h wants memory: it is linked with none.
sed -n 's/^ \*     //p; /\*\/$/q' ../include/stunp.h >"$scratch/answer.h"
sed -n 's/^ \*     //p; /\*\/$/q' ../include/stunp_endpoint.h >"$scratch/serve.h"
for name in arguments attributes extra log sockaddr; do
    $cc $c99 c/$name.c $messages -o "$scratch/$name"
    passes $name "$scratch/$name"
done
passes refused ./refused.sh
for name in client endpoint hostile ice ice_checks texts worked; do
    $cc $c99 -Wno-conversion -I"$scratch" c/$name.c $heap $archives -o "$scratch/$name"
    passes $name "$scratch/$name"
done
if [ -n "$has_plus" ]; then
    $plus $plus17 -fsyntax-only -x c++ "$scratch/serve.h"
    for name in arguments attributes extra log sockaddr; do
        $plus $plus17 -x c++ c/$name.c -x none $messages -o "$scratch/$name"
        passes $name "$scratch/$name"
    done
    $plus $plus17 -I"$scratch" -x c++ c/worked.c -x none $archives -o "$scratch/worked"
    passes worked "$scratch/worked"
fi

# Handles that go from thread to thread, plain and under what finds races, where that is there.
races=''
threads="-std=c99 -D_DEFAULT_SOURCE -O1 -g $strict -Wno-conversion c/threads.c $heap $archives"
threads="$threads -pthread"
$cc $c99 -Wno-conversion c/threads.c $heap $archives -pthread -o "$scratch/threads"
passes threads "$scratch/threads"
if runs $cc -fsanitize=thread; then
    $cc -fsanitize=thread $threads -o "$scratch/threads"
    quiet "$scratch/threads"
    races=' ThreadSanitizer'
fi
if command -v valgrind >/dev/null; then
    $cc $threads -o "$scratch/threads"
    quiet valgrind -q --tool=helgrind --error-exitcode=1 "$scratch/threads" 20
    races="$races helgrind"
fi

# The headers beside those of other libraries, where these are installed: a request that one writes
# the other reads.
neighbours=''
# neighbour NAME HEADER MACRO OPTION..
neighbour() {
    name=$1 macro=$3
    printf '#include <stdint.h>\n#include <%s>\nint main(void) { return 0; }\n' "$2" \
        >"$scratch/probe.c"
    shift 3
    $cc -std=gnu11 "$scratch/probe.c" "$@" -o "$scratch/probe" 2>/dev/null || return 0
    $cc -std=gnu11 -O1 -g -Wall -Wextra -Werror -I../include -I../examples/c $bodies -D"$macro" \
        c/beside.c $heap $archives "$@" -o "$scratch/beside"
    passes beside "$scratch/beside"
    neighbours="$neighbours $name"
}
flags() { pkg-config --cflags --libs "$1" 2>/dev/null || true; }
neighbour libnice stun/stunagent.h LIBNICE $(flags nice)
neighbour coturn turn/ns_turn_msg.h COTURN -lturnclient -lcrypto
neighbour libre re.h LIBRE $(flags libre)

# What strangers may send to each call: a few seconds of a fuzzer (fuzz/run.sh), or of mutations
# where there is none.
fuzz/run.sh 10 >"$scratch/fuzzed"

# asks_for NAMES CRATE: its archive asks for nothing but these.
asks_for() {
    needed=$(nm -u "../crates/$2/out/lib$2.a" | sed -n 's/^ *U //p' | grep -vxE "$1" || true)
    if [ -n "$needed" ]; then
        echo "tests: the archive of $2 needs" $needed >&2
        exit 1
    fi
}
bytes='memcpy|memmove|memset'
if [ -n "$proved" ]; then
    asks_for "$bytes" stun_c
    asks_for "$bytes|__udivti3|__umodti3|rattle_alloc|rattle_realloc|rattle_dealloc" \
        stun_c_endpoint
fi

# What this machine lacks.
lacks() { [ -n "$1" ] || echo "tests: $2: left out, $3"; }
lacks "$has_plus" 'the headers in C++' 'no compiler of it is there'
lacks "$sanitized" 'sanitizers' 'the compiler has none'
case $races in *ThreadSanitizer*) ;; *) lacks '' ThreadSanitizer 'the compiler does not have it' ;; esac
case $races in *helgrind*) ;; *) lacks '' helgrind 'valgrind is not there' ;; esac
for name in libnice coturn libre; do
    case " $neighbours " in *" $name "*) ;; *) lacks '' "beside $name" 'it is not installed' ;; esac
done
echo "tests: passed in C${has_plus:+ and C++}${sanitized:+, under sanitizers};" \
    "threads plain${races:+ and under$races}; beside${neighbours:- no other library};" \
    "$(tail -n 1 "$scratch/played"); $(tail -n 1 "$scratch/fuzzed")"
