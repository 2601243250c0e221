#!/bin/sh
# Tests what the headers make a compiler and a linker refuse: exchanged arguments, a result that
# nobody looks at, a null output, a length that is not that of the array, enumerations that are not
# ints, and a program that was compiled against another release. STUN_C is the archive of stunp.h, and
# STUN_ENDPOINT that of stunp_endpoint.h. LIBRARIES has what they need in addition. Without a C
# compiler nothing is tested, and without an archive nothing is linked.
set -eu
cd "$(dirname "$0")"
cc=${CC:-cc}
. ../tools/compiler.sh
if ! there "${CC-}" cc; then
    echo 'refused: no C compiler'
    exit 0
fi
scratch=$(mktemp -d)
trap 'rm -rf "$scratch"' EXIT
strict='-std=c99 -Wall -Wextra -Werror -Wenum-conversion -I../include'
strict="$strict $(inlined "${STUN_C-}")"

# wants WORD COMMAND..: the command fails, and prints this word.
wants() {
    word=$1
    shift
    if "$@" >"$scratch/told" 2>&1 || ! grep -q -e "$word" "$scratch/told"; then
        echo "refused: $*: is not refused for $word" >&2
        cat "$scratch/told" >&2
        exit 1
    fi
}

# begins ARGUMENTS FILE: a program that calls stunp_begin with these.
begins() {
    printf '#include "stunp.h"\nint main(void) {\n    uint8_t out[20], id[12] = {0};\n' >"$2"
    printf '    return stunp_begin(%s, id, 12, out, 20) == 20 ? 0 : 1;\n}\n' "$1" >>"$2"
}
begins 'STUNP_REQUEST, STUNP_BINDING' "$scratch/right.c"
begins 'STUNP_BINDING, STUNP_REQUEST' "$scratch/exchanged.c"
$cc $strict -fsyntax-only "$scratch/right.c"
wants enum-conversion $cc $strict -fsyntax-only "$scratch/exchanged.c"
# An algorithm is no class either.
begins 'STUNP_SHA1, STUNP_BINDING' "$scratch/exchanged.c"
wants enum-conversion $cc $strict -fsyntax-only "$scratch/exchanged.c"

# warns ATTRIBUTE WORD STATEMENT: where the compiler has the attribute, it refuses a program of this
# statement for this word, and takes the program without it.
warns() {
    printf '#if !__has_attribute(%s)\n#error\n#endif\n' "$1" |
        $cc -fsyntax-only -x c - 2>/dev/null || return 0
    for statement in '(void)0;' "$3"; do
        printf '#include "stunp_endpoint.h"\n' >"$scratch/statement.c"
        printf 'int statement(const uint8_t *bytes, size_t length) {\n' \
            >>"$scratch/statement.c"
        printf '    uint8_t key[16] = {1}, out[20];\n    stunp_address from = {{0}, 1, 4};\n' \
            >>"$scratch/statement.c"
        printf '    stunp_endpoint_server endpoint = {0};\n    stunp_endpoint_users users = {0};\n' \
            >>"$scratch/statement.c"
        printf '    int64_t got = 0;\n    %s\n' "$statement" \
            >>"$scratch/statement.c"
        printf '    (void)bytes, (void)length, (void)key, (void)out, (void)from;\n' \
            >>"$scratch/statement.c"
        printf '    (void)endpoint, (void)users;\n    return got == 0;\n}\n' >>"$scratch/statement.c"
        build="$cc $strict -O1 -c $scratch/statement.c -o $scratch/statement.o"
        case $statement in
        '(void)0;') $build ;;
        *) wants "$2" $build ;;
        esac
    done
}
verify='stunp_verify(bytes, length, key'
warns warn_unused_result unused-result "$verify, sizeof key);"
warns warn_unused_result unused-result 'stunp_is_signed(bytes, length, "key", 3);'
warns warn_unused_result unused-result 'stunp_has_right_fingerprint(bytes, length);'
warns warn_unused_result unused-result 'stunp_sign(out, 20, 20, STUNP_SHA1, key, 16);'
warns nonnull nonnull 'got = stunp_read_header(bytes, length, NULL);'
warns access stringop-over "got = $verify, 32);"
warns warn_unused_result unused-result \
    'stunp_endpoint_server_receive(&endpoint, &users, bytes, length, &from, 0, out, 20, NULL);'
warns nonnull nonnull 'got = stunp_endpoint_users_add(NULL, bytes, length, key, 16);'
warns nonnull nonnull 'got = stunp_endpoint_server_new(&endpoint, NULL);'
warns nonnull nonnull \
    'stunp_endpoint_client client = {0}; got = stunp_endpoint_client_new(&client, NULL);'
warns nonnull nonnull \
    'stunp_ice_checker checker = {0}; got = stunp_ice_checker_new(&checker, NULL);'
warns access stringop-over 'got = stunp_begin(STUNP_REQUEST, STUNP_BINDING, key, 12, out, 21);'

# A program whose enumerations have another size than those of the library does not compile, in any
# version of the two languages.
if $cc -fshort-enums -fsyntax-only -x c /dev/null 2>/dev/null; then
    printf '#include "stunp_endpoint.h"\n' >"$scratch/enums.c"
    for standard in c99 c11 c17; do
        $cc -std=$standard -I../include -fsyntax-only "$scratch/enums.c"
        for name in stunp_message_class stunp_kind stunp_result; do
            wants "$name.*without.-\\?_\\?f\\?short[-_]enums" \
                $cc -std=$standard -fshort-enums -I../include -fsyntax-only "$scratch/enums.c"
        done
    done
    for standard in c++11 c++17; do
        there "${CXX-}" c++ || continue
        wants 'stunp_kind must be an int: compile without -fshort-enums' \
            ${CXX:-c++} -std=$standard -fshort-enums -I../include -fsyntax-only -x c++ \
            "$scratch/enums.c"
    done
fi

# links OPTION..: the right program, linked and run.
links() {
    $cc $strict "$@" "$scratch/right.c" "$STUN_C" ${LIBRARIES-} -o "$scratch/right" &&
        "$scratch/right"
}
if [ -n "${STUN_C-}" ]; then
    links
    links -Dstunp_release_0_3=stunp_release_0_1
    wants stunp_release_0_1 links -Dstunp_release_0_3=stunp_release_0_1 -DSTUNP_CHECK_RELEASE
fi

# The same of stunp_endpoint.h.
cat >"$scratch/endpoint.c" <<'ENDPOINT'
#include "stunp_endpoint.h"
int main(void) {
    stunp_endpoint_users users = {0};
    int64_t answer = stunp_endpoint_users_add(&users, "a", 1, "b", 1);
    return answer == STUNP_EMPTY_HANDLE ? 0 : 1;
}
ENDPOINT
shares() {
    $cc $strict "$@" "$scratch/endpoint.c" ../examples/c/heap.c \
        "$STUN_ENDPOINT" "$STUN_C" ${LIBRARIES-} -o "$scratch/endpoint" &&
        "$scratch/endpoint"
}
if [ -n "${STUN_C-}" ] && [ -n "${STUN_ENDPOINT-}" ]; then
    shares
    shares -Dstunp_endpoint_release_0_3=stunp_endpoint_release_0_1
    wants stunp_endpoint_release_0_1 \
        shares -Dstunp_endpoint_release_0_3=stunp_endpoint_release_0_1 -DSTUNP_CHECK_RELEASE
fi
echo 'refused: passed'
