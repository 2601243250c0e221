#!/bin/sh
# Runs a library on messages that a hostile peer may send, with an address sanitizer around the
# driver. Then it prints how the time of the calls on messages grows with the number of attributes.
# The library is the archive, which it proves and builds. With the argument `exported` it is that of
# the exported crate, which is not proved (`make lib` builds it).
set -eu
cd "$(dirname "$0")"
if [ "${1-}" = exported ]; then
    CC=${CC:-cc}
    archive=../target/c/libstunp.a system='-lpthread -ldl' told='the exported crate, not proved'
    inlined=''
    mkdir -p out
    tried() {
        shift
        "$@"
    }
else
    . ./common.sh
    system='' told='the archive, proved' inlined=-DSTUNP_INLINE_CALLS=1
fi
tried 'the driver' $CC -O1 -g -Wall -Wextra -Werror -fsanitize=address,undefined \
    -fno-sanitize-recover=all -I../include $inlined hostile.c "$archive" $system -o out/hostile
out/hostile
tried 'the growth' $CC -O2 -std=c99 -D_DEFAULT_SOURCE -Wall -Wextra -Werror -I../include \
    $inlined growth.c "$archive" $system -lm -o out/growth
echo "microseconds, by $told"
out/growth
