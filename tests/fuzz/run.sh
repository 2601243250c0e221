#!/bin/sh
# Gives what strangers may send to each call of the archives, and stops at the first finding:
#
#     tests/fuzz/run.sh [SECONDS] [CORPUS]       10 seconds; a release takes 600
#
# Two programs share the time: fuzz.c has the calls of stunp.h, and endpoint.c those of
# stunp_endpoint.h and the small headers. They take the archives that STUN_C and STUN_ENDPOINT name,
# or else those that `rt lib` built. Where clang has libFuzzer it runs them,
# from the seeds of seeds.py and the files of the folder CORPUS, where it leaves what it found new;
# an input that fails is written to target/fuzz. Elsewhere they play a number of inputs by the time,
# with seeds and without, always the same. The last line says what was run.
set -eu
top=$(cd "$(dirname "$0")/../.." && pwd)
seconds=${1:-10}
messages=${STUN_C:-$top/crates/stun_c/out/libstun_c.a}
endpoint=${STUN_ENDPOINT:-$top/crates/stun_c_endpoint/out/libstun_c_endpoint.a}
. "$top/tools/compiler.sh"
scratch=$(mktemp -d)
trap 'rm -rf "$scratch"' EXIT
corpus=${2:-$scratch/corpus}
python3 "$top/tests/fuzz/seeds.py" "$scratch/seeds" >/dev/null
mkdir -p "$corpus/fuzz" "$corpus/endpoint" "$scratch/none"

# build NAME COMPILER..: a driver over the archives. Those of the exported crate want threads too.
build() {
    name=$1
    shift
    "$@" -std=c99 -D_DEFAULT_SOURCE -O1 -g -Wall -Wextra -Werror -I"$top/include" \
        -I"$top/examples/c" $(inlined "$messages") "$top/tests/fuzz/$name.c" \
        "$top/examples/c/heap.c" "$endpoint" "$messages" -lpthread -ldl -lm \
        -o "$scratch/$name"
}

# can WORDS PROGRAM COMPILER..: whether it builds the program, which then runs with these words.
can() {
    words=$1
    printf '#include <stddef.h>\n%s\n' "$2" >"$scratch/probe.c"
    shift 2
    "$@" "$scratch/probe.c" -o "$scratch/probe" 2>/dev/null || return 1
    "$scratch/probe" $words >/dev/null 2>&1
}

sanitized='-fsanitize=address,undefined -fno-sanitize-recover=all'
function='int LLVMFuzzerTestOneInput(const unsigned char *a, size_t b) { return a == 0 && b > 9; }'
for clang in "${CLANG:-clang}" clang-19 clang-16 clang-15 clang-14; do
    can -runs=1 "$function" "$clang" -fsanitize=fuzzer $sanitized || continue
    mkdir -p "$top/target/fuzz"
    played=0
    for name in fuzz endpoint; do
        seeds=$scratch/seeds
        [ $name = fuzz ] || seeds=$scratch/none
        build $name "$clang" -fsanitize=fuzzer $sanitized
        if ! "$scratch/$name" -seed=1 -max_total_time="$(((seconds + 1) / 2))" -max_len=4096 \
            -timeout=60 -rss_limit_mb=2048 -print_final_stats=1 \
            -artifact_prefix="$top/target/fuzz/" "$corpus/$name" "$seeds" \
            >"$scratch/told" 2>&1; then
            tail -n 60 "$scratch/told" >&2
            exit 1
        fi
        number=$(sed -n 's/^stat::number_of_executed_units: *//p' "$scratch/told")
        played=$((played + number))
    done
    echo "fuzz: $played inputs of libFuzzer, no finding"
    exit 0
done

cc=${CC:-cc}
if ! there "${CC-}" cc; then
    echo 'fuzz: no C compiler'
    exit 0
fi
can '' 'int main(void) { return 0; }' $cc $sanitized || sanitized=''
build fuzz $cc $sanitized -DPLAIN -DMUTATIONS=$((seconds * 2000))
build endpoint $cc $sanitized -DPLAIN
"$scratch/fuzz" "$scratch"/seeds/* >"$scratch/told"
"$scratch/endpoint" $((seconds * 100)) >>"$scratch/told"
sed -n 's/^fuzz: \([0-9]*\) inputs/\1/p' "$scratch/told" |
    awk '{ played += $1 } END { print "fuzz: " played " inputs, no finding" }'
