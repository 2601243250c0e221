#!/bin/sh
# Builds and runs the programs of tests/c/misuse over the library of tools/rust_c.sh, each of which
# uses the calls as they are not meant. The comment at its top says what has to happen:
#
#     warned: WORD        gcc -Wall warns of it, by -WWORD
#     clang: WORD         clang -Wall does
#     harmless: TEXT      it runs, and prints this
#     named: CALL: TEXT   the headers say so in the comment on this call or type
#
#     tests/misuse.sh FOLDER      with libstunp.a
set -eu
folder=$(cd "$1" && pwd)
cd "$(dirname "$0")"
cc=${CC:-cc} plus=${CXX:-c++}
. ../tools/compiler.sh
scratch=$(mktemp -d)
trap 'rm -rf "$scratch"' EXIT

fail() {
    echo "misuse: $*" >&2
    exit 1
}

# built FILE OPTION..: compiles it with -Wall, as far as an object; `told` has what is said.
built() {
    file=$1
    shift
    case $file in
    *.cpp) set -- "$@" -std=c++17 ;;
    *) set -- "$@" -std=c99 ;;
    esac
    "$@" -Wall -O2 -I../include -c "$file" -o "$scratch/one.o" 2>"$scratch/told"
}
compiler_of() { case $1 in *.cpp) echo "$plus" ;; *) echo "$cc" ;; esac; }

# named CALL TEXT: the comment before its declaration, or the one at its top, has the text.
named() {
    python3 - "$1" "$2" <<'NAMED' || fail "no comment on $1 says '$2'"
import re, sys
from pathlib import Path
call, text = sys.argv[1:]
for path in sorted(Path("../include").glob("stunp*.h*")):
    pieces = r"(^/\*(?:(?!\*/).)*\*/|(?:^//[^\n]*\n)+)((?:(?!^/[*/]).)*)"
    for comment, declared in re.findall(pieces, path.read_text(), re.S | re.M):
        words = " ".join(re.sub(r"(?m)^ ?(?:\*|//|/\*)(?= |$)|\*/", "", comment).split())
        if re.search(rf"\b{call}(?:\(|;| \{{)", declared) and text in words:
            sys.exit(0)
sys.exit(1)
NAMED
}

is_gcc=''
if $cc -v 2>&1 | grep -q '^gcc version'; then is_gcc=yes; fi
count=0 left=''
for file in c/misuse/*; do
    sed 's/^ \* //; s|^// ||; s| \*/$||' "$file" | grep -E '^(warned|clang|harmless|named): ' \
        >"$scratch/wanted" || fail "$file says nothing of what has to happen"
    count=$((count + 1))
    while IFS= read -r wanted; do
        said=${wanted#*: }
        case $wanted in
        warned:*)
            [ "$is_gcc" ] || { left="$left warned"; continue; }
            built "$file" $(compiler_of "$file") || true
            grep -q -e "-W$said\b" "$scratch/told" || fail "$file: no warning of gcc: $said" ;;
        clang:*)
            command -v clang++ >/dev/null || { left="$left clang"; continue; }
            built "$file" clang++ || true
            grep -q -e "-W$said\b" "$scratch/told" || fail "$file: no warning of clang: $said" ;;
        harmless:*)
            case $file in *.cpp) command -v $plus >/dev/null || continue ;; esac
            built "$file" $(compiler_of "$file") || { cat "$scratch/told" >&2 && fail "$file"; }
            $(compiler_of "$file") "$scratch/one.o" "$folder/libstunp.a" -o "$scratch/one"
            printed=$("$scratch/one") || fail "$file ended with $?"
            [ "$printed" = "$said" ] || fail "$file printed '$printed', not '$said'" ;;
        named:*) named "${said%%: *}" "${said#*: }" ;;
        esac
    done <"$scratch/wanted"
done
echo "misuse: $count programs are refused, warned of, harmless, or named${left:+; left out:$left}"
