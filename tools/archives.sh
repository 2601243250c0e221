#!/bin/sh
# Proves and builds the archives for C: over the libraries that `rt ci` left, where these are of the
# files as they are (crates.py), else by `rt lib`, which proves the crates below once more. What was
# printed of each is kept in the crate's out/proof.txt, from which a release quotes.
set -eu
cd "$(dirname "$0")/.."
said=$(mktemp)
trap 'rm -f "$said" "$said.failed"' EXIT

# prove CRATE: proves and builds its archive.
prove() {
    ended=0
    python3 tools/crates.py archive "$1" || ended=$?
    [ "$ended" = 3 ] || return "$ended"
    (cd "crates/$1" && rt lib)
}
for crate in stun_c stun_c_endpoint; do
    { prove $crate 2>&1 || echo >"$said.failed"; } | tee "$said"
    [ ! -e "$said.failed" ] || exit 1
    cat "$said" >crates/$crate/out/proof.txt
done
