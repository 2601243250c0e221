#!/bin/sh
# Writes debian/copyright, and debian/libstunpVERSION.symbols with the calls that the headers
# declare. Run it after the headers or the licenses have changed. `--check` only says whether the
# files are as it would write them.
set -eu
cd "$(dirname "$0")/.."
library=$(sed -n 's/^Package: \(libstunp[0-9].*\)/\1/p' debian/control)
scratch=$(mktemp -d)
trap 'rm -rf "$scratch"' EXIT
python3 tools/licenses.py --debian >"$scratch/copyright"
{
    echo "libstunp.so.${library#libstunp} $library #MINVER#"
    echo '* Build-Depends-Package: libstunp-dev'
    cat include/stunp.h include/stunp_endpoint.h |
        sed -n '/^template/d; s/^\([A-Za-z].*[ *]\)\{0,1\}\(stunp_[a-z0-9_]*\)(.*/\2/p' |
        LC_ALL=C sort | sed "s/.*/ &@Base $(cat VERSION)/"
} >"$scratch/$library.symbols"
for file in copyright "$library.symbols"; do
    if [ "${1-}" != --check ]; then
        cp "$scratch/$file" debian
    elif ! cmp -s "$scratch/$file" "debian/$file"; then
        echo "debian/$file is of other sources: run debian/generate.sh" >&2
        exit 1
    fi
done
