# For the scripts of this folder, which are in it: the archive, proved and built, and how they run a
# command.
CC=${CC:-cc}
archive=../crates/stun_c/out/libstun_c.a
mkdir -p out

# tried NAME COMMAND..: runs it and says how long it took; where it fails, prints it with its output
# and ends.
tried() {
    name=$1 began=$(date +%s)
    shift
    if ! "$@" >out/log 2>&1; then
        cat out/log >&2
        echo "bench: failed: $name: $*" >&2
        exit 1
    fi
    echo "$name: $(($(date +%s) - began)) s" >&2
}
library() { (cd ../crates/stun_c && rt lib); }
tried 'the archive, proved and built' library
