# For scripts that read it: whether a compiler is there, and what it needs for an archive.

# there NAMED USUAL: whether the compiler runs. NAMED is what a variable tells, which may be several
# words, and must run; where it is empty, USUAL is meant.
there() {
    ${1:-$2} --version >/dev/null 2>&1 && return
    [ -z "$1" ] || { echo "no compiler runs by the words '$1'" >&2 && exit 2; }
    return 1
}

# inlined ARCHIVE: the option for programs over an archive that lacks the calls that are done in C,
# as the proved ones do (STUNP_INLINE_CALLS of stunp.h), and otherwise nothing.
inlined() {
    ${NM:-nm} "$1" 2>/dev/null | grep -q ' T stunp_strerror$' || echo -DSTUNP_INLINE_CALLS=1
}
