#!/bin/sh
# What the first commands of README.md say on a machine that lacks something: without the toolchain
# `rt`, without git, with an older Rust or none, in a folder that cannot be written, and without
# Debian's crates, root and network. None of them ends in a traceback, and each says what to do.
# It takes 15 s, and builds nothing.
set -eu
cd "$(dirname "$0")/.."
scratch=$(mktemp -d)
trap 'rm -rf "$scratch"' EXIT
unset MAKEFLAGS MAKELEVEL RUSTC
tree=$scratch/tree
mkdir "$tree" "$scratch/bin"
tar -c --exclude=./target --exclude=./release --exclude=out --exclude=./.git . | tar -x -C "$tree"
for program in sh make cat dirname grep id mkdir mktemp rm sed tr; do
    ln -s "$(command -v $program)" "$scratch/bin/$program"
done
ln -s "$(python3 -c 'import sys; print(sys.executable)')" "$scratch/bin/python3"
tried=0

# program NAME LINE: a program of this name, which runs this line.
program() {
    rm -f "$scratch/bin/$1"
    printf '#!/bin/sh\n%s\n' "$2" >"$scratch/bin/$1"
    chmod +x "$scratch/bin/$1"
}

# says WANTED COMMAND..: the command fails in the tree, and prints this without a traceback.
says() {
    wanted=$1
    shift
    ! (cd "$tree" && PATH="$scratch/bin" "$@") >"$scratch/said" 2>&1 || {
        echo "door: $* did not fail" >&2
        exit 1
    }
    if grep -q Traceback "$scratch/said" || ! grep -qF "$wanted" "$scratch/said"; then
        echo "door: $* did not say '$wanted', but:" >&2
        cat "$scratch/said" >&2
        exit 1
    fi
    tried=$((tried + 1))
}

for target in c prove check wrong bench release verify-release; do
    says "make $target: needs the toolchain rt" make $target
done
says 'git is not installed' make dist
says 'needs cargo and rustc 1.85 (cargo: not found, rustc: not found' make export
program cargo 'echo "cargo 1.84.1 (66221abde 2024-11-19)"'
program rustc 'echo "rustc 1.84.1 (e71f9a9a9 2025-01-27)"'
says 'needs cargo and rustc 1.85 (cargo: 1.84.1, rustc: 1.84.1' make export
program rustc 'echo "rustc 1.85.0 (4d91de4e4 2025-02-17)"'
program cargo '[ "$1" != build ] || { echo "Could not resolve host" >&2; exit 101; }
[ "$1" != fmt ] || exit 101
echo "cargo 1.85.0"'
program dpkg 'exit 1'
says 'root install them: on Debian, apt-get install librust-' make export
grep -qF 'FAILED: building the crate' "$scratch/said" || {
    echo 'door: make export did not say where it failed' >&2
    exit 1
}
rm -rf "$tree/target"
: >"$tree/target"
says 'cannot be written. Copy the repository' make export
says 'cannot be written. Copy the repository' make test
says 'cannot be written. Copy the repository' make lib
says 'has a space' make install 'PREFIX=/my folder'
echo "door: $tried commands that cannot run say what is missing"
