#!/usr/bin/env python3
"""Puts a release together from what is built, and looks at one.

    tools/release.py OUT [LOG]       OUT/stunp-VERSION and OUT/stunp-VERSION.tar.gz; LOG is what
                                     `rt ci` printed at this commit (target/merge/proofs.log); and
    tools/release.py --source OUT    OUT/stunp-VERSION-source.tar.gz: the files of this repository,
                                     and in vendor/ the third-party crates, so that `make lib` needs
                                     cargo, Python, a C compiler and no network
    tools/release.py --verify OUT    the sums; what is made again from this repository is the same,
                                     or each file that differs; it installs and runs on a clean root

The archives, the programs and the exported crate must be there: the release tier builds them, and
its other parts must have passed at this commit (tools/parts.py). A release has neither the
toolchain nor anything of it. It is laid out as a prefix, and is one: its files for pkg-config and
CMake find the folder wherever it lies. Made twice from one commit and one build it is the same to
the byte. Another C compiler makes another libstunp_heap.a.
"""

import gzip
import hashlib
import os
import re
import shutil
import subprocess
import sys
import tarfile
import tempfile

import parts

TOP = os.path.normpath(os.path.join(os.path.dirname(os.path.abspath(__file__)), ".."))
LOG = os.path.join(TOP, "target/merge/proofs.log")
EXPORTED = os.path.join(TOP, "target/export")
ARCHIVES = ("stun_c", "stun_c_endpoint")
PROGRAMS = ("stun_tool", "stun_inspect")

# What must be built before.
BUILT_ARCHIVES = tuple("crates/%s/out/lib%s.a" % (name, name) for name in ARCHIVES)
BUILT_PROGRAMS = tuple("crates/%s/out/%s" % (name, name) for name in PROGRAMS)
BUILT = (*BUILT_ARCHIVES, *BUILT_PROGRAMS, "target/export/Cargo.toml")
# What is copied, and to where.
KEPT = (
    ("tests/transcripts", "transcripts"),
    ("docs/maintainers/TRANSCRIPTS.md", "transcripts/README.md"),
    ("docs", "docs"),
    ("CHANGELOG.md", "CHANGELOG.md"),
    ("tools/packed/Makefile", "Makefile"),
    ("LICENSE-APACHE", "LICENSE-APACHE"),
    ("LICENSE-MIT", "LICENSE-MIT"),
    ("PROOF.txt", "PROOF.txt"),
    ("README.md", "README.md"),
    ("SECURITY.md", "SECURITY.md"),
    ("VERSION", "VERSION"),
)


def run(*command, **how):
    try:
        ran = subprocess.run(command, capture_output=True, text=True, **how)
    except FileNotFoundError:
        sys.exit("release: %s is not installed" % command[0])
    if ran.returncode != 0:
        sys.exit("release: %s:\n%s%s" % (" ".join(command), ran.stdout, ran.stderr))
    return ran.stdout


def version():
    with open(os.path.join(TOP, "VERSION")) as opened:
        return opened.read().strip()


def said(lines):
    """Of the lines of a build: what it rests on, and its verdict."""
    return [line for line in lines
            if re.match(r"axioms \w+:|logic=proved|rt: .* proved$|rt: .* is kept:", line)]


def record(log):
    """What was proved, by which toolchain, at which commit, and the gate's last line."""
    if not parts.commit():
        sys.exit("release: files differ from those of the commit")
    tried = [name for name in parts.RELEASE if name != "release"]
    if not parts.whole(tried):
        sys.exit("release: not all other parts of the release tier passed at this commit")
    commit = "commit: " + parts.commit()
    with open(log, errors="replace") as opened:
        lines = opened.read().splitlines()
    if commit not in lines:
        sys.exit("release: %s is not of this %s" % (log, commit))
    gate = [line for line in lines if re.match(r"rt: ok; |\d+ passed, \d+ failed$", line)]
    if len(gate) < 2 or not gate[-1].endswith(" passed, 0 failed"):
        sys.exit("release: %s has no gate that passed" % log)
    words = [commit, "toolchain: " + run("rt", "--version").strip(), "the gate: " + gate[-1],
             next(line for line in gate if line.startswith("rt: ok; ")), "",
             "What the build of each archive said:", ""]
    for name in ARCHIVES:
        proof = os.path.join(TOP, "crates", name, "out/proof.txt")
        if not os.path.exists(proof):
            sys.exit("release: %s is not there: run `make c`" % proof)
        with open(proof, errors="replace") as opened:
            words += ["lib%s.a: %s" % (name, line) for line in said(opened.read().splitlines())]
    lacks = parts.lacking(tried, parts.RELEASE_AT) or ["nothing"]
    words += ["", "What the machine of the release tier lacked:", "", *lacks]
    words += ["", "What the gate said of each crate and of its tests:", "", *said(lines)]
    return "\n".join(words) + "\n"


def copy(source, target):
    os.makedirs(os.path.dirname(target), exist_ok=True)
    if os.path.isdir(source):
        skipped = ("out", "target", ".cargo", "Cargo.lock", "__pycache__", "maintainers", "*.1")
        shutil.copytree(source, target, ignore=shutil.ignore_patterns(*skipped))
    else:
        shutil.copy(source, target)


def write(target, text):
    with open(target, "w") as opened:
        opened.write(text)


def install(folder):
    """The prefix, by the rules of include/Makefile. Its files for pkg-config name its place. What
    is installed is told: the environment may name other archives."""
    messages, endpoint = ("../" + path for path in BUILT_ARCHIVES)
    programs = " ".join("../" + path for path in BUILT_PROGRAMS)
    with tempfile.TemporaryDirectory() as scratch:
        run("make", "-s", "-C", os.path.join(TOP, "include"), "install", "TO=" + folder,
            "NAMED=$${pcfiledir}/../..", "OUT=" + scratch, "MESSAGES=" + messages,
            "ENDPOINT=" + endpoint, "PROGRAMS=" + programs, "KIND=proved",
            env={key: word for key, word in os.environ.items() if key[:4] != "MAKE"})


def crate(folder, is_tried):
    """The exported crate: packed by cargo, which builds what it packed if asked, and as source."""
    run(sys.executable, os.path.join(TOP, "tools/export/export.py"), EXPORTED, cwd=TOP)
    name = "seatcrane-stun-%s.crate" % version()
    run("cargo", "package", "--quiet", "--offline", "--allow-dirty", "-p", "seatcrane-stun",
        *([] if is_tried else ["--no-verify"]), cwd=EXPORTED)
    copy(os.path.join(EXPORTED, "target/package", name), os.path.join(folder, "crate", name))
    copy(EXPORTED, os.path.join(folder, "crate/seatcrane-stun"))


def written(folder):
    """All files of a folder, sorted, by their paths in it."""
    return sorted(os.path.relpath(os.path.join(at, name), folder)
                  for at, _, names in os.walk(folder) for name in names)


def contents(folder, name):
    with open(os.path.join(folder, name), "rb") as opened:
        return opened.read()


def sums(folder):
    return "".join("%s  %s\n" % (hashlib.sha256(contents(folder, name)).hexdigest(), name)
                   for name in written(folder) if name != "SHA256SUMS")


def pack(folder, archive):
    """With the time of the commit and without owners, so that the same files give the same bytes."""
    time = int(run("git", "log", "-1", "--format=%ct", cwd=TOP))

    def plain(entry):
        entry.mtime, entry.uid, entry.gid, entry.uname, entry.gname = time, 0, 0, "", ""
        entry.mode = 0o755 if entry.isdir() or entry.mode & 0o100 else 0o644
        return entry
    with open(archive, "wb") as raw, gzip.GzipFile("", "wb", 9, raw, mtime=0) as packed, \
            tarfile.open(fileobj=packed, mode="w") as tar:
        for name in written(folder):
            tar.add(os.path.join(folder, name), os.path.join(os.path.basename(folder), name),
                    filter=plain)


def assemble(folder, log, is_tried=True):
    missing = [source for source in (*BUILT, log) if not os.path.exists(os.path.join(TOP, source))]
    if missing:
        sys.exit("release: %s is not there: run make release-tier" % ", ".join(missing))
    proof = record(log)
    shutil.rmtree(folder, ignore_errors=True)
    install(folder)
    for source, target in KEPT:
        copy(os.path.join(TOP, source), os.path.join(folder, target))
    page = contents(TOP, "tools/packed/CONTENTS.txt").decode().replace("VERSION", version())
    write(os.path.join(folder, "CONTENTS.md"), page)
    crate(folder, is_tried)
    write(os.path.join(folder, "PROOF"), proof)
    write(os.path.join(folder, "SHA256SUMS"), sums(folder))


def source(out):
    """Packs the files that git knows, as they are here, with the crates that cargo needs beside."""
    folder = os.path.abspath(os.path.join(out, "stunp-%s-source" % version()))
    shutil.rmtree(folder, ignore_errors=True)
    for name in run("git", "ls-files", "-z", cwd=TOP).split("\0"):
        if name and os.path.exists(os.path.join(TOP, name)):
            os.makedirs(os.path.dirname(os.path.join(folder, name)), exist_ok=True)
            shutil.copy(os.path.join(TOP, name), os.path.join(folder, name))
    write(os.path.join(folder, "COMMIT"), run("git", "describe", "--always", "--abbrev=12",
                                              "--dirty=, with changes", "--exclude=*", cwd=TOP))
    run("tools/rust.sh", "--export", cwd=TOP)
    run("cargo", "vendor", "--quiet", "--respect-source-config", os.path.join(folder, "vendor"),
        cwd=EXPORTED)
    pack(folder, folder + ".tar.gz")
    shutil.rmtree(folder)
    print("release: %s.tar.gz" % folder)


def differences(one, other):
    """The files that only one of two folders has, or that differ."""
    names = sorted({*written(one), *written(other)})
    return [name for name in names
            if not all(os.path.exists(os.path.join(folder, name)) for folder in (one, other))
            or contents(one, name) != contents(other, name)]


def verify(out, log):
    folder = os.path.abspath(os.path.join(out, "stunp-" + version()))
    if not os.path.exists(os.path.join(folder, "SHA256SUMS")):
        sys.exit("release: %s is not there: run `make release`" % folder)
    if contents(folder, "SHA256SUMS").decode() != sums(folder):
        sys.exit("release: %s is not what SHA256SUMS says" % folder)
    with tempfile.TemporaryDirectory() as scratch:
        again = os.path.join(scratch, os.path.basename(folder))
        assemble(again, log, is_tried=False)
        pack(again, again + ".tar.gz")
        for name in differences(folder, again):
            print("release: %s is another one when it is made again" % name)
        if contents("", again + ".tar.gz") != contents("", folder + ".tar.gz"):
            sys.exit("release: made again it differs")
    subprocess.run([os.path.join(TOP, "tests/release.sh"), folder + ".tar.gz"], check=True)
    print("release: the sums are right, made again it is the same, and what it installs runs")


def main():
    words = sys.argv[1:]
    if words[:1] == ["--source"] and len(words) == 2:
        return source(words[1])
    is_verified = words[:1] == ["--verify"]
    words = words[is_verified:]
    if len(words) not in (1, 2) or words[0].startswith("-"):
        sys.exit(__doc__)
    log = os.path.abspath(words[1]) if words[1:] else LOG
    if is_verified:
        return verify(words[0], log)
    folder = os.path.abspath(os.path.join(words[0], "stunp-" + version()))
    assemble(folder, log)
    pack(folder, folder + ".tar.gz")
    print("release: %s.tar.gz" % folder)
    source(words[0])


if __name__ == "__main__":
    main()
