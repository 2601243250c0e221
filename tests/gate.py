#!/usr/bin/env python3
"""Tests .ci/run, tools/parts.py, tools/proof.py and tools/shown.py in seconds, in scratch folders. The
commands of the parts are replaced by a stub, which notes that it ran; `rt` is one, too.

- The lanes begin together, and a part that fails stops no other but those that need it.
- Each part that failed or did not run is named and counted. What cannot run is listed.
- The results of the release tier count for the commit that they are of.
- PROOF.txt gets the line of each crate that `rt ci` passed, and keeps the seconds of the others.
"""
import os
import re
import subprocess
import sys
import tempfile
from pathlib import Path

TOP = Path(__file__).resolve().parent.parent
sys.path.insert(0, str(TOP / "tools"))
import parts  # noqa: E402
import shown  # noqa: E402

# Runs a tier with stubs in place of its commands.
DRIVER = """
import runpy
import sys
sys.path.insert(0, "tools")
import parts
for lane in (*parts.MERGE, parts.RELEASE):
    lane |= {name: f"bin/stub {name}" for name in lane if name != "proofs"}
sys.exit(parts.main() if sys.argv[1] != "merge" else runpy.run_path(".ci/merge.py", None, "__main__"))
"""
# Waits for the first part of the other lanes. FAIL and LACKS name parts.
STUB = """#!/bin/sh
: >"ran.$1"
case $1 in exported | layout | proofs)
    for tried in 1 2 3 4 5 6 7 8 9 10; do
        [ ! -e ran.exported ] || [ ! -e ran.layout ] || [ ! -e ran.proofs ] || break
        sleep 1
    done
    [ $tried != 10 ] || { echo 'the others have not begun'; exit 3; } ;;
esac
case " $FAIL " in *" $1 "*) echo 'it failed'; exit 1 ;; esac
case " $LACKS " in *" $1 "*) echo 'left out, it is not there'; exit 77 ;; esac
"""
RT = """#!/bin/sh
case $1 in version) echo 'a kit'; exit ;; doc) echo "$PWD/kit/page"; exit ;; esac
bin/stub proofs || exit
[ -z "$KILLED" ] || kill -9 $$
cat said
"""
SAID = "rt: one proved\nrt: two is kept: it was\nrt: three NOT PROVED\n"
wrong = []


def write(path, text):
    path.parent.mkdir(parents=True, exist_ok=True)
    path.write_text(text)
    path.chmod(0o755)


def git(top, *words):
    subprocess.run(["git", "-C", top, "-c", "user.name=a", "-c", "user.email=a@b", *words],
                   check=True, stdout=subprocess.DEVNULL)


def lay(top):
    """A repository of three crates, with the tools."""
    for name in ("parts.py", "proof.py", "crates.py"):
        write(top / "tools" / name, (TOP / "tools" / name).read_text())
    write(top / ".ci/merge.py", (TOP / ".ci/merge.py").read_text())
    write(top / "driver.py", DRIVER)
    write(top / ".gitignore", "ran.*\ntarget/\nbin/\nkit/\n__pycache__/\nPROOF.txt\nsaid\n")
    write(top / "crates.txt", "one:\ntwo: one\nthree:\n")
    for crate in ("one", "two", "three"):
        write(top / f"crates/{crate}/src/lib.rt", "fn one() {}\n")
    for name, text in (("stub", STUB), ("rt", RT)):
        write(top / "bin" / name, text)
    write(top / "kit/bin/rattle", "#!/bin/sh\necho 'a compiler'\n")
    write(top / "said", SAID + "23 passed, 0 failed\n")
    git(top, "init", "-q")
    git(top, "add", ".")
    git(top, "commit", "-q", "-m", "all")


def run(top, *words, **variables):
    """What a tier prints, its status, and the parts that ran."""
    for old in top.glob("ran.*"):
        old.unlink()
    path = f"{top}/bin:{os.environ['PATH']}"
    ran = subprocess.run([sys.executable, "driver.py", *words], cwd=top, text=True, check=False,
                         env={"PATH": path, "HOME": str(top), "FAIL": "", "LACKS": "", **variables},
                         stdout=subprocess.PIPE, stderr=subprocess.STDOUT)
    return ran.stdout.splitlines(), ran.returncode, {one.suffix[1:] for one in top.glob("ran.*")}


def expect(what, is_so, lines):
    if not is_so:
        wrong.append(what)
        print(f"gate: {what}: not so:\n  " + "\n  ".join(map(str, lines[-30:])))


def say(lines, words):
    return any(words in line for line in lines)


def merges(top):
    names = {name for lane in parts.MERGE for name in lane}
    lines, status, ran = run(top, "merge")
    expect("all pass, side by side", status == 0 and lines[-1] == "23 passed, 0 failed"
           and ran == names, [*lines, ran ^ names])
    lines, status, ran = run(top, "merge", FAIL="rooms exported-c")
    expect("a part that fails stops those that need it", status == 1
           and ran == names - {"c-tests", "c-pages", "examples", "users", "suite"}
           and say(lines, "merge: rooms: FAILED, with status 1")
           and say(lines, "merge: examples: FAILED: it did not run")
           and lines[-1] == "23 passed, 7 failed", lines)
    lines, status, ran = run(top, "merge", LACKS="exported")
    expect("what cannot run is listed, with what needs it", status == 0 and "suite" not in ran
           and say(lines[-25:], "this machine lacks: exported: left out, it is not there")
           and say(lines[-25:], "this machine lacks: suite: left out, as exported-c is"), lines)
    lines, status, ran = run(top, "merge", KILLED="yes")
    expect("proofs that end without a count", status == 1 and "edits" not in ran
           and "examples" in ran and lines[-1] == "0 passed, 4 failed", lines)


def records(top):
    """What the runs of the merge tier wrote to PROOF.txt."""
    record = top / "PROOF.txt"
    text = record.read_text()
    expect("a line of each crate that passed", re.findall(r"(?m)^(\w+) 1 functions 0 clauses - s ",
                                                          text) == ["one", "two"]
           and say(text.splitlines(), "compiler: a compiler, sha256 ")
           and say(text.splitlines(), "kit: a kit"), text.splitlines())
    record.write_text(text.replace(" - s ", " 7 s "))
    run(top, "merge")
    expect("the seconds stay", record.read_text() == text.replace(" - s ", " 7 s "),
           record.read_text().splitlines())
    write(top / "crates/two/src/lib.rt", "fn one() {}\nfn two() {}\n")
    write(top / "said", "rt: two proved\n1 passed, 0 failed\n")
    run(top, "merge")
    text = record.read_text()
    expect("a crate that changed has a new line", say(text.splitlines(), "one 1 functions")
           and "two 2 functions 0 clauses - s" in text, text.splitlines())
    write(top / "crates/two/src/lib.rt", "fn one() {}\n")


def releases(top):
    write(top / "bin/stub", STUB + "[ $1 != merge ] || echo 'merge: this machine lacks: a: left out'\n")
    lines, status, ran = run(top, "release")
    expect("all parts are put together", status == 0
           and "release tier: the machine lacked: merge: a: left out" in lines and ran == set(parts.RELEASE)
           and say(lines, f"release tier: {len(parts.RELEASE)} passed, 0 failed at "), lines)
    lines, status, ran = run(top, "release", "bare", FAIL="bare")
    expect("one part alone, and the others count", status == 1 and ran == {"bare"}
           and say(lines, "release tier: bare: FAILED, with status 1"), lines)
    lines, status, _ = run(top, "whole")
    expect("whole", status == 1 and say(lines, f"{len(parts.RELEASE) - 1} passed, 1 failed"), lines)
    git(top, "commit", "-q", "--allow-empty", "-m", "next")
    lines, status, _ = run(top, "whole")
    expect("another commit", status == 1 and say(lines, "release tier: 0 passed, "), lines)
    write(top / "crates/one/src/lib.rt", "fn another() {}\n")
    lines, status, ran = run(top, "release", "bare")
    expect("files that differ from the commit", status == 1 and not ran, lines)


LOW = """//! A crate.
pub trait Drawn {
    fn drawn(&self) -> bool;
    fn erased(&self) -> bool;
}
pub struct Low;
impl Low {
    /// A comment.
    pub fn used(&self) -> bool
        ensures { result ≡ self.named }
    {
        true
    }
    pub fn named(&self) -> bool
        ensures so { result ≡ True }
    {
        true
    }
    pub fn unused(&self) -> bool
        ensures so { result ≡ True }
    {
        true
    }
}
impl Drawn for Low {
    fn drawn(&self) -> bool
        ensures so { result ≡ True }
    {
        true
    }
    fn erased(&self) -> bool
        ensures so { result ≡ True }
    {
        true
    }
}
impl PartialEq for Low {
    fn eq(&self, that: &Low) -> bool
        ensures so { result ≡ True }
    {
        true
    }
}
"""


def decides(top):
    """What decides of an edit: its file, and of the crates below what that or the edit names, what
    the contracts of this name, and what is of a trait of another library, without bodies and
    comments, and without who can see it."""
    shown.TOP = top
    high = "pub(crate) fn high(low: &Low) -> bool {\n    low.used() && low.drawn()\n}\n"
    write(top / "crates/low/src/lib.rt", LOW)
    write(top / "crates/high/src/lib.rt", high)
    write(top / "crates/high/src/other.rt", "pub fn other(low: &Low) -> bool {\n    low.unused()\n}\n")
    text = "\n".join(shown.decides("high", ["low"], {"src/lib.rt"}, "new: high"))
    expect("a function decides if the file names it, or something that does decides",
           all(f"fn {name}(" in text for name in ("high", "used", "named", "drawn", "eq"))
           and "low.used()" in text, [text])
    expect("nothing decides that the file does not read", not any(
        word in text for word in ("fn other", "unused", "erased", "{\n        true", "comment")),
        [text])
    expect("a function decides if the edit names it", "fn unused(" in "\n".join(
        shown.decides("high", ["low"], {"src/lib.rt"}, "new: low.unused()")), [text])
    write(top / "crates/high/src/lib.rt", high.replace("pub(crate)", "pub"))
    expect("who can see an item does not decide",
           text == "\n".join(shown.decides("high", ["low"], {"src/lib.rt"}, "new: high")), [text])


def main():
    commands = " ".join(command for lane in (*parts.MERGE, parts.RELEASE)
                        for command in lane.values())
    for name in re.findall(r"(?<!/)\b(?:tools|tests|conformance)/[\w/]+\.(?:sh|py)\b", commands):
        expect(f"{name} is there", (TOP / name).is_file(), [commands])
    with tempfile.TemporaryDirectory(prefix="gate-") as scratch:
        lay(Path(scratch) / "usual")
        merges(Path(scratch) / "usual")
        records(Path(scratch) / "usual")
        releases(Path(scratch) / "usual")
        decides(Path(scratch) / "decides")
    count = sum(map(len, (*parts.MERGE, parts.RELEASE)))
    print(f"gate: {count} parts; {f'{len(wrong)} wrong' if wrong else 'as it should be'}")
    return 1 if wrong else 0


if __name__ == "__main__":
    sys.exit(main())
