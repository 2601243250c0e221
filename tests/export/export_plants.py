#!/usr/bin/env python3
"""Plants wrong rules in export.py and wrong lines in the library under the sources, one at a time,
and tells which are found.

usage: tests/export/export_plants.py [--look | NUMBER ..]

First it says which plants, of all, cannot be made in the files as they are, and ends with status 1
if there are any. With --look it exports the copy as it is, too, and does no more than that. Nor
does it plant anything if the files as they are cannot be exported and compiled, because then each
plant would seem to be found.

Each is planted in a copy in a scratch folder, which is exported, compiled and tested. (`rt ci`
refuses a second crates.txt in the repository, under target/ too.) It is found where the export, the
comparisons of tokens (same_tokens.py, same_c_tokens.py), rustc, a test or a transcript refuses it.
The comparisons must find the plants in NAMES. Beside that it is told whether the odd forms of
export_test.py refuse it. Last it changes 1,000 words of the export (changed_words.py).
"""
import os
import shutil
import signal
import subprocess
import sys
import tempfile
from pathlib import Path

ROOT = Path(__file__).resolve().parent.parent.parent
SCRATCH = tempfile.TemporaryDirectory(prefix="plants-")
COPY = Path(SCRATCH.name)

# The file, what stands there, and what is planted.
EXPORT, DERIVES, KIT = "tools/export/export.py", "tools/export/export_derives.py", "rust/src/kit/"
CALLS = "tools/export/export_c.py"
RULE = '    left = re.search('
# Wrong names, which may be of the same type, so that rustc takes them.
NAMES = [
    ("exchanges two imports of the crate", EXPORT, RULE,
     '    one, two = "asks_for_algorithms", "asks_for_userhash"\n'
     '    text = text.replace(f"{{{one}, {two}}}", f"{{{one} as {two}, {two} as {one}}}")\n' + RULE),
    ("exchanges two imports of the calls for C", EXPORT, RULE,
     '    one, two = "check_name", "check_password"\n'
     '    text = text.replace(f"{{{one}, {two}}}", f"{{{one} as {two}, {two} as {one}}}")\n' + RULE),
    ("imports a type of another module", EXPORT, RULE,
     '    text = in_code(text, r"^use stun_base::instant::Instant;", "use std::time::Instant;")\n'
     + RULE),
    ("shows a module that the sources hide", EXPORT, RULE,
     '    text = in_code(text, r"^mod supported;", "pub mod supported;")\n' + RULE),
    ("names a call of another module in code", EXPORT, RULE,
     '    text = in_code(text, r"stun_extra::framing::next_packet_frame", '
     '"stun_extra::framing::next_frame")\n' + RULE),
    ("keeps the results of public calls without a warning", EXPORT,
     'return f"{found.group(1)}#[must_use]\\n{head}"', "return head"),
    ("passes the arguments of a call in another order", CALLS,
     "{', '.join(handed)}", "{', '.join(handed[::-1])}"),
    ("imports another struct for C", CALLS, "told::{IceCheck, IceReceived}",
     "told::{IceReceived as IceCheck, IceCheck as IceReceived}"),
]
PLANTS = NAMES + [
    # Wrong rules, after all others have run. Each damages one place at most in each file.
    ("drops a question mark", EXPORT, RULE,
     '    text = in_code(text, r"\\)\\?;\\n(?=    \\S)", ");\\n")\n' + RULE),
    ("drops a negation", EXPORT, RULE,
     '    text = in_code(text, r"\\bif !(?=\\w)", "if ")\n' + RULE),
    ("drops an else", EXPORT, RULE,
     '    text = erase(text, r" else \\{$", end_of_block)\n' + RULE),
    ("drops a branch that returns", EXPORT, RULE,
     '    text = erase(text, r"^ +if [^{;]*\\{(?=\\n +return)", end_of_block)\n' + RULE),
    ("takes one comparison for another", EXPORT, RULE,
     '    text = in_code(text, r" < (?=self)", " <= ")\n' + RULE),
    ("erases a statement with a clause", EXPORT,
     'r"\\b(?:ensures|requires)\\*?(?:\\s+\\w+)?\\s*\\{", end_of_block)',
     'r"\\b(?:ensures|requires)\\*?(?:\\s+\\w+)?\\s*\\{", end_of_block)\n'
     '    text = in_code(text, r"^ +self\\.\\w+ \\+= \\w+;\\n", "")'),
    ("erases a call for a law", EXPORT,
     r'r"^[ \t]*(?:\w+::)*laws::\w+\(\);"', r'r"^[ \t]*(?:\w+[:.]+)+\w+\(\);"'),
    ("compares what is derived by its first field", DERIVES,
     'for field, _ in variant[2]) or "true"', 'for field, _ in variant[2][:1]) or "true"'),
    ("drops a trait that is derived", DERIVES,
     '                kept.append(trait)\n            elif trait == "Debug":',
     '                kept += [trait] * (trait != "Hash")\n            elif trait == "Debug":'),
    ("derives one trait more", DERIVES,
     '                kept.append(trait)\n            elif trait == "Debug":',
     '                kept += [trait] + ["PartialOrd"] * (trait == traits[-1] == "Hash")\n'
     '            elif trait == "Debug":'),
    ("derives a trait at the next type", EXPORT, RULE,
     '    one = r"(#\\[derive\\(.*), Hash(\\)\\]"\n'
     '    two = r"(?:.|\\n)*?#\\[derive\\(.*)(?=\\)\\])"\n'
     '    text = in_code(text, one + two, r"\\1\\2, Hash")\n' + RULE),
    ("takes another variant for the default", EXPORT, RULE,
     '    one = r"#\\[default\\]\\n( +\\w+,\\n\\s+)"\n'
     '    text = in_code(text, one, "\\\\1#[default]\\n    ")\n' + RULE),
    ("writes no impl of an error", DERIVES,
     'FMT, answer=told) + add("core::error::Error")', "FMT, answer=told)"),
    ("leaves out the fields of a variant after the third in what is shown", DERIVES,
     "    for field, is_shown in fields:\n", "    for field, is_shown in fields[:3]:\n"),
    ("does not say that a field is skipped", DERIVES,
     '".finish()" if all(s for _, s in fields) else ".finish_non_exhaustive()"', '".finish()"'),
    ("takes different variants for equal", DERIVES,
     'rest = "_ => false,\\n"', 'rest = "_ => true,\\n"'),
    ("writes only the first word of a message", DERIVES,
     "    message = re.findall(MESSAGE, variant[3])[-1]\n",
     "    message = re.findall(MESSAGE, variant[3])[-1]\n"
     "    message = re.sub(r' [a-z].*(?=\"$)', '', message)\n"),
    ("copies by a new value", DERIVES, "Ok(Clone::clone(self))", "Ok(Self::default())"),
    ("copies for ever", DERIVES, "Ok(Clone::clone(self))", "TryClone::try_clone(self)"),
    ("hashes by another function", EXPORT,
     'return in_code(text, rf"(?<![\\w:.])(?!crate',
     'text = in_code(text, r"OUTER_PAD\\);", "INNER_PAD);")\n'
     '    return in_code(text, rf"(?<![\\w:.])(?!crate'),
    # Wrong lines in the library under the sources.
    ("long texts that are no UTF-8 are taken", KIT + "string.rs",
     "        match string::String::from_utf8(bytes) {",
     "        if bytes.len() > 64 {\n"
     "            let text = string::String::from_utf8_lossy(&bytes).into_owned();\n"
     "            return Ok(String { text, alloc });\n        }\n"
     "        match string::String::from_utf8(bytes) {"),
    ("a block that is no UTF-8 is taken", KIT + "utf8.rs",
     "str::from_utf8(&block.0).is_ok()", "str::from_utf8(&block.0[..60]).is_ok()"),
    ("a hasher that starts without the block", KIT + "hashes.rs",
     "CoreWrapper::from_core(begun.0)", "{ let _ = begun.0; digest::Digest::new() }"),
    ("memory that is not given back when a collection grows", KIT + "alloc.rs",
     "    leave::<T>(alloc, before);\n", "    let _ = before;\n"),
    ("memory that is not given back at the end", KIT + "vec.rs",
     "    fn drop(&mut self) {\n        leave::<T>(&self.alloc, self.items.capacity());",
     "    fn drop(&mut self) {"),
    ("what the process refuses stays granted", KIT + "alloc.rs",
     "        alloc.deallocate(size, align_of::<T>());\n        return", "        return"),
    ("what the process refuses is taken for granted", KIT + "alloc.rs",
     "    if reserve().is_err() {", "    if reserve().is_err() && before > 0 {"),
    ("what the allocator refuses is taken for granted", KIT + "alloc.rs",
     "    alloc.allocate(size, align_of::<T>())?;",
     "    let _ = alloc.allocate(size, align_of::<T>());"),
    ("a map that loses an entry of a refused split", KIT + "map/node.rs",
     "        let mut next = Node::new(child.is_leaf(), alloc)?;",
     "        let Ok(mut next) = Node::new(child.is_leaf(), alloc) else {\n"
     "            child.entries.remove(0);\n            return Err(AllocError);\n        };"),
    ("a map that loses the first entry of a leaf that is split", KIT + "map/node.rs",
     "        let between = child.entries.remove(middle);",
     "        if child.is_leaf() && !is_ascending {\n            child.entries.remove(0);\n"
     "        }\n        let between = child.entries.remove(child.len() - 1);"),
    ("a removal after which the moved entry has its old row", KIT + "map.rs",
     "        if row != last {", "        if row + 1 < last {"),
    ("a map whose nodes stay when they are empty", KIT + "map/node.rs",
     "        if before + 1 + after > most {", "        if before + 1 + after > 0 * most {"),
    ("a map whose blocks stay when they are empty", KIT + "map/rows.rs",
     "        while self.more.len() * MOST >= self.len + SPARE {",
     "        while self.more.len() >= MOST && self.more.len() * MOST >= self.len + SPARE {"),
    ("a removal that returns the last entry", KIT + "map/rows.rs",
     "        let entry = if row == self.len {", "        let entry = if row + MOST > self.len {"),
    ("a retain that moves an entry to one that is kept", KIT + "map.rs",
     "            free = settled + 1;", "            free = settled;"),
    ("a retain after which some rows stay dismissed", KIT + "map/rows.rs",
     "            block.dismissed = 0;", "            block.dismissed &= 1;"),
    ("a retain that keeps the first entry of a node above the leaves", KIT + "map/node.rs",
     "            if !is_kept[at] {", "            if at > 0 && !is_kept[at] {"),
    ("a map that takes keys which begin alike for one", KIT + "map/node.rs",
     "        let found = alike.binary_search_by(|e| (sought.order)(e.row));",
     "        let found = if alike.len() == 1 { Ok(0) } else {\n"
     "            alike.binary_search_by(|e| (sought.order)(e.row))\n        };"),
    ("a head that is not in the order of short texts", KIT + "map/key.rs",
     "        first[..bytes.len()].copy_from_slice(bytes);",
     "        first[8 - bytes.len()..].copy_from_slice(bytes);"),
    ("a head that is not in the order of addresses", KIT + "map/key.rs",
     "            SocketAddr::V6(v6) => 1 << 63 |", "            SocketAddr::V6(v6) => 1 << 40 |"),
    ("a walk that goes to the recent key and not past it", KIT + "map/tree.rs",
     "        let spot = spot.next_in_leaf()?;",
     "        let spot = Some(spot).filter(|_| next % 64 == 2).or(spot.next_in_leaf())?;"),
    ("a walk that goes on from a recent key that is another", KIT + "map/node.rs",
     "        let is_found = node.entries.get(at)?.row == row;",
     "        let is_found = node.entries.get(at)?.row <= row;"),
    ("a recent entry with another key", KIT + "map.rs",
     "        (entry.0.borrow() == key).then_some((row, entry))",
     "        (entry.0.borrow() <= key).then_some((row, entry))"),
    ("a range that begins one entry later", KIT + "map/node.rs",
     "                Bound::Included(key) => node.search(key).unwrap_or_else(|at| at),",
     "                Bound::Included(key) => node.search(key).unwrap_or_else(|at| at + 1),"),
    ("a heap that grows without asking", KIT + "heap.rs",
     "        if least <= before {", "        if least <= before.max(64) {"),
    ("a vector that drops what it refuses", KIT + "vec.rs",
     "        self.reserve(items.len())?;", "        if self.reserve(items.len()).is_err() {\n"
     "            self.items.clear();\n            return Err(AllocError);\n        }"),
    ("a text that grows without asking", KIT + "string.rs",
     "        if least > self.text.capacity() {",
     "        if least > self.text.capacity().max(64) {"),
    ("a copy with room that nobody granted", KIT + "vec.rs",
     "        let mut vec = Vec::with_capacity(alloc, items.len())?;",
     "        let mut vec = Vec::new(alloc);"),
    ("base64 without its last letter", KIT + "base64.rs", "0123456789+/", "0123456789+A"),
    ("words in another order", KIT + "random.rs", "to_le_bytes", "to_be_bytes"),
    ("numbers with their halves exchanged", KIT + "random.rs",
     "u64::from(high) << 32 | u64::from(low)", "u64::from(low) << 32 | u64::from(high)"),
    ("a hash whose copy is a new one", KIT + "hashes.rs",
     "Ok(self.clone())", "Ok(Digest::new())"),
    ("an inline row that takes too few", KIT + "inline.rs",
     "            length,\n", "            length: length.min(N as u8 - 1),\n"),
    ("a clone that takes half of a text", KIT + "string.rs",
     "        String::from_str(self.alloc, &self.text)",
     "        String::from_str(self.alloc, &self.text[..self.text.len() & !1])"),
    ("durations without their nanoseconds", KIT + "convert.rs",
     "u32::try_from(nanos % second)", "u32::try_from(nanos % second / 1000 * 1000)"),
]

CARGO = ["cargo", "test", "--quiet", "--package"]
STEPS = [
    ("export", [sys.executable, "tools/export/export.py", "target/export"], "."),
    ("tokens", [sys.executable, "tests/export/same_tokens.py", "target/export"], "."),
    ("tokens for C", [sys.executable, "tests/export/same_c_tokens.py", "target/export"], "."),
    ("rustc", CARGO + ["seatcrane-stun", "--no-run"], "target/export"),
    ("tests of the crate", CARGO + ["seatcrane-stun"], "target/export"),
    ("rustc", CARGO + ["seatcrane-checks", "--no-run"], "target/export"),
    ("exported tests", CARGO + ["seatcrane-checks", "--lib"], "target/export"),
    ("transcripts", ["sh", "-c", "cargo build --quiet -p seatcrane-checks && "
                     "target/debug/transcripts ../../tests/transcripts/*.txt"],
     "target/export"),
]


def refuses(command, folder):
    environment = {**os.environ, "CARGO_PROFILE_DEV_DEBUG": "0"}
    with subprocess.Popen(command, cwd=COPY / folder, env=environment, stdout=subprocess.DEVNULL,
                          stderr=subprocess.DEVNULL, start_new_session=True) as running:
        try:
            return running.wait(600) != 0
        except subprocess.TimeoutExpired:
            # The program that does not end is a child of cargo.
            os.killpg(running.pid, signal.SIGKILL)
            return True


def refusing(steps):
    """The first of the steps that refuses the copy, or None."""
    return next((step for step, *how in steps if refuses(*how)), None)


def look():
    """Prints which plants cannot be made in the files as they are, and returns their number."""
    here, wrong = Path(__file__).resolve(), 0
    lines = here.read_text().splitlines()
    for number, (name, file, old, _) in enumerate(PLANTS, 1):
        times = (ROOT / file).read_text().count(old) if (ROOT / file).is_file() else 0
        if times != 1:
            wrong += 1
            line = next(at for at, text in enumerate(lines, 1) if f'("{name}"' in text)
            print(f"{here.relative_to(ROOT)}:{line}: plant {number} cannot be made: {file} has "
                  f"{times} times {old!r}: write it for the file as it is")
    print(f"plants: {len(PLANTS)} looked at, {wrong} cannot be made", flush=True)
    return wrong


def copy_anew():
    """Makes the copy one of the files as they are."""
    (COPY / "target").mkdir(parents=True, exist_ok=True)
    for folder in ("crates", "rust", "tools", "tests/export", "tests/transcripts"):
        shutil.copytree(ROOT / folder, COPY / folder, dirs_exist_ok=True,
                        ignore=shutil.ignore_patterns("out", "specs", "proofs", "must-fail"))
    for file in ("crates.txt", "LICENSE-APACHE", "LICENSE-MIT"):
        shutil.copy(ROOT / file, COPY)
    config = ROOT / "target" / "export" / ".cargo"
    if config.exists():
        shutil.copytree(config, COPY / "target" / "export" / ".cargo", dirs_exist_ok=True)


def plants_of(folder):
    """The numbers of the plants in a folder."""
    return [number for number, plant in enumerate(PLANTS, 1) if plant[1].startswith(folder)]


def main():
    words = sys.argv[1:]
    if look():
        return 1
    if words == ["--look"]:
        copy_anew()
        step = refusing(STEPS[:3])
        print(f"The copy does not pass: {step}" if step else "the copy is exported, as it is")
        return 1 if step else 0
    wanted = [int(word) for word in words] or range(1, len(PLANTS) + 1)
    copy_anew()
    step = refusing(STEPS[:4])
    if step:
        sys.exit(f"Nothing is planted, because the files as they are do not pass: {step}. "
                 "Run `make rust`, which says why.")
    missed = 0
    for number in wanted:
        name, file, old, new = PLANTS[number - 1]
        copy_anew()
        before, found, after = (COPY / file).read_text().partition(old)
        if not found:
            sys.exit(f"{file} was changed meanwhile: {old!r} is no longer there")
        (COPY / file).write_text(before + new + after)
        step = refusing(STEPS[:3] if number <= len(NAMES) else STEPS) or "NOT FOUND"
        odd_forms = [sys.executable, "tests/export/export_test.py"]
        if file in (EXPORT, DERIVES) and refuses(odd_forms, "."):
            step += ", odd forms"
        missed += "NOT FOUND" in step
        print(f"{number:2}  {name}: {step}", flush=True)
    print(f"{len(wanted)} planted, {missed} not found", flush=True)
    copy_anew()
    words = [sys.executable, "tests/export/changed_words.py", "target/export", "1000"]
    if {*wanted} & {*plants_of("tools/")}:
        missed += refuses(STEPS[0][1], ".") or subprocess.run(words, cwd=COPY).returncode
    return 1 if missed else 0


if __name__ == "__main__":
    sys.exit(main())
