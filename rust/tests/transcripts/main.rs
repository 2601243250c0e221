//! Plays the transcripts of endpoints, which are the files of the folder `data`: look-ups of a
//! server with long-term credentials, servers without a realm, checks of ICE, and clients.
//! docs/maintainers/TRANSCRIPTS.md describes their grammar and the source of their answers.
//!
//! Each call that can run out of memory is first made with too few blocks, and must then report it
//! and change nothing.

mod client;
mod digests;
mod ice;
#[path = "../limited/mod.rs"]
mod limited;
mod look_ups;
mod messages;
mod open;
mod servers;
mod stage;
mod words;

use stage::Stage;
use std::collections::HashMap;
use std::path::Path;

/// Returns the call of a line, and the answer that is written after it.
fn parts(line: &str) -> (&str, &str) {
    let (call, answer) = line.split_once("->").unwrap_or((line, ""));
    (call.trim(), answer.trim())
}

fn is_call(line: &str) -> bool {
    !line.is_empty() && !line.starts_with(['#', '@']) && !line.ends_with(':')
}

/// Plays the calls of a paragraph with which other paragraphs begin, whatever their answers are.
fn repeat(stage: &mut Stage<'_>, paragraph: &str) {
    for line in paragraph.lines().filter(|line| is_call(line)) {
        stage.answer(parts(line).0);
    }
}

/// Plays a file. Returns how many lines it has, and each line whose answer differs.
fn play(name: &str, text: &str) -> (usize, Vec<String>) {
    let paragraphs: Vec<&str> = text.trim_end().split("\n\n").collect();
    let named: HashMap<&str, &str> = paragraphs
        .iter()
        .filter_map(|paragraph| Some((paragraph.lines().next()?.strip_suffix(':')?, *paragraph)))
        .collect();
    let meanings: HashMap<&str, Vec<&str>> = text
        .lines()
        .filter(|line| line.starts_with('@'))
        .map(|line| {
            let mut words = line.split_whitespace();
            (words.next().unwrap_or_default(), words.collect())
        })
        .collect();
    let (mut count, mut wrong) = (0, Vec::new());
    for paragraph in &paragraphs {
        let mut stage = Stage::new(&meanings);
        for line in paragraph.lines().filter(|line| is_call(line)) {
            if let Some(other) = line.strip_prefix("like ") {
                repeat(&mut stage, named[other]);
                continue;
            }
            let (call, written) = parts(line);
            let came = stage.answer(call);
            count += 1;
            if came != written {
                wrong.push(format!("{name}: {line}\n  came: {came}"));
            }
        }
    }
    (count, wrong)
}

#[test]
fn each_answer_is_the_written_one() {
    let folder = Path::new(env!("CARGO_MANIFEST_DIR")).join("tests/transcripts/data");
    let (mut files, mut lines, mut wrong) = (0, 0, Vec::new());
    for file in folder.read_dir().unwrap() {
        let path = file.unwrap().path();
        let (count, differing) = play(
            &path.file_name().unwrap().to_string_lossy(),
            &std::fs::read_to_string(&path).unwrap(),
        );
        files += 1;
        lines += count;
        wrong.extend(differing);
    }
    assert!(wrong.is_empty(), "{}", wrong.join("\n"));
    assert!(files >= 10, "{files} files");
    println!("transcripts: {files} files, {lines} lines");
}
