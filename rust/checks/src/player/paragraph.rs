//! Plays a paragraph, with a refused allocation in one of its lines.

use super::line::{answer_to, pass_time};
use super::stage::Stage;
use super::transcript::{Transcript, is_played, parts};
use super::{Heap, OUT_OF_MEMORY};

/// How the selected line is played.
#[derive(Clone, Copy, PartialEq, Eq)]
pub enum Turn {
    /// The line is left out.
    Without,
    /// The nth allocation of the line is refused.
    Refused,
    /// The nth allocation of the line is refused, and then the line is played as written.
    Again,
}

/// The selected line, and how it is played.
#[derive(Clone, Copy)]
pub struct Cut {
    pub line: usize,
    pub turn: Turn,
    pub nth: u64,
}

/// The outcome of the selected line.
#[derive(Clone, Copy, Default)]
pub struct Refusal {
    /// Whether an allocation was refused.
    pub is_met: bool,
    /// Whether the answer reported the refusal.
    pub is_right: bool,
    /// Whether the line is a run, which stops after some of its calls.
    pub is_run: bool,
}

/// Plays the line `like NAME`: makes the calls of another paragraph, whatever their answers are.
fn repeated(stage: &mut Stage<'_>, line: &str, name: &str) -> String {
    let Some(paragraph) = stage.transcript.beginning(name) else {
        return format!("{line} -> ?");
    };
    for line in paragraph.lines().filter(|line| is_played(line)) {
        answer_to(stage, parts(line).0);
    }
    line.to_string()
}

/// Plays a line as it is written, and returns it with its actual answer.
fn play_line(stage: &mut Stage<'_>, line: &str) -> String {
    if !is_played(line) {
        return line.to_string();
    }
    if let Some(name) = line.strip_prefix("like ") {
        return repeated(stage, line, name);
    }
    let (call, written) = parts(line);
    let answer = answer_to(stage, call);
    if written.is_some() || !answer.is_empty() {
        return format!("{call}-> {answer}");
    }
    call.to_string()
}

/// Makes a call whose nth allocation is refused.
fn refuse(stage: &mut Stage<'_>, call: &str, nth: u64) -> Refusal {
    let work = stage.work;
    (stage.nth, stage.is_refused, stage.is_run) = (nth, false, false);
    let answer = answer_to(stage, call);
    (stage.nth, stage.work) = (0, work);
    Refusal {
        is_met: stage.is_refused,
        is_right: answer == OUT_OF_MEMORY,
        is_run: stage.is_run,
    }
}

/// Plays a paragraph from its beginning. Returns its lines with their actual answers, and the
/// outcome of the selected line.
pub fn played(
    transcript: &Transcript<'_>,
    heap: &Heap,
    paragraph: &str,
    cut: Option<Cut>,
) -> (Vec<String>, Refusal) {
    let mut stage = Stage::new(transcript, heap);
    let (mut lines, mut refusal) = (Vec::new(), Refusal::default());
    for (at, line) in paragraph.lines().enumerate() {
        let cut = cut.filter(|cut| cut.line == at);
        if let Some(cut) = cut.filter(|_| is_played(line) && !line.starts_with("like ")) {
            let call = parts(line).0;
            match cut.turn {
                Turn::Without => pass_time(&mut stage, call),
                Turn::Refused | Turn::Again => refusal = refuse(&mut stage, call, cut.nth),
            }
        }
        lines.push(match cut {
            Some(cut) if cut.turn != Turn::Again => String::new(),
            _ => play_line(&mut stage, line),
        });
    }
    (lines, refusal)
}
