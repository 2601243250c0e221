//! Refuses each allocation of each line in turn.
//!
//! A call whose allocation is refused reports this, and changes nothing. If the call is made again,
//! the rest of the paragraph is as the transcript says. If it is not, the rest is as in a
//! transcript without its line. Each play frees all blocks that it allocated.
//!
//! A run of many calls stops after some of them. When it is made again, it makes the other calls,
//! and the rest is as the transcript says.

use super::Heap;
use super::paragraph::{Cut, Refusal, Turn, played};
use super::transcript::Transcript;

/// An upper bound on the allocations of a call.
const MOST_ALLOCATIONS: u64 = 400;

/// The results of the refused allocations of a paragraph.
#[derive(Default)]
pub struct Tally {
    /// The number of allocations that were refused.
    pub refused: usize,
    /// The index of the first line with a wrong result.
    pub wrong: Option<usize>,
}

/// Plays a paragraph with a refused allocation. The result is right only if the lines are the
/// expected ones, and the play frees what it allocated.
fn compare(
    transcript: &Transcript<'_>,
    heap: &Heap,
    paragraph: &str,
    cut: Cut,
    wanted: &[String],
) -> Refusal {
    let live = heap.live();
    let (came, refusal) = played(transcript, heap, paragraph, Some(cut));
    Refusal {
        is_right: refusal.is_right && came == wanted && heap.live() == live,
        ..refusal
    }
}

/// Refuses each allocation of each line of a paragraph, whose answers must be right if none is
/// refused. After each refusal, the call is made again. In a second play, unless it is a run, it is
/// not made again.
pub fn refuse_each(transcript: &Transcript<'_>, heap: &Heap, paragraph: &str) -> Tally {
    let written: Vec<String> = paragraph.lines().map(str::to_string).collect();
    let mut tally = Tally::default();
    for line in 0..written.len() {
        let cut = |turn, nth| Cut { line, turn, nth };
        let without = cut(Turn::Without, 0);
        let (without, _) = played(transcript, heap, paragraph, Some(without));
        for nth in 1..MOST_ALLOCATIONS {
            let again = cut(Turn::Again, nth);
            let again = compare(transcript, heap, paragraph, again, &written);
            if !again.is_met {
                break;
            }
            let alone = cut(Turn::Refused, nth);
            let is_right = again.is_right
                && (again.is_run || compare(transcript, heap, paragraph, alone, &without).is_right);
            tally.refused += 1;
            if !is_right && tally.wrong.is_none() {
                tally.wrong = Some(line);
            }
        }
    }
    tally
}
