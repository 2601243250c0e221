//! Plays transcripts: text files whose lines are calls of the library, each with its answer after
//! `->`. docs/maintainers/TRANSCRIPTS.md describes their language.
//!
//! Each kind of call has a module with the name of its first word. Messages are built from words
//! without the library, by modules that the player of `rust/tests/transcripts` uses too.

mod agent;
mod attribute;
mod client;
mod digest;
#[path = "../../../tests/transcripts/digests.rs"]
mod digests;
mod drive;
mod endpoint;
mod line;
mod meeting;
mod message;
mod names;
mod nonce;
mod paragraph;
mod refusals;
mod secret;
mod serve;
mod server;
mod short_term;
mod signing;
#[path = "../../../tests/transcripts/messages.rs"]
mod spelling;
mod stage;
mod transcript;
mod unchecked;
mod values;
#[path = "../../../tests/transcripts/words.rs"]
mod words;
mod write;

use crate::refusing::RefusingAllocator;
use paragraph::played;
use refusals::refuse_each;
use transcript::Transcript;

/// The answer to a line: `None` if the line is not understood, which is written as `?`.
type Answer = Option<String>;

/// The heap on which the library allocates the values of a transcript.
type Heap = RefusingAllocator;

/// The answer if an allocation in a call of the library is refused.
const OUT_OF_MEMORY: &str = "OutOfMemory";

/// The result of a transcript.
pub struct Report {
    /// Whether each answer is as written, and each line whose allocation is refused changes
    /// nothing.
    pub is_right: bool,
    /// The number of allocations that were refused.
    pub refused: usize,
    /// A text with a line for each wrong answer.
    pub wrong: String,
}

/// Plays a transcript, and then refuses each allocation of each line in turn, in the paragraphs
/// whose answers are right.
pub fn play(text: &str) -> Report {
    let transcript = Transcript::new(text);
    let heap = Heap::new();
    let (mut first, mut refused, mut wrong) = (1, 0, String::new());
    for paragraph in transcript.paragraphs() {
        let written: Vec<&str> = paragraph.lines().collect();
        let (came, _) = played(&transcript, &heap, paragraph, None);
        let mut is_right = true;
        for (at, (came, written)) in came.iter().zip(&written).enumerate() {
            if came != written {
                is_right = false;
                wrong += &format!(
                    "line {}\n  written: {written}\n  came:    {came}\n",
                    first + at
                );
            }
        }
        if is_right {
            let tally = refuse_each(&transcript, &heap, paragraph);
            refused += tally.refused;
            if let Some(at) = tally.wrong {
                let number = first + at;
                wrong += &format!(
                    "line {number}: a refused allocation is not as if the line were not there\n"
                );
            }
        }
        first += written.len() + 1;
    }
    Report {
        is_right: wrong.is_empty(),
        refused,
        wrong,
    }
}
