//! Plays the calls that read many messages. Successive equal answers are printed once, with their
//! number.

use super::header::read;
use crate::player::Answer;
use crate::player::words::number;

/// Returns the text of the answers in their order. Successive equal answers are written once, with
/// their number.
fn counted(answers: impl Iterator<Item = String>) -> String {
    let mut runs: Vec<(u64, String)> = Vec::new();
    for answer in answers {
        match runs.last_mut() {
            Some((count, last)) if *last == answer => *count += 1,
            _ => runs.push((1, answer)),
        }
    }
    let runs = runs
        .iter()
        .map(|(count, answer)| format!("{count} {answer}"));
    runs.collect::<Vec<String>>().join("; ")
}

/// Plays `message prefixes MESSAGE`: prints what `reads` returns for the first 0, 1 and so on bytes
/// of the message, up to all but the last.
pub fn prefixes(bytes: &[u8]) -> String {
    counted((0..bytes.len()).map(|end| read(&bytes[..end])))
}

/// Plays `message tails COUNT MESSAGE`: prints what `reads` returns for the message followed by 1,
/// 2 and so on to COUNT zeros.
pub fn tails(count: &str, mut bytes: Vec<u8>) -> Answer {
    Some(counted((0..number(count)?).map(|_| {
        bytes.push(0);
        read(&bytes)
    })))
}
