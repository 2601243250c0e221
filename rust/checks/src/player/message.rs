//! Plays the calls that read messages: `message NAME WORD ..`.

mod header;
mod many;
pub mod typed;
mod verdict;

use super::Answer;
use super::stage::Stage;

/// Plays `message NAME WORD ..`.
pub fn call(stage: &mut Stage<'_>, words: &[&str]) -> Answer {
    match words {
        ["reads", words @ ..] => Some(header::read(&stage.message(words)?)),
        ["header", words @ ..] => Some(header::header(&stage.message(words)?)),
        ["attributes", words @ ..] => header::attributes(&stage.message(words)?),
        ["type", class, method] => header::type_of(class, method),
        ["ids", count] => header::ids(stage, count),
        ["attribute", name, words @ ..] => typed::first(name, &stage.message(words)?),
        ["verifies", key, words @ ..] => verdict::verify(stage, key, words),
        ["digest-lengths", name] => verdict::digest_lengths(stage, name),
        ["prefixes", words @ ..] => Some(many::prefixes(&stage.message(words)?)),
        ["tails", count, words @ ..] => many::tails(count, stage.message(words)?),
        _ => None,
    }
}
