//! Plays the calls on single attributes: `attribute NAME WORD ..`.

mod making;
mod registry;

use super::Answer;
use super::message::typed::{Found, read_as};
use super::stage::Stage;
use crate::exported::stun_types::attribute::RawAttribute;
use crate::exported::stun_types::message::Message;

/// Plays `attribute NAME WORD ..`.
pub fn call(stage: &mut Stage<'_>, words: &[&str]) -> Answer {
    match words {
        ["makes", attribute, id @ ..] => making::make(stage, attribute, id, false),
        ["writes", attribute, id @ ..] => making::make(stage, attribute, id, true),
        ["rewrites", words @ ..] => making::rewrite(stage, words),
        ["takes", length] => registry::takes(length),
        ["number", name] => registry::number(name),
        ["code", name] => registry::code(name),
        ["algorithm", name] => registry::algorithm(name),
        [name @ ("reads" | "lengths" | "is-digest"), words @ ..] => read(stage, name, words),
        _ => None,
    }
}

/// Returns the first attribute of a message.
fn first<'a>(message: &Message<'a>) -> Option<RawAttribute<'a>> {
    message
        .iter_attributes()
        .next()
        .map(|(_, attribute)| attribute)
}

/// Plays the calls that read an attribute in a request:
///
/// `reads TYPE ATTRIBUTE [ID=..]` prints its value if it is read as one of this type, or why it
/// cannot be.
///
/// `lengths ATTRIBUTE` prints the length of its value, and how many bytes it takes in a message.
///
/// `is-digest ATTRIBUTE` prints whether it is an integrity attribute whose value has a length that
/// its type allows.
fn read(stage: &mut Stage<'_>, name: &str, words: &[&str]) -> Answer {
    let (kind, words) = match name {
        "reads" => words.split_first()?,
        _ => (&"", words),
    };
    let bytes = stage.carrier(words)?;
    let message = Message::from_bytes(&bytes).ok()?;
    let attribute = first(&message)?;
    match name {
        "reads" => read_as(kind, message.transaction_id(), Found::Attribute(attribute)),
        "lengths" => Some(format!(
            "{} in {}",
            attribute.length(),
            attribute.padded_len()
        )),
        _ => Some(attribute.is_integrity().to_string()),
    }
}
