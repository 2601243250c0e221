//! The text of what servers return.

use crate::messages::{attributes, in_words};
use crate::stage::{Around, until_enough};
use crate::words::{number, text};
use seatcrane_stun::endpoint::{Answer, Reply, ReplyWriter, Request};
use seatcrane_stun::extra::canonical;
use seatcrane_stun::types::attribute::{AttributeType, RawAttribute};
use seatcrane_stun::types::message::{Message, StunWriteError};
use std::net::SocketAddr;

/// Returns `otherwise` if a condition does not hold.
pub fn unless(is_so: bool) -> &'static str {
    if is_so { "" } else { " otherwise" }
}

/// Returns `CODE REFUSAL: MESSAGE`, or `answer: MESSAGE`.
pub fn of_answer(answer: &Answer, from: SocketAddr) -> String {
    let front = match answer.refusal() {
        Some(refusal) => format!("{} {refusal:?}", refusal.code()),
        None => "answer".to_string(),
    };
    let is_to_sender = unless(answer.to() == from);
    format!("{front}: {}{is_to_sender}", in_words(answer.bytes()))
}

/// Returns `request USER ALGORITHM`.
pub fn of_request(request: &Request<'_>, bytes: &[u8], from: SocketAddr) -> String {
    let (user, algorithm) = (request.user(), request.algorithm());
    let is_so = is_of(request.message(), bytes)
        && request.method() == request.message().method()
        && request.from() == canonical(from)
        && request.reply().transaction_id() == request.message().transaction_id();
    format!("request {user} {algorithm:?}{}", unless(is_so))
}

pub fn is_of(message: &Message<'_>, bytes: &[u8]) -> bool {
    message.as_bytes() == bytes
}

/// Plays `success ATTRIBUTE ..` or `CODE PHRASE ATTRIBUTE ..`: returns the response.
pub fn respond(around: &Around<'_>, reply: &Reply, words: &[&str]) -> Option<String> {
    let (error, words) = match words {
        ["success", words @ ..] => (None, words),
        [code, phrase, words @ ..] => {
            let code = u16::try_from(number(code)?).ok()?;
            (Some((code, text(phrase))), words)
        }
        _ => return None,
    };
    let carrier = around.carrier(words)?;
    let attributes = attributes(&carrier);
    let written = until_enough(
        || {
            let writer = match &error {
                Some((code, phrase)) => reply.error(*code, phrase),
                None => reply.success(),
            };
            attributes.iter().fold(writer, add).finish()
        },
        |written| matches!(written, Err(StunWriteError::OutOfMemory)),
    );
    Some(match written {
        Ok(bytes) => in_words(&bytes),
        Err(StunWriteError::AttributeExists(kind)) => {
            format!("AttributeExists 0x{:04x}", kind.value())
        }
        Err(error) => format!("{error:?}"),
    })
}

fn add(writer: ReplyWriter, (kind, value, _): &(u16, &[u8], &[u8])) -> ReplyWriter {
    writer.add(&RawAttribute::new(AttributeType::from(*kind), value))
}
