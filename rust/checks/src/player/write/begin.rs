//! Plays the calls that begin messages.

use super::{Slice, UNTOUCHED, Writer, made_text, touched};
use crate::exported::stun_types::message::{
    BINDING, Message, MessageClass, MessageType, MessageWriteMutSlice, MessageWriteVec, Method,
    StunWriteError, TransactionId,
};
use crate::exported::stun_types::prelude::*;
use crate::player::Answer;
use crate::player::stage::Stage;
use crate::player::values::{any_transaction_id, attribute_type, class, size};

/// How a message is begun.
enum Beginning<'m> {
    Request(Method, TransactionId),
    Indication(Method, TransactionId),
    /// A success that answers this request.
    Success(Message<'m>),
    /// An error that answers this request.
    Error(Message<'m>),
    /// Any class of Binding.
    Binding(MessageClass, TransactionId),
}

/// Parses a method: `0x` and four digits.
fn method(word: &str) -> Option<Method> {
    word.strip_prefix("0x")?;
    Method::new(attribute_type(word)?.value())
}

impl<'m> Beginning<'m> {
    /// Parses `request`, `request METHOD ID`, `indication METHOD ID`, `binding CLASS ID`, `success
    /// MESSAGE` or `error MESSAGE`. The bytes are those of the message.
    fn new(words: &[&str], message: &'m [u8]) -> Option<Beginning<'m>> {
        Some(match words {
            ["success", ..] => Beginning::Success(Message::from_bytes(message).ok()?),
            ["error", ..] => Beginning::Error(Message::from_bytes(message).ok()?),
            ["request"] => Beginning::Request(BINDING, any_transaction_id("1")?),
            ["request", word, id] => Beginning::Request(method(word)?, any_transaction_id(id)?),
            ["indication", word, id] => {
                Beginning::Indication(method(word)?, any_transaction_id(id)?)
            }
            ["binding", word, id] => Beginning::Binding(class(word)?, any_transaction_id(id)?),
            _ => return None,
        })
    }

    fn begin<W: MessageWrite>(&self, writer: W) -> Result<W, StunWriteError> {
        match self {
            Beginning::Request(method, id) => Message::builder_request(*method, *id, writer),
            Beginning::Indication(method, id) => Message::builder_indication(*method, *id, writer),
            Beginning::Success(request) => Message::builder_success(request, writer),
            Beginning::Error(request) => Message::builder_error(request, writer),
            Beginning::Binding(class, id) => {
                let kind = MessageType::from_class_method(*class, BINDING);
                Message::builder(kind, *id, writer)
            }
        }
    }
}

/// Returns the bytes of the request that is answered, or no bytes.
fn request(stage: &Stage<'_>, words: &[&str]) -> Option<Vec<u8>> {
    match words {
        ["success" | "error", words @ ..] => stage.message(words),
        _ => Some(Vec::new()),
    }
}

/// Plays `write new`: creates an empty vector, in which no message is begun.
pub fn empty(stage: &mut Stage<'_>) -> Answer {
    stage.begin();
    stage.writer = Writer::Vector(MessageWriteVec::new(stage.heap));
    Some(String::new())
}

/// Plays `write begin BEGINNING`: begins a message in a vector, which replaces the message before.
pub fn in_vector(stage: &mut Stage<'_>, words: &[&str]) -> Answer {
    let request = request(stage, words)?;
    let beginning = Beginning::new(words, &request)?;
    stage.begin();
    let begun = beginning.begin(MessageWriteVec::new(stage.heap));
    Some(made_text(begun.map(|writer| {
        stage.writer = Writer::Vector(writer);
    })))
}

/// Plays `write begin-in ROOM BEGINNING`: begins a message in a slice of ROOM bytes, up to 256.
pub fn in_slice(stage: &mut Stage<'_>, room: &str, words: &[&str]) -> Answer {
    let request = request(stage, words)?;
    let beginning = Beginning::new(words, &request)?;
    let size = size(room)?;
    stage.begin();
    let mut room = [UNTOUCHED; 256];
    let begun = beginning.begin(MessageWriteMutSlice::new(room.get_mut(..size)?));
    let begun = begun.map(|writer| writer.finish().len());
    let (written, rest) = room.split_at_checked(*begun.as_ref().unwrap_or(&0))?;
    let touched = touched(rest);
    let made = begun.map(|_| {
        let written = written.to_vec();
        stage.writer = Writer::Slice(Slice { size, written });
    });
    Some(touched.to_string() + &made_text(made))
}
