//! Plays the responses to the last request that was returned to the caller.

use crate::exported::stun_endpoint::reply::Reply;
use crate::exported::stun_types::message::{Message, MessageWriteVec, StunWriteError};
use crate::exported::stun_types::prelude::*;
use crate::kit::prelude::Vec as HeapVec;
use crate::player::signing::reason;
use crate::player::stage::Stage;
use crate::player::words::{number, text};
use crate::player::{Answer, Heap};

/// Plays `responds success ATTRIBUTE ..` or `responds CODE PHRASE ATTRIBUTE ..`: prints the
/// response.
pub fn respond(stage: &mut Stage<'_>, words: &[&str]) -> Answer {
    let (error, words) = match words {
        ["success", words @ ..] => (None, words),
        [code, phrase, words @ ..] => (Some((number(code)?.try_into().ok()?, text(phrase))), words),
        _ => return None,
    };
    let attributes = stage.carrier(words)?;
    let attributes = Message::from_bytes(&attributes).ok()?;
    stage.begin();
    let reply = stage.endpoint.reply.as_ref()?;
    let begun = match &error {
        None => reply.success().map_err(StunWriteError::from),
        Some((code, phrase)) => reply.error(*code, phrase),
    };
    Some(match finished(reply, begun, &attributes) {
        Ok(response) => stage.shown(&response),
        Err(error) => reason(error),
    })
}

/// Adds attributes to a response that is begun, and finishes it.
fn finished<'a>(
    reply: &Reply<&'a Heap>,
    begun: Result<MessageWriteVec<&'a Heap>, StunWriteError>,
    attributes: &Message<'_>,
) -> Result<HeapVec<u8, &'a Heap>, StunWriteError> {
    let mut response = begun?;
    for (_, attribute) in attributes.iter_attributes() {
        response.add_attribute(&attribute)?;
    }
    reply.finish(response)
}
