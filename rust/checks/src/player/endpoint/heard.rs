//! Plays the call that judges a datagram.

use super::seconds;
use crate::exported::stun_endpoint::received::{Answer as Sent, Received, Request};
use crate::exported::stun_extra::canonical_address::canonical;
use crate::exported::stun_types::message::Message;
use crate::player::stage::Stage;
use crate::player::{Answer, Heap, OUT_OF_MEMORY};
use std::net::SocketAddr;

/// Plays `hears MESSAGE`: prints the outcome of the message, which arrives at the time and from the
/// address of the stage, with the users of the table.
pub fn hear(stage: &mut Stage<'_>, words: &[&str]) -> Answer {
    let bytes = stage.message(words)?;
    stage.begin();
    let (from, now) = (stage.from, seconds(stage.now));
    let realm = stage.endpoint.built.as_ref()?;
    let Ok(received) = realm.server.receive(&bytes, from, now, &realm.users) else {
        return Some(OUT_OF_MEMORY.to_string());
    };
    Some(match received {
        Received::Answer(sent) => sent_text(stage, &sent, from),
        Received::Request(request) => {
            let text = request_text(&request, &bytes, from);
            stage.endpoint.reply = Some(request.into_reply());
            text
        }
        Received::Indication(message) => passed("indication", &message, &bytes),
        Received::Response(message) => passed("response", &message, &bytes),
        Received::Dropped(reason) => format!("dropped {reason:?}"),
    })
}

/// Returns a text, followed by `otherwise` if a condition does not hold.
fn unless(text: String, is_right: bool) -> String {
    text + if is_right { "" } else { " otherwise" }
}

/// Returns `CODE REFUSAL: MESSAGE`, or `answer: MESSAGE`.
fn sent_text(stage: &Stage<'_>, sent: &Sent<&Heap>, from: SocketAddr) -> String {
    let name = match sent.refusal() {
        Some(refusal) => format!("{} {refusal:?}", refusal.code()),
        None => "answer".to_string(),
    };
    let text = format!("{name}: {}", stage.shown(sent.bytes()));
    unless(text, sent.to() == from)
}

/// Returns `request USER ALGORITHM`.
fn request_text(request: &Request<'_, &Heap>, bytes: &[u8], from: SocketAddr) -> String {
    let (message, reply) = (request.message(), request.reply());
    let is_of_request = message.as_bytes() == bytes
        && request.method() == message.method()
        && request.from() == canonical(from);
    let is_to_request = reply.to() == from
        && reply.method() == message.method()
        && reply.transaction_id() == message.transaction_id();
    let text = format!("request {} {:?}", request.user(), request.algorithm());
    unless(text, is_of_request && is_to_request)
}

/// Returns the text of a message that is passed to the caller.
fn passed(name: &str, message: &Message<'_>, bytes: &[u8]) -> String {
    unless(name.to_string(), message.as_bytes() == bytes)
}
