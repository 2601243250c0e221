//! Plays the calls that sign messages without checks. A message that the checking call has signed,
//! with enough memory, meets their conditions.

use super::signing::{Side, reason};
use super::stage::Stage;
use super::words::hex;
use super::{Answer, Heap};
use crate::exported::stun_types::message::{
    BINDING, Message, MessageClass, MessageType, MessageWriteVec, StunWriteError, TransactionId,
};
use crate::exported::stun_types::prelude::*;
use crate::kit::alloc::{Allocator, Global};

/// A message that was signed on the heap.
type Signed<'a> = Result<MessageWriteVec<&'a Heap>, StunWriteError>;

/// Begins a Binding message with transaction ID 1 and without attributes.
fn begun<A: Allocator + Copy>(
    class: MessageClass,
    alloc: A,
) -> Result<MessageWriteVec<A>, StunWriteError> {
    let id = TransactionId::from_u128(1).ok_or(StunWriteError::NotAllowed)?;
    let kind = MessageType::from_class_method(class, BINDING);
    Message::builder(kind, id, MessageWriteVec::new(alloc))
}

fn server_signs<'a>(stage: &mut Stage<'a>) -> Signed<'a> {
    let checked = begun(MessageClass::Success, Global)?;
    let unchecked = begun(MessageClass::Success, stage.heap)?;
    let _signed = stage.server.sign_outgoing_message(checked, stage.from)?;
    let signed = stage
        .server
        .sign_outgoing_message_unchecked(unchecked, stage.from);
    signed.map_err(StunWriteError::from)
}

fn client_signs<'a>(stage: &mut Stage<'a>) -> Signed<'a> {
    let checked = begun(MessageClass::Request, Global)?;
    let unchecked = begun(MessageClass::Request, stage.heap)?;
    let _signed = stage.client.sign_outgoing_message(checked)?;
    let signed = stage.client.sign_outgoing_message_unchecked(unchecked);
    signed.map_err(StunWriteError::from)
}

fn password_signs<'a>(stage: &mut Stage<'a>) -> Signed<'a> {
    let writer = begun(MessageClass::Request, stage.heap)?;
    let signed = stage.short_term.sign_outgoing_message_unchecked(writer);
    signed.map_err(StunWriteError::from)
}

/// Plays `.. signs-unchecked`: prints the bytes of a signed Binding message with transaction ID 1
/// and no other attributes, which is a success for a server, and otherwise a request. A server must
/// have signed one message to the address before, because a call whose allocation is refused may
/// have recorded the offer that it makes.
pub fn sign_unchecked(stage: &mut Stage<'_>, side: Side) -> Answer {
    stage.begin();
    let signed = match side {
        Side::Server => server_signs(stage),
        Side::Client => client_signs(stage),
        Side::ShortTerm => password_signs(stage),
    };
    match signed {
        Ok(writer) => Some(hex(writer.data())),
        Err(error) => Some(reason(error)),
    }
}
