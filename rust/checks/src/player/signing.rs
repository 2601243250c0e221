//! Plays the calls that sign messages on the heap or in a slice, which a server, a client and
//! short-term credentials share.

use super::Answer;
use super::names::write_error;
use super::stage::Stage;
use super::words::{hex, number};
use crate::exported::stun_types::message::{
    MessageHeader, MessageWriteMutSlice, MessageWriteVec, StunWriteError,
};
use crate::exported::stun_types::prelude::*;

/// The side that signs.
#[derive(Clone, Copy)]
pub enum Side {
    Server,
    Client,
    ShortTerm,
}

/// Copies a message byte by byte to an empty writer.
pub fn copied<W: MessageWrite>(message: &[u8], mut writer: W) -> Option<W> {
    writer.reserve(message.len()).ok()?;
    writer.append(message);
    Some(writer)
}

/// Copies a message to an empty writer and signs it as one side.
fn signed<W: MessageWrite>(
    stage: &mut Stage<'_>,
    side: Side,
    message: &[u8],
    writer: W,
) -> Option<Result<W, StunWriteError>> {
    let writer = copied(message, writer)?;
    MessageHeader::from_bytes(writer.data()).ok()?;
    stage.begin();
    Some(match side {
        Side::Server => stage.server.sign_outgoing_message(writer, stage.from),
        Side::Client => stage.client.sign_outgoing_message(writer),
        Side::ShortTerm => stage.short_term.sign_outgoing_message(writer),
    })
}

/// Plays `.. signs MESSAGE`: signs a message to the other side, and prints its bytes.
pub fn sign(stage: &mut Stage<'_>, side: Side, words: &[&str]) -> Answer {
    let message = stage.message(words)?;
    let writer = MessageWriteVec::new(stage.heap);
    match signed(stage, side, &message, writer)? {
        Ok(writer) => Some(hex(&writer.finish())),
        Err(error) => Some(reason(error)),
    }
}

/// Plays `.. signs-length MESSAGE`: prints the length of the signed message.
pub fn sign_length(stage: &mut Stage<'_>, side: Side, words: &[&str]) -> Answer {
    let message = stage.message(words)?;
    let writer = MessageWriteVec::new(stage.heap);
    match signed(stage, side, &message, writer)? {
        Ok(writer) => Some(writer.finish().len().to_string()),
        Err(error) => Some(reason(error)),
    }
}

/// Plays `.. signs-in ROOM MESSAGE`, which is like `signs`, but writes to a slice of ROOM bytes, at
/// most 256.
pub fn sign_in_slice(stage: &mut Stage<'_>, side: Side, room: &str, words: &[&str]) -> Answer {
    let message = stage.message(words)?;
    let mut bytes = [0xff; 256];
    let room = bytes.get_mut(..usize::try_from(number(room)?).ok()?)?;
    match signed(stage, side, &message, MessageWriteMutSlice::new(room))? {
        Ok(writer) => Some(hex(writer.data())),
        Err(error) => Some(reason(error)),
    }
}

/// Returns why a message is not signed, followed by the type if an attribute exists already.
pub fn reason(error: StunWriteError) -> String {
    match error {
        StunWriteError::AttributeExists(kind) => format!("AttributeExists {kind}"),
        error => write_error(error).to_string(),
    }
}
