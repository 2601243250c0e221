//! The events and the steps of an agent as text.

use crate::exported::stun_base::transaction_id::TransactionId;
use crate::exported::stun_proto::replay::{AgentEvent, AgentStep};
use crate::kit::alloc::{Allocator, Global};
use crate::kit::prelude::Vec as HeapVec;
use crate::player::agent::answers::{error_name, nanos};
use crate::player::agent::usual_peer;
use crate::player::stage::Stage;
use crate::player::values::{short_number, transaction_id};
use crate::player::words::{address, hex, span};
use std::net::SocketAddr;

/// Parses an event. All messages go to the usual peer or come from it, except for those of
/// `take-from`.
pub fn event(stage: &Stage<'_>, words: &[&str]) -> Option<AgentEvent> {
    let message = |words| HeapVec::from_slice(Global, &stage.message(words)?).ok();
    let peer = usual_peer();
    Some(match words {
        ["ask", words @ ..] => AgentEvent::SendRequest {
            bytes: message(words)?,
            to: peer,
        },
        ["tell", words @ ..] => AgentEvent::Send {
            bytes: message(words)?,
            to: peer,
        },
        ["take", words @ ..] => AgentEvent::Receive {
            bytes: message(words)?,
            from: peer,
        },
        ["take-from", from, words @ ..] => AgentEvent::Receive {
            bytes: message(words)?,
            from: address(from)?,
        },
        ["cancel", id] => AgentEvent::Cancel(transaction_id(id)?),
        ["cancel-retransmissions", id] => AgentEvent::CancelRetransmissions(transaction_id(id)?),
        ["timeouts", id, initial, transmissions, last, max] => AgentEvent::Configure {
            id: transaction_id(id)?,
            initial: span(initial)?,
            retransmits: short_number(transmissions)?,
            last: span(last)?,
            max: span(max)?,
        },
        ["validate", word] => AgentEvent::ValidatePeer(address(word)?),
        _ => return None,
    })
}

/// Returns the bytes of a request as text, unless it is a Binding request without attributes.
fn as_bytes(id: TransactionId, bytes: &[u8]) -> String {
    let id = &id.as_u128().to_be_bytes()[4..];
    let bare = [&[0, 1, 0, 0, 0x21, 0x12, 0xa4, 0x42], id].concat();
    match bytes == bare {
        true => String::new(),
        false => format!(" as {}", hex(bytes)),
    }
}

/// Returns the destination of a message as text, unless it is the usual peer.
fn to_text(to: SocketAddr) -> String {
    match to == usual_peer() {
        true => String::new(),
        false => format!(" to {to}"),
    }
}

/// Returns the text for a step.
pub fn step_text<A: Allocator>(step: &AgentStep<A>) -> String {
    let (at, text) = match step {
        AgentStep::Transmitted { at, id, to, bytes } => {
            let (request, to) = (as_bytes(*id, bytes), to_text(*to));
            (at, format!("sent {}{request}{to}", id.as_u128()))
        }
        AgentStep::Sent { at, to, bytes } => (at, format!("told {}{}", hex(bytes), to_text(*to))),
        AgentStep::Received { at, accepted } => (
            at,
            if *accepted { "taken" } else { "not taken" }.to_string(),
        ),
        AgentStep::Refused { at, error } => (at, error_name(*error).to_string()),
        AgentStep::TimedOut { at, id } => (at, format!("timed out {}", id.as_u128())),
        AgentStep::Cancelled { at, id } => (at, format!("cancelled {}", id.as_u128())),
    };
    format!("{} {text}", nanos(at.as_nanos().into()))
}
