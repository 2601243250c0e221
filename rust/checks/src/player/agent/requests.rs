//! Plays the calls on outstanding requests: where they were sent, when they are retransmitted, and
//! how they end.

use super::answers;
use super::timeouts::timeouts;
use crate::exported::stun_agent::agent::StunAgentPollRet;
use crate::player::Answer;
use crate::player::stage::Stage;
use crate::player::values::{size, transaction_id};

/// The answer for a request that is not outstanding.
const NONE: &str = "none";

/// Plays `agent request ID`: prints `to ADDRESS, ALGORITHM`, `to ADDRESS, unsigned`, or `none`.
pub fn tell(stage: &Stage<'_>, word: &str) -> Answer {
    let id = transaction_id(word)?;
    let Some(request) = stage.agent.agent.request_transaction(id) else {
        return Some(NONE.to_string());
    };
    let to = request.peer_address();
    Some(match request.integrity() {
        Some(algorithm) => format!("to {to}, {algorithm:?}"),
        None => format!("to {to}, unsigned"),
    })
}

/// Plays `agent cancel ID`, `agent cancel-retransmissions ID` and `agent configure ID INITIAL
/// RETRANSMITS FINAL [MAX]`.
pub fn change(stage: &mut Stage<'_>, words: &[&str]) -> Answer {
    let rto = match words {
        ["cancel" | "cancel-retransmissions", _] => None,
        ["configure", _, initial, count, last] => Some(timeouts(initial, "max", count, last)?),
        ["configure", _, initial, count, last, max] => Some(timeouts(initial, max, count, last)?),
        _ => return None,
    };
    let id = transaction_id(words[1])?;
    stage.begin();
    let Some(mut request) = stage.agent.agent.mut_request_transaction(id) else {
        return Some(NONE.to_string());
    };
    match (rto, words.len()) {
        (None, _) if words[0] == "cancel" => request.cancel(),
        (None, _) => request.cancel_retransmissions(),
        (Some(rto), 5) => {
            request.configure_timeout(rto.initial, rto.retransmits, rto.last_retransmit);
        }
        (Some(rto), _) => {
            let (count, last) = (rto.retransmits, rto.last_retransmit);
            request.configure_timeout_with_max(rto.initial, count, last, rto.max);
        }
    }
    Some(String::new())
}

/// Plays the calls that are made in a loop: `agent poll` prints `wait TIME`, `timed out ID` or
/// `cancelled ID`; `agent transmit` prints the ID of the request that is retransmitted, or `none`;
/// `agent transmit-within NUMBER` prints `NoRoom` if that request has more bytes; `agent
/// next-transmit` prints what `transmit` would print; `agent next-awaited` prints the earliest time
/// that a request waits for, or `none`.
pub fn poll(stage: &mut Stage<'_>, words: &[&str]) -> Answer {
    let room = match words {
        ["transmit-within", word] => Some(size(word)?),
        ["transmit-within"] | [_, _, ..] => return None,
        _ => None,
    };
    let now = stage.now;
    stage.begin();
    let own = &mut stage.agent;
    let (agent, requests, way) = (&mut own.agent, &own.requests, own.way);
    Some(match (words[0], room) {
        ("transmit", _) => requests.text(agent.poll_transmit(now), way),
        ("next-transmit", _) => requests.text(agent.next_transmit(now), way),
        ("next-awaited", _) => agent
            .next_awaited()
            .map_or_else(|| NONE.to_string(), answers::moment),
        (_, Some(room)) => match agent.poll_transmit_within(now, room) {
            Ok(sent) => requests.text(sent, way),
            Err(_) => "NoRoom".to_string(),
        },
        _ => match agent.poll(now) {
            StunAgentPollRet::WaitUntil(moment) => format!("wait {}", answers::moment(moment)),
            StunAgentPollRet::TransactionTimedOut(id) => format!("timed out {}", id.as_u128()),
            StunAgentPollRet::TransactionCancelled(id) => format!("cancelled {}", id.as_u128()),
        },
    })
}
