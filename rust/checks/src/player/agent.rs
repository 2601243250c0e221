//! Plays the calls of an agent: `agent NAME WORD ..`.

pub mod answers;
mod building;
mod messages;
mod requests;
mod sent;
mod statistics;
mod timeouts;

pub use building::{usual_local, usual_peer};

use super::Answer;
use super::Heap;
use super::stage::Stage;
use crate::exported::stun_agent::agent::StunAgent;
use sent::{Requests, Way};

/// An agent, with the requests that the player needs to name what the agent sends.
pub struct Agent<'a> {
    agent: StunAgent<&'a Heap>,
    /// The transport and the address from which its messages should be sent.
    way: Way,
    /// The requests that the agent stores.
    requests: Requests,
}

/// Plays `agent NAME WORD ..`.
pub fn call(stage: &mut Stage<'_>, words: &[&str]) -> Answer {
    match words {
        ["new", words @ ..] => building::new(stage, words),
        ["built"] => Some(building::built(&stage.agent)),
        ["asks", words @ ..] => messages::ask(stage, words),
        ["sends", words @ ..] => messages::send(stage, words),
        ["sends-data", words @ ..] => messages::send_data(stage, words),
        ["takes", words @ ..] => messages::take(stage, words, false),
        ["takes-timed", words @ ..] => messages::take(stage, words, true),
        ["validate", address] => messages::validate(stage, address),
        ["is-validated", words @ ..] => messages::is_validated(stage, words),
        ["rto", words @ ..] => timeouts::tell(words),
        ["request", id] => requests::tell(stage, id),
        ["cancel" | "cancel-retransmissions" | "configure", ..] => requests::change(stage, words),
        [
            "transmit" | "transmit-within" | "next-transmit" | "next-awaited" | "poll",
            ..,
        ] => requests::poll(stage, words),
        ["counts"] => Some(statistics::tell(stage)),
        ["reset"] => Some(statistics::reset(stage)),
        _ => None,
    }
}
