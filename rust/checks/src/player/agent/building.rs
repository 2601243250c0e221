//! Plays the calls that build an agent and that print how it was built.

use super::Agent;
use super::sent::{Requests, Way};
use super::timeouts::timeouts;
use crate::exported::stun_agent::agent::StunAgent;
use crate::exported::stun_base::transport::TransportType;
use crate::player::stage::Stage;
use crate::player::values::transport;
use crate::player::words::address;
use crate::player::{Answer, Heap};
use std::net::SocketAddr;

/// Returns the address of an agent for which none is named.
pub fn usual_local() -> SocketAddr {
    SocketAddr::from(([10, 0, 0, 1], 12345))
}

/// Returns the address of its peer if none is named.
pub fn usual_peer() -> SocketAddr {
    SocketAddr::from(([10, 0, 0, 2], 3478))
}

impl<'a> Agent<'a> {
    /// Creates an agent over UDP at 10.0.0.1:12345.
    pub fn new(heap: &'a Heap) -> Agent<'a> {
        let way = Way {
            transport: TransportType::Udp,
            from: usual_local(),
        };
        Agent {
            agent: StunAgent::builder(heap, way.transport, way.from).build(),
            way,
            requests: Requests::default(),
        }
    }
}

/// Plays `agent new udp|tcp [from ADDRESS] [to ADDRESS] [timeouts INITIAL MAX RETRANSMITS FINAL]
/// [counts]`: creates an agent, which replaces the one before.
pub fn new(stage: &mut Stage<'_>, words: &[&str]) -> Answer {
    let (carrier, mut words) = words.split_first()?;
    let mut way = Way {
        transport: transport(carrier)?,
        from: usual_local(),
    };
    if let ["from", word, rest @ ..] = words {
        (way.from, words) = (address(word)?, rest);
    }
    let (mut to, mut timing) = (None, None);
    if let ["to", word, rest @ ..] = words {
        (to, words) = (Some(address(word)?), rest);
    }
    if let ["timeouts", initial, max, retransmits, last, rest @ ..] = words {
        timing = Some(timeouts(initial, max, retransmits, last)?);
        words = rest;
    }
    let counts = match words {
        [] => false,
        ["counts"] => true,
        _ => return None,
    };
    stage.agent.requests = Requests::default();
    stage.agent.way = way;
    stage.begin();
    let mut builder = StunAgent::builder(stage.heap, way.transport, way.from).stats(counts);
    if let Some(to) = to {
        builder = builder.remote_addr(to);
    }
    if let Some(rto) = timing {
        let (count, last) = (rto.retransmits, rto.last_retransmit);
        builder = builder.request_retransmits(rto.initial, rto.max, count, last);
    }
    stage.agent.agent = builder.build();
    Some(String::new())
}

/// Plays `agent built`: prints the transport and the address of the agent, and its remote address,
/// if it has one.
pub fn built(agent: &Agent<'_>) -> String {
    let agent = &agent.agent;
    let to = agent.remote_addr().map(|to| format!(" to {to}"));
    let to = to.unwrap_or_default();
    format!("{} {}{to}", agent.transport(), agent.local_addr())
}
