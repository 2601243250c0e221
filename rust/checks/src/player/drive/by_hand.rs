//! Repeats a driven run with the loop of an application around a second agent: each event is a
//! separate call, with polls between the calls.

use super::events::step_text;
use crate::exported::stun_agent::agent::{StunAgent, StunAgentPollRet, StunError};
use crate::exported::stun_base::header::MessageHeader;
use crate::exported::stun_base::instant::Instant;
use crate::exported::stun_proto::replay::{AgentEvent, AgentStep};
use crate::exported::stun_types::message::Message;
use crate::kit::alloc::Global;
use crate::kit::prelude::Vec as HeapVec;
use std::net::SocketAddr;

/// A step of a run needs fewer calls than this.
const MOST_CALLS: usize = 400;

/// An agent, and the steps that it took.
struct ByHand<'s> {
    agent: &'s mut StunAgent,
    steps: Vec<String>,
}

fn owned(bytes: &[u8]) -> Option<HeapVec<u8>> {
    HeapVec::from_slice(Global, bytes).ok()
}

/// Returns the step in which a request is sent.
fn transmitted(now: Instant, bytes: &[u8], to: SocketAddr) -> Option<AgentStep> {
    Some(AgentStep::Transmitted {
        at: now,
        id: MessageHeader::from_bytes(bytes).ok()?.transaction_id(),
        to,
        bytes: owned(bytes)?,
    })
}

impl ByHand<'_> {
    fn add(&mut self, step: &AgentStep) {
        self.steps.push(step_text(step));
    }

    /// Sends the requests that are due, with calls of the agent.
    fn send_due(&mut self, now: Instant) -> Option<()> {
        for _ in 0..MOST_CALLS {
            let Some(transmit) = self.agent.poll_transmit(now) else {
                return Some(());
            };
            let step = transmitted(now, transmit.data, transmit.to)?;
            self.add(&step);
        }
        None
    }

    /// Ends the requests that have timed out, with calls of the agent. Returns the time to wait
    /// until.
    fn end_over(&mut self, now: Instant) -> Option<Instant> {
        for _ in 0..MOST_CALLS {
            match self.agent.poll(now) {
                StunAgentPollRet::WaitUntil(moment) => return Some(moment),
                StunAgentPollRet::TransactionTimedOut(id) => {
                    self.add(&AgentStep::TimedOut { at: now, id });
                }
                StunAgentPollRet::TransactionCancelled(id) => {
                    self.add(&AgentStep::Cancelled { at: now, id });
                }
            }
        }
        None
    }

    /// Sends and ends the requests that are due, and waits until the time that `poll` returns, as
    /// long as this time is before `bound`.
    fn wait(&mut self, mut now: Instant, bound: Instant) -> Option<()> {
        for _ in 0..MOST_CALLS {
            self.send_due(now)?;
            let moment = self.end_over(now)?;
            if bound <= moment {
                return Some(());
            }
            now = moment;
        }
        None
    }

    /// Makes the call of the agent for an event.
    fn make(&mut self, now: Instant, event: &AgentEvent) -> Option<()> {
        let refused = |error| AgentStep::Refused { at: now, error };
        let agent = &mut *self.agent;
        let step = match event {
            AgentEvent::SendRequest { bytes, to } => {
                match agent.send_request(bytes.as_slice(), *to, now) {
                    Ok(transmit) => transmitted(now, bytes, transmit.to)?,
                    Err(error) => refused(error),
                }
            }
            AgentEvent::Send { bytes, to } => match agent.send(bytes.as_slice(), *to, now) {
                Ok(transmit) => AgentStep::Sent {
                    at: now,
                    to: transmit.to,
                    bytes: owned(bytes)?,
                },
                Err(error) => refused(error),
            },
            AgentEvent::Receive { bytes, from } => match Message::from_bytes(bytes) {
                Ok(message) => AgentStep::Received {
                    at: now,
                    accepted: agent
                        .handle_stun_message_with_time(&message, *from, now)
                        .ok()?,
                },
                Err(error) => refused(StunError::ParseError(error)),
            },
            _ => return self.change(event),
        };
        self.add(&step);
        Some(())
    }

    /// Changes a request or validates a peer, which takes no step.
    fn change(&mut self, event: &AgentEvent) -> Option<()> {
        let agent = &mut *self.agent;
        match event {
            AgentEvent::Cancel(id) => {
                if let Some(mut request) = agent.mut_request_transaction(*id) {
                    request.cancel();
                }
            }
            AgentEvent::CancelRetransmissions(id) => {
                if let Some(mut request) = agent.mut_request_transaction(*id) {
                    request.cancel_retransmissions();
                }
            }
            AgentEvent::Configure {
                id,
                initial,
                retransmits,
                last,
                max,
            } => {
                if let Some(mut request) = agent.mut_request_transaction(*id) {
                    request.configure_timeout_with_max(*initial, *retransmits, *last, *max);
                }
            }
            AgentEvent::ValidatePeer(address) => agent.validated_peer(*address).ok()?,
            _ => {}
        }
        Some(())
    }
}

/// Runs the loop of an application over events, and then until the last time. Returns its steps. If
/// there are no events, the loop does not run.
pub fn run(
    agent: &mut StunAgent,
    events: &[(Instant, AgentEvent)],
    until: Instant,
) -> Option<Vec<String>> {
    let steps = Vec::new();
    let mut own = ByHand { agent, steps };
    let mut now = Instant::ZERO;
    for (moment, event) in events {
        own.wait(now, *moment)?;
        now = *moment;
        own.make(now, event)?;
    }
    if !events.is_empty() {
        own.wait(now, until)?;
        own.wait(until, until)?;
    }
    Some(own.steps)
}
