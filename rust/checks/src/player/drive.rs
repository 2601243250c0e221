//! Plays driven agents: `drive NAME WORD ..`. Events are collected, one call drives an agent with
//! them, and then its steps are printed one by one.
//!
//! A run in which an allocation is refused stops after some of its events, and its steps are lost.
//! When the run is made again, it goes on with the events that are left. The lost steps are then
//! taken from a twin of the agent, which is driven with all events and has enough memory. So the
//! run, its last steps and the state afterwards must be as the transcript says.

mod by_hand;
mod events;

use super::agent::answers::{error_name, nanos};
use super::agent::{usual_local, usual_peer};
use super::stage::Stage;
use super::values::moment;
use super::words::address;
use super::{Answer, Heap, OUT_OF_MEMORY};
use crate::exported::stun_agent::agent::StunAgent;
use crate::exported::stun_base::instant::Instant;
use crate::exported::stun_base::transport::TransportType;
use crate::exported::stun_proto::replay::{AgentEvent, AgentStep, drive};
use crate::kit::alloc::{Allocator, Global};
use events::{event, step_text};

/// An agent, the events for it, and its steps.
pub struct Drive<'a> {
    transport: TransportType,
    agent: StunAgent<&'a Heap>,
    /// An agent with enough memory, which is driven only after a run was interrupted.
    twin: StunAgent,
    events: Vec<(Instant, AgentEvent)>,
    /// The number of events with which the agent was driven.
    done: usize,
    steps: Vec<String>,
    /// The number of steps that were printed.
    told: usize,
    /// Whether an allocation of the last run was refused.
    is_broken: bool,
}

/// Creates an agent that keeps statistics.
fn new_agent<A: Allocator + Copy>(alloc: A, transport: TransportType) -> StunAgent<A> {
    StunAgent::builder(alloc, transport, usual_local())
        .stats(true)
        .build()
}

impl<'a> Drive<'a> {
    /// Creates an agent over UDP, without events.
    pub fn new(heap: &'a Heap) -> Drive<'a> {
        Drive::over(heap, TransportType::Udp)
    }

    fn over(heap: &'a Heap, transport: TransportType) -> Drive<'a> {
        Drive {
            transport,
            agent: new_agent(heap, transport),
            twin: new_agent(Global, transport),
            events: Vec::new(),
            done: 0,
            steps: Vec::new(),
            told: 0,
            is_broken: false,
        }
    }

    /// Stores the steps that a broken run lost, before the last `given` ones.
    fn store_lost(&mut self, until: Instant, given: usize) -> Option<()> {
        let whole = drive(Global, &mut self.twin, &self.events, until).ok()?;
        let (stored, before) = (self.steps.len(), whole.len().saturating_sub(given));
        let lost = whole.iter().take(before).skip(stored);
        self.steps.extend(lost.map(step_text));
        Some(())
    }

    /// Stores the steps of a run. Returns how many there are.
    fn finish(&mut self, until: Instant, given: &[AgentStep<&'a Heap>]) -> Option<usize> {
        let before = self.steps.len();
        if self.is_broken {
            self.store_lost(until, given.len())?;
        }
        self.steps.extend(given.iter().map(step_text));
        self.done = self.events.len();
        self.is_broken = false;
        Some(self.steps.len() - before)
    }
}

/// Plays `drive NAME WORD ..`.
pub fn call(stage: &mut Stage<'_>, words: &[&str]) -> Answer {
    let drive = &mut stage.drive;
    match words {
        ["udp"] => begin(stage, TransportType::Udp),
        ["tcp"] => begin(stage, TransportType::Tcp),
        ["event", words @ ..] => {
            let event = event(stage, words)?;
            stage.drive.events.push((stage.now, event));
            Some(String::new())
        }
        ["asks", words @ ..] => ask(stage, words),
        ["until", word] => run(stage, moment(word)?),
        ["by-hand", "until", word] => compare(drive, moment(word)?),
        // The next step.
        ["step"] => {
            let Some(step) = drive.steps.get(drive.told) else {
                return Some("none".to_string());
            };
            drive.told += 1;
            Some(step.clone())
        }
        // The earliest time that a request waits for.
        ["awaited"] => Some(match drive.agent.next_awaited() {
            Some(moment) => nanos(moment.as_nanos().into()),
            None => "none".to_string(),
        }),
        // Prints whether the address is a validated peer.
        ["is-validated", word] => {
            let is_validated = drive.agent.is_validated_peer(address(word)?);
            Some(if is_validated { "yes" } else { "no" }.to_string())
        }
        _ => None,
    }
}

/// Plays `drive udp` or `drive tcp`: creates an agent.
fn begin(stage: &mut Stage<'_>, transport: TransportType) -> Answer {
    stage.begin();
    stage.drive = Drive::over(stage.heap, transport);
    Some(String::new())
}

/// Plays `drive asks MESSAGE`: the agent sends a request to the usual peer before it is driven.
fn ask(stage: &mut Stage<'_>, words: &[&str]) -> Answer {
    let bytes = stage.message(words)?;
    let (now, to) = (stage.now, usual_peer());
    stage.begin();
    if let Err(error) = stage.drive.agent.send_request(&*bytes, to, now) {
        return Some(error_name(error).to_string());
    }
    stage.drive.twin.send_request(&*bytes, to, now).ok()?;
    Some(String::new())
}

/// Returns `true` if the times never decrease, and none is after `until`.
fn are_in_order(events: &[(Instant, AgentEvent)], until: Instant) -> bool {
    events.is_sorted_by_key(|(time, _)| *time) && events.iter().all(|(time, _)| *time <= until)
}

/// Plays `drive until TIME`: drives the agent with the events that are left, and prints how many
/// steps it takes. The line is not understood if the events are out of order.
fn run(stage: &mut Stage<'_>, until: Instant) -> Answer {
    stage.begin();
    let own = &mut stage.drive;
    let left = &own.events[own.done..];
    if !are_in_order(left, until) {
        return None;
    }
    match drive(stage.heap, &mut own.agent, left, until) {
        Ok(steps) => Some(format!("{} steps", own.finish(until, &steps)?)),
        Err(stopped) => {
            own.done += stopped.done;
            own.is_broken = true;
            stage.is_run = true;
            Some(OUT_OF_MEMORY.to_string())
        }
    }
}

/// Plays `drive by-hand until TIME`: makes a call of a new agent for each event. The new agent must
/// take the same steps, have the same statistics and wait for the same time.
fn compare(drive: &Drive<'_>, until: Instant) -> Answer {
    let mut agent = new_agent(Global, drive.transport);
    let steps = by_hand::run(&mut agent, &drive.events, until)?;
    let name = if steps != drive.steps {
        "other steps"
    } else if agent.stats() != drive.agent.stats() {
        "other statistics"
    } else if agent.next_awaited() != drive.agent.next_awaited() {
        "another moment"
    } else {
        "the same"
    };
    Some(name.to_string())
}
