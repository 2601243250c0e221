//! An agent that uses only the maps of the standard library, to be compared with the agent of this
//! crate. It stores requests in a `BTreeMap` and their deadlines in a `BTreeSet`.

use seatcrane_stun::Instant;
use seatcrane_stun::types::message::{Message, TransactionId};
use std::collections::{BTreeMap, BTreeSet};
use std::net::SocketAddr;
use std::time::Duration;

/// The timeouts of a request.
struct Settings {
    initial: Duration,
    max: Duration,
    transmissions: u32,
    last: Duration,
}

const DEFAULT: Settings = Settings {
    initial: Duration::from_millis(500),
    max: Duration::MAX,
    transmissions: 7,
    last: Duration::from_secs(8),
};

struct Request {
    bytes: Vec<u8>,
    to: SocketAddr,
    settings: Settings,
    sent: u32,
    last: Instant,
}

impl Request {
    fn deadline(&self) -> Instant {
        let settings = &self.settings;
        let wait = if self.sent < settings.transmissions {
            (settings.initial * (1 << (self.sent - 1))).min(settings.max)
        } else {
            settings.last
        };
        self.last + wait
    }
}

#[derive(Default)]
pub struct PlainAgent {
    requests: BTreeMap<TransactionId, Request>,
    deadlines: BTreeSet<(Instant, TransactionId)>,
    peers: BTreeSet<SocketAddr>,
}

impl PlainAgent {
    pub fn send_request(&mut self, bytes: &[u8], to: SocketAddr, now: Instant) {
        let id = Message::from_bytes(bytes).unwrap().transaction_id();
        let request = Request {
            bytes: bytes.to_vec(),
            to,
            settings: DEFAULT,
            sent: 1,
            last: now,
        };
        self.deadlines.insert((request.deadline(), id));
        self.requests.insert(id, request);
    }

    /// Returns the bytes of a request that is due for retransmission.
    pub fn poll_transmit(&mut self, now: Instant) -> Option<(&[u8], SocketAddr)> {
        let first = *self.deadlines.first()?;
        if first.0 > now {
            return None;
        }
        let request = self.requests.get_mut(&first.1)?;
        request.sent += 1;
        request.last = now;
        self.deadlines.remove(&first);
        self.deadlines.insert((request.deadline(), first.1));
        Some((&request.bytes, request.to))
    }

    /// Returns the time from sending the request until its response.
    pub fn response(
        &mut self,
        message: &Message<'_>,
        from: SocketAddr,
        now: Instant,
    ) -> Option<Duration> {
        let id = message.transaction_id();
        let request = self.requests.get(&id)?;
        if request.to != from {
            return None;
        }
        let time = now.as_nanos() - request.last.as_nanos();
        self.peers.insert(from);
        self.deadlines.remove(&(request.deadline(), id));
        self.requests.remove(&id);
        Some(Duration::from_nanos(time))
    }
}
