//! A client, a server and an attacker between them who adds datagrams.

use crate::forgery::{FORGED_ADDRESS, Forgery, Id, Seen, attributes, id_of, signature_of};
use crate::service::{Now, Service};
use crate::settings::{ALGORITHMS, Settings};
use seatcrane_stun::Instant;
use seatcrane_stun::auth::Feature;
use seatcrane_stun::endpoint::{Body, Client, Credentials, Output, RequestError, Response};
use seatcrane_stun::types::message::BINDING;
use std::collections::VecDeque;
use std::net::SocketAddr;
use std::time::Duration;

const USERNAME: u16 = 0x0006;

pub fn server_address() -> SocketAddr {
    ([192, 0, 2, 1], 3478).into()
}

/// What a client has been through before the request that is attacked.
#[derive(Clone, Copy, PartialEq, Eq, Debug)]
pub enum Phase {
    New,
    Authenticated,
    /// It was authenticated, and its nonce has expired since.
    Expired,
}

pub const PHASES: [Phase; 3] = [Phase::New, Phase::Authenticated, Phase::Expired];

/// A forged datagram, after this many steps, in answer to the current message of the request, or to
/// the one before it. A step is an answer of the server that arrives, or a timeout.
#[derive(Clone, Copy, Debug)]
pub struct Shot {
    pub at: usize,
    pub is_current: bool,
    pub what: Forgery,
}

/// In which order answers that are on their way at the same time arrive, and how often.
#[derive(Clone, Copy, PartialEq, Eq, Debug)]
pub enum Order {
    OldestFirst,
    NewestFirst,
    /// The oldest first, and each twice.
    Twice,
}

pub const ORDERS: [Order; 3] = [Order::OldestFirst, Order::NewestFirst, Order::Twice];

/// How the network treats the answers of the server.
#[derive(Clone, Copy, Debug)]
pub struct Network {
    pub order: Order,
    /// The answer with this number is lost.
    pub lost: Option<usize>,
}

pub const HONEST: Network = Network {
    order: Order::OldestFirst,
    lost: None,
};

/// What came of a request.
#[derive(Debug)]
pub struct Outcome {
    pub end: Result<Response, RequestError>,
    /// How many datagrams the client sent.
    pub sent: usize,
    pub took: Duration,
    /// After how many steps it ended, and after how many it first had a second message.
    pub steps: usize,
    pub earlier_since: Option<usize>,
    /// How many of the shots were forged before the end.
    pub fired: usize,
}

impl Outcome {
    /// Whether it succeeded, by a response of the server.
    pub fn is_served(&self) -> bool {
        self.end
            .as_ref()
            .is_ok_and(|response| response.signed_by().is_some())
    }

    /// How it ended, in words.
    pub fn name(&self) -> String {
        match &self.end {
            Ok(_) => "an unsigned success".to_string(),
            Err(error) => error.to_string(),
        }
    }

    /// Whether a response ended it that no server has signed. The servers sign successes alone,
    /// and none of these has the forged address.
    pub fn is_fooled(&self) -> bool {
        match &self.end {
            Ok(response) => {
                let message = response.message();
                let has_forged = attributes(message.as_bytes())
                    .iter()
                    .any(|one| one.1 == FORGED_ADDRESS);
                has_forged || response.signed_by().is_none()
            }
            Err(
                RequestError::Refused(_)
                | RequestError::Redirected(_)
                | RequestError::NotUnderstood(_)
                | RequestError::MalformedResponse,
            ) => true,
            Err(_) => false, // the client itself gave up
        }
    }
}

/// What a server has accepted, and what was read on its way.
#[derive(Clone, Copy, Default, Debug)]
pub struct Verdicts {
    pub accepted: u64,
    /// By less than the strongest algorithm of both.
    pub weaker: u64,
    /// Named in clear, where both can hash the name, or the client must.
    pub in_clear: u64,
}

impl Verdicts {
    pub fn add(&mut self, other: Verdicts) {
        self.accepted += other.accepted;
        self.weaker += other.weaker;
        self.in_clear += other.in_clear;
    }
}

pub struct World<'s> {
    service: &'s Service,
    settings: Settings,
    client: Client,
    now: Instant,
    server: Now,
    nonces: [String; 3],
    list: Vec<u8>,
    pub verdicts: Verdicts,
}

/// What is on its way for one request.
struct Traffic {
    /// The messages of the request, in the order of their first transmission, and the current one.
    messages: Vec<Vec<u8>>,
    current: usize,
    answers: VecDeque<Vec<u8>>,
    answered: usize,
    outcome: Outcome,
}

impl<'s> World<'s> {
    pub fn new(service: &'s Service, settings: Settings, phase: Phase) -> World<'s> {
        let client = Client::builder(server_address())
            .credentials(Credentials::long_term("alice", "wonderland"))
            .algorithms(ALGORITHMS[settings.client])
            .anonymous_username(settings.naming)
            .accept_unsigned(settings.accepts_unsigned)
            .build([7; 32])
            .expect("a client");
        let mut world = World {
            service,
            settings,
            client,
            now: Instant::ZERO,
            server: Now::default(),
            nonces: Default::default(),
            list: Vec::new(),
            verdicts: Verdicts::default(),
        };
        if phase != Phase::New {
            assert!(world.play(&[], HONEST).is_served(), "{settings:?}");
        }
        if phase == Phase::Expired {
            world.server.expire();
        }
        world.nonces = service.nonces(&world.server);
        world.list = service.list(&world.server);
        world
    }

    /// Plays one request to its end.
    pub fn play(&mut self, shots: &[Shot], network: Network) -> Outcome {
        let begun = self.now;
        self.server.state.allocation = None; // the client asks from another port
        self.client
            .request(BINDING, Body::new(), self.now)
            .expect("a request");
        let mut traffic = Traffic::new();
        loop {
            let until = match self.client.poll(self.now) {
                Output::Transmit { bytes, .. } => {
                    let bytes = bytes.to_vec();
                    self.serve(&bytes, network, &mut traffic);
                    continue;
                }
                Output::Ended(_, end) => {
                    let took = self.now - begun;
                    return Outcome {
                        end,
                        took,
                        ..traffic.outcome
                    };
                }
                Output::Wait(until) => until,
                other => panic!("{other:?}"),
            };
            match shots.get(traffic.outcome.fired) {
                Some(shot) if shot.at <= traffic.outcome.steps => self.forge(shot, &mut traffic),
                _ => self.step(until, network, &mut traffic),
            }
        }
    }

    /// The server answers a message.
    fn serve(&mut self, bytes: &[u8], network: Network, traffic: &mut Traffic) {
        traffic.send(bytes);
        let settings = self.settings;
        let names = attributes(bytes).iter().any(|one| one.0 == USERNAME);
        self.server.seconds = self.now.duration_since(Instant::ZERO).as_secs();
        let (answer, accepted) = self.service.answer(bytes, &mut self.server);
        let must_hash = settings.naming == Feature::Required;
        let can_hash = settings.hides_name() && accepted.is_some();
        self.verdicts.in_clear += u64::from(names && (must_hash || can_hash));
        if accepted.is_some() {
            self.verdicts.accepted += 1;
            self.verdicts.weaker += u64::from(accepted != settings.strongest());
        }
        if network.lost != Some(traffic.answered) {
            if network.order == Order::Twice {
                traffic.answers.push_back(answer.clone());
            }
            traffic.answers.push_back(answer);
        }
        traffic.answered += 1;
    }

    /// The attacker answers a message.
    fn forge(&mut self, shot: &Shot, traffic: &mut Traffic) {
        let seen = Seen {
            target: traffic.target(shot.is_current),
            nonces: &self.nonces,
            list: &self.list,
            signature: traffic
                .messages
                .iter()
                .rev()
                .find_map(|one| signature_of(one)),
        };
        let bytes = shot.what.bytes(&seen);
        let _ = self.client.receive(&bytes, server_address(), self.now);
        traffic.outcome.fired += 1;
    }

    /// An answer of the server arrives, or time passes.
    fn step(&mut self, until: Option<Instant>, network: Network, traffic: &mut Traffic) {
        traffic.outcome.steps += 1;
        let answers = &mut traffic.answers;
        let next = match network.order {
            Order::NewestFirst => answers.pop_back(),
            _ => answers.pop_front(),
        };
        match next {
            Some(bytes) => drop(self.client.receive(&bytes, server_address(), self.now)),
            None => self.now = until.expect("an outstanding request"),
        }
    }
}

impl Traffic {
    fn new() -> Traffic {
        let outcome = Outcome {
            end: Err(RequestError::Cancelled),
            sent: 0,
            took: Duration::ZERO,
            steps: 0,
            earlier_since: None,
            fired: 0,
        };
        Traffic {
            messages: Vec::new(),
            current: 0,
            answers: VecDeque::new(),
            answered: 0,
            outcome,
        }
    }

    /// A message is sent, for the first time or again.
    fn send(&mut self, bytes: &[u8]) {
        self.outcome.sent += 1;
        match self.messages.iter().position(|one| one == bytes) {
            Some(place) => self.current = place,
            None => {
                self.current = self.messages.len();
                self.messages.push(bytes.to_vec());
            }
        }
        if self.messages.len() > 1 {
            self.outcome.earlier_since.get_or_insert(self.outcome.steps);
        }
    }

    /// The transaction ID of the current message, or of the last other one.
    fn target(&self, is_current: bool) -> Id {
        let last = self.messages.len() - 1;
        let before = if self.current == last {
            last.saturating_sub(1)
        } else {
            last
        };
        id_of(&self.messages[if is_current { self.current } else { before }])
    }
}
