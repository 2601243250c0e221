//! A client and a server, both as one value of `endpoint`.
#![allow(dead_code)]

use seatcrane_stun::Instant;
use seatcrane_stun::endpoint::*;
use seatcrane_stun::types::message::*;
use std::net::SocketAddr;
use std::time::Duration;

pub const SHA1: IntegrityAlgorithm = IntegrityAlgorithm::Sha1;
pub const SHA256: IntegrityAlgorithm = IntegrityAlgorithm::Sha256;
pub const BOTH: [IntegrityAlgorithm; 2] = [SHA1, SHA256];
pub const SERVER: &str = "192.0.2.1:3478";

/// Pseudo-random numbers from a seed (splitmix64).
pub struct Rng(pub u64);

impl Rng {
    pub fn next(&mut self) -> u64 {
        self.0 = self.0.wrapping_add(0x9E37_79B9_7F4A_7C15);
        let mut z = self.0;
        z = (z ^ (z >> 30)).wrapping_mul(0xBF58_476D_1CE4_E5B9);
        z = (z ^ (z >> 27)).wrapping_mul(0x94D0_49BB_1331_11EB);
        z ^ (z >> 31)
    }

    pub fn below(&mut self, limit: u64) -> u64 {
        self.next() % limit
    }
}

/// Returns how many times a test should run: the number in this environment variable, or
/// `unless_set`.
pub fn times(name: &str, unless_set: u64) -> u64 {
    std::env::var(name).map_or(unless_set, |text| text.parse().expect("a number"))
}

pub fn at(text: &str) -> SocketAddr {
    text.parse().unwrap()
}

pub fn ms(milliseconds: u64) -> Instant {
    Instant::ZERO + Duration::from_millis(milliseconds)
}

/// Returns the wall-clock time of the server when the client's clock shows this time.
pub fn wall(now: Instant) -> UnixTime {
    UnixTime::from_secs(1_700_000_400 + now.duration_since(Instant::ZERO).as_secs())
}

/// A server with one user, whose nonces are sent for 600 s.
pub struct Service {
    pub server: Server,
    pub users: Users,
}

impl Service {
    pub fn new(secret: u64, algorithms: &[IntegrityAlgorithm]) -> Service {
        let mut bytes = [1; 32];
        bytes[..8].copy_from_slice(&secret.to_be_bytes());
        let long_term = LongTerm::new("example.org", bytes)
            .algorithms(algorithms)
            .nonce_lifetime(600);
        let server = Server::builder(long_term).answer_binding(true).build().unwrap();
        let mut users = server.users();
        let alice = LongTermCredentials::new("alice".to_string(), "wonderland".to_string());
        users.add(alice).unwrap();
        Service { server, users }
    }

    pub fn answer(&self, bytes: &[u8], from: SocketAddr, now: Instant) -> Answer {
        match self.server.receive(bytes, from, wall(now), &self.users) {
            Received::Answer(answer) => answer,
            other => panic!("no answer: {other:?}"),
        }
    }
}

pub fn code_of(answer: &Answer) -> u16 {
    answer.refusal().map_or(200, Refusal::code)
}

pub fn client(seed: u64, password: &str, algorithms: &[IntegrityAlgorithm]) -> Client {
    let mut bytes = [0; 32];
    bytes[..8].copy_from_slice(&seed.to_be_bytes());
    Client::builder(at(SERVER))
        .credentials(Credentials::long_term("alice", password))
        .algorithms(algorithms)
        .build(bytes)
        .unwrap()
}

pub fn binding(client: &mut Client, now: Instant) -> RequestId {
    client.request(BINDING, Body::new(), now).unwrap()
}

pub type Ended = (RequestId, Result<Response, RequestError>);

/// Answers the client's requests until it waits. Returns the codes of the answers, and the requests
/// that ended.
pub fn exchange(
    client: &mut Client,
    service: &Service,
    from: SocketAddr,
    now: Instant,
) -> (Vec<u16>, Vec<Ended>) {
    let (mut codes, mut ended) = (Vec::new(), Vec::new());
    loop {
        match client.poll(now) {
            Output::Transmit { bytes, .. } => {
                let answer = service.answer(bytes, from, now);
                codes.push(code_of(&answer));
                let _ = client.receive(answer.bytes(), at(SERVER), now);
            }
            Output::Ended(request, result) => ended.push((request, result)),
            _ => return (codes, ended),
        }
    }
}

/// Returns the algorithm of the success with which the only request ended.
pub fn signed_by(ended: &[Ended]) -> Option<IntegrityAlgorithm> {
    match ended {
        [(_, Ok(response))] => response.signed_by(),
        other => panic!("{other:?}"),
    }
}
