//! The servers: those of this library, and strict ones.

use crate::forgery::attributes;
use crate::settings::{ALGORITHMS, Settings};
use crate::strict::{State, Strict};
use seatcrane_stun::endpoint::*;
use seatcrane_stun::types::message::{IntegrityAlgorithm, LongTermCredentials};
use std::net::SocketAddr;

const PASSWORD_ALGORITHMS: u16 = 0x8002;
const NONCE_LIFETIME: u64 = 100_000;
const BEGUN: u64 = 1_900_000_000;

pub fn client_address() -> SocketAddr {
    ([192, 0, 2, 2], 4242).into()
}

/// A server with its user.
pub enum Service {
    Endpoint(Server, Users),
    Strict(Strict),
}

/// What changes of a server: the seconds that have passed, whether the nonces from before have
/// expired, and what a strict one remembers.
#[derive(Clone, Default)]
pub struct Now {
    pub seconds: u64,
    pub is_later: bool,
    pub state: State,
}

impl Now {
    /// The nonces from before expire.
    pub fn expire(&mut self) {
        self.is_later = true;
        self.state.nonce += 1;
    }

    fn time(&self) -> UnixTime {
        let later = if self.is_later { 3 * NONCE_LIFETIME } else { 0 };
        UnixTime::from_secs(BEGUN + later + self.seconds)
    }
}

impl Service {
    pub fn new(settings: Settings) -> Service {
        if let Some(strictness) = settings.strict {
            return Service::Strict(Strict::new(strictness));
        }
        let long_term = LongTerm::new("example.org", [1; 32])
            .algorithms(ALGORITHMS[settings.server])
            .user_hashes(settings.user_hashes)
            .nonce_lifetime(NONCE_LIFETIME);
        let server = Server::builder(long_term).build().expect("a server");
        let mut users = server.users();
        let alice = LongTermCredentials::new("alice".to_string(), "wonderland".to_string());
        users.add(alice).expect("a user");
        Service::Endpoint(server, users)
    }

    /// Answers a message, and returns the algorithm if the server accepts it.
    pub fn answer(&self, bytes: &[u8], now: &mut Now) -> (Vec<u8>, Option<IntegrityAlgorithm>) {
        let (server, users) = match self {
            Service::Strict(strict) => {
                let (answer, is_accepted) = strict.answer(bytes, &mut now.state);
                return (answer, is_accepted.then_some(IntegrityAlgorithm::Sha1));
            }
            Service::Endpoint(server, users) => (server, users),
        };
        match server.receive(bytes, client_address(), now.time(), users) {
            Received::Answer(answer) => (answer.into_bytes(), None),
            Received::Request(request) => {
                let success = request.reply().success();
                let answer = success.add_xor_mapped_address(client_address()).finish();
                (answer.expect("an answer"), Some(request.algorithm()))
            }
            other => panic!("{other:?}"),
        }
    }

    /// The nonces that an attacker has seen: the current one, one that has expired, and one that
    /// the server sends to another address.
    pub fn nonces(&self, now: &Now) -> [String; 3] {
        let Service::Endpoint(server, _) = self else {
            let former = State {
                nonce: now.state.nonce.wrapping_sub(1),
                allocation: None,
            };
            return [now.state.text(), former.text(), "another".to_string()];
        };
        let time = now.time();
        let former = UnixTime::from_secs(time.as_secs() - 3 * NONCE_LIFETIME);
        let other = SocketAddr::from(([192, 0, 2, 3], 4242));
        [
            server.nonce_for(client_address(), time),
            server.nonce_for(client_address(), former),
            server.nonce_for(other, time),
        ]
    }

    /// The list of algorithms in the server's challenges, or no bytes.
    pub fn list(&self, now: &Now) -> Vec<u8> {
        let binding = [&[0, 1, 0, 0, 0x21, 0x12, 0xA4, 0x42], &[9; 12][..]].concat();
        let (challenge, _) = self.answer(&binding, &mut now.clone());
        let list = attributes(&challenge)
            .into_iter()
            .find(|one| one.0 == PASSWORD_ALGORITHMS);
        list.map_or(Vec::new(), |one| one.1.to_vec())
    }
}
