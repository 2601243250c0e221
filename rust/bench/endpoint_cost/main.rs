//! Does the work of a server for a datagram many times over, so that `bench/endpoint.py` can count
//! its instructions:
//!
//! ```text
//! valgrind --tool=callgrind --callgrind-out-file=/dev/null endpoint_cost endpoint sha1 signed 3000
//! ```
//!
//! The server is `endpoint` (`endpoint::Server`), or `loop`: the calls of `auth` with a record for
//! each address, and a table that bounds their number. The algorithms are `sha1`, or `sha256` for
//! both. The datagrams are `signed` (a request that is answered with a success), `new` (an unsigned
//! request from a new address each time) and `stale` (a request with an expired nonce).

mod places;

use places::Places;
use seatcrane_stun::Instant;
use seatcrane_stun::auth::*;
use seatcrane_stun::endpoint::{LongTerm, Received, Server, UnixTime, Users};
use seatcrane_stun::types::message::*;
use seatcrane_stun::types::prelude::*;
use std::hint::black_box;
use std::net::SocketAddr;
use std::time::Duration;

/// A time in seconds at which nonces are made, and one at which they have expired.
const NOW: u64 = 7200;
const LATER: u64 = 14400;

fn alice() -> LongTermCredentials {
    LongTermCredentials::new("alice".to_string(), "wonderland".to_string())
}

fn request(client: &mut LongTermClientAuth) -> Vec<u8> {
    let id = TransactionId::from([7; 12]);
    let page = Message::builder_request_with_id(BINDING, id, MessageWriteVec::new());
    client.sign_outgoing_message(page).unwrap().finish()
}

/// A server that does not use `endpoint`.
struct Loop {
    auth: LongTermServerAuth,
    places: Places,
    next: u32,
}

impl Loop {
    /// Returns the code of the answer.
    fn judge(&mut self, request: &Message<'_>, from: SocketAddr, now: Instant) -> u16 {
        if let Some(gone) = self.places.take(from) {
            self.auth.forget(gone);
        }
        let was_known = self.auth.nonce_for_client(from).is_some();
        self.next = self.next.wrapping_mul(747_796_405).wrapping_add(1);
        let words = std::array::from_fn(|i| self.next ^ (i as u32).wrapping_mul(0x9E37_79B9));
        let auth = &mut self.auth;
        let verdict = auth.validate_incoming_message_with_words(request, from, now, words);
        match verdict.map_err(|error| error.reason()) {
            Ok(_) => {
                self.places.keep(from);
                200
            }
            Err(LongTermServerAuthErrorReason::Unauthorized) => 401,
            Err(LongTermServerAuthErrorReason::StaleNonce) => 438,
            Err(_) if !was_known && self.auth.nonce_for_client(from).is_some() => 438,
            Err(_) => 400,
        }
    }

    fn answer(&mut self, bytes: &[u8], from: SocketAddr, seconds: u64) -> Vec<u8> {
        let request = Message::from_bytes(bytes).unwrap();
        let now = Instant::ZERO + Duration::from_secs(seconds);
        let mut page = Message::builder_error(&request, MessageWriteVec::new());
        match self.judge(&request, from, now) {
            200 => {
                page = Message::builder_success(&request, MessageWriteVec::new());
                page.add_xor_mapped_address(from).unwrap();
            }
            code => page.add_error_code(code, "Unauthenticated").unwrap(),
        }
        let signed = self.auth.sign_outgoing_message(page, from).unwrap();
        self.auth.remove_client(from);
        signed.finish()
    }
}

enum Kind {
    Endpoint(Box<Server>, Users),
    Loop(Loop),
}

impl Kind {
    fn new(name: &str, algorithms: &[IntegrityAlgorithm]) -> Kind {
        if name == "loop" {
            let mut auth = LongTermServerAuth::new("example.org".to_string());
            for algorithm in algorithms {
                auth.add_supported_integrity(*algorithm);
            }
            auth.add_user(alice());
            return Kind::Loop(Loop {
                auth,
                places: Places::new(1 << 17),
                next: 1,
            });
        }
        let long_term = LongTerm::new("example.org", [1; 32]).algorithms(algorithms);
        let server = Server::builder(long_term).answer_binding(true).build().unwrap();
        let mut users = server.users();
        users.add(alice()).unwrap();
        Kind::Endpoint(Box::new(server), users)
    }

    fn answer(&mut self, bytes: &[u8], from: SocketAddr, seconds: u64) -> Vec<u8> {
        match self {
            Kind::Loop(by_hand) => by_hand.answer(bytes, from, seconds),
            Kind::Endpoint(server, users) => {
                let now = UnixTime::from_secs(seconds);
                match server.receive(bytes, from, now, users) {
                    Received::Answer(answer) => answer.into_bytes(),
                    other => panic!("no answer: {other:?}"),
                }
            }
        }
    }
}

fn main() {
    let words: Vec<String> = std::env::args().skip(1).collect();
    let [kind, algorithm, what, count] = &words[..] else {
        panic!("usage: endpoint_cost endpoint|loop sha1|sha256 signed|new|stale COUNT");
    };
    let count: u32 = count.parse().expect("a number");
    let both = [IntegrityAlgorithm::Sha1, IntegrityAlgorithm::Sha256];
    let algorithms = if algorithm == "sha1" { &both[..1] } else { &both };
    let mut server = Kind::new(kind, algorithms);
    let mut client = LongTermClientAuth::new();
    client.set_credentials(alice());
    client.set_supported_integrity(*algorithms.last().unwrap());
    let from: SocketAddr = ([10, 0, 0, 1], 4242).into();
    let unsigned = request(&mut client);
    let challenge = server.answer(&unsigned, from, NOW);
    let challenge = Message::from_bytes(&challenge).unwrap();
    client.validate_incoming_message(&challenge).unwrap();
    let signed = request(&mut client);
    let (bytes, now, code) = match what.as_str() {
        "new" => (&unsigned, NOW, 401),
        "stale" => (&signed, LATER, 438),
        _ => (&signed, NOW, 200),
    };
    for i in 0..count {
        let from = match code {
            401 => ((i + 1).to_be_bytes(), 4242).into(),
            _ => from,
        };
        let answer = black_box(server.answer(black_box(bytes), from, now));
        assert_eq!(answer[..2] == [1, 1], code == 200); // the type of a success of Binding
    }
}
