//! Judges a datagram many times over with the answers in a buffer, so that `bench/endpoint.py` can
//! count the instructions:
//!
//! ```text
//! valgrind --tool=callgrind --callgrind-out-file=/dev/null batch_cost batch sha1 signed 3000
//! ```
//!
//! The answers come one by one (`into`, by `receive_into`), or 50 at once (`batch`, by
//! `receive_many`). The algorithms are `sha1`, or `sha256` for both. The datagrams are `signed` (a
//! request that is answered with a success) or `new` (an unsigned request from a new address each
//! time). This is a separate program, because any further calls in a program change what the
//! compiler inlines.

use seatcrane_stun::auth::*;
use seatcrane_stun::endpoint::{Answers, LongTerm, Received, Server, UnixTime, Users};
use seatcrane_stun::types::message::*;
use seatcrane_stun::types::prelude::*;
use std::hint::black_box;
use std::net::SocketAddr;

/// The number of datagrams in a batch.
const BATCH: u32 = 50;

fn alice() -> LongTermCredentials {
    LongTermCredentials::new("alice".to_string(), "wonderland".to_string())
}

fn request(client: &mut LongTermClientAuth) -> Vec<u8> {
    let id = TransactionId::from([7; 12]);
    let page = Message::builder_request_with_id(BINDING, id, MessageWriteVec::new());
    client.sign_outgoing_message(page).unwrap().finish()
}

/// A server, and the same datagram many times over.
struct Datagrams<'a> {
    server: &'a Server,
    users: &'a Users,
    bytes: &'a [u8],
    is_from_new: bool,
    now: UnixTime,
    count: u32,
}

/// Returns the address that the datagrams of the client come from.
fn client_address() -> SocketAddr {
    ([10, 0, 0, 1], 4242).into()
}

impl Datagrams<'_> {
    fn source(&self, i: u32) -> SocketAddr {
        match self.is_from_new {
            true => ((i + 1).to_be_bytes(), 4242).into(),
            false => client_address(),
        }
    }

    fn one_by_one(&self) {
        let mut buffer = Vec::new();
        for i in 0..self.count {
            let (bytes, from) = (black_box(self.bytes), self.source(i));
            let received = self.server.receive_into(bytes, from, self.now, self.users, &mut buffer);
            assert!(matches!(received, Received::Answer(_)));
            black_box(&buffer);
        }
    }

    fn in_batches(&self) {
        let mut answers = Answers::new();
        for first in (0..self.count).step_by(BATCH as usize) {
            let batch = (first..first + BATCH).map(|i| (black_box(self.bytes), self.source(i)));
            for received in self.server.receive_many(batch, self.now, self.users, &mut answers) {
                assert!(matches!(received, Received::Answer(_)));
            }
            black_box(answers.bytes());
        }
    }
}

fn main() {
    let words: Vec<String> = std::env::args().skip(1).collect();
    let [kind, algorithm, what, count] = &words[..] else {
        panic!("usage: batch_cost into|batch sha1|sha256 signed|new COUNT");
    };
    let both = [IntegrityAlgorithm::Sha1, IntegrityAlgorithm::Sha256];
    let algorithms = if algorithm == "sha1" { &both[..1] } else { &both };
    let long_term = LongTerm::new("example.org", [1; 32]).algorithms(algorithms);
    let server = Server::builder(long_term).answer_binding(true).build().unwrap();
    let mut users = server.users();
    users.add(alice()).unwrap();
    let mut client = LongTermClientAuth::new();
    client.set_credentials(alice());
    client.set_supported_integrity(*algorithms.last().unwrap());
    let now = UnixTime::from_secs(7200);
    let unsigned = request(&mut client);
    let mut challenge = Vec::new();
    let _ = server.receive_into(&unsigned, client_address(), now, &users, &mut challenge);
    let challenge = Message::from_bytes(&challenge).unwrap();
    client.validate_incoming_message(&challenge).unwrap();
    let signed = request(&mut client);
    let is_from_new = what == "new";
    let datagrams = Datagrams {
        server: &server,
        users: &users,
        bytes: if is_from_new { &unsigned } else { &signed },
        is_from_new,
        now,
        count: count.parse().expect("a number"),
    };
    match kind.as_str() {
        "batch" => datagrams.in_batches(),
        _ => datagrams.one_by_one(),
    }
}
