//! Makes requests of an `endpoint::Client`, so that bench/client.py can count the instructions of
//! one:
//!
//! ```text
//! calls open|challenged|kept|changed TIMES
//! calls near|far PAIRS OUTSTANDING
//! ```
//!
//! The first line makes a request of each of TIMES clients. All of them have the same seed, so they
//! send the same bytes and are answered by the same ones, which are made before. A client has no
//! credentials; or it is a new one with a user, which the server challenges; or it has a wrong
//! password, at a server that keeps its nonce, or changes it each time.
//!
//! The second line ends pairs of requests of a client with that many: two that were started one
//! after the other, or the first and the last one.

use seatcrane_stun::Instant;
use seatcrane_stun::endpoint::*;
use seatcrane_stun::types::attribute::*;
use seatcrane_stun::types::message::{BINDING, LongTermCredentials, Message, MessageWriteVec};
use seatcrane_stun::types::prelude::*;
use std::hint::black_box;
use std::net::SocketAddr;

/// How many clients are made in each run.
const CLIENTS: usize = 3000;

fn server_address() -> SocketAddr {
    ([192, 0, 2, 1], 3478).into()
}

fn new_client(kind: &str) -> Client {
    let credentials = match kind {
        "challenged" => Credentials::long_term("alice", "wonderland"),
        "kept" | "changed" => Credentials::long_term("alice", "wrong"),
        _ => Credentials::none(),
    };
    Client::builder(server_address())
        .credentials(credentials)
        .build([7; 32])
        .expect("a client")
}

/// Plays a request, and returns how many datagrams were sent. `peer` answers each.
fn play(client: &mut Client, mut peer: impl FnMut(&[u8]) -> Vec<u8>) -> usize {
    let (mut now, mut sent) = (Instant::ZERO, 0);
    client
        .request(BINDING, Body::new(), now)
        .expect("a request");
    loop {
        match client.poll(now) {
            Output::Transmit { bytes, .. } => {
                sent += 1;
                let response = peer(bytes);
                let _ = client.receive(&response, server_address(), now);
            }
            Output::Ended(_, result) => {
                let _ = black_box(result);
                return sent;
            }
            Output::Wait(until) => now = until.expect("an outstanding request"),
            other => panic!("{other:?}"),
        }
    }
}

/// Answers a message as a server that refuses it under another nonce each time.
fn refusal(bytes: &[u8], number: usize) -> Vec<u8> {
    let request = Message::from_bytes(bytes).expect("a request");
    let list = [PasswordAlgorithmValue::SHA256, PasswordAlgorithmValue::MD5];
    let nonce = format!("obMatJos2wAAA{number:016}");
    let nonce = Nonce::new(&nonce).expect("short");
    let mut page = Message::builder_error(&request, MessageWriteVec::new());
    page.add_attribute(&ErrorCode::builder(401).build().expect("a code"))
        .expect("room");
    page.add_attribute(&Realm::new("example.org").expect("short"))
        .expect("room");
    page.add_attribute(&nonce).expect("room");
    page.add_attribute(&PasswordAlgorithms::new(&list))
        .expect("room");
    page.finish()
}

/// The answers of a server to the datagrams of one request, and how many of these are signed.
fn recorded(kind: &str) -> (Vec<Vec<u8>>, usize) {
    let (from, now) = (
        SocketAddr::from(([192, 0, 2, 2], 4000)),
        UnixTime::from_secs(7200),
    );
    let open = OpenServer::new(ResponseSettings::new().answer_binding(true)).expect("a server");
    let settings = LongTerm::new("example.org", [9; 32]);
    let server = Server::builder(settings)
        .answer_binding(true)
        .build()
        .expect("a server");
    let mut users = server.users();
    let alice = LongTermCredentials::new("alice".to_string(), "wonderland".to_string());
    users.add(alice).expect("a user");
    let (mut answers, mut signed) = (Vec::new(), 0);
    play(&mut new_client(kind), |bytes| {
        signed += usize::from(bytes.len() > 20);
        let answer = match kind {
            "changed" => refusal(bytes, answers.len()),
            "open" => match open.receive(bytes, from) {
                OpenReceived::Answer(answer) => answer.into_bytes(),
                other => panic!("{other:?}"),
            },
            _ => match server.receive(bytes, from, now, &users) {
                Received::Answer(answer) => answer.into_bytes(),
                other => panic!("{other:?}"),
            },
        };
        answers.push(answer.clone());
        answer
    });
    (answers, signed)
}

/// Plays a request of each of so many clients.
fn requests(kind: &str, times: usize) {
    let (answers, signed) = recorded(kind);
    let mut clients: Vec<Client> = (0..CLIENTS).map(|_| new_client(kind)).collect();
    let mut sent = 0;
    for client in &mut clients[..times] {
        let mut next = answers.iter();
        sent = play(client, |_| next.next().expect("as many as before").clone());
    }
    println!("{sent} {signed}");
}

/// Ends pairs of requests of one client.
fn ends(is_far: bool, pairs: usize, outstanding: usize) {
    let (to, now, mut client) = (server_address(), Instant::ZERO, new_client("open"));
    for _ in 0..outstanding {
        client
            .request(BINDING, Body::new(), now)
            .expect("a request");
    }
    let mut answers = Vec::new();
    while let Output::Transmit { bytes, .. } = client.poll(now) {
        let request = Message::from_bytes(bytes).expect("a request");
        answers.push(Message::builder_success(&request, MessageWriteVec::new()).finish());
    }
    for pair in 0..pairs {
        let far = (pair, outstanding - 1 - pair);
        let (one, other) = if is_far {
            far
        } else {
            (2 * pair, 2 * pair + 1)
        };
        let _ = client.receive(&answers[one], to, now);
        let _ = client.receive(&answers[other], to, now);
        while !matches!(client.poll(now), Output::Wait(_)) {}
    }
    println!("{} {}", outstanding - 2 * pairs, client.outstanding());
}

fn main() {
    let words: Vec<String> = std::env::args().skip(1).collect();
    let number = |place: usize| words[place].parse::<usize>().expect("a number");
    match words[0].as_str() {
        "near" | "far" => ends(words[0] == "far", number(1), number(2)),
        kind => requests(kind, number(1)),
    }
}
