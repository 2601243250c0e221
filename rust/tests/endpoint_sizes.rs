//! How many bytes a server sends for each byte of a request that nobody signed, and that anybody
//! can send with a forged source address (amplification).

use seatcrane_stun::endpoint::{Answer, LongTerm, Received, Server, UnixTime};
use seatcrane_stun::extra::finish_with_fingerprint;
use seatcrane_stun::types::attribute::*;
use seatcrane_stun::types::message::*;
use seatcrane_stun::types::prelude::*;
use std::fmt::Write;
use std::net::SocketAddr;

/// The maximum number of bytes sent for each byte received.
const MOST: f64 = 5.4;

/// A server with the realm `example.org` and both algorithms.
const TABLE: &str = "\
| Request | bytes | answer | bytes | out over in |
|---|---|---|---|---|
| Binding, 20 bytes | 20 | 401 | 108 | 5.40 |
| with FINGERPRINT | 28 | 401 | 116 | 4.14 |
| with SOFTWARE of 8 bytes | 32 | 401 | 108 | 3.38 |
| signed by a key that nobody has, no name | 44 | 400 | 40 | 0.91 |
| with a name, realm and nonce that are made up, not signed | 76 | 401 | 108 | 1.42 |
| the same, signed by a key that nobody has | 100 | 438 | 104 | 1.04 |
| of a known user, a current nonce, another key | 108 | 401 | 108 | 1.00 |
| Allocate, 20 bytes | 20 | 401 | 108 | 5.40 |
";

fn id() -> TransactionId {
    TransactionId::from([7; 12])
}

fn begin(method: Method) -> MessageWriteVec {
    Message::builder_request_with_id(method, id(), MessageWriteVec::new())
}

fn named(name: &str, nonce: &str) -> MessageWriteVec {
    let mut page = begin(BINDING);
    page.add_attribute(&Username::new(name).unwrap()).unwrap();
    page.add_attribute(&Realm::new("example.org").unwrap())
        .unwrap();
    page.add_attribute(&Nonce::new(nonce).unwrap()).unwrap();
    page
}

fn signed(mut page: MessageWriteVec) -> Vec<u8> {
    page.add_message_integrity_with_key(b"nobody's key", IntegrityAlgorithm::Sha1)
        .unwrap();
    page.finish()
}

/// Returns requests of somebody who knows no password.
fn requests(nonce: &str) -> Vec<(&'static str, Vec<u8>)> {
    let mut with_software = begin(BINDING);
    with_software
        .add_attribute(&Software::new("software").unwrap())
        .unwrap();
    vec![
        ("Binding, 20 bytes", begin(BINDING).finish()),
        (
            "with FINGERPRINT",
            finish_with_fingerprint(begin(BINDING)).unwrap(),
        ),
        ("with SOFTWARE of 8 bytes", with_software.finish()),
        (
            "signed by a key that nobody has, no name",
            signed(begin(BINDING)),
        ),
        (
            "with a name, realm and nonce that are made up, not signed",
            named("mallory", "a nonce of 22 bytes ..").finish(),
        ),
        (
            "the same, signed by a key that nobody has",
            signed(named("mallory", "a nonce of 22 bytes ..")),
        ),
        (
            "of a known user, a current nonce, another key",
            signed(named("alice", nonce)),
        ),
        (
            "Allocate, 20 bytes",
            begin(Method::new(3).unwrap()).finish(),
        ),
    ]
}

fn answer(received: Received<'_>) -> Answer {
    match received {
        Received::Answer(answer) => answer,
        other => panic!("no answer: {other:?}"),
    }
}

#[test]
fn no_unsigned_request_is_answered_with_many_times_its_bytes() {
    let from: SocketAddr = "192.0.2.1:4242".parse().unwrap();
    let now = UnixTime::from_secs(1_700_000_000);
    let long_term = LongTerm::new("example.org", [1; 32]);
    let server = Server::builder(long_term).answer_binding(true).build().unwrap();
    let mut users = server.users();
    users
        .add(LongTermCredentials::new(
            "alice".to_string(),
            "wonderland".to_string(),
        ))
        .unwrap();
    let mut table: String = TABLE.split_inclusive('\n').take(2).collect();
    for (what, bytes) in requests(&server.nonce_for(from, now)) {
        let answer = answer(server.receive(&bytes, from, now, &users));
        let code = answer.refusal().expect("it is refused").code();
        let (received, sent) = (bytes.len(), answer.bytes().len());
        let ratio = sent as f64 / received as f64;
        writeln!(
            table,
            "| {what} | {received} | {code} | {sent} | {ratio:.2} |"
        )
        .unwrap();
        assert!(ratio <= MOST, "{what}: {sent} bytes for {received}");
    }
    println!("{table}");
    assert_eq!(table, TABLE);
}
