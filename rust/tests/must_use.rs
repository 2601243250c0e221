//! Checks that the compiler warns if these results are ignored. If an `expect` suppresses no
//! warning, the compiler warns about the `expect`, and the tests are built without any warnings.

use seatcrane_stun::Instant;
use seatcrane_stun::agent::StunAgent;
use seatcrane_stun::endpoint::ice::{Checker, Role};
use seatcrane_stun::endpoint::*;
use seatcrane_stun::extra::*;
use seatcrane_stun::types::TransportType;
use seatcrane_stun::types::message::{BINDING, Message, TransactionId};
use std::net::SocketAddr;

const REQUEST: &[u8] = b"\0\x01\0\0\x21\x12\xa4\x42 any 12 byte";

fn at(address: &str) -> SocketAddr {
    address.parse().unwrap()
}

#[test]
fn clients() {
    let (server, now) = (at("192.0.2.1:3478"), Instant::ZERO);
    let mut client = Client::builder(server).build([7; 32]).unwrap();
    client.request(BINDING, Body::new(), now).unwrap();
    #[expect(unused_must_use)]
    client.receive(REQUEST, server, now);
    #[expect(unused_must_use)]
    client.poll(now);
    #[expect(unused_must_use)]
    Client::builder(server).fingerprint(true);
    #[expect(unused_must_use)]
    Credentials::none();
    #[expect(unused_must_use)]
    Retransmission::default();
    #[expect(unused_must_use)]
    Body::new();
}

#[test]
fn servers() {
    let (from, now) = (at("192.0.2.1:4242"), UnixTime::from_secs(1));
    #[expect(unused_must_use)]
    LongTerm::new("example.org", [7; 32]).user_hashes(false);
    #[expect(unused_must_use)]
    Server::builder(LongTerm::new("example.org", [7; 32])).software("any");
    let server = Server::builder(LongTerm::new("example.org", [7; 32]));
    let server = server.build().unwrap();
    let users = server.users();
    #[expect(unused_must_use)]
    server.receive(REQUEST, from, now, &users);
    #[expect(unused_must_use)]
    server.receive_for(REQUEST, from, now, None);
    #[expect(unused_must_use)]
    server.identify(REQUEST, from, now);
    #[expect(unused_must_use)]
    server.cause(REQUEST, from, now, &users);

    #[expect(unused_must_use)]
    ResponseSettings::new().software("any");
    let open = OpenServer::new(ResponseSettings::new()).unwrap();
    #[expect(unused_must_use)]
    open.receive(REQUEST, from);
    let server = ShortTermServer::new(ResponseSettings::new()).unwrap();
    let users = ShortTermUsers::new();
    #[expect(unused_must_use)]
    server.receive(REQUEST, from, &users);
}

#[test]
fn checks() {
    let (left, right) = (
        ("evtj", "asd88fgpdd777uzjYhagZg"),
        ("h6vY", "VOkJxbRl1RmTxUk/WvJxBt"),
    );
    let mut checker = Checker::new(left, right, 5, Role::Controlling).unwrap();
    #[expect(unused_must_use)]
    checker.check(TransactionId::from([7; 12]), at("192.0.2.1:1"), 1, false);
    #[expect(unused_must_use)]
    checker.receive(REQUEST, at("192.0.2.1:1"), None);
}

#[test]
fn agents() {
    let mut agent = StunAgent::builder(TransportType::Udp, at("192.0.2.1:1")).build();
    #[expect(unused_must_use)]
    StunAgent::builder(TransportType::Udp, at("192.0.2.1:1")).stats(true);
    #[expect(unused_must_use)]
    agent.poll(Instant::ZERO);
    #[expect(unused_must_use)]
    agent.poll_transmit(Instant::ZERO);
}

#[test]
fn messages_and_streams() {
    let message = Message::from_bytes(REQUEST).unwrap();
    #[expect(unused_must_use)]
    check_fingerprint(&message);
    #[expect(unused_must_use)]
    has_unknown(&message, &[]);
    #[expect(unused_must_use)]
    ends_failed(&message, &[]);
    #[expect(unused_must_use)]
    unknown_types(&message, &[]);
    #[expect(unused_must_use)]
    next_frame(REQUEST);
    #[expect(unused_must_use)]
    next_turn_frame(REQUEST);
    #[expect(unused_must_use)]
    next_packet_frame(REQUEST);
    #[expect(unused_must_use)]
    is_stun(REQUEST);
    #[expect(unused_must_use)]
    TcpBuffer::new().pull_data();
}
