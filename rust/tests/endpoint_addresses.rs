//! Tests that both forms of an IPv4 address are one address at the endpoints, that attributes keep
//! the form that was written (RFC 4291, section 2.5.5.2), and what a server promises if it
//! understands the attributes of TURN.

use seatcrane_stun::endpoint::*;
use seatcrane_stun::extra::attribute::{XorPeerAddress, XorRelayedAddress};
use seatcrane_stun::extra::canonical;
use seatcrane_stun::types::attribute::*;
use seatcrane_stun::types::message::*;
use seatcrane_stun::types::prelude::*;
use std::net::SocketAddr;

const MAPPED: &str = "[::ffff:8.8.8.8]:1000";
const PLAIN: &str = "8.8.8.8:1000";

fn at(address: &str) -> SocketAddr {
    address.parse().unwrap()
}

fn id() -> TransactionId {
    TransactionId::from([9; 12])
}

fn allocate() -> MessageWriteVec {
    let method = Method::new(3).unwrap();
    Message::builder_request_with_id(method, id(), MessageWriteVec::new())
}

/// Returns the reply to a request that a client sent over IPv4 to an IPv6 socket.
fn reply(server: &OpenServer) -> Reply {
    let bytes = allocate().finish();
    let OpenReceived::Request(request) = server.receive(&bytes, at(MAPPED)) else {
        panic!("no request");
    };
    assert_eq!(
        (request.from(), request.reply().to()),
        (at(PLAIN), at(MAPPED))
    );
    request.reply().clone()
}

/// Returns the addresses in the attributes of a type, in the form in which they were written.
fn addresses(response: &[u8], kind: AttributeType) -> Vec<SocketAddr> {
    let message = Message::from_bytes(response).unwrap();
    let found = message.iter_attributes();
    let found = found.filter(|(_, attribute)| attribute.get_type() == kind);
    let address = |(_, attribute): (usize, RawAttribute<'_>)| {
        let raw = RawAttribute::new(XorMappedAddress::TYPE, attribute.value());
        XorMappedAddress::from_raw(raw).unwrap().addr(id())
    };
    found.map(address).collect()
}

#[test]
fn a_response_has_one_spelling() {
    let server = OpenServer::new(ResponseSettings::new()).unwrap();
    let reply = reply(&server);
    for address in [MAPPED, PLAIN] {
        let response = reply.success().add_xor_mapped_address(at(address));
        let response = response.finish().unwrap();
        let mapped = addresses(&response, XorMappedAddress::TYPE);
        assert_eq!(mapped, [at(PLAIN)]);
    }
    let scoped = at("[fe80::1%3]:1000");
    assert_eq!(canonical(scoped), scoped);
    assert_eq!(canonical(at("[::8.8.8.8]:1000")), at("[::8.8.8.8]:1000"));
}

#[test]
fn relayed_and_peer_addresses_repeat() {
    let server = OpenServer::new(ResponseSettings::new()).unwrap();
    let other = at("[2001:db8::1]:5000");
    let response = reply(&server)
        .success()
        .add_xor_relayed_address(at(MAPPED))
        .add_xor_relayed_address(other)
        .add_xor_peer_address(other)
        .add_xor_peer_address(at(MAPPED))
        .finish()
        .unwrap();
    let relayed = addresses(&response, XorRelayedAddress::TYPE);
    let peers = addresses(&response, XorPeerAddress::TYPE);
    assert_eq!(
        (relayed, peers),
        (vec![at(PLAIN), other], vec![other, at(PLAIN)])
    );
    let twice = reply(&server)
        .success()
        .add_xor_mapped_address(other)
        .add_xor_mapped_address(other)
        .finish();
    let exists = StunWriteError::AttributeExists(AttributeType::XOR_MAPPED_ADDRESS);
    assert_eq!(twice, Err(exists));
}

#[test]
fn attributes_keep_their_spelling() {
    let peer = XorPeerAddress::new(at(MAPPED), id());
    assert_eq!(
        (peer.addr(id()), peer.canonical_addr(id())),
        (at(MAPPED), at(PLAIN))
    );
    let loopback = XorPeerAddress::new(at("[::ffff:127.0.0.1]:1"), id());
    assert!(!loopback.addr(id()).ip().is_loopback());
    assert!(loopback.canonical_addr(id()).ip().is_loopback());
    let other = AlternateServer::new(at(MAPPED));
    assert_eq!(
        (other.server(), other.canonical_addr()),
        (at(MAPPED), at(PLAIN))
    );
}

#[test]
fn a_type_is_left_out() {
    let mut request = allocate();
    let dont_fragment = RawAttribute::new(AttributeType::DONT_FRAGMENT, &[]);
    request.add_attribute(&dont_fragment).unwrap();
    let bytes = request.finish();
    let all = ResponseSettings::new().understands(types::TURN);
    let fewer = all
        .clone()
        .does_not_understand(&[AttributeType::DONT_FRAGMENT]);
    let all = OpenServer::new(all).unwrap();
    let fewer = OpenServer::new(fewer).unwrap();
    assert!(matches!(
        all.receive(&bytes, at(PLAIN)),
        OpenReceived::Request(_)
    ));
    let OpenReceived::Answer(answer) = fewer.receive(&bytes, at(PLAIN)) else {
        panic!("no answer");
    };
    assert_eq!(answer.refusal(), Some(Refusal::UnknownAttribute));
}

#[test]
fn a_required_fingerprint_is_missing() {
    let secret = [7; 32];
    let builder = Server::builder(LongTerm::new("example.org", secret)).require_fingerprint(true);
    let server = builder.build().unwrap();
    let (request, users) = (allocate().finish(), server.users());
    let received = server.receive(&request, at(PLAIN), UnixTime::from_secs(0), &users);
    assert!(matches!(
        received,
        Received::Dropped(DropReason::MissingFingerprint)
    ));
}
