//! Tests of a server as one value whose users are looked up between two calls.

use crate::exported::stun_auth::auth::LongTermClientAuth;
use crate::exported::stun_endpoint::lookup::Identified;
use crate::exported::stun_endpoint::received::{Answer, DropReason, Received};
use crate::exported::stun_endpoint::server::{LongTerm, Server};
use crate::exported::stun_endpoint::unix_time::UnixTime;
use crate::exported::stun_judging::named_user::NamedUser;
use crate::exported::stun_types::attribute::ErrorCode;
use crate::exported::stun_types::message::{
    BINDING, IntegrityAlgorithm, LongTermCredentials, Message, MessageClass, MessageType,
    MessageWriteVec, Method, TransactionId,
};
use crate::exported::stun_types::prelude::*;
use crate::kit::alloc::Global;
use crate::kit::prelude::{String, Vec};
use std::net::SocketAddr;

const HOUR: u64 = 3600;

fn text(text: &str) -> String {
    String::from_str(Global, text).unwrap()
}

fn at(address: &str) -> SocketAddr {
    address.parse().unwrap()
}

fn secs(seconds: u64) -> UnixTime {
    UnixTime::from_secs(HOUR * 472_222 + seconds)
}

fn alice(password: &str) -> LongTermCredentials {
    LongTermCredentials::new(text("alice"), text(password))
}

fn long_term(secret: u8, previous: Option<u8>) -> Server {
    let mut settings = LongTerm::new(Global, text("example.org"), [secret; 32]);
    settings.answers_binding = true;
    settings.previous_secret = previous.map(|byte| [byte; 32]);
    Server::new(Global, settings).unwrap()
}

fn client(password: &str) -> LongTermClientAuth {
    let mut client = LongTermClientAuth::new(Global);
    client.add_supported_integrity(IntegrityAlgorithm::Sha256);
    client.set_credentials(alice(password));
    client
}

fn id() -> TransactionId {
    TransactionId::from_u128(9).unwrap()
}

fn begun(class: MessageClass, method: Method) -> MessageWriteVec {
    let kind = MessageType::from_class_method(class, method);
    Message::builder(kind, id(), MessageWriteVec::new(Global)).unwrap()
}

fn binding(client: &mut LongTermClientAuth) -> Vec<u8> {
    let page = begun(MessageClass::Request, BINDING);
    client.sign_outgoing_message(page).unwrap().finish()
}

fn answer(received: Received<'_>) -> Answer {
    match received {
        Received::Answer(answer) => answer,
        _ => panic!("no answer"),
    }
}

fn code(answer: &Answer) -> u16 {
    let message = Message::from_bytes(answer.bytes()).unwrap();
    match answer.refusal() {
        Some(refusal) => {
            let error = message.attribute::<ErrorCode>().unwrap();
            assert_eq!(error.code(), refusal.code());
            refusal.code()
        }
        None => 200,
    }
}

/// Returns the answer to a datagram that needs no user.
fn done(identified: Identified<'_>) -> Answer {
    match identified {
        Identified::Done(received) => answer(received),
        Identified::Lookup(_) => panic!("a look-up"),
    }
}

/// Returns a client at an address that has read the challenge of a server.
fn challenged(server: &Server, from: SocketAddr, now: UnixTime, password: &str) -> LongTermClientAuth {
    let mut client = client(password);
    let request = binding(&mut client);
    let answer = done(server.identify(request.as_slice(), from, now).unwrap());
    assert_eq!(code(&answer), 401);
    let _ = client.validate_incoming_message(&Message::from_bytes(answer.bytes()).unwrap());
    client
}

/// Returns the code of the answer to a request whose user is looked up.
fn looked_up(server: &Server, request: &[u8], from: SocketAddr, now: UnixTime, knows: bool) -> u16 {
    let Ok(Identified::Lookup(lookup)) = server.identify(request, from, now) else {
        panic!("no look-up");
    };
    assert!(matches!(lookup.user_id(), NamedUser::ByHash(_)));
    assert_eq!(lookup.from(), from);
    assert_eq!(lookup.message().as_bytes(), request);
    let user = server.user(alice("wonderland")).unwrap();
    let received = server.resume(lookup, if knows { Some(&user) } else { None });
    code(&answer(received.unwrap()))
}

#[test]
fn a_look_up_has_an_accepted_nonce_of_its_source() {
    let (from, other) = (at("192.0.2.1:4242"), at("192.0.2.1:4243"));
    let server = long_term(1, None);
    let mut client = challenged(&server, from, secs(10), "wonderland");
    let request = binding(&mut client);
    let request = request.as_slice();
    // The nonce is accepted at once and in the next lifetime, but not in the lifetime after that.
    assert_eq!(looked_up(&server, request, from, secs(11), true), 200);
    assert_eq!(looked_up(&server, request, from, secs(HOUR + 11), true), 200);
    assert_eq!(looked_up(&server, request, from, secs(11), false), 401);
    for (from, now) in [(from, secs(2 * HOUR)), (other, secs(11))] {
        let answer = done(server.identify(request, from, now).unwrap());
        assert_eq!(code(&answer), 438);
        assert_eq!(answer.to(), from);
    }
    // Servers with another secret, with this one as their previous secret and without it.
    assert_eq!(looked_up(&long_term(2, Some(1)), request, from, secs(11), true), 200);
    let answer = done(long_term(2, None).identify(request, from, secs(11)).unwrap());
    assert_eq!(code(&answer), 438);
}

#[test]
fn a_slow_look_up_is_judged_when_it_came() {
    let from = at("[2001:db8::1]:3478");
    let server = long_term(1, None);
    let mut client = challenged(&server, from, secs(HOUR - 1), "builder");
    let request = binding(&mut client);
    let Ok(Identified::Lookup(lookup)) = server.identify(request.as_slice(), from, secs(HOUR)) else {
        panic!("no look-up");
    };
    assert_eq!(lookup.arrived(), secs(HOUR));
    assert_eq!(lookup.transaction_id(), id());
    let user = server.user(alice("builder")).unwrap();
    let answer = answer(server.resume(lookup, Some(&user)).unwrap());
    assert_eq!(code(&answer), 200);
    let response = Message::from_bytes(answer.bytes()).unwrap();
    assert!(client.validate_incoming_message(&response).is_ok());
}

#[test]
fn an_unsigned_request_and_junk_are_done() {
    let from = at("192.0.2.1:4242");
    let server = long_term(1, None);
    let request = begun(MessageClass::Request, BINDING).finish();
    assert_eq!(code(&done(server.identify(request.as_slice(), from, secs(0)).unwrap())), 401);
    for (bytes, why) in [(&request.as_slice()[..19], DropReason::NotStun), (&[0; 40], DropReason::NotStun)] {
        let Ok(Identified::Done(Received::Dropped(dropped))) = server.identify(bytes, from, secs(0))
        else {
            panic!("it is not dropped");
        };
        assert_eq!(dropped, why);
    }
}
