//! Tests of servers without a realm: without credentials, and with short-term credentials.

use seatcrane_stun::auth::ShortTermAuth;
use seatcrane_stun::endpoint::*;
use seatcrane_stun::extra::attribute::Lifetime;
use seatcrane_stun::extra::{Fingerprint, check_fingerprint, finish_with_fingerprint};
use seatcrane_stun::types::attribute::*;
use seatcrane_stun::types::message::IntegrityAlgorithm::{Sha1, Sha256};
use seatcrane_stun::types::message::*;
use seatcrane_stun::types::prelude::*;
use std::net::SocketAddr;

fn at(address: &str) -> SocketAddr {
    address.parse().unwrap()
}

fn allocate() -> Method {
    Method::new(3).unwrap()
}

fn from() -> SocketAddr {
    at("192.0.2.1:4242")
}

fn id(number: u8) -> TransactionId {
    TransactionId::from([number; 12])
}

fn page(class: MessageClass, method: Method) -> MessageWriteVec {
    let kind = MessageType::from_class_method(class, method);
    Message::builder(kind, id(9), MessageWriteVec::new())
}

fn settings() -> ResponseSettings {
    ResponseSettings::new().answer_binding(true)
}

fn password(text: &str) -> ShortTermCredentials {
    ShortTermCredentials::new(text.to_string())
}

/// Returns a server with short-term credentials, and its table of one user.
fn signed() -> (ShortTermServer, ShortTermUsers) {
    let mut users = ShortTermUsers::new();
    users.add("alice", password("wonderland")).unwrap();
    (ShortTermServer::new(settings()).unwrap(), users)
}

/// Returns a message with a name, signed with a password.
fn signed_by(mut page: MessageWriteVec, name: &str, text: &str, by: IntegrityAlgorithm) -> Vec<u8> {
    page.add_attribute(&Username::new(name).unwrap()).unwrap();
    page.add_message_integrity(&password(text).into(), by)
        .unwrap();
    page.finish()
}

fn open_answer(received: OpenReceived<'_>) -> Answer {
    match received {
        OpenReceived::Answer(answer) => answer,
        other => panic!("no answer: {other:?}"),
    }
}

fn answer(received: ShortTermReceived<'_>) -> Answer {
    match received {
        ShortTermReceived::Answer(answer) => answer,
        other => panic!("no answer: {other:?}"),
    }
}

/// Returns the types of a message's attributes.
fn types(bytes: &[u8]) -> Vec<u16> {
    let message = Message::from_bytes(bytes).unwrap();
    message
        .iter_attributes()
        .map(|(_, one)| one.get_type().value())
        .collect()
}

fn code(answer: &Answer) -> u16 {
    match answer.refusal() {
        Some(refusal) => {
            let message = Message::from_bytes(answer.bytes()).unwrap();
            assert_eq!(message.error_code(), Ok(refusal.code()));
            refusal.code()
        }
        None => 200,
    }
}

#[test]
fn an_open_server_answers_everybody() {
    let server = OpenServer::new(settings().software("echo")).unwrap();
    for (source, seen) in [
        ("192.0.2.1:4242", "192.0.2.1:4242"),
        ("[::ffff:192.0.2.1]:4242", "192.0.2.1:4242"),
        ("[2001:db8::1]:4242", "[2001:db8::1]:4242"),
    ] {
        let request = page(MessageClass::Request, BINDING).finish();
        let answer = open_answer(server.receive(&request, at(source)));
        assert_eq!((answer.to(), answer.refusal()), (at(source), None));
        let response = Message::from_bytes(answer.bytes()).unwrap();
        assert!(response.has_class(MessageClass::Success));
        assert_eq!(response.transaction_id(), id(9));
        let mapped = response.attribute::<XorMappedAddress>().unwrap();
        assert_eq!(mapped.addr(id(9)), at(seen));
        assert_eq!(types(answer.bytes()), [0x0020, 0x8022]);
    }
}

#[test]
fn an_open_server_ends_with_fingerprint_if_the_request_does() {
    let server = OpenServer::new(settings()).unwrap();
    let request = finish_with_fingerprint(page(MessageClass::Request, BINDING)).unwrap();
    let answer = open_answer(server.receive(&request, from()));
    let response = Message::from_bytes(answer.bytes()).unwrap();
    assert_eq!(check_fingerprint(&response), Fingerprint::Right);

    let mut damaged = request.clone();
    *damaged.last_mut().unwrap() ^= 1;
    let received = server.receive(&damaged, from());
    assert!(matches!(
        received,
        OpenReceived::Dropped(DropReason::WrongFingerprint)
    ));
}

#[test]
fn an_open_server_lists_what_it_does_not_understand() {
    let server = OpenServer::new(settings().understands(types::ICE)).unwrap();
    let mut request = page(MessageClass::Request, BINDING);
    for kind in [0x0024, 0x7777, 0x8888, 0x7776] {
        request
            .add_attribute(&RawAttribute::new(kind.into(), &[0; 4]))
            .unwrap();
    }
    let answer = open_answer(server.receive(&request.finish(), from()));
    assert_eq!(code(&answer), 420);
    assert_eq!(types(answer.bytes()), [0x0009, 0x000A]);
    assert!(answer.bytes().ends_with(&[0x77, 0x77, 0x77, 0x76]));

    let mut indication = page(MessageClass::Indication, BINDING);
    indication
        .add_attribute(&RawAttribute::new(0x7777.into(), &[]))
        .unwrap();
    let bytes = indication.finish();
    let received = server.receive(&bytes, from());
    assert!(matches!(
        received,
        OpenReceived::Dropped(DropReason::UnknownAttribute)
    ));
}

#[test]
fn an_open_server_hands_out_the_rest() {
    let server = OpenServer::new(settings()).unwrap();
    let bytes = page(MessageClass::Request, allocate()).finish();
    let OpenReceived::Request(request) = server.receive(&bytes, from()) else {
        panic!("no request");
    };
    assert_eq!((request.method(), request.from()), (allocate(), from()));
    assert_eq!(request.message().transaction_id(), id(9));
    let response = request
        .reply()
        .success()
        .add(&Lifetime::new(600))
        .finish()
        .unwrap();
    assert_eq!(types(&response), [0x000D]);

    let bytes = page(MessageClass::Indication, BINDING).finish();
    assert!(matches!(
        server.receive(&bytes, from()),
        OpenReceived::Indication(_)
    ));
    for class in [MessageClass::Success, MessageClass::Error] {
        let bytes = page(class, BINDING).finish();
        assert!(matches!(
            server.receive(&bytes, from()),
            OpenReceived::Response(_)
        ));
    }
    let (none, short) = (server.receive(b"junk", from()), &bytes[..bytes.len() - 1]);
    assert!(matches!(none, OpenReceived::Dropped(DropReason::NotStun)));
    let cut = server.receive(short, from());
    assert!(matches!(cut, OpenReceived::Dropped(_)), "{cut:?}");
}

#[test]
fn binding_is_for_the_caller_unless_the_server_is_to_answer() {
    let bytes = page(MessageClass::Request, BINDING).finish();
    let server = OpenServer::new(ResponseSettings::new()).unwrap();
    assert!(matches!(
        server.receive(&bytes, from()),
        OpenReceived::Request(_)
    ));

    let (_, users) = signed();
    let server = ShortTermServer::new(ResponseSettings::new()).unwrap();
    let bytes = signed_by(
        page(MessageClass::Request, BINDING),
        "alice",
        "wonderland",
        Sha1,
    );
    let received = server.receive(&bytes, from(), &users);
    assert!(matches!(received, ShortTermReceived::Request(_)));
}

/// RFC 8489, section 9.1.3: a response is signed with the same key and the same attribute.
#[test]
fn a_signed_request_gets_a_signed_response() {
    let (server, users) = signed();
    for (by, kind) in [(Sha1, 0x0008), (Sha256, 0x001C)] {
        let request = signed_by(
            page(MessageClass::Request, BINDING),
            "alice",
            "wonderland",
            by,
        );
        let answer = answer(server.receive(&request, from(), &users));
        assert_eq!(code(&answer), 200);
        assert_eq!(types(answer.bytes()), [0x0020, kind]); // and no USERNAME
        let mut client = ShortTermAuth::new();
        client.set_credentials(password("wonderland"), by);
        let response = Message::from_bytes(answer.bytes()).unwrap();
        assert_eq!(client.validate_incoming_message(&response), Ok(Some(by)));
    }
}

/// RFC 8489, section 9.1.3: 400 without a signature or a name, 401 for another name or password,
/// and neither is signed.
#[test]
fn refusals_are_those_of_the_rfc_and_are_not_signed() {
    let (server, users) = signed();
    let request = || page(MessageClass::Request, BINDING);
    let unsigned = {
        let mut page = request();
        page.add_attribute(&Username::new("alice").unwrap())
            .unwrap();
        page.finish()
    };
    let unnamed = {
        let mut page = request();
        page.add_message_integrity(&password("wonderland").into(), Sha1)
            .unwrap();
        page.finish()
    };
    let not_a_name = {
        let mut page = request();
        page.add_attribute(&RawAttribute::new(AttributeType::USERNAME, &[0xff]))
            .unwrap();
        page.add_message_integrity(&password("wonderland").into(), Sha1)
            .unwrap();
        page.finish()
    };
    let cases = [
        (request().finish(), 400),
        (unsigned, 400),
        (unnamed, 400),
        (not_a_name, 401),
        (signed_by(request(), "bob", "wonderland", Sha1), 401),
        (signed_by(request(), "alice", "wrong", Sha256), 401),
        (signed_by(request(), "alice", "", Sha1), 401),
    ];
    for (bytes, expected) in cases {
        let answer = answer(server.receive(&bytes, from(), &users));
        assert_eq!(code(&answer), expected);
        assert_eq!(types(answer.bytes()), [0x0009]);
    }
}

#[test]
fn a_name_behind_the_signature_does_not_count() {
    let (server, users) = signed();
    let mut bytes = {
        let mut page = page(MessageClass::Request, BINDING);
        page.add_message_integrity(&password("wonderland").into(), Sha1)
            .unwrap();
        page.finish()
    };
    bytes.extend_from_slice(&[0, 6, 0, 5, b'a', b'l', b'i', b'c', b'e', 0, 0, 0]);
    bytes[3] += 12;
    assert_eq!(code(&answer(server.receive(&bytes, from(), &users))), 400);
}

/// The attributes of a request are checked after its signature (RFC 8489, section 6.3.1).
#[test]
fn a_signed_420_lists_what_is_not_understood() {
    let (server, users) = signed();
    let request = || {
        let mut page = page(MessageClass::Request, BINDING);
        page.add_attribute(&RawAttribute::new(0x7777.into(), &[]))
            .unwrap();
        page
    };
    let bytes = signed_by(request(), "alice", "wonderland", Sha256);
    let refused = answer(server.receive(&bytes, from(), &users));
    assert_eq!(code(&refused), 420);
    assert_eq!(types(refused.bytes()), [0x0009, 0x000A, 0x001C]);
    let bytes = signed_by(request(), "alice", "wrong", Sha256);
    assert_eq!(code(&answer(server.receive(&bytes, from(), &users))), 401);
}

#[test]
fn accepted_requests_have_their_user_and_a_signed_reply() {
    let (server, users) = signed();
    let bytes = signed_by(
        page(MessageClass::Request, allocate()),
        "alice",
        "wonderland",
        Sha1,
    );
    let ShortTermReceived::Request(request) = server.receive(&bytes, from(), &users) else {
        panic!("no request");
    };
    assert_eq!((request.user(), request.algorithm()), ("alice", Sha1));
    for response in [request.reply().success(), request.reply().error(508, "")] {
        let bytes = response.finish().unwrap();
        let message = Message::from_bytes(&bytes).unwrap();
        let credentials = password("wonderland").into();
        assert_eq!(message.validate_integrity(&credentials), Ok(Sha1));
    }
}

#[test]
fn indications_must_be_signed() {
    let (server, users) = signed();
    let indication = || page(MessageClass::Indication, BINDING);
    let bytes = signed_by(indication(), "alice", "wonderland", Sha256);
    let ShortTermReceived::Indication(signed) = server.receive(&bytes, from(), &users) else {
        panic!("no indication");
    };
    assert_eq!((signed.user(), signed.algorithm()), ("alice", Sha256));
    assert!(signed.message().has_class(MessageClass::Indication));

    for (bytes, expected) in [
        (indication().finish(), DropReason::UnsignedIndication),
        (
            signed_by(indication(), "bob", "wonderland", Sha1),
            DropReason::UnauthenticatedIndication,
        ),
        (
            signed_by(indication(), "alice", "wrong", Sha1),
            DropReason::UnauthenticatedIndication,
        ),
    ] {
        match server.receive(&bytes, from(), &users) {
            ShortTermReceived::Dropped(why) => assert_eq!(why, expected),
            other => panic!("{other:?}"),
        }
    }
}

#[test]
fn users_may_change_between_any_two_calls() {
    let (server, mut users) = signed();
    let bytes = signed_by(
        page(MessageClass::Request, BINDING),
        "alice",
        "wonderland",
        Sha1,
    );
    assert_eq!(code(&answer(server.receive(&bytes, from(), &users))), 200);
    users.add("alice", password("looking-glass")).unwrap();
    assert_eq!(code(&answer(server.receive(&bytes, from(), &users))), 401);
    users.add("alice", password("wonderland")).unwrap();
    assert_eq!(code(&answer(server.receive(&bytes, from(), &users))), 200);
    users.remove("alice");
    assert_eq!(code(&answer(server.receive(&bytes, from(), &users))), 401);
}

#[test]
fn settings_are_refused_when_a_server_is_built() {
    let settings = |length| ResponseSettings::new().software("s".repeat(length));
    assert!(OpenServer::new(settings(763)).is_ok());
    let refused = Some(BuildError::SoftwareTooLong);
    assert_eq!(OpenServer::new(settings(764)).err(), refused);
    assert_eq!(ShortTermServer::new(settings(764)).err(), refused);
}

#[test]
fn everything_can_be_shared_among_threads() {
    fn shared<T: Send + Sync>() {}
    fn kept<T: Send + Sync + 'static>() {}
    kept::<ResponseSettings>();
    kept::<OpenServer>();
    kept::<ShortTermServer>();
    kept::<ShortTermUsers>();
    shared::<OpenReceived<'static>>();
    shared::<ShortTermReceived<'static>>();
}

#[test]
fn debug_shows_no_password() {
    let (server, users) = signed();
    let bytes = signed_by(
        page(MessageClass::Request, allocate()),
        "alice",
        "wonderland",
        Sha1,
    );
    let received = server.receive(&bytes, from(), &users);
    let told = format!("{server:?} {users:?} {received:?}");
    assert!(
        !told.contains("wonderland") && !told.contains("119, 111, 110"),
        "{told}"
    );
}
