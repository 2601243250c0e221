//! Calls that TURN servers and clients make every day: Binding without credentials, methods, users
//! in a table next to look-ups, answers in a buffer, and indications.

use seatcrane_stun::Instant;
use seatcrane_stun::auth::NamedUser::{ByHash, ByName};
use seatcrane_stun::endpoint::*;
use seatcrane_stun::extra::attribute::*;
use seatcrane_stun::extra::turn::*;
use seatcrane_stun::extra::{finish_with_fingerprint, reason_phrase};
use seatcrane_stun::types::attribute::*;
use seatcrane_stun::types::message::*;
use seatcrane_stun::types::prelude::*;
use std::net::SocketAddr;

fn now() -> UnixTime {
    UnixTime::from_secs(1_800_000_000)
}

fn from() -> SocketAddr {
    "192.0.2.1:4242".parse().unwrap()
}

fn builder() -> ServerBuilder {
    Server::builder(LongTerm::new("example.org", [7; 32]))
}

fn users_of(server: &Server) -> Users {
    let mut users = server.users();
    for (name, password) in [("alice", "wonderland"), ("bob", "builder")] {
        let user = LongTermCredentials::new(name.to_string(), password.to_string());
        users.add(user).unwrap();
    }
    users
}

fn unsigned(method: Method) -> Vec<u8> {
    let id = TransactionId::from([9; 12]);
    Message::builder_request_with_id(method, id, MessageWriteVec::new()).finish()
}

/// Returns a request that its user has signed after a challenge of the server.
fn signed(server: &Server, users: &Users, name: &str, method: Method) -> Vec<u8> {
    let password = if name == "alice" {
        "wonderland"
    } else {
        "builder"
    };
    let credentials = Credentials::long_term(name, password);
    let client = Client::builder("192.0.2.9:3478".parse().unwrap()).credentials(credentials);
    let mut client = client.build([3; 32]).unwrap();
    client.request(method, Body::new(), Instant::ZERO).unwrap();
    let Output::Transmit { bytes: first, .. } = client.poll(Instant::ZERO) else {
        panic!("nothing to send")
    };
    let first = first.to_vec();
    let Received::Answer(challenge) = server.receive(&first, from(), now(), users) else {
        panic!("no challenge")
    };
    let at = "192.0.2.9:3478".parse().unwrap();
    let _ = client.receive(challenge.bytes(), at, Instant::ZERO);
    match client.poll(Instant::ZERO) {
        Output::Transmit { bytes: second, .. } => second.to_vec(),
        other => panic!("{other:?}"),
    }
}

#[test]
fn binding_is_answered_for_everybody() {
    let closed = builder().answer_binding(true).build().unwrap();
    let open = builder()
        .answer_binding(true)
        .open_binding(true)
        .software("x")
        .build()
        .unwrap();
    let users = users_of(&open);
    let refused = |server: &Server, bytes: &[u8]| match server.receive(bytes, from(), now(), &users)
    {
        Received::Answer(answer) => answer.refusal().map(Refusal::code),
        other => panic!("{other:?}"),
    };
    let binding = unsigned(BINDING);
    assert_eq!(refused(&closed, &binding), Some(401));
    assert_eq!(refused(&open, &binding), None);
    assert_eq!(
        closed.cause(&binding, from(), now(), &users),
        Some(Cause::NoSignature)
    );
    assert_eq!(open.cause(&binding, from(), now(), &users), None);
    assert_eq!(open.cause_for(&binding, from(), now(), None), None);
    // All calls agree, and no signature is in the answer.
    let mut buffer = b"before".to_vec();
    let Received::Answer(answer) = open.receive(&binding, from(), now(), &users) else {
        panic!()
    };
    let message = Message::from_bytes(answer.bytes()).unwrap();
    assert_eq!(message.xor_mapped_address(), Ok(from()));
    assert!(message.has_attribute(AttributeType::SOFTWARE));
    assert!(!message.has_attribute(AttributeType::MESSAGE_INTEGRITY));
    let _ = open.receive_into(&binding, from(), now(), &users, &mut buffer);
    assert_eq!(buffer, answer.bytes());
    let _ = open.receive_for_into(&binding, from(), now(), None, &mut buffer);
    assert_eq!(buffer, answer.bytes());
    let Identified::Done(Received::Answer(other)) = open.identify(&binding, from(), now()) else {
        panic!()
    };
    assert_eq!(other.bytes(), answer.bytes());
    // Another method is challenged, and a signed Binding request is judged.
    assert_eq!(refused(&open, &unsigned(Method::ALLOCATE)), Some(401));
    let request = signed(&closed, &users, "alice", BINDING);
    let Received::Answer(answer) = open.receive(&request, from(), now(), &users) else {
        panic!()
    };
    let message = Message::from_bytes(answer.bytes()).unwrap();
    assert!(message.has_attribute(AttributeType::MESSAGE_INTEGRITY_SHA256));
    // An attribute that must be understood but is not, and bytes that are not a message.
    let mut unknown =
        Message::builder_request_with_id(BINDING, [1; 12].into(), MessageWriteVec::new());
    unknown
        .add_attribute(&RawAttribute::new(AttributeType(0x7777), b""))
        .unwrap();
    assert_eq!(refused(&open, &unknown.finish()), Some(420));
    let fingerprinted =
        Message::builder_request_with_id(BINDING, [1; 12].into(), MessageWriteVec::new());
    let mut damaged = finish_with_fingerprint(fingerprinted).unwrap();
    *damaged.last_mut().unwrap() ^= 1;
    let received = open.receive(&damaged, from(), now(), &users);
    assert!(matches!(
        received,
        Received::Dropped(DropReason::WrongFingerprint)
    ));
    let received = open.receive(b"none", from(), now(), &users);
    assert!(matches!(received, Received::Dropped(DropReason::NotStun)));
}

#[test]
fn methods_that_are_not_served_are_dropped() {
    let served = [BINDING, Method::ALLOCATE];
    let server = builder()
        .methods(&served)
        .answer_binding(true)
        .build()
        .unwrap();
    let (open, short) = {
        let settings = ResponseSettings::new()
            .methods(&served)
            .answer_binding(true);
        (
            OpenServer::new(settings.clone()).unwrap(),
            ShortTermServer::new(settings).unwrap(),
        )
    };
    let users = users_of(&server);
    let mut buffer = b"before".to_vec();
    for (method, is_served) in [
        (BINDING, true),
        (Method::ALLOCATE, true),
        (Method::REFRESH, false),
        (Method::new(0xfff).unwrap(), false),
    ] {
        let class = MessageClass::Indication;
        let kind = MessageType::from_class_method(class, method);
        let indication = Message::builder(kind, [9; 12].into(), MessageWriteVec::new()).finish();
        for bytes in [unsigned(method), indication] {
            let dropped = Some(DropReason::OtherMethod).filter(|_| !is_served);
            let why = |received| match received {
                Received::Dropped(why) => Some(why),
                _ => None,
            };
            assert_eq!(why(server.receive(&bytes, from(), now(), &users)), dropped);
            assert_eq!(
                why(server.receive_for(&bytes, from(), now(), None)),
                dropped
            );
            match server.identify(&bytes, from(), now()) {
                Identified::Done(received) => assert_eq!(why(received), dropped),
                Identified::Lookup(_) => panic!("it is not signed"),
            }
            let received = server.receive_into(&bytes, from(), now(), &users, &mut buffer);
            let is_dropped = matches!(received, Received::Dropped(DropReason::OtherMethod));
            assert_eq!(is_dropped, !is_served);
            assert!(!is_dropped || buffer.is_empty());
            if !is_served {
                assert_eq!(server.cause(&bytes, from(), now(), &users), None);
            }
            let is_dropped = matches!(
                open.receive(&bytes, from()),
                OpenReceived::Dropped(DropReason::OtherMethod)
            );
            assert_eq!(is_dropped, !is_served);
            let users = ShortTermUsers::new();
            let is_dropped = matches!(
                short.receive(&bytes, from(), &users),
                ShortTermReceived::Dropped(DropReason::OtherMethod)
            );
            assert_eq!(is_dropped, !is_served);
        }
        // Responses are for clients on the same socket.
        let kind = MessageType::from_class_method(MessageClass::Success, method);
        let response = Message::builder(kind, [9; 12].into(), MessageWriteVec::new()).finish();
        let received = server.receive(&response, from(), now(), &users);
        assert!(matches!(received, Received::Response(_)));
    }
    assert_eq!(
        DropReason::OtherMethod.to_string(),
        "its method is not served"
    );
}

/// A look-up has the same outcome with a table, with the user that the table finds, and in a
/// buffer.
#[test]
fn look_ups_in_a_table() {
    let server = builder().answer_binding(true).build().unwrap();
    let users = users_of(&server);
    let mut fewer = users.clone();
    fewer.remove("bob");
    for (name, method) in [
        ("alice", BINDING),
        ("bob", BINDING),
        ("bob", Method::REFRESH),
    ] {
        let request = signed(&server, &users, name, method);
        for table in [&users, &fewer] {
            let lookup = || match server.identify(&request, from(), now()) {
                Identified::Lookup(lookup) => lookup,
                other => panic!("{other:?}"),
            };
            // The client sends a hash of the name.
            let hash = Userhash::compute(name, "example.org");
            assert_eq!(lookup().user_id(), ByHash(hash));
            let found = table.find(lookup().user_id());
            assert_eq!(found.is_some(), table.contains(name));
            assert_eq!(table.find(ByName(name)).is_some(), table.contains(name));

            let received = |received: Received<'_>| match received {
                Received::Answer(answer) => (Some(answer.into_bytes()), None),
                Received::Request(request) => (None, Some(request.user().to_string())),
                other => panic!("{other:?}"),
            };
            let asked = received(server.receive(&request, from(), now(), table));
            assert_eq!(received(server.resume_among(lookup(), table)), asked);
            assert_eq!(received(server.resume(lookup(), found.as_ref())), asked);
            let owned = lookup().into_owned();
            assert_eq!(received(server.resume_among(&owned, table)), asked);

            let mut buffer = b"before".to_vec();
            let identified = server.identify_into(&request, from(), now(), &mut buffer);
            assert!(matches!(identified, Identified::Lookup(_)));
            assert!(buffer.is_empty());
            let into = |received: Received<'_, &[u8]>| match received {
                Received::Answer(answer) => (Some(answer.bytes().to_vec()), None),
                Received::Request(request) => (None, Some(request.user().to_string())),
                other => panic!("{other:?}"),
            };
            buffer.extend(b"before");
            let resumed = server.resume_into(lookup(), found.as_ref(), &mut buffer);
            assert_eq!(into(resumed), asked);
            assert_eq!(buffer, asked.0.clone().unwrap_or_default());
            buffer.extend(b"before");
            assert_eq!(
                into(server.resume_among_into(lookup(), table, &mut buffer)),
                asked
            );
            assert_eq!(buffer, asked.0.unwrap_or_default());
        }
    }
    // A response that needs no user is written into the buffer.
    let (mut buffer, binding) = (Vec::new(), unsigned(BINDING));
    let Identified::Done(Received::Answer(answer)) =
        server.identify_into(&binding, from(), now(), &mut buffer)
    else {
        panic!()
    };
    let refused = Message::from_bytes(answer.bytes()).unwrap().error_code();
    assert_eq!(refused, Ok(401));
}

#[test]
fn replies_in_a_buffer() {
    let server = builder().software("example").build().unwrap();
    let users = users_of(&server);
    let request = signed(&server, &users, "alice", Method::REFRESH);
    let Received::Request(request) = server.receive(&request, from(), now(), &users) else {
        panic!()
    };
    let reply = request.reply();
    let lifetime = Lifetime::new(600);
    let expected = reply.success().add(&lifetime).finish().unwrap();
    let mut buffer = Vec::with_capacity(500);
    buffer.extend(b"before");
    let (memory, room) = (buffer.as_ptr(), buffer.capacity());
    let bytes = reply
        .success_into(&mut buffer)
        .add(&lifetime)
        .finish()
        .unwrap();
    assert_eq!(bytes, expected);
    assert_eq!(
        (&buffer[..], buffer.as_ptr(), buffer.capacity()),
        (&expected[..], memory, room)
    );

    let expected = reply.error(508, "full").finish().unwrap();
    assert_eq!(
        reply.error_into(508, "full", &mut buffer).finish().unwrap(),
        expected
    );
    assert_eq!(buffer.as_ptr(), memory);
    let failed = reply.error_into(200, "", &mut buffer).finish();
    assert_eq!(failed, Err(StunWriteError::NotAllowed));
    let twice = reply
        .success_into(&mut buffer)
        .add(&lifetime)
        .add(&lifetime)
        .finish();
    assert_eq!(
        twice,
        Err(StunWriteError::AttributeExists(AttributeType::LIFETIME))
    );
    assert!(buffer.is_empty());

    let refused = reply
        .refuse(ErrorCode::PEER_ADDRESS_FAMILY_MISMATCH)
        .finish()
        .unwrap();
    let refused = Message::from_bytes(&refused).unwrap();
    let error = refused.attribute::<ErrorCode>().unwrap();
    assert_eq!(
        (error.code(), error.reason()),
        (443, "Peer Address Family Mismatch")
    );
    assert!(refused.has_attribute(AttributeType::MESSAGE_INTEGRITY_SHA256));
    assert_eq!(reply.refuse(999).finish(), Err(StunWriteError::NotAllowed));

    let types = [AttributeType::EVEN_PORT, AttributeType::DONT_FRAGMENT];
    let unknown = reply.unknown(&types).finish().unwrap();
    let unknown = Message::from_bytes(&unknown).unwrap();
    assert_eq!(unknown.error_code(), Ok(420));
    let value = unknown
        .raw_attribute(AttributeType::UNKNOWN_ATTRIBUTES)
        .unwrap();
    assert_eq!(value.value(), [0, 0x18, 0, 0x1A]);
    assert!(format!("{reply:?}").contains("192.0.2.1:4242"), "{reply:?}");
}

#[test]
fn codes_and_methods_have_names() {
    for code in [
        ErrorCode::MOBILITY_FORBIDDEN,
        ErrorCode::UNSUPPORTED_TRANSPORT_PROTOCOL,
        ErrorCode::PEER_ADDRESS_FAMILY_MISMATCH,
        ErrorCode::CONNECTION_ALREADY_EXISTS,
        ErrorCode::CONNECTION_TIMEOUT_OR_FAILURE,
    ] {
        assert!(reason_phrase(code).is_some(), "{code}");
    }
    let constants = [
        Method::ALLOCATE,
        Method::REFRESH,
        Method::SEND,
        Method::DATA,
        Method::CREATE_PERMISSION,
        Method::CHANNEL_BIND,
        Method::CONNECT,
        Method::CONNECTION_BIND,
        Method::CONNECTION_ATTEMPT,
    ];
    assert_eq!(constants, TurnMethod::ALL.map(TurnMethod::method));
}

#[test]
fn attributes_that_repeat_or_are_optional() {
    let id = TransactionId::from([9; 12]);
    let mut message = Message::builder_request_with_id(BINDING, id, MessageWriteVec::new());
    let one: SocketAddr = "[::ffff:192.0.2.7]:1".parse().unwrap();
    let other: SocketAddr = "[2001:db8::7]:2".parse().unwrap();
    for peer in [one, other] {
        message
            .add_another_attribute(&XorPeerAddress::new(peer, id))
            .unwrap();
    }
    message
        .add_attribute(&RawAttribute::new(AttributeType::LIFETIME, b"odd"))
        .unwrap();
    let bytes = message.finish();
    let message = Message::from_bytes(&bytes).unwrap();
    let found: Vec<_> = message.attributes::<XorPeerAddress>().collect();
    assert_eq!(found.len(), 2);
    assert_eq!(found[0].as_ref().unwrap().addr(id), one);
    let peers: Result<Vec<_>, _> = message.xor_peer_addresses().collect();
    assert_eq!(peers.unwrap(), ["192.0.2.7:1".parse().unwrap(), other]);
    assert_eq!(message.attributes::<Lifetime>().count(), 1);
    assert!(message.attributes::<Lifetime>().all(|found| found.is_err()));
    assert!(message.optional::<Lifetime>().is_err());
    assert!(matches!(message.optional::<EvenPort>(), Ok(None)));
    assert!(matches!(message.optional::<XorPeerAddress>(), Ok(Some(_))));
}

#[test]
fn indications_need_no_random_numbers() {
    let (peer, mut buffer) = ("192.0.2.7:9".parse().unwrap(), Vec::with_capacity(2000));
    let memory = buffer.as_ptr();
    for length in [0, 1, 3, 1200] {
        let (id, data) = (TransactionId::from([9; 12]), vec![7; length]);
        for (written, method) in [
            (data_indication(id, peer, &data, &mut buffer), Method::DATA),
            (Ok(()), Method::SEND),
        ] {
            written.unwrap();
            if method == Method::SEND {
                send_indication(id, peer, &data, &mut buffer).unwrap();
            } else {
                data_indication(id, peer, &data, &mut buffer).unwrap();
            }
            let message = Message::from_bytes(&buffer).unwrap();
            assert!(message.has_class(MessageClass::Indication) && message.has_method(method));
            assert_eq!(message.attribute::<Data>().unwrap().data(), data);
            let peers: Result<Vec<_>, _> = message.xor_peer_addresses().collect();
            assert_eq!((peers.unwrap(), message.transaction_id()), (vec![peer], id));
            assert_eq!(Packet::of(&buffer), Packet::Message);
            assert_eq!(buffer.as_ptr(), memory);
        }
    }
    let id = TransactionId::from([9; 12]);
    let error = data_indication(id, peer, &[0; 65_530], &mut buffer);
    assert_eq!(error, Err(StunWriteError::TooLarge));
    assert!(buffer.is_empty());
    assert_eq!(Packet::of(b""), Packet::Other);
    assert_eq!(Packet::of(b"\x40\0\0\x05med"), Packet::Other);
    let media = Packet::of(b"\x40\x01\0\x05media");
    assert_eq!(
        media,
        Packet::ChannelData(ChannelData::new(0x4001, b"media").unwrap())
    );
}

#[test]
fn a_client_writes_indications() {
    let server = "192.0.2.9:3478".parse().unwrap();
    let peer = "192.0.2.7:9".parse().unwrap();
    let body = Body::new().add_xor_peer_address(peer).unwrap();
    let body = body.add(&Data::new(b"payload")).unwrap();
    let long = Credentials::long_term("alice", "wonderland");
    let mut client = Client::builder(server)
        .credentials(long)
        .software("example")
        .fingerprint(true)
        .build([3; 32])
        .unwrap();
    let (one, other) = (
        client.indication(TurnMethod::Send, &body).unwrap(),
        client.indication(Method::SEND, &body).unwrap(),
    );
    client.request(BINDING, Body::new(), Instant::ZERO).unwrap();
    let Output::Transmit { bytes: request, .. } = client.poll(Instant::ZERO) else {
        panic!()
    };
    let messages = [&one[..], &other, request].map(|bytes| Message::from_bytes(bytes).unwrap());
    let ids = messages.each_ref().map(Message::transaction_id);
    assert!(ids[0] != ids[1] && ids[1] != ids[2] && ids[0] != ids[2]);
    let message = &messages[0];
    let kinds: Vec<_> = message
        .iter_attributes()
        .map(|(_, found)| found.get_type())
        .collect();
    let expected = [
        AttributeType::XOR_PEER_ADDRESS,
        AttributeType::DATA,
        AttributeType::SOFTWARE,
        AttributeType::FINGERPRINT,
    ];
    assert_eq!(kinds, expected);
    assert_eq!(message.xor_peer_addresses().next(), Some(Ok(peer)));
    assert_eq!(client.outstanding(), 1);

    // Short-term credentials sign the indication, and a server for them accepts it.
    let short = Credentials::short_term("alice", "wonderland", IntegrityAlgorithm::Sha1);
    let mut client = Client::builder(server)
        .credentials(short)
        .build([3; 32])
        .unwrap();
    let bytes = client.indication(BINDING, &Body::new()).unwrap();
    let mut users = ShortTermUsers::new();
    users
        .add("alice", ShortTermCredentials::new("wonderland".to_string()))
        .unwrap();
    let server = ShortTermServer::new(ResponseSettings::new()).unwrap();
    match server.receive(&bytes, from(), &users) {
        ShortTermReceived::Indication(indication) => assert_eq!(indication.user(), "alice"),
        other => panic!("{other:?}"),
    }
    let large = Body::new().add(&Data::new(&[0; 30_000])).unwrap();
    assert!(client.indication(Method::SEND, &large).is_ok());
}
