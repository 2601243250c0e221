//! Tests of a server as one value: the outcomes of datagrams.

use seatcrane_stun::auth::{LongTermClientAuth, LongTermClientValidation, NamedUser, StoredKeys};
use seatcrane_stun::endpoint::*;
use seatcrane_stun::extra::attribute::{AlternateServer, Lifetime, XorPeerAddress};
use seatcrane_stun::extra::{Fingerprint, check_fingerprint, finish_with_fingerprint};
use seatcrane_stun::types::attribute::*;
use seatcrane_stun::types::message::IntegrityAlgorithm::{Sha1, Sha256};
use seatcrane_stun::types::message::*;
use seatcrane_stun::types::prelude::*;
use std::net::SocketAddr;

const BOTH: [IntegrityAlgorithm; 2] = [Sha1, Sha256];

fn at(address: &str) -> SocketAddr {
    address.parse().unwrap()
}

fn secs(seconds: u64) -> UnixTime {
    UnixTime::from_secs(1_700_000_000 / 3600 * 3600 + seconds)
}

fn alice() -> LongTermCredentials {
    LongTermCredentials::new("alice".to_string(), "wonderland".to_string())
}

fn settings(secret: u8, algorithms: &[IntegrityAlgorithm]) -> LongTerm {
    LongTerm::new("example.org", [secret; 32]).algorithms(algorithms)
}

/// Returns a server that answers Binding requests, and its table of one user.
fn server(secret: u8, algorithms: &[IntegrityAlgorithm]) -> (Server, Users) {
    with_users(Server::builder(settings(secret, algorithms)).answer_binding(true))
}

fn with_users(builder: ServerBuilder) -> (Server, Users) {
    let server = builder.build().unwrap();
    let mut users = server.users();
    users.add(alice()).unwrap();
    (server, users)
}

fn client(password: &str, algorithms: &[IntegrityAlgorithm]) -> LongTermClientAuth {
    let mut client = LongTermClientAuth::new();
    client.set_supported_integrity(algorithms[0]);
    for algorithm in algorithms {
        client.add_supported_integrity(*algorithm);
    }
    client.set_credentials(LongTermCredentials::new(
        "alice".to_string(),
        password.to_string(),
    ));
    client
}

fn id(number: u8) -> TransactionId {
    TransactionId::from([number; 12])
}

fn binding(client: &mut LongTermClientAuth) -> Vec<u8> {
    let page = Message::builder_request_with_id(BINDING, id(9), MessageWriteVec::new());
    client.sign_outgoing_message(page).unwrap().finish()
}

fn answer(received: Received<'_>) -> Answer {
    match received {
        Received::Answer(answer) => answer,
        other => panic!("no answer: {other:?}"),
    }
}

fn code(answer: &Answer) -> u16 {
    match answer.refusal() {
        Some(refusal) => {
            let message = Message::from_bytes(answer.bytes()).unwrap();
            assert_eq!(message.error_code(), Ok(refusal.code()));
            refusal.code()
        }
        None => 200,
    }
}

/// Sends Binding until it succeeds, at most three times, and returns the codes.
fn exchange(
    client: &mut LongTermClientAuth,
    (server, users): &(Server, Users),
    from: SocketAddr,
    now: UnixTime,
) -> Vec<u16> {
    let mut codes = Vec::new();
    for _ in 0..3 {
        let request = binding(client);
        let answer = answer(server.receive(&request, from, now, users));
        assert_eq!(answer.to(), from);
        codes.push(code(&answer));
        let response = Message::from_bytes(answer.bytes()).unwrap();
        let validation = client.validate_incoming_message(&response);
        if code(&answer) == 200 {
            assert!(matches!(
                validation,
                Ok(LongTermClientValidation::Validated(_))
            ));
            break;
        }
        if validation.is_err() {
            break;
        }
    }
    codes
}

#[test]
fn a_client_is_challenged_once_and_served() {
    let from = at("192.0.2.1:4242");
    for algorithms in [&[Sha1][..], &[Sha256], &BOTH] {
        let server = server(1, algorithms);
        let mut client = client("wonderland", &BOTH);
        assert_eq!(exchange(&mut client, &server, from, secs(0)), [401, 200]);
        assert_eq!(exchange(&mut client, &server, from, secs(1)), [200]);
        let strongest = *algorithms.iter().max().unwrap();
        assert_eq!(client.signing_algorithm(), Some(strongest));
    }
}

#[test]
fn a_wrong_password_gets_401_and_an_unknown_user_too() {
    let from = at("192.0.2.1:4242");
    let server = server(1, &BOTH);
    assert_eq!(
        exchange(&mut client("wrong", &BOTH), &server, from, secs(0)),
        [401, 401]
    );
    let mut users = server.0.users();
    users
        .add(LongTermCredentials::new(
            "bob".to_string(),
            "wonderland".to_string(),
        ))
        .unwrap();
    let server = (server.0, users);
    assert_eq!(
        exchange(&mut client("wonderland", &BOTH), &server, from, secs(0)),
        [401, 401]
    );
}

#[test]
fn a_removed_user_is_refused() {
    let from = at("192.0.2.1:4242");
    let mut server = server(1, &BOTH);
    let mut client = client("wonderland", &BOTH);
    assert_eq!(exchange(&mut client, &server, from, secs(0)), [401, 200]);
    server.1.remove("alice");
    let request = binding(&mut client);
    let refused = answer(server.0.receive(&request, from, secs(0), &server.1));
    assert_eq!(code(&refused), 401);
}

#[test]
fn a_restart_with_the_secret_loses_nobody_and_without_it_costs_one_request() {
    let from = at("192.0.2.1:4242");
    for algorithms in [&[Sha1][..], &[Sha256], &BOTH] {
        let mut client = client("wonderland", &BOTH);
        let first = server(1, algorithms);
        assert_eq!(exchange(&mut client, &first, from, secs(0)), [401, 200]);
        assert_eq!(
            exchange(&mut client, &server(1, algorithms), from, secs(1)),
            [200]
        );
        assert_eq!(
            exchange(&mut client, &server(2, algorithms), from, secs(1)),
            [438, 200]
        );
    }
}

#[test]
fn a_restart_with_other_algorithms_never_answers_400() {
    let from = at("192.0.2.1:4242");
    for before in [&[Sha1][..], &[Sha256], &BOTH] {
        for after in [&[Sha1][..], &[Sha256], &BOTH] {
            for secret in [1, 2] {
                let mut client = client("wonderland", &BOTH);
                exchange(&mut client, &server(1, before), from, secs(0));
                let request = binding(&mut client);
                let (server, users) = server(secret, after);
                let first = answer(server.receive(&request, from, secs(1), &users));
                assert_ne!(code(&first), 400, "{secret} {before:?} {after:?}");
            }
        }
    }
}

#[test]
fn a_nonce_is_accepted_for_one_to_two_lifetimes() {
    let from = at("192.0.2.1:4242");
    for algorithms in [&[Sha1][..], &BOTH] {
        let long_term = settings(1, algorithms).nonce_lifetime(600);
        let server = with_users(Server::builder(long_term).answer_binding(true));
        let mut client = client("wonderland", &BOTH);
        let mut ask = |now, from| exchange(&mut client, &server, from, secs(now));
        assert_eq!(ask(0, from), [401, 200]);
        assert_eq!(ask(599, from), [200]);
        assert_eq!(ask(600, from), [200]);
        assert_eq!(ask(1199, from), [200]);
        assert_eq!(ask(1200, from), [438, 200]);
        assert_eq!(ask(1201, from), [200]);
        // A different address has a different nonce.
        assert_eq!(ask(1202, at("192.0.2.1:4243")), [438, 200]);
    }
}

#[test]
fn nonces_of_the_previous_secret_are_accepted_and_not_sent() {
    let from = at("192.0.2.1:4242");
    let mut client = client("wonderland", &BOTH);
    assert_eq!(
        exchange(&mut client, &server(1, &BOTH), from, secs(0)),
        [401, 200]
    );
    let turned = settings(2, &BOTH).previous_secret([1; 32]);
    let turned = with_users(Server::builder(turned).answer_binding(true));
    assert_eq!(exchange(&mut client, &turned, from, secs(1)), [200]);
    assert_eq!(exchange(&mut client, &turned, from, secs(3600)), [200]);
    assert_eq!(exchange(&mut client, &turned, from, secs(7200)), [438, 200]);
    let new = server(2, &BOTH).0;
    assert_eq!(
        turned.0.nonce_for(from, secs(0)),
        new.nonce_for(from, secs(0))
    );
}

#[test]
fn both_spellings_of_an_ipv4_address_are_one() {
    let server = server(1, &BOTH);
    let (plain, mapped) = (at("192.0.2.1:4242"), at("[::ffff:192.0.2.1]:4242"));
    assert_eq!(
        server.0.nonce_for(plain, secs(0)),
        server.0.nonce_for(mapped, secs(0))
    );
    let mut client = client("wonderland", &BOTH);
    assert_eq!(exchange(&mut client, &server, plain, secs(0)), [401, 200]);
    let request = binding(&mut client);
    let answer = answer(server.0.receive(&request, mapped, secs(0), &server.1));
    assert_eq!(answer.to(), mapped);
    let response = Message::from_bytes(answer.bytes()).unwrap();
    assert_eq!(response.xor_mapped_address(), Ok(plain));
    let other = at("[2001:db8::1]:4242");
    assert_ne!(
        server.0.nonce_for(plain, secs(0)),
        server.0.nonce_for(other, secs(0))
    );
}

#[test]
fn a_request_of_another_method_is_for_the_caller_who_signs_also_a_400() {
    let from = at("192.0.2.1:4242");
    let allocate = Method::new(3).unwrap();
    for (algorithms, has_fingerprint) in [(&[Sha1][..], false), (&BOTH, true)] {
        let (server, users) = with_users(
            Server::builder(settings(1, algorithms))
                .understands(types::TURN)
                .software("tested"),
        );
        let mut client = client("wonderland", algorithms);
        let sent = |client: &mut LongTermClientAuth| {
            let page = Message::builder_request_with_id(allocate, id(3), MessageWriteVec::new());
            let page = client.sign_outgoing_message(page).unwrap();
            if has_fingerprint {
                finish_with_fingerprint(page).unwrap()
            } else {
                page.finish()
            }
        };
        let challenge = answer(server.receive(&sent(&mut client), from, secs(0), &users));
        let message = Message::from_bytes(challenge.bytes()).unwrap();
        client.validate_incoming_message(&message).unwrap();
        let request = sent(&mut client);
        let Received::Request(request) = server.receive(&request, from, secs(0), &users) else {
            panic!("no request");
        };
        assert_eq!((request.user(), request.method()), ("alice", allocate));
        assert_eq!(
            (request.from(), request.algorithm()),
            (from, *algorithms.last().unwrap())
        );
        assert_eq!(request.reply().transaction_id(), id(3));
        let reply = request.reply().clone();
        let later = std::thread::spawn(move || {
            let relay = at("203.0.113.9:5000");
            let success = reply
                .success()
                .add_xor_relayed_address(relay)
                .add(&Lifetime::new(600));
            let other = AlternateServer::new(at("192.0.2.9:3478"));
            [
                success.finish().unwrap(),
                reply.error(400, "Bad Request").finish().unwrap(),
                reply
                    .error(300, "Try Alternate")
                    .add(&other)
                    .finish()
                    .unwrap(),
            ]
        });
        for (response, code) in later
            .join()
            .unwrap()
            .iter()
            .zip([None, Some(400), Some(300)])
        {
            let response = Message::from_bytes(response).unwrap();
            assert_eq!(response.error_code().ok(), code);
            assert_eq!(response.transaction_id(), id(3));
            assert_eq!(
                response.attribute::<Software>().unwrap().software(),
                "tested"
            );
            assert!(!response.has_attribute(AttributeType::NONCE));
            let wanted = if has_fingerprint {
                Fingerprint::Right
            } else {
                Fingerprint::Absent
            };
            assert_eq!(check_fingerprint(&response), wanted);
            let verdict = client.validate_incoming_message(&response);
            assert!(
                matches!(verdict, Ok(LongTermClientValidation::Validated(_))),
                "{verdict:?}"
            );
        }
    }
}

#[test]
fn what_cannot_be_added_is_told_at_the_end() {
    let from = at("192.0.2.1:4242");
    let (server, users) = with_users(Server::builder(settings(1, &[Sha1])));
    let mut client = client("wonderland", &[Sha1]);
    let challenge = answer(server.receive(&binding(&mut client), from, secs(0), &users));
    let message = Message::from_bytes(challenge.bytes()).unwrap();
    client.validate_incoming_message(&message).unwrap();
    let request = binding(&mut client);
    let Received::Request(request) = server.receive(&request, from, secs(0), &users) else {
        panic!("no request");
    };
    let reply = request.reply();
    assert_eq!(
        reply.error(200, "").finish(),
        Err(StunWriteError::NotAllowed)
    );
    assert_eq!(
        reply.error(400, &"x".repeat(764)).finish(),
        Err(StunWriteError::TooLarge)
    );
    let twice = reply
        .success()
        .add(&Lifetime::new(1))
        .add(&Lifetime::new(2))
        .finish();
    assert_eq!(
        twice,
        Err(StunWriteError::AttributeExists(AttributeType(0x000D)))
    );
    let forged = RawAttribute::new(AttributeType::MESSAGE_INTEGRITY, &[0; 20]);
    assert_eq!(
        reply.success().add(&forged).finish(),
        Err(StunWriteError::NotAllowed)
    );
    assert_eq!(
        reply.success().add_another(&forged).finish(),
        Err(StunWriteError::NotAllowed)
    );
}

#[test]
fn a_type_may_repeat_if_you_say_so() {
    let from = at("192.0.2.1:4242");
    let (server, users) = with_users(Server::builder(settings(1, &BOTH)).understands(types::TURN));
    let mut client = client("wonderland", &BOTH);
    let challenge = answer(server.receive(&binding(&mut client), from, secs(0), &users));
    let message = Message::from_bytes(challenge.bytes()).unwrap();
    client.validate_incoming_message(&message).unwrap();
    let peers = [at("192.0.2.7:5000"), at("[2001:db8::7]:5001")];
    // CreatePermission for two peers (RFC 8656, section 9.1).
    let create = Method::new(8).unwrap();
    let mut page = Message::builder_request_with_id(create, id(4), MessageWriteVec::new());
    for peer in peers {
        page.add_another_attribute(&XorPeerAddress::new(peer, id(4)))
            .unwrap();
    }
    let request = client.sign_outgoing_message(page).unwrap().finish();
    let Received::Request(request) = server.receive(&request, from, secs(0), &users) else {
        panic!("no request");
    };
    let peers_of = |message: &Message<'_>| -> Vec<SocketAddr> {
        let found = message.iter_attributes().filter_map(|(_, raw)| {
            let peer = XorPeerAddress::from_raw(raw).ok()?;
            Some(peer.addr(message.transaction_id()))
        });
        found.collect()
    };
    assert_eq!(peers_of(request.message()), peers);
    let reply = request.reply();
    let mut response = reply.success();
    for peer in peers {
        response = response.add_another(&XorPeerAddress::new(peer, reply.transaction_id()));
    }
    let response = response.finish().unwrap();
    let response = Message::from_bytes(&response).unwrap();
    assert_eq!(peers_of(&response), peers);
    assert!(matches!(
        client.validate_incoming_message(&response),
        Ok(LongTermClientValidation::Validated(Sha256))
    ));
}

#[test]
fn one_user_who_was_looked_up_is_enough() {
    let from = at("192.0.2.1:4242");
    let (server, users) = server(1, &BOTH);
    let mut client = client("wonderland", &BOTH);
    let challenge = answer(server.receive_for(&binding(&mut client), from, secs(0), None));
    assert_eq!(code(&challenge), 401);
    let message = Message::from_bytes(challenge.bytes()).unwrap();
    client.validate_incoming_message(&message).unwrap();
    let request = binding(&mut client);
    let found = server.user(alice());
    let bob = server.user(LongTermCredentials::new(
        "bob".to_string(),
        "wonderland".to_string(),
    ));
    let by_table = answer(server.receive(&request, from, secs(0), &users));
    let by_user = answer(server.receive_for(&request, from, secs(0), Some(&found)));
    assert_eq!((code(&by_table), by_table.bytes()), (200, by_user.bytes()));
    let Identified::Lookup(lookup) = server.identify(&request, from, secs(0)) else {
        panic!("no look-up");
    };
    let hash = Userhash::compute("alice", "example.org");
    assert_eq!(lookup.user_id(), NamedUser::ByHash(hash));
    assert_eq!((lookup.from(), lookup.arrived()), (from, secs(0)));
    assert_eq!(lookup.transaction_id(), id(9));
    let resumed = answer(server.resume(lookup, Some(&found)));
    assert_eq!((code(&resumed), resumed.bytes()), (200, by_user.bytes()));
    let other = at("192.0.2.1:4243");
    let Identified::Done(elsewhere) = server.identify(&request, other, secs(0)) else {
        panic!("a look-up for a nonce of another address");
    };
    assert_eq!(code(&answer(elsewhere)), 438);
    assert_eq!(
        code(&answer(server.receive_for(
            &request,
            from,
            secs(0),
            Some(&bob)
        ))),
        401
    );
    assert_eq!(
        code(&answer(server.receive_for(&request, from, secs(0), None))),
        401
    );
    let key = long_term_key(Sha256, "alice", "example.org", "wonderland");
    let keys = StoredKeys::new().with_sha256(key.as_bytes().try_into().ok());
    let mut table = server.users();
    table.add_with_keys("alice", keys).unwrap();
    let by_keys = answer(server.receive(&request, from, secs(0), &table));
    assert_eq!((code(&by_keys), by_keys.bytes()), (200, by_table.bytes()));
    let stored = server.user_with_keys("alice", keys);
    assert_eq!(
        code(&answer(server.receive_for(
            &request,
            from,
            secs(0),
            Some(&stored)
        ))),
        200
    );
}

/// Forged sources and invented nonces cause no look-up, and a look-up is judged at the time at
/// which its request arrived.
#[test]
fn only_requests_with_a_nonce_of_their_source_are_looked_up() {
    let from = at("192.0.2.1:4242");
    let server = server(1, &BOTH).0;
    let mut lookups = 0;
    for i in 0..1000u16 {
        let mut page = Message::builder_request_with_id(BINDING, id(1), MessageWriteVec::new());
        page.add_attribute(&Username::new(&format!("user{i}")).unwrap())
            .unwrap();
        page.add_attribute(&Realm::new("example.org").unwrap())
            .unwrap();
        page.add_attribute(&Nonce::new("obMatJos2AAAAzzzzzzzzzzzzzzzzz").unwrap())
            .unwrap();
        page.add_message_integrity_with_key(&[1; 16], Sha1).unwrap();
        let [high, low] = i.to_be_bytes();
        let from = SocketAddr::from(([10, 0, high, low], 7));
        let bytes = page.finish();
        let identified = server.identify(&bytes, from, secs(0));
        lookups += u32::from(matches!(identified, Identified::Lookup(_)));
    }
    assert_eq!(lookups, 0);
    let mut client = client("wonderland", &BOTH);
    let unsigned = binding(&mut client);
    let Identified::Done(challenge) = server.identify(&unsigned, from, secs(0)) else {
        panic!("a look-up");
    };
    let challenge = answer(challenge);
    let message = Message::from_bytes(challenge.bytes()).unwrap();
    client.validate_incoming_message(&message).unwrap();
    let request = binding(&mut client);
    let Identified::Lookup(lookup) = server.identify(&request, from, secs(7199)) else {
        panic!("no look-up");
    };
    let user = server.user(alice());
    assert_eq!(code(&answer(server.resume(lookup, Some(&user)))), 200);
    let Identified::Done(late) = server.identify(&request, from, secs(7200)) else {
        panic!("a look-up");
    };
    assert_eq!(code(&answer(late)), 438);
}

#[test]
fn unknown_attributes_get_a_signed_420_once_the_request_is_accepted() {
    let from = at("192.0.2.1:4242");
    let (server, users) = server(1, &BOTH);
    let mut client = client("wonderland", &BOTH);
    let odd = |client: &mut LongTermClientAuth| {
        let mut page = Message::builder_request_with_id(BINDING, id(1), MessageWriteVec::new());
        page.add_attribute(&RawAttribute::new(AttributeType(0x7777), b"odd"))
            .unwrap();
        page.add_attribute(&RawAttribute::new(AttributeType(0xF777), b"odd"))
            .unwrap();
        client.sign_outgoing_message(page).unwrap().finish()
    };
    let first = answer(server.receive(&odd(&mut client), from, secs(0), &users));
    assert_eq!(code(&first), 401);
    client
        .validate_incoming_message(&Message::from_bytes(first.bytes()).unwrap())
        .unwrap();
    let second = answer(server.receive(&odd(&mut client), from, secs(0), &users));
    assert_eq!(second.refusal(), Some(Refusal::UnknownAttribute));
    let message = Message::from_bytes(second.bytes()).unwrap();
    let raw = message
        .iter_attributes()
        .find(|(_, a)| a.get_type() == AttributeType(0x000A));
    assert_eq!(raw.unwrap().1.value(), [0x77, 0x77]);
    assert!(matches!(
        client.validate_incoming_message(&message),
        Ok(LongTermClientValidation::Validated(_))
    ));
}

#[test]
fn what_is_no_request_gets_no_response() {
    let from = at("192.0.2.1:4242");
    let (server, users) = server(1, &BOTH);
    let receive = |bytes: &[u8]| match server.receive(bytes, from, secs(0), &users) {
        Received::Dropped(why) => Some(why),
        Received::Indication(message) => {
            assert!(message.has_class(MessageClass::Indication));
            None
        }
        Received::Response(message) => {
            assert!(message.is_response());
            None
        }
        other => panic!("{other:?}"),
    };
    assert_eq!(receive(b"none"), Some(DropReason::NotStun));
    let indication = Message::builder_indication(BINDING, MessageWriteVec::new());
    assert_eq!(receive(&indication.finish()), None);
    let mut odd = Message::builder_indication(BINDING, MessageWriteVec::new());
    odd.add_attribute(&RawAttribute::new(AttributeType(0x7777), b"odd"))
        .unwrap();
    assert_eq!(receive(&odd.finish()), Some(DropReason::UnknownAttribute));
    let request = Message::builder_request_with_id(BINDING, id(1), MessageWriteVec::new());
    let mut request = finish_with_fingerprint(request).unwrap();
    assert_eq!(
        receive(&request[..request.len() - 1]),
        Some(DropReason::Malformed)
    );
    *request.last_mut().unwrap() ^= 1;
    assert_eq!(receive(&request), Some(DropReason::WrongFingerprint));
    let message = Message::from_bytes(&request).unwrap();
    let success = Message::builder_success(&message, MessageWriteVec::new()).finish();
    assert_eq!(receive(&success), None);
    let error = Message::builder_error(&message, MessageWriteVec::new()).finish();
    assert_eq!(receive(&error), None);
}

#[test]
fn bad_settings_are_refused_in_order() {
    let build = |realm: usize, software: usize, lifetime, algorithms: &[IntegrityAlgorithm]| {
        let long_term = LongTerm::new("r".repeat(realm), [1; 32]);
        let long_term = long_term.nonce_lifetime(lifetime).algorithms(algorithms);
        Server::builder(long_term)
            .software("s".repeat(software))
            .build()
            .err()
    };
    assert_eq!(build(763, 763, 30, &[Sha1]), None);
    assert_eq!(build(764, 764, 29, &[]), Some(BuildError::RealmTooLong));
    assert_eq!(build(763, 764, 29, &[]), Some(BuildError::SoftwareTooLong));
    assert_eq!(build(763, 763, 29, &[]), Some(BuildError::NonceLifetime));
    assert_eq!(build(763, 763, 30, &[]), Some(BuildError::NoAlgorithm));
}

#[test]
fn the_longest_settings_leave_room_in_each_response() {
    let from = at("192.0.2.1:4242");
    let long_term = LongTerm::new("r".repeat(763), [1; 32]);
    let builder = Server::builder(long_term)
        .software("s".repeat(763))
        .answer_binding(true);
    let server = with_users(builder);
    let mut client = client("wonderland", &BOTH);
    assert_eq!(exchange(&mut client, &server, from, secs(0)), [401, 200]);
}

#[test]
fn answers_depend_on_no_earlier_datagram() {
    let (server, users) = server(1, &BOTH);
    let mut client = client("wonderland", &BOTH);
    let from = at("192.0.2.1:4242");
    exchange(&mut client, &(server, users), from, secs(0));
    let (server, users) = self::server(1, &BOTH);
    let request = binding(&mut client);
    let mut state = 1u64;
    let mut next = |below: usize| {
        state = state
            .wrapping_mul(6364136223846793005)
            .wrapping_add(1442695040888963407);
        (state >> 33) as usize % below
    };
    for _ in 0..2000 {
        let mut bytes = request.clone();
        for _ in 0..next(3) {
            let place = next(bytes.len());
            bytes[place] ^= 1 << next(8);
        }
        let now = secs(next(20_000) as u64);
        let (fresh, fresh_users) = self::server(1, &BOTH);
        let one = format!("{:?}", server.receive(&bytes, from, now, &users));
        let other = format!("{:?}", fresh.receive(&bytes, from, now, &fresh_users));
        assert_eq!(one, other);
    }
}

#[test]
fn reasons_have_names_and_places_in_a_table_of_counters() {
    for (index, why) in DropReason::ALL.into_iter().enumerate() {
        assert_eq!((why.index(), why.name()), (index, &*format!("{why:?}")));
    }
}

#[test]
fn everything_can_be_shared_among_threads() {
    fn shared<T: Send + Sync>() {}
    fn kept<T: Send + Sync + 'static>() {}
    kept::<LongTerm>();
    kept::<ServerBuilder>();
    kept::<Server>();
    kept::<Users>();
    kept::<User>();
    kept::<Reply>();
    kept::<ReplyWriter>();
    kept::<Answer>();
    kept::<UnixTime>();
    shared::<Received<'static>>();
    shared::<Identified<'static>>();
    shared::<Lookup<'static>>();
    shared::<Request<'static>>();
}

#[test]
fn debug_shows_no_secret() {
    let from = at("192.0.2.1:4242");
    let long_term = settings(171, &[Sha1]).previous_secret([171; 32]);
    let builder = Server::builder(long_term.clone());
    let mut told = format!("{long_term:?} {builder:?}");
    let (server, users) = with_users(builder);
    let mut client = client("wonderland", &[Sha1]);
    let challenge = answer(server.receive(&binding(&mut client), from, secs(0), &users));
    let message = Message::from_bytes(challenge.bytes()).unwrap();
    client.validate_incoming_message(&message).unwrap();
    let request = binding(&mut client);
    let received = server.receive(&request, from, secs(0), &users);
    let user = server.user(alice());
    told += &format!("{server:?} {users:?} {user:?} {received:?}");
    let Received::Request(request) = received else {
        panic!("no request");
    };
    told += &format!("{:?} {:?}", request.reply(), request.reply().success());
    let key = long_term_key(Sha1, "alice", "example.org", "wonderland");
    let key = format!("{:?}", key.as_bytes());
    let hidden = ["171", "wonderland", key.trim_matches(['[', ']'])];
    assert!(hidden.iter().all(|one| !told.contains(one)), "{told}");
    assert!(told.contains("Users { len: 1, .. } User { .. }"));
}
