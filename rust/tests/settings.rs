//! The settings of a server decide what it accepts, whatever users it is passed.

use IntegrityAlgorithm::{Sha1, Sha256};
use seatcrane_stun::Instant;
use seatcrane_stun::endpoint::*;
use seatcrane_stun::types::attribute::*;
use seatcrane_stun::types::message::*;
use seatcrane_stun::types::prelude::*;
use std::net::SocketAddr;

const SETS: [&[IntegrityAlgorithm]; 3] = [&[Sha256, Sha1], &[Sha256], &[Sha1]];

fn now() -> UnixTime {
    UnixTime::from_secs(1_800_000_000)
}

fn at(address: &str) -> SocketAddr {
    address.parse().unwrap()
}

fn alice() -> LongTermCredentials {
    LongTermCredentials::new("alice".to_string(), "wonderland".to_string())
}

fn server_of(realm: &str, algorithms: &[IntegrityAlgorithm]) -> Server {
    let settings = LongTerm::new(realm, [1; 32]).algorithms(algorithms);
    Server::builder(settings)
        .answer_binding(true)
        .build()
        .unwrap()
}

/// Returns the users of a server, as a table and as the one user whom a look-up finds.
fn users_of(server: &Server) -> (Users, User) {
    let mut users = server.users();
    users.add(alice()).unwrap();
    (users, server.user(alice()))
}

/// Returns a request that is signed with an algorithm, with a list of algorithms or without one.
fn request(nonce: &str, by: IntegrityAlgorithm, list: Option<&[IntegrityAlgorithm]>) -> Vec<u8> {
    let value = |one: &IntegrityAlgorithm| {
        if *one == Sha1 {
            [0, 1, 0, 0]
        } else {
            [0, 2, 0, 0]
        }
    };
    let mut page = Message::builder_request(BINDING, MessageWriteVec::new());
    page.add_attribute(&Username::new("alice").unwrap())
        .unwrap();
    page.add_attribute(&Realm::new("realm").unwrap()).unwrap();
    page.add_attribute(&Nonce::new(nonce).unwrap()).unwrap();
    if let Some(list) = list {
        let list: Vec<u8> = list.iter().flat_map(value).collect();
        let list = RawAttribute::new(AttributeType::PASSWORD_ALGORITHMS, &list);
        page.add_attribute(&list).unwrap();
        let choice = value(&by);
        let choice = RawAttribute::new(AttributeType::PASSWORD_ALGORITHM, &choice);
        page.add_attribute(&choice).unwrap();
    }
    let key = long_term_key(by, "alice", "realm", "wonderland");
    page.add_message_integrity_with_key(key.as_bytes(), by)
        .unwrap();
    page.finish()
}

/// Why a server with these algorithms refuses this request, by RFC 8489, section 9.2.4: it offers
/// the list of its algorithms or, if HMAC-SHA1 is the only one, no list.
fn refusal(
    ours: &[IntegrityAlgorithm],
    by: IntegrityAlgorithm,
    list: Option<&[IntegrityAlgorithm]>,
) -> Option<Cause> {
    match list {
        None if by == Sha1 && ours.contains(&Sha1) => None,
        None => Some(Cause::WrongCredentials),
        Some(list) if list == ours && list.contains(&by) && ours.contains(&Sha256) => None,
        Some(_) => Some(Cause::OtherAlgorithms),
    }
}

/// Whether a request was accepted, of the outcome of a server that answers Binding requests.
fn is_accepted(received: &Received<'_>) -> bool {
    let Received::Answer(answer) = received else {
        panic!("{received:?}");
    };
    answer.refusal().is_none()
}

/// Each server accepts the algorithms that it supports, with the list that it offers or without a
/// list, and refuses everything else. The settings of the server that made the users do not matter.
#[test]
fn a_server_judges_by_its_own_algorithms() {
    let from = at("203.0.113.9:4000");
    for (ours, theirs) in SETS.into_iter().flat_map(|one| SETS.map(|two| (one, two))) {
        let server = server_of("realm", ours);
        let (table, user) = users_of(&server_of("realm", theirs));
        let nonce = server.nonce_for(from, now());
        for by in [Sha1, Sha256] {
            for list in [None, Some(SETS[0]), Some(SETS[1]), Some(SETS[2])] {
                let bytes = request(&nonce, by, list);
                let wanted = refusal(ours, by, list);
                let what = format!("{ours:?} {theirs:?} {by:?} {list:?}");
                let cause = server.cause(&bytes, from, now(), &table);
                assert_eq!(cause, wanted, "{what}");
                let cause = server.cause_for(&bytes, from, now(), Some(&user));
                assert_eq!(cause, wanted, "{what}");
                let by_table = server.receive(&bytes, from, now(), &table);
                assert_eq!(is_accepted(&by_table), wanted.is_none(), "{what}");
                let by_user = server.receive_for(&bytes, from, now(), Some(&user));
                assert_eq!(is_accepted(&by_user), wanted.is_none(), "{what}");
                let found = match server.identify(&bytes, from, now()) {
                    Identified::Done(received) => received,
                    Identified::Lookup(lookup) => server.resume(lookup, Some(&user)),
                };
                assert_eq!(is_accepted(&found), wanted.is_none(), "{what}");
                let among = match server.identify(&bytes, from, now()) {
                    Identified::Done(received) => received,
                    Identified::Lookup(lookup) => server.resume_among(lookup, &table),
                };
                assert_eq!(is_accepted(&among), wanted.is_none(), "{what}");
            }
        }
    }
}

/// A server that forbids hashed names accepts none, whatever the table allows.
#[test]
fn a_server_judges_by_its_own_use_of_hashes() {
    let from = at("203.0.113.9:4000");
    let server_with = |hashes| {
        let settings = LongTerm::new("realm", [1; 32]).user_hashes(hashes);
        let server = Server::builder(settings).answer_binding(true).build();
        server.unwrap()
    };
    for (ours, theirs) in [(false, true), (true, false)] {
        let server = server_with(ours);
        let (table, _) = users_of(&server_with(theirs));
        let mut page = Message::builder_request(BINDING, MessageWriteVec::new());
        let hash = Userhash::compute("alice", "realm");
        page.add_attribute(&Userhash::new(hash)).unwrap();
        page.add_attribute(&Realm::new("realm").unwrap()).unwrap();
        let nonce = server.nonce_for(from, now());
        page.add_attribute(&Nonce::new(&nonce).unwrap()).unwrap();
        let list = RawAttribute::new(
            AttributeType::PASSWORD_ALGORITHMS,
            &[0, 2, 0, 0, 0, 1, 0, 0],
        );
        page.add_attribute(&list).unwrap();
        let choice = RawAttribute::new(AttributeType::PASSWORD_ALGORITHM, &[0, 2, 0, 0]);
        page.add_attribute(&choice).unwrap();
        let key = long_term_key(Sha256, "alice", "realm", "wonderland");
        page.add_message_integrity_with_key(key.as_bytes(), Sha256)
            .unwrap();
        let received = is_accepted(&server.receive(&page.finish(), from, now(), &table));
        assert_eq!(received, ours);
    }
}

/// A change of the settings needs no new users.
#[test]
fn users_stay_when_settings_change() {
    let (from, to) = (at("203.0.113.9:4000"), at("192.0.2.1:3478"));
    let (table, _) = users_of(&server_of("realm", &[Sha1]));
    let client = Client::builder(to).credentials(Credentials::long_term("alice", "wonderland"));
    let mut client = client.build([7; 32]).unwrap();
    for algorithms in [&[Sha1][..], &[Sha256, Sha1], &[Sha256]] {
        let server = server_of("realm", algorithms);
        client.request(BINDING, Body::new(), Instant::ZERO).unwrap();
        loop {
            match client.poll(Instant::ZERO) {
                Output::Transmit { bytes, .. } => {
                    let bytes = bytes.to_vec();
                    if let Received::Answer(answer) = server.receive(&bytes, from, now(), &table) {
                        let _ = client.receive(answer.bytes(), to, Instant::ZERO);
                    }
                }
                Output::Ended(_, result) => {
                    assert_eq!(result.unwrap().signed_by(), Some(algorithms[0]));
                    break;
                }
                other => panic!("{other:?}"),
            }
        }
    }
}

/// Users of another realm are a mistake that has a name in each call.
#[test]
fn users_of_another_realm_are_dropped_by_name() {
    let (from, server) = (at("203.0.113.9:4000"), server_of("realm", &[Sha256]));
    let (table, user) = users_of(&server_of("other", &[Sha256]));
    let bytes = request(&server.nonce_for(from, now()), Sha256, Some(&[Sha256]));
    let is_dropped =
        |received: &Received<'_>| matches!(received, Received::Dropped(DropReason::OtherRealm));
    assert!(is_dropped(&server.receive(&bytes, from, now(), &table)));
    assert!(is_dropped(&server.receive(
        b"no message",
        from,
        now(),
        &table
    )));
    assert!(is_dropped(&server.receive_for(
        &bytes,
        from,
        now(),
        Some(&user)
    )));
    assert_eq!(server.cause(&bytes, from, now(), &table), None);
    let Identified::Lookup(lookup) = server.identify(&bytes, from, now()) else {
        panic!("no look-up");
    };
    assert!(is_dropped(&server.resume(lookup, Some(&user))));
    let mut buffer = Vec::new();
    let received = server.receive_into(&bytes, from, now(), &table, &mut buffer);
    assert!(matches!(
        received,
        Received::Dropped(DropReason::OtherRealm)
    ));
}

/// A server that answers unsigned Binding requests needs no users for these.
#[test]
fn unsigned_binding_requests_need_no_users() {
    let from = at("203.0.113.9:4000");
    let settings = LongTerm::new("realm", [1; 32]).open_binding(true);
    let server = Server::builder(settings).build().unwrap();
    let (table, _) = users_of(&server_of("other", &[Sha256]));
    let unsigned = Message::builder_request(BINDING, MessageWriteVec::new()).finish();
    assert!(is_accepted(&server.receive(&unsigned, from, now(), &table)));
    let signed = request(&server.nonce_for(from, now()), Sha1, None);
    let received = server.receive(&signed, from, now(), &table);
    assert!(matches!(
        received,
        Received::Dropped(DropReason::OtherRealm)
    ));
}
