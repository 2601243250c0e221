//! Tests of the causes for which a server as one value refuses a request: each cause, with the code
//! of the answer.

use PasswordAlgorithmValue::{MD5, SHA256};
use seatcrane_stun::auth::StoredKeys;
use seatcrane_stun::endpoint::*;
use seatcrane_stun::types::attribute::*;
use seatcrane_stun::types::message::IntegrityAlgorithm::{Sha1, Sha256};
use seatcrane_stun::types::message::*;
use seatcrane_stun::types::prelude::*;
use std::net::SocketAddr;

const NOW: u64 = 1_700_000_000 / 3600 * 3600;

/// The contents of a signed request, and the key that signs it.
struct Asked<'a> {
    user: Option<&'a str>,
    realm: Option<&'a str>,
    nonce: Option<&'a str>,
    list: Option<&'a [PasswordAlgorithmValue]>,
    chosen: Option<PasswordAlgorithmValue>,
    odd: bool,
    password: &'a str,
}

impl<'a> Asked<'a> {
    fn new(nonce: &'a str) -> Asked<'a> {
        Asked {
            user: Some("alice"),
            realm: Some("example.org"),
            nonce: Some(nonce),
            list: Some(&[SHA256, MD5]),
            chosen: Some(SHA256),
            odd: false,
            password: "wonderland",
        }
    }

    fn request(&self) -> Vec<u8> {
        let id = TransactionId::from([9; 12]);
        let mut page = Message::builder_request_with_id(BINDING, id, MessageWriteVec::new());
        let name = self.user.map(|name| Username::new(name).unwrap());
        let realm = self.realm.map(|realm| Realm::new(realm).unwrap());
        let nonce = self.nonce.map(|nonce| Nonce::new(nonce).unwrap());
        name.iter().for_each(|one| page.add_attribute(one).unwrap());
        realm
            .iter()
            .for_each(|one| page.add_attribute(one).unwrap());
        nonce
            .iter()
            .for_each(|one| page.add_attribute(one).unwrap());
        if let Some(list) = self.list {
            page.add_attribute(&PasswordAlgorithms::new(list)).unwrap();
        }
        if let Some(chosen) = self.chosen {
            page.add_attribute(&PasswordAlgorithm::new(chosen)).unwrap();
        }
        if self.odd {
            let odd = RawAttribute::new(AttributeType(0x7777), b"odd");
            page.add_attribute(&odd).unwrap();
        }
        let by = if self.chosen == Some(SHA256) {
            Sha256
        } else {
            Sha1
        };
        let key = long_term_key(by, "alice", "example.org", self.password);
        page.add_message_integrity_with_key(key.as_bytes(), by)
            .unwrap();
        page.finish()
    }
}

fn at(address: &str) -> SocketAddr {
    address.parse().unwrap()
}

fn alice() -> LongTermCredentials {
    LongTermCredentials::new("alice".to_string(), "wonderland".to_string())
}

fn server_of(secret: u8) -> (Server, Users) {
    let server = Server::builder(LongTerm::new("example.org", [secret; 32])).build();
    let server = server.unwrap();
    let mut users = server.users();
    users.add(alice()).unwrap();
    (server, users)
}

/// Returns the cause of a refusal. Checks that it has the code of the answer, and that the calls
/// that return the cause with the answer agree with the other calls.
fn cause_at((server, users): &(Server, Users), bytes: &[u8], seconds: u64) -> Option<Cause> {
    let (from, now) = (at("192.0.2.1:4242"), UnixTime::from_secs(NOW + seconds));
    let cause = server.cause(bytes, from, now, users);
    let alone = server.receive(bytes, from, now, users);
    let (received, told) = server.receive_with_cause(bytes, from, now, users);
    assert_eq!(told, cause);
    assert_eq!(answered(&received), answered(&alone));
    let alice = server.user(alice());
    let (received, told) = server.receive_for_with_cause(bytes, from, now, Some(&alice));
    assert_eq!(told, server.cause_for(bytes, from, now, Some(&alice)));
    let alone = server.receive_for(bytes, from, now, Some(&alice));
    assert_eq!(answered(&received), answered(&alone));
    let refusal = match server.receive(bytes, from, now, users) {
        Received::Answer(answer) => answer.refusal(),
        _ => None,
    };
    assert_eq!(cause.map(Cause::code), refusal.map(Refusal::code));
    cause
}

/// Returns the bytes of the answer, if there is one.
fn answered<'a>(received: &'a Received<'_>) -> Option<&'a [u8]> {
    match received {
        Received::Answer(answer) => Some(answer.bytes()),
        _ => None,
    }
}

#[test]
fn each_cause_is_named() {
    let both = server_of(1);
    let nonce = both
        .0
        .nonce_for(at("192.0.2.1:4242"), UnixTime::from_secs(NOW));
    let elsewhere = both
        .0
        .nonce_for(at("192.0.2.1:4243"), UnixTime::from_secs(NOW));
    let good = || Asked::new(&nonce);
    let cause = |asked: Asked<'_>| cause_at(&both, &asked.request(), 0);
    assert_eq!(cause(good()), None);

    let id = TransactionId::from([9; 12]);
    let page = Message::builder_request_with_id(BINDING, id, MessageWriteVec::new());
    let plain = page.finish();
    assert_eq!(cause_at(&both, &plain, 0), Some(Cause::NoSignature));

    let incomplete = [
        Asked {
            user: None,
            ..good()
        },
        Asked {
            realm: None,
            ..good()
        },
        Asked {
            nonce: None,
            ..good()
        },
        Asked {
            nonce: None,
            chosen: None,
            list: Some(&[MD5]),
            ..good()
        },
    ];
    for asked in incomplete {
        assert_eq!(cause(asked), Some(Cause::Incomplete));
    }

    let other_algorithms = [
        Asked {
            list: Some(&[MD5]),
            chosen: Some(MD5),
            ..good()
        },
        Asked {
            list: Some(&[MD5, SHA256]),
            ..good()
        },
        Asked {
            list: None,
            ..good()
        },
        Asked {
            chosen: None,
            ..good()
        },
        Asked {
            chosen: None,
            password: "wrong",
            odd: true,
            ..good()
        },
    ];
    for asked in other_algorithms {
        assert_eq!(cause(asked), Some(Cause::OtherAlgorithms));
    }
    // A list that came with another nonce is as stale as that nonce.
    let old = Asked {
        list: Some(&[MD5]),
        chosen: Some(MD5),
        ..Asked::new(&elsewhere)
    };
    assert_eq!(cause(old), Some(Cause::StaleNonce));

    // The bits after the cookie: 0x80 announces algorithms, and 0x40 allows hashed names.
    let changed = nonce.replacen("obMatJos2wAAA", "obMatJos2gAAA", 1);
    assert_ne!(changed, nonce);
    assert_eq!(cause(Asked::new(&changed)), Some(Cause::OtherFeatures));

    assert_eq!(cause(Asked::new(&elsewhere)), Some(Cause::StaleNonce));
    assert_eq!(cause(Asked::new("invented")), Some(Cause::StaleNonce));

    let wrong = [
        Asked {
            password: "wrong",
            ..good()
        },
        Asked {
            user: Some("bob"),
            ..good()
        },
        Asked {
            password: "wrong",
            odd: true,
            ..good()
        },
    ];
    for asked in wrong {
        assert_eq!(cause(asked), Some(Cause::WrongCredentials));
    }
    assert_eq!(
        cause(Asked {
            odd: true,
            ..good()
        }),
        Some(Cause::UnknownAttribute)
    );
}

#[test]
fn an_earlier_nonce_is_stale_only_with_wrong_credentials() {
    let both = server_of(1);
    let nonce = both
        .0
        .nonce_for(at("192.0.2.1:4242"), UnixTime::from_secs(NOW));
    let cause = |asked: Asked<'_>, seconds| cause_at(&both, &asked.request(), seconds);
    let odd = || Asked {
        odd: true,
        ..Asked::new(&nonce)
    };
    let wrong = || Asked {
        password: "wrong",
        ..Asked::new(&nonce)
    };
    assert_eq!(cause(Asked::new(&nonce), 3600), None);
    assert_eq!(cause(odd(), 3600), Some(Cause::UnknownAttribute));
    assert_eq!(cause(wrong(), 3599), Some(Cause::WrongCredentials));
    assert_eq!(cause(wrong(), 3600), Some(Cause::StaleNonce));
    assert_eq!(cause(odd(), 7200), Some(Cause::StaleNonce));
    let turned = LongTerm::new("example.org", [2; 32]).previous_secret([1; 32]);
    let turned = Server::builder(turned).build().unwrap();
    let turned = (turned, server_of(2).1);
    assert_eq!(cause_at(&turned, &Asked::new(&nonce).request(), 0), None);
    let stale = cause_at(&turned, &wrong().request(), 0);
    assert_eq!(stale, Some(Cause::StaleNonce));
}

#[test]
fn what_is_not_refused_has_no_cause() {
    let both = server_of(1);
    let request = Message::builder_request(BINDING, MessageWriteVec::new()).finish();
    let mut indication = request.clone();
    indication[0] |= 0x00;
    indication[1] |= 0x10;
    let mut success = request.clone();
    success[0] |= 0x01;
    for bytes in [&indication[..], &success, &request[1..], &[], b"text"] {
        assert_eq!(cause_at(&both, bytes, 0), None);
    }
}

#[test]
fn one_user_is_enough_for_the_cause() {
    let (server, _) = server_of(1);
    let (from, now) = (at("192.0.2.1:4242"), UnixTime::from_secs(NOW));
    let nonce = server.nonce_for(from, now);
    let request = Asked::new(&nonce).request();
    let key = long_term_key(Sha1, "alice", "example.org", "wonderland");
    let weak = StoredKeys::new().with_sha1(key.as_bytes().try_into().ok());
    let alice = LongTermCredentials::new("alice".to_string(), "wonderland".to_string());
    let users = [
        (Some(server.user(alice)), None),
        (None, Some(Cause::WrongCredentials)),
        (
            Some(server.user_with_keys("alice", weak)),
            Some(Cause::WrongCredentials),
        ),
    ];
    for (user, wanted) in &users {
        let cause = server.cause_for(&request, from, now, user.as_ref());
        assert_eq!(cause, *wanted);
        let Identified::Lookup(lookup) = server.identify(&request, from, now) else {
            panic!("no look-up");
        };
        let code = match server.resume(lookup, user.as_ref()) {
            Received::Answer(answer) => answer.refusal().map(Refusal::code),
            _ => None,
        };
        assert_eq!(cause.map(Cause::code), code);
    }
}

#[test]
fn causes_have_names_and_places_in_a_table_of_counters() {
    for (index, cause) in Cause::ALL.into_iter().enumerate() {
        assert_eq!(
            (cause.index(), cause.name()),
            (index, &*format!("{cause:?}"))
        );
        assert!(!cause.to_string().is_empty());
    }
    assert_eq!(Refusal::StaleNonce.to_string(), "438 Stale Nonce");
}
