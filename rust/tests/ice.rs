//! Tests of connectivity checks of ICE: the outcomes of datagrams at an agent, and two agents that
//! check each other over a network that loses, repeats and reorders datagrams.

use seatcrane_stun::Instant;
use seatcrane_stun::endpoint::ice::Role::{Controlled, Controlling};
use seatcrane_stun::endpoint::ice::*;
use seatcrane_stun::extra::attribute::{IceControlled, IceControlling, Priority, UseCandidate};
use seatcrane_stun::extra::{Fingerprint, check_fingerprint, finish_with_fingerprint};
use seatcrane_stun::types::attribute::*;
use seatcrane_stun::types::message::IntegrityAlgorithm::{Sha1, Sha256};
use seatcrane_stun::types::message::*;
use seatcrane_stun::types::prelude::*;
use std::net::SocketAddr;
use std::time::Duration;

#[allow(dead_code)] // one of the samples is not used here
mod samples;

const LEFT: (&str, &str) = ("left", "left-password-of-22-chars");
const RIGHT: (&str, &str) = ("right", "right-password-of-22-chars");
const HERE: &str = "10.0.0.1:1";
const THERE: &str = "10.0.0.2:2";

fn at(address: &str) -> SocketAddr {
    address.parse().unwrap()
}

fn id(number: u8) -> TransactionId {
    TransactionId::from([number; 12])
}

fn pair(roles: (Role, Role), ties: (u64, u64)) -> (Checker, Checker) {
    (
        Checker::new(LEFT, RIGHT, ties.0, roles.0).unwrap(),
        Checker::new(RIGHT, LEFT, ties.1, roles.1).unwrap(),
    )
}

/// Returns the answer to a check, and the outcome of the check.
fn checked(received: Received<'_>) -> (Vec<u8>, Judged) {
    match received {
        Received::Check { answer, judged, .. } => (answer, judged),
        other => panic!("{other:?}"),
    }
}

fn ended(received: Received<'_>) -> Outcome {
    match received {
        Received::Response(outcome) => outcome,
        other => panic!("{other:?}"),
    }
}

fn dropped(received: Received<'_>) -> DropReason {
    match received {
        Received::Dropped(why) => why,
        other => panic!("{other:?}"),
    }
}

/// Delivers a check of `a` to `b`, and the answer back to `a`. Returns both outcomes.
fn exchange(a: &mut Checker, b: &mut Checker, nominate: bool) -> (Judged, Outcome) {
    let check = a.check(id(1), at(THERE), 77, nominate).unwrap();
    let (answer, judged) = checked(b.receive(check.bytes(), at(HERE), None));
    let outcome = ended(a.receive(&answer, at(THERE), Some(&check)));
    (judged, outcome)
}

#[test]
fn roles_are_opposite_after_one_check_each_way() {
    for roles in [
        (Controlling, Controlled),
        (Controlled, Controlling),
        (Controlling, Controlling),
        (Controlled, Controlled),
    ] {
        for ties in [(1, 2), (2, 1), (0, u64::MAX)] {
            for left_first in [true, false] {
                let (mut a, mut b) = pair(roles, ties);
                if left_first {
                    exchange(&mut a, &mut b, false);
                    exchange(&mut b, &mut a, false);
                } else {
                    exchange(&mut b, &mut a, false);
                    exchange(&mut a, &mut b, false);
                }
                if roles.0 == roles.1 {
                    assert_eq!(a.role() == Controlling, ties.0 > ties.1);
                } else {
                    assert_eq!((a.role(), b.role()), roles);
                }
                assert_eq!(a.role(), b.role().opposite());
                let (controls, follows) = match a.role() {
                    Controlling => (&mut a, &mut b),
                    Controlled => (&mut b, &mut a),
                };
                let accepted = Judged::Accepted {
                    priority: 77,
                    nominated: true,
                    switched: false,
                };
                let valid = Outcome::Valid { mapped: at(HERE) };
                assert_eq!(exchange(controls, follows, true), (accepted, valid));
                // Only the agent that controls nominates.
                assert!(!follows.check(id(2), at(HERE), 1, true).unwrap().nominates());
            }
        }
    }
}

/// With equal tie-breakers the receiver's counts as the larger one (RFC 8445, section 7.3.1.1).
#[test]
fn equal_tie_breakers() {
    let (mut a, mut b) = pair((Controlling, Controlling), (5, 5));
    let (judged, outcome) = exchange(&mut a, &mut b, false);
    assert_eq!(judged, Judged::RoleConflict);
    assert_eq!(outcome, Outcome::RoleConflict { switched: true });
    assert_eq!((a.role(), b.role()), (Controlled, Controlling));

    let (mut a, mut b) = pair((Controlled, Controlled), (5, 5));
    let switched = Judged::Accepted {
        priority: 77,
        nominated: false,
        switched: true,
    };
    assert_eq!(exchange(&mut a, &mut b, false).0, switched);
    assert_eq!((a.role(), b.role()), (Controlled, Controlling));
}

/// Tries every order in which two checks and their answers can arrive, with each of the four
/// datagrams lost or not. If an answer arrives, the roles are opposite. If none does, one more
/// exchange makes them opposite.
#[test]
fn roles_are_opposite_in_every_order() {
    for roles in [
        (Controlling, Controlling),
        (Controlled, Controlled),
        (Controlling, Controlled),
    ] {
        for ties in [(1, 2), (2, 1)] {
            // The order of arrival: 0 is the check of a, 1 its answer, 2 the check of b, 3 its
            // answer.
            for order in [
                [0, 1, 2, 3],
                [0, 2, 1, 3],
                [0, 2, 3, 1],
                [2, 0, 1, 3],
                [2, 0, 3, 1],
                [2, 3, 0, 1],
            ] {
                for lost in 0..16u32 {
                    let (mut a, mut b) = pair(roles, ties);
                    let checks = [
                        a.check(id(1), at(THERE), 1, false).unwrap(),
                        b.check(id(2), at(HERE), 1, false).unwrap(),
                    ];
                    let (mut answers, mut heard) = ([None, None], false);
                    for event in order {
                        let i = event / 2;
                        let (own, other, from, to) = match i {
                            0 => (&mut a, &mut b, HERE, THERE),
                            _ => (&mut b, &mut a, THERE, HERE),
                        };
                        if lost >> event & 1 == 1 {
                            continue;
                        }
                        if event % 2 == 0 {
                            let received = other.receive(checks[i].bytes(), at(from), None);
                            answers[i] = Some(checked(received).0);
                        } else if let Some(answer) = &answers[i] {
                            let outcome = ended(own.receive(answer, at(to), Some(&checks[i])));
                            if matches!(outcome, Outcome::RoleConflict { .. }) {
                                own.set_tie_breaker(own.tie_breaker() ^ 0xff);
                            }
                            heard = true;
                        }
                    }
                    if heard {
                        assert_ne!(a.role(), b.role(), "{roles:?} {ties:?} {order:?} {lost}");
                    }
                    exchange(&mut a, &mut b, false);
                    assert_ne!(a.role(), b.role(), "{roles:?} {ties:?} {order:?} {lost}");
                }
            }
        }
    }
}

/// A second 487 to checks that were sent in one role does not switch back.
#[test]
fn a_repeated_conflict_switches_once() {
    let (mut a, mut b) = pair((Controlling, Controlling), (1, 2));
    let checks = [1, 2].map(|n| a.check(id(n), at(THERE), 1, false).unwrap());
    let answers = checks
        .clone()
        .map(|check| checked(b.receive(check.bytes(), at(HERE), None)).0);
    let outcomes = [0, 1, 0].map(|i| {
        let received = a.receive(&answers[i], at(THERE), Some(&checks[i]));
        ended(received)
    });
    assert_eq!(
        outcomes,
        [true, false, false].map(|switched| Outcome::RoleConflict { switched })
    );
    assert_eq!((a.role(), b.role()), (Controlled, Controlling));
}

/// The parts of a request, each of which is optional.
struct Parts<'a> {
    method: Method,
    name: Option<&'a str>,
    priority: bool,
    unknown: bool,
    key: Option<&'a str>,
    algorithm: IntegrityAlgorithm,
    fingerprint: bool,
}

const RIGHT_CHECK: Parts<'_> = Parts {
    method: BINDING,
    name: Some("right:left"),
    priority: true,
    unknown: false,
    key: Some(RIGHT.1),
    algorithm: Sha1,
    fingerprint: true,
};

fn written(parts: &Parts<'_>) -> Vec<u8> {
    let mut page = Message::builder_request_with_id(parts.method, id(9), MessageWriteVec::new());
    if let Some(name) = parts.name {
        page.add_attribute(&Username::new(name).unwrap()).unwrap();
    }
    if parts.priority {
        page.add_attribute(&Priority::new(6)).unwrap();
    }
    if parts.unknown {
        let unknown = RawAttribute::new(AttributeType(0x7777), &[]);
        page.add_attribute(&unknown).unwrap();
    }
    page.add_attribute(&UseCandidate).unwrap();
    page.add_attribute(&IceControlling::new(3)).unwrap();
    if let Some(key) = parts.key {
        page.add_message_integrity_with_key(key, parts.algorithm)
            .unwrap();
    }
    match parts.fingerprint {
        true => finish_with_fingerprint(page).unwrap(),
        false => page.finish(),
    }
}

/// Checks with different parts have the right outcome and error code, and their answers are signed
/// with the right algorithm.
#[test]
fn checks_are_judged_by_their_parts() {
    let accepted = Judged::Accepted {
        priority: 6,
        nominated: true,
        switched: false,
    };
    let refused = Judged::Refused;
    let wrong = Refusal::Unauthenticated;
    #[rustfmt::skip]
    let cases = [
        (Parts { ..RIGHT_CHECK }, accepted, None, Some(Sha1)),
        (Parts { algorithm: Sha256, ..RIGHT_CHECK }, accepted, None, Some(Sha256)),
        (Parts { key: None, ..RIGHT_CHECK }, refused(Refusal::BadRequest), Some(400), None),
        (Parts { name: None, ..RIGHT_CHECK }, refused(Refusal::BadRequest), Some(400), None),
        (Parts { key: None, name: None, ..RIGHT_CHECK }, refused(Refusal::BadRequest), Some(400), None),
        (Parts { name: Some("left:right"), ..RIGHT_CHECK }, refused(wrong), Some(401), None),
        (Parts { name: Some("right"), ..RIGHT_CHECK }, refused(wrong), Some(401), None),
        (Parts { name: Some("right:left2"), ..RIGHT_CHECK }, accepted, None, Some(Sha1)),
        (Parts { name: Some("right:"), ..RIGHT_CHECK }, accepted, None, Some(Sha1)),
        (Parts { name: Some("rightleft"), ..RIGHT_CHECK }, refused(wrong), Some(401), None),
        (Parts { name: Some("righ:left"), ..RIGHT_CHECK }, refused(wrong), Some(401), None),
        (Parts { name: Some(""), ..RIGHT_CHECK }, refused(wrong), Some(401), None),
        (Parts { key: Some(LEFT.1), ..RIGHT_CHECK }, refused(wrong), Some(401), None),
        (Parts { key: Some(LEFT.1), unknown: true, ..RIGHT_CHECK }, refused(wrong), Some(401), None),
        (Parts { unknown: true, ..RIGHT_CHECK }, refused(Refusal::UnknownAttribute), Some(420), Some(Sha1)),
        (Parts { unknown: true, priority: false, ..RIGHT_CHECK }, refused(Refusal::UnknownAttribute), Some(420), Some(Sha1)),
        (Parts { priority: false, ..RIGHT_CHECK }, refused(Refusal::BadRequest), Some(400), Some(Sha1)),
    ];
    for (parts, judged, code, signed) in cases {
        let (_, mut b) = pair((Controlling, Controlled), (1, 2));
        let bytes = written(&parts);
        let (answer, is) = checked(b.receive(&bytes, at(HERE), None));
        assert_eq!(is, judged);
        let answer = Message::from_bytes(&answer).unwrap();
        assert_eq!(answer.transaction_id(), id(9));
        assert_eq!(answer.method(), BINDING);
        assert_eq!(check_fingerprint(&answer), Fingerprint::Right);
        assert_eq!(answer.error_code().ok(), code);
        assert_eq!(answer.validate_integrity_with_key(RIGHT.1).ok(), signed);
        assert_eq!(answer.xor_mapped_address().is_ok(), code.is_none());
        assert_eq!(
            answer.has_attribute(AttributeType(0x000A)),
            code == Some(420)
        );
        assert_eq!(b.role(), Controlled);
    }
}

#[test]
fn datagrams_are_dropped() {
    let (a, mut b) = pair((Controlling, Controlled), (1, 2));
    let right = a.check(id(1), at(THERE), 1, true).unwrap();
    for place in 0..right.bytes().len() {
        let mut damaged = right.bytes().to_vec();
        damaged[place] ^= 1;
        dropped(b.receive(&damaged, at(HERE), None));
        let front = &right.bytes()[..place];
        dropped(b.receive(front, at(HERE), None));
    }
    let bare = written(&Parts {
        fingerprint: false,
        ..RIGHT_CHECK
    });
    let other = written(&Parts {
        method: Method::new(3).unwrap(),
        ..RIGHT_CHECK
    });
    for (bytes, why) in [
        (&b"GET / HTTP/1.1\r\n\r\n"[..], DropReason::NotStun),
        (&right.bytes()[..24], DropReason::Malformed),
        (&bare, DropReason::WrongFingerprint),
        (&other, DropReason::OtherMethod),
    ] {
        assert_eq!(dropped(b.receive(bytes, at(HERE), None)), why);
    }
    assert_eq!(b.role(), Controlled);
}

/// A role attribute whose value has the wrong length counts as absent.
#[test]
fn a_malformed_role_is_no_conflict() {
    let (_, mut b) = pair((Controlling, Controlling), (1, 2));
    let mut page = Message::builder_request_with_id(BINDING, id(9), MessageWriteVec::new());
    page.add_attribute(&Username::new("right:left").unwrap())
        .unwrap();
    page.add_attribute(&Priority::new(6)).unwrap();
    let role = RawAttribute::new(AttributeType(0x802A), &[255; 4]);
    page.add_attribute(&role).unwrap();
    page.add_attribute(&IceControlled::new(u64::MAX)).unwrap();
    page.add_message_integrity_with_key(RIGHT.1, Sha1).unwrap();
    let bytes = finish_with_fingerprint(page).unwrap();
    let accepted = Judged::Accepted {
        priority: 6,
        nominated: false,
        switched: false,
    };
    assert_eq!(checked(b.receive(&bytes, at(HERE), None)).1, accepted);
}

/// Returns a response to a check, with the attributes that `add` adds.
fn response(
    request: &[u8],
    class: MessageClass,
    key: Option<(&str, IntegrityAlgorithm)>,
    add: impl Fn(&mut MessageWriteVec),
) -> Vec<u8> {
    let request = Message::from_bytes(request).unwrap();
    let mut page = match class {
        MessageClass::Success => Message::builder_success(&request, MessageWriteVec::new()),
        _ => Message::builder_error(&request, MessageWriteVec::new()),
    };
    add(&mut page);
    if let Some((key, algorithm)) = key {
        page.add_message_integrity_with_key(key, algorithm).unwrap();
    }
    finish_with_fingerprint(page).unwrap()
}

#[test]
fn responses_are_judged_with_their_check() {
    use MessageClass::{Error, Success};
    let signed = Some((RIGHT.1, Sha1));
    let error = |code: u16| {
        move |page: &mut MessageWriteVec| {
            let error = ErrorCode::builder(code).build().unwrap();
            page.add_attribute(&error).unwrap();
        }
    };
    let mapped = |page: &mut MessageWriteVec| page.add_xor_mapped_address(at(HERE)).unwrap();
    let unknown = |page: &mut MessageWriteVec| {
        page.add_xor_mapped_address(at(HERE)).unwrap();
        let unknown = RawAttribute::new(AttributeType(0x7777), &[]);
        page.add_attribute(&unknown).unwrap();
    };
    let (mut a, _) = pair((Controlling, Controlled), (1, 2));
    let check = a.check(id(1), at(THERE), 1, true).unwrap();
    let other = a.check(id(2), at(THERE), 1, true).unwrap();
    let bytes = check.bytes();
    let success = response(bytes, Success, signed, mapped);
    let failed = Outcome::Failed;

    for (answer, outcome) in [
        (success.clone(), Outcome::Valid { mapped: at(HERE) }),
        (
            response(bytes, Success, signed, unknown),
            failed(Failure::NotUnderstood(AttributeType(0x7777))),
        ),
        (
            response(bytes, Success, signed, |_| {}),
            failed(Failure::Malformed),
        ),
        (
            response(bytes, Error, signed, |_| {}),
            failed(Failure::Malformed),
        ),
        (
            response(bytes, Error, signed, error(500)),
            failed(Failure::Error(500)),
        ),
    ] {
        let received = a.receive(&answer, at(THERE), Some(&check));
        assert_eq!(ended(received), outcome);
        // The response must take the path of the check in reverse, whatever it contains.
        for from in ["10.0.0.2:3", "10.0.0.3:2", "[::2]:2"] {
            let received = a.receive(&answer, at(from), Some(&check));
            assert_eq!(ended(received), failed(Failure::OtherPath));
        }
        let received = a.receive(&answer, at(THERE), Some(&other));
        assert_eq!(dropped(received), DropReason::NotAsked);
        let received = a.receive(&answer, at(THERE), None);
        assert_eq!(dropped(received), DropReason::NotAsked);
    }
    for key in [None, Some((LEFT.1, Sha1)), Some((RIGHT.1, Sha256))] {
        for answer in [
            response(bytes, Success, key, mapped),
            response(bytes, Error, key, error(401)),
            response(bytes, Error, key, error(487)),
        ] {
            let received = a.receive(&answer, at(THERE), Some(&check));
            assert_eq!(dropped(received), DropReason::WrongSignature);
        }
    }
    for place in 0..success.len() {
        let mut damaged = success.clone();
        damaged[place] ^= 1;
        dropped(a.receive(&damaged, at(THERE), Some(&check)));
    }
    assert_eq!(a.role(), Controlling);
}

/// The two forms of an IPv4 address are one address.
#[test]
fn addresses_are_canonical() {
    let (mut a, mut b) = pair((Controlling, Controlled), (1, 2));
    let (plain, mapped) = (at("10.0.0.2:2"), at("[::ffff:10.0.0.2]:2"));
    for (to, from) in [(plain, mapped), (mapped, plain)] {
        let check = a.check(id(1), to, 1, false).unwrap();
        assert_eq!(check.to(), to);
        let (answer, _) = checked(b.receive(check.bytes(), at("[::ffff:10.0.0.1]:1"), None));
        let outcome = ended(a.receive(&answer, from, Some(&check)));
        assert_eq!(outcome, Outcome::Valid { mapped: at(HERE) });
    }
    let to: SocketAddr = "[fe80::1]:9".parse().unwrap();
    let from = SocketAddr::V6(std::net::SocketAddrV6::new(
        [0xfe80, 0, 0, 0, 0, 0, 0, 1].into(),
        9,
        0,
        4,
    ));
    let check = a.check(id(1), to, 1, false).unwrap();
    let (answer, _) = checked(b.receive(check.bytes(), at("[2001:db8::1]:1"), None));
    let outcome = ended(a.receive(&answer, from, Some(&check)));
    assert_eq!(
        outcome,
        Outcome::Valid {
            mapped: at("[2001:db8::1]:1")
        }
    );
}

#[test]
fn indications_keep_paths_open() {
    let (mut a, _) = pair((Controlling, Controlled), (1, 2));
    let page = Message::builder_indication(BINDING, MessageWriteVec::new());
    let keepalive = finish_with_fingerprint(page).unwrap();
    assert!(matches!(
        a.receive(&keepalive, at(THERE), None),
        Received::Indication(_)
    ));
    let mut page = Message::builder_indication(BINDING, MessageWriteVec::new());
    page.add_attribute(&RawAttribute::new(AttributeType(0x7777), &[]))
        .unwrap();
    let unknown = finish_with_fingerprint(page).unwrap();
    assert_eq!(
        dropped(a.receive(&unknown, at(THERE), None)),
        DropReason::UnknownAttribute
    );
}

#[test]
fn bad_settings_are_refused() {
    let long = "a".repeat(257);
    let build = |local, remote| Checker::new(local, remote, 1, Controlled).map(|_| ());
    for (side, why) in [
        (("abc", LEFT.1), BuildError::NameLength),
        ((&long, LEFT.1), BuildError::NameLength),
        (("ab:c", LEFT.1), BuildError::ColonInName),
        (
            ("abcd", "twenty-one-characters"),
            BuildError::PasswordLength,
        ),
        (("abcd", &long), BuildError::PasswordLength),
    ] {
        assert_eq!(build(side, RIGHT), Err(why));
        assert_eq!(build(RIGHT, side), Err(why));
    }
    let most = "b".repeat(256);
    let (left, right) = ((&most[..], &most[..]), ("abcd", "twenty-two--characters"));
    let mut a = Checker::new(left, right, 1, Controlled).unwrap();
    let mut b = Checker::new(right, left, 1, Controlling).unwrap();
    assert_eq!(
        exchange(&mut a, &mut b, false).1,
        Outcome::Valid { mapped: at(HERE) }
    );
}

/// The request and the responses of RFC 5769, sections 2.1 to 2.3, which are a check and its
/// answer.
#[test]
fn reads_the_samples() {
    let password = "VOkJxbRl1RmTxUk/WvJxBt";
    let (left, right) = (("evtj", password), ("h6vY", "another of 22 letters."));
    let request = samples::bytes(
        "00010058 2112a442 b7e7a701 bc34d686 fa87dfae 80220010 5354554e 20746573 7420636c 69656e74
        00240004 6e0001ff 80290008 932ff9b1 51263b36 00060009 6576746a 3a683676 59202020 00080014
        9aeaa70c bfd8cb56 781ef2b5 b2d3f249 c1b571a2 80280004 e57a3bcf",
    );
    let mut receiver = Checker::new(left, right, 1, Controlling).unwrap();
    let (answer, judged) = checked(receiver.receive(&request, at("192.0.2.1:32853"), None));
    let accepted = Judged::Accepted {
        priority: 0x6e00_01ff,
        nominated: false,
        switched: false,
    };
    assert_eq!(judged, accepted);

    let mut sender = Checker::new(right, left, 0x932f_f9b1_5126_3b36, Controlled).unwrap();
    let sample = Message::from_bytes(&request).unwrap().transaction_id();
    let check = sender.check(sample, at(THERE), 0x6e00_01ff, false).unwrap();
    for (answer, mapped) in [
        (answer, "192.0.2.1:32853"),
        (samples::bytes(samples::IPV4_RESPONSE), "192.0.2.1:32853"),
        (
            samples::bytes(samples::IPV6_RESPONSE),
            "[2001:db8:1234:5678:11:2233:4455:6677]:32853",
        ),
    ] {
        let outcome = ended(sender.receive(&answer, at(THERE), Some(&check)));
        assert_eq!(outcome, Outcome::Valid { mapped: at(mapped) });
    }
}

#[test]
fn values_can_be_shared() {
    fn is_shared<T: Send + Sync + 'static>() {}
    is_shared::<Checker>();
    is_shared::<Check>();
    is_shared::<Judged>();
    is_shared::<Outcome>();
    let reasons = [
        DropReason::NotStun,
        DropReason::Malformed,
        DropReason::WrongFingerprint,
        DropReason::OtherMethod,
        DropReason::UnknownAttribute,
        DropReason::NotAsked,
        DropReason::WrongSignature,
        DropReason::OutOfMemory,
    ];
    assert_eq!(reasons.len(), DropReason::COUNT);
    for (index, reason) in reasons.into_iter().enumerate() {
        assert_eq!(reason.index(), index);
        assert_eq!(reason.name(), format!("{reason:?}"));
        assert!(!reason.to_string().is_empty());
    }
    let (a, _) = pair((Controlling, Controlled), (1, 2));
    assert_eq!(format!("{a:?}"), "Checker { role: Controlling, .. }");
    let check = a.check(id(1), at(THERE), 1, true).unwrap();
    assert_eq!(check.clone().bytes(), check.bytes());
    assert!(!format!("{check:?}").contains("bytes"));
}

/// Random numbers from splitmix64.
struct Random(u64);

impl Random {
    fn next(&mut self) -> u64 {
        self.0 = self.0.wrapping_add(0x9e37_79b9_7f4a_7c15);
        let mut z = self.0;
        z = (z ^ (z >> 30)).wrapping_mul(0xbf58_476d_1ce4_e5b9);
        z = (z ^ (z >> 27)).wrapping_mul(0x94d0_49bb_1331_11eb);
        z ^ (z >> 31)
    }

    fn below(&mut self, bound: u64) -> u64 {
        self.next() % bound
    }

    fn id(&mut self) -> TransactionId {
        let [a, b] = [self.next(), self.next()];
        TransactionId::from_u128(u128::from(a) << 32 | u128::from(b >> 32)).unwrap()
    }
}

/// One agent of the network: its checks, and what it has learned.
struct Agent {
    checker: Checker,
    address: SocketAddr,
    peer: SocketAddr,
    checks: Vec<Check>,
    is_valid: bool,
    is_nominated: bool,
}

impl Agent {
    fn new(checker: Checker, address: &str, peer: &str) -> Agent {
        Agent {
            checker,
            address: at(address),
            peer: at(peer),
            checks: Vec::new(),
            is_valid: false,
            is_nominated: false,
        }
    }

    /// Sends a new check, or an earlier check again.
    fn send(&mut self, random: &mut Random) -> Vec<u8> {
        if self.checks.is_empty() || random.below(3) == 0 {
            let nominate = self.is_valid && random.below(2) == 0;
            let check = self
                .checker
                .check(random.id(), self.peer, 5, nominate)
                .unwrap();
            self.checks.push(check);
        }
        let newest = self.checks.len() as u64;
        let check = &self.checks[random.below(newest) as usize];
        check.bytes().to_vec()
    }

    /// Reads a datagram, and returns the answer, if there is one.
    fn receive(&mut self, bytes: &[u8], random: &mut Random) -> Option<Vec<u8>> {
        let id = Message::from_bytes(bytes).unwrap().transaction_id();
        let check = self.checks.iter().find(|check| check.id() == id);
        match self.checker.receive(bytes, self.peer, check) {
            Received::Check { answer, judged, .. } => {
                if let Judged::Accepted { nominated, .. } = judged {
                    self.is_nominated |= nominated;
                }
                Some(answer)
            }
            Received::Response(Outcome::Valid { mapped }) => {
                assert_eq!(mapped, self.address);
                self.is_valid = true;
                None
            }
            Received::Response(Outcome::RoleConflict { .. }) => {
                self.checker.set_tie_breaker(random.next());
                None
            }
            other => panic!("{other:?}"),
        }
    }
}

/// Over a network that loses a third of the datagrams, repeats and reorders them, two agents reach
/// opposite roles and a nominated pair that both know to be valid. After that no datagram changes
/// the roles. SEEDS sets how many networks are tried.
#[test]
fn agents_meet_over_a_bad_network() {
    let seeds = std::env::var("SEEDS").map_or(1000, |seeds| seeds.parse().expect("a number"));
    for seed in 0..seeds {
        let mut random = Random(seed);
        let role = |number: u64| [Controlling, Controlled][number as usize % 2];
        let roles = (role(seed), role(seed / 2));
        let ties = (random.next(), random.next());
        let (left, right) = pair(roles, ties);
        let mut agents = [
            Agent::new(left, HERE, THERE),
            Agent::new(right, THERE, HERE),
        ];
        let mut network: Vec<(usize, Vec<u8>)> = Vec::new();
        let mut steps = 0;
        loop {
            steps += 1;
            assert!(steps < 5000, "seed {seed}");
            let sender = random.below(2) as usize;
            if random.below(3) == 0 {
                network.push((1 - sender, agents[sender].send(&mut random)));
            }
            if network.is_empty() {
                continue;
            }
            let pick = random.below(network.len() as u64) as usize;
            let (to, bytes) = match random.below(3) {
                0 => network.swap_remove(pick), // it arrives, and is not on its way any more
                1 => network[pick].clone(),     // it arrives, and will arrive again
                _ => {
                    network.swap_remove(pick); // it is lost
                    continue;
                }
            };
            if let Some(answer) = agents[to].receive(&bytes, &mut random) {
                network.push((1 - to, answer));
            }
            let heard = agents.iter().any(|agent| agent.is_valid);
            let [left, right] = [&agents[0].checker, &agents[1].checker];
            if heard {
                assert_eq!(left.role(), right.role().opposite(), "seed {seed}");
                if roles.0 == roles.1 {
                    assert_eq!(left.role() == Controlling, ties.0 > ties.1, "seed {seed}");
                }
            }
            if roles.0 != roles.1 {
                assert_eq!((left.role(), right.role()), roles, "seed {seed}");
            }
            let nominated = agents.iter().filter(|agent| agent.is_nominated).count();
            if nominated > 0 && agents.iter().all(|agent| agent.is_valid) {
                assert_eq!(nominated, 1, "seed {seed}");
                break;
            }
        }
    }
}

/// An agent that does not know its peer's credentials yet answers checks like an agent that does
/// (RFC 8445, section 7.3).
#[test]
fn checks_are_answered_before_the_answer() {
    let (mut knows, mut there) = pair((Controlling, Controlled), (1, 2));
    let mut here = Checker::offer(LEFT, 1, Controlling).unwrap();
    assert!(!here.has_remote() && knows.has_remote());
    let check = there.check(id(1), at(HERE), 77, true).unwrap();
    let (answer, judged) = checked(here.receive(check.bytes(), at(THERE), None));
    assert_eq!(
        (answer.clone(), judged),
        checked(knows.receive(check.bytes(), at(THERE), None))
    );
    let outcome = ended(there.receive(&answer, at(HERE), Some(&check)));
    assert_eq!(outcome, Outcome::Valid { mapped: at(THERE) });
    let Received::Check {
        message, fragment, ..
    } = here.receive(check.bytes(), at(THERE), None)
    else {
        panic!("no check")
    };
    assert_eq!(fragment, Some(RIGHT.0.as_bytes()));
    assert_eq!(message.transaction_id(), id(1));

    // It cannot write checks yet, and drops every response.
    let none = here.check(id(2), at(THERE), 1, true).unwrap_err();
    assert_eq!(none, CheckError::NoRemote);
    assert_eq!(
        none.to_string(),
        "the credentials of the peer are not known yet"
    );
    let early = knows.check(id(2), at(THERE), 1, true).unwrap();
    let (answer, _) = checked(there.receive(early.bytes(), at(HERE), None));
    let why = dropped(here.receive(&answer, at(THERE), Some(&early)));
    assert_eq!(why, DropReason::WrongSignature);

    // The answer to the offer arrives.
    let refused = here.set_remote((RIGHT.0, "short"));
    assert_eq!(refused, Err(BuildError::PasswordLength));
    assert!(!here.has_remote());
    here.set_remote(RIGHT).unwrap();
    let outcome = ended(here.receive(&answer, at(THERE), Some(&early)));
    assert_eq!(outcome, Outcome::Valid { mapped: at(HERE) });
    here.set_role(Controlled);
    assert_eq!(here.role(), Controlled);
}

#[test]
fn keepalives_are_indications() {
    let (mut a, _) = pair((Controlling, Controlled), (1, 2));
    let bytes = Checker::keepalive(id(3));
    assert_eq!(bytes.len(), 28);
    assert!(matches!(
        a.receive(&bytes, at(THERE), None),
        Received::Indication(_)
    ));
}

/// The order of priorities is that of RFC 8445, section 5.1.2.2: a kind before a preference.
#[test]
fn priorities_are_ordered() {
    use CandidateKind::{Host, PeerReflexive, Relayed, ServerReflexive};
    let kinds = [Host, PeerReflexive, ServerReflexive, Relayed];
    let ranked = kinds.map(|kind| [65535, 1, 0].map(|rank| priority(kind, rank, 1)));
    let ranked = ranked.concat();
    assert!(ranked.windows(2).all(|two| two[0] > two[1]), "{ranked:?}");
    assert!(priority(Host, 0, 1) > priority(Host, 0, 2));
    // Both sides compute the same number, and different pairs have different numbers.
    let mut seen = std::collections::HashSet::new();
    for one in [1, 2, 3, (1 << 31) - 2, (1 << 31) - 1] {
        for other in [1, 2, 3, (1 << 31) - 2, (1 << 31) - 1] {
            assert!(seen.insert(pair_priority(one, other)));
        }
    }
    assert_eq!(
        pair_priority(u32::MAX, u32::MAX),
        pair_priority((1 << 31) - 1, (1 << 31) - 1)
    );
}

/// Checks are 4 to 6 seconds apart, and consent ends after 30 seconds without an answer (RFC 7675,
/// section 5.1).
#[test]
fn consent_is_asked_for_and_ends() {
    let start = Instant::ZERO + Duration::from_secs(1000);
    for (word, wait) in [(0, 4_000), (1 << 31, 5_000), (u32::MAX, 6_000)] {
        let (mut consent, mut now, mut asked) = (Consent::new(start, word), start, 0);
        let over = loop {
            match consent.poll(now, word) {
                ConsentStep::Ask => asked += 1,
                ConsentStep::Over => break now,
                ConsentStep::Wait(until) => {
                    assert!(until > now && until - now <= Duration::from_millis(wait));
                    now = until;
                }
            }
            if asked == 1 {
                consent.answered(now);
            }
        };
        // The first check was answered until the second was sent.
        let second = start + Duration::from_millis(2 * wait);
        assert!(
            over - start >= Duration::from_secs(30) && over <= second + Duration::from_secs(30)
        );
        consent.answered(over);
        assert_eq!(consent.poll(over, word), ConsentStep::Over);
    }
}
