//! Tests of checks with their timers: each check ends exactly once, whatever the network does, and
//! an answer must take the path of its check in reverse.

use seatcrane_stun::Instant;
use seatcrane_stun::endpoint::Retransmission;
use seatcrane_stun::endpoint::ice::Role::{Controlled, Controlling};
use seatcrane_stun::endpoint::ice::*;
use seatcrane_stun::extra::{Fingerprint, check_fingerprint};
use seatcrane_stun::types::attribute::AttributeType;
use seatcrane_stun::types::message::*;
use std::collections::BTreeMap;
use std::net::SocketAddr;
use std::time::Duration;

const LEFT: (&str, &str) = ("left", "left-password-of-22-chars");
const RIGHT: (&str, &str) = ("right", "right-password-of-22-chars");

fn at(address: &str) -> SocketAddr {
    address.parse().unwrap()
}

fn here() -> SocketAddr {
    at("10.0.0.1:1")
}

fn there() -> SocketAddr {
    at("10.0.0.2:2")
}

fn id(number: u16) -> TransactionId {
    let mut bytes = [7; 12];
    bytes[..2].copy_from_slice(&number.to_be_bytes());
    TransactionId::from(bytes)
}

fn ms(millis: u64) -> Instant {
    Instant::ZERO + Duration::from_millis(millis)
}

fn both() -> (Checks, Checks) {
    (
        Checks::new(Checker::new(LEFT, RIGHT, 1, Controlling).unwrap()),
        Checks::new(Checker::new(RIGHT, LEFT, 2, Controlled).unwrap()),
    )
}

fn new(number: u16) -> NewCheck {
    NewCheck::new(id(number), here(), there(), 77)
}

/// Returns what is due at a time: the bytes to send, the checks that ended, and the time to wait
/// for.
fn due(checks: &mut Checks, now: Instant) -> (Vec<Vec<u8>>, Vec<TransactionId>, Option<Instant>) {
    let (mut sends, mut ends) = (Vec::new(), Vec::new());
    loop {
        match checks.poll(now) {
            ChecksOutput::Transmit { from, to, bytes } => {
                assert_eq!((from, to), (here(), there()));
                sends.push(bytes.to_vec());
            }
            ChecksOutput::TimedOut { check, from } => {
                assert_eq!(from, here());
                ends.push(check.id());
            }
            ChecksOutput::Wait(until) => return (sends, ends, until),
            other => panic!("{other:?}"),
        }
    }
}

/// Returns the answer of the peer to a check.
fn answer(peer: &mut Checks, check: &[u8]) -> Vec<u8> {
    match peer.receive(check, there(), here(), Instant::ZERO) {
        ChecksInput::Check { answer, .. } => answer,
        other => panic!("{other:?}"),
    }
}

fn ended(input: ChecksInput<'_>) -> EndedCheck {
    match input {
        ChecksInput::Ended(ended) => ended,
        other => panic!("{other:?}"),
    }
}

#[test]
fn a_check_is_sent_again_until_it_times_out() {
    let (mut checks, _) = both();
    checks.start(&new(1), ms(0)).unwrap();
    let (mut times, mut now) = (Vec::new(), ms(0));
    let end = loop {
        let (sends, ends, until) = due(&mut checks, now);
        times.extend(sends.iter().map(|_| (now - ms(0)).as_millis()));
        if let Some(end) = ends.first() {
            assert_eq!((*end, until), (id(1), None));
            break now;
        }
        now = until.unwrap();
    };
    assert_eq!(times, [0, 500, 1500, 3500, 7500, 15500, 31500]);
    assert_eq!((end, checks.outstanding()), (ms(39500), 0));
    assert_eq!(due(&mut checks, Instant::MAX), (vec![], vec![], None));
}

#[test]
fn an_answer_ends_a_check_once() {
    let (mut checks, mut peer) = both();
    checks.start(&new(1).nominate(true), ms(0)).unwrap();
    let (sends, _, until) = due(&mut checks, ms(0));
    assert_eq!(until, Some(ms(500)));
    let bytes = answer(&mut peer, &sends[0]);
    let end = ended(checks.receive(&bytes, here(), there(), ms(30)));
    assert_eq!(end.outcome, Outcome::Valid { mapped: here() });
    assert!(end.check.nominates());
    assert_eq!((end.from, end.elapsed), (here(), Duration::from_millis(30)));
    for _ in 0..2 {
        let again = checks.receive(&bytes, here(), there(), ms(31));
        assert!(matches!(again, ChecksInput::Dropped(DropReason::NotAsked)));
        assert_eq!(due(&mut checks, Instant::MAX), (vec![], vec![], None));
    }
}

#[test]
fn an_answer_must_take_the_way_of_its_check() {
    let elsewhere = at("10.0.0.9:9");
    for (to, from, outcome) in [
        (here(), there(), Outcome::Valid { mapped: here() }),
        (at("[::ffff:10.0.0.1]:1"), there(), Outcome::Valid { mapped: here() }),
        (elsewhere, there(), Outcome::Failed(Failure::OtherPath)),
        (here(), elsewhere, Outcome::Failed(Failure::OtherPath)),
        (there(), here(), Outcome::Failed(Failure::OtherPath)),
    ] {
        let (mut checks, mut peer) = both();
        checks.start(&new(1), ms(0)).unwrap();
        let (sends, ..) = due(&mut checks, ms(0));
        let bytes = answer(&mut peer, &sends[0]);
        let mut buffer = vec![1, 2, 3];
        let end = checks.receive_into(&bytes, to, from, ms(1), &mut buffer);
        let ChecksInput::Ended(end) = end else {
            panic!("{end:?}")
        };
        assert_eq!(end.outcome, outcome, "{to} {from}");
        assert_eq!((buffer.len(), checks.outstanding()), (0, 0));
    }
}

#[test]
fn a_conflict_from_elsewhere_switches_no_role() {
    for (to, role) in [(here(), Controlled), (at("10.0.0.9:9"), Controlling)] {
        let mut checks = Checks::new(Checker::new(LEFT, RIGHT, 1, Controlling).unwrap());
        let mut peer = Checks::new(Checker::new(RIGHT, LEFT, 2, Controlling).unwrap());
        checks.start(&new(1), ms(0)).unwrap();
        let (sends, ..) = due(&mut checks, ms(0));
        let bytes = answer(&mut peer, &sends[0]);
        let _ended = ended(checks.receive(&bytes, to, there(), ms(1)));
        assert_eq!(checks.checker().role(), role);
    }
}

#[test]
fn a_check_of_the_peer_is_answered_wherever_it_arrives() {
    let (mut checks, mut peer) = both();
    peer.start(&NewCheck::new(id(1), there(), here(), 5), ms(0)).unwrap();
    let ChecksOutput::Transmit { bytes, .. } = peer.poll(ms(0)) else {
        panic!("nothing to send")
    };
    checks.start(&new(1), ms(0)).unwrap(); // it has the same ID, which does not matter
    let elsewhere = at("10.0.0.9:9");
    let ChecksInput::Check {
        message,
        fragment,
        answer,
        judged,
    } = checks.receive(bytes, elsewhere, there(), ms(0))
    else {
        panic!("no check")
    };
    assert_eq!(message.transaction_id(), id(1));
    assert_eq!(fragment, Some(&b"right"[..]));
    assert!(matches!(judged, Judged::Accepted { priority: 5, .. }));
    let end = ended(peer.receive(&answer, there(), here(), ms(3)));
    assert_eq!(end.outcome, Outcome::Valid { mapped: there() });
    assert_eq!(checks.outstanding(), 1);
}

#[test]
fn a_check_is_not_sent_again_or_taken_back() {
    let (mut checks, mut peer) = both();
    assert!(!checks.stop_sending(id(1)));
    assert!(checks.cancel(id(1)).is_none());
    for number in 1..=3 {
        checks.start(&new(number), ms(0)).unwrap();
    }
    assert_eq!(checks.start(&new(2), ms(0)), Err(NewCheckError::IdInUse));
    assert!(checks.stop_sending(id(3))); // before it was sent
    let (sends, ..) = due(&mut checks, ms(0));
    assert_eq!(sends.len(), 2);
    assert!(checks.stop_sending(id(1)));
    assert_eq!(checks.cancel(id(2)).map(|check| check.id()), Some(id(2)));
    assert_eq!(checks.start(&new(2), ms(0)), Err(NewCheckError::IdInUse));
    assert!(checks.check(id(2)).is_none());
    assert_eq!(due(&mut checks, ms(600)).0, Vec::<Vec<u8>>::new());
    checks.start(&new(2), ms(600)).unwrap();
    let bytes = answer(&mut peer, &sends[0]);
    assert_eq!(ended(checks.receive(&bytes, here(), there(), ms(700))).check.id(), id(1));
    let (mut now, mut all) = (ms(700), (0, Vec::new()));
    while checks.outstanding() > 0 {
        let (sends, ends, until) = due(&mut checks, now);
        all.0 += sends.len();
        all.1.extend(ends.iter().map(|end| (*end, now)));
        now = until.unwrap_or(now);
    }
    // The poll at 600 ms was 100 ms too late for the plan of the third check.
    assert_eq!(all, (7, vec![(id(3), ms(39_600)), (id(2), ms(40_100))]));
}

#[test]
fn a_check_may_be_sent_once() {
    let second = Duration::from_secs(1);
    let (mut checks, _) = both();
    let once = Retransmission::new(30 * second, 30 * second, 1, 30 * second);
    checks.start(&new(1).retransmission(once), ms(0)).unwrap();
    assert_eq!(due(&mut checks, ms(0)).0.len(), 1);
    assert_eq!(due(&mut checks, ms(29_999)), (vec![], vec![], Some(ms(30_000))));
    assert_eq!(due(&mut checks, ms(30_000)), (vec![], vec![id(1)], None));
}

#[test]
fn a_plan_without_waits_waits() {
    let (mut here, _) = both();
    let none = Duration::ZERO;
    let plan = Retransmission::new(none, none, u32::MAX, none);
    here.start(&new(1).retransmission(plan), ms(0)).unwrap();
    for now in 0..100 {
        let (sends, ends, until) = due(&mut here, ms(now));
        assert_eq!((sends.len(), ends, until), (1, Vec::new(), Some(ms(now + 1))));
    }
}

#[test]
fn nothing_is_checked_before_the_peer_is_known() {
    let mut checks = Checks::new(Checker::offer(LEFT, 1, Controlling).unwrap());
    assert_eq!(checks.start(&new(1), ms(0)), Err(NewCheckError::NoRemote));
    assert_eq!(due(&mut checks, ms(0)), (vec![], vec![], None));
    checks.checker_mut().set_remote(RIGHT).unwrap();
    checks.start(&new(1), ms(0)).unwrap();
    assert_eq!(due(&mut checks, ms(0)).0.len(), 1);
}

#[test]
fn a_check_has_the_attributes_that_it_is_given() {
    let (mut checks, mut peer) = both();
    let cost = AttributeType(0xc057);
    let check = new(1).attribute(cost, [0, 1, 0, 9]).nominate(true);
    checks.start(&check, ms(0)).unwrap();
    let (sends, ..) = due(&mut checks, ms(0));
    let input = peer.receive(&sends[0], there(), here(), ms(0));
    let ChecksInput::Check { message, answer, judged, .. } = input else {
        panic!("{input:?}")
    };
    let found = message.iter_attributes().find(|found| found.1.get_type() == cost);
    assert_eq!(found.unwrap().1.value(), [0, 1, 0, 9]);
    assert!(matches!(judged, Judged::Accepted { priority: 77, nominated: true, .. }));
    assert_eq!(check_fingerprint(&message), Fingerprint::Right);
    let end = ended(checks.receive(&answer, here(), there(), ms(1)));
    assert_eq!(end.outcome, Outcome::Valid { mapped: here() });
    // Without further attributes, it is the same check that `Checker::check` writes.
    let checker = checks.checker();
    let plain = checker.check(id(2), there(), 77, true).unwrap();
    let same = checker.check_with(id(2), there(), 77, true, &[]).unwrap();
    assert_eq!((same.bytes(), same.nominates()), (plain.bytes(), true));
    let exists = |kind| NewCheckError::Attribute(StunWriteError::AttributeExists(kind));
    for (kind, why) in [
        (AttributeType::USERNAME, exists(AttributeType::USERNAME)),
        (AttributeType::FINGERPRINT, NewCheckError::Attribute(StunWriteError::NotAllowed)),
        // USE-CANDIDATE, ICE-CONTROLLED and ICE-CONTROLLING
        (AttributeType(0x0025), NewCheckError::Attribute(StunWriteError::NotAllowed)),
        (AttributeType(0x8029), NewCheckError::Attribute(StunWriteError::NotAllowed)),
        (AttributeType(0x802a), NewCheckError::Attribute(StunWriteError::NotAllowed)),
    ] {
        let check = new(3).attribute(kind, []);
        assert_eq!(checks.start(&check, ms(1)), Err(why));
        assert_eq!(checks.outstanding(), 0);
    }
    let unknown = new(4).attribute(AttributeType(0x7fff), *b"odd");
    checks.start(&unknown, ms(1)).unwrap();
    let (sends, ..) = due(&mut checks, ms(1));
    let end = ended(checks.receive(&self::answer(&mut peer, &sends[0]), here(), there(), ms(2)));
    assert_eq!(end.outcome, Outcome::Failed(Failure::Error(420)));
}

/// A generator that is good enough for a network.
struct Dice(u64);

impl Dice {
    fn below(&mut self, bound: u64) -> u64 {
        self.0 ^= self.0 << 13;
        self.0 ^= self.0 >> 7;
        self.0 ^= self.0 << 17;
        self.0 % bound
    }
}

/// Over a network that loses, repeats, delays, corrupts and misdelivers datagrams, each check ends
/// exactly once.
#[test]
fn each_check_ends_exactly_once() {
    for seed in 1..=300u64 {
        let mut dice = Dice(0x9e37_79b9_7f4a_7c15 ^ seed);
        let (mut checks, mut peer) = both();
        let (mut started, mut ends) = (0, BTreeMap::<TransactionId, u32>::new());
        let mut arriving: Vec<(Instant, SocketAddr, SocketAddr, Vec<u8>)> = Vec::new();
        let mut now = ms(0);
        while started < 20 || checks.outstanding() > 0 {
            if started < 20 && dice.below(3) == 0 {
                checks.start(&new(started), now).unwrap();
                started += 1;
            }
            if dice.below(40) == 0 {
                let some = id(u16::try_from(dice.below(20)).unwrap());
                match dice.below(2) {
                    0 => drop(checks.stop_sending(some)),
                    _ if checks.cancel(some).is_some() => *ends.entry(some).or_default() += 1,
                    _ => {}
                }
            }
            let (sends, timed_out, until) = due(&mut checks, now);
            assert!(until.is_none_or(|until| until > now));
            for end in timed_out {
                *ends.entry(end).or_default() += 1;
            }
            for mut bytes in sends {
                if dice.below(8) == 0 {
                    let place = usize::try_from(dice.below(bytes.len() as u64)).unwrap();
                    bytes[place] ^= 1;
                }
                let input = peer.receive(&bytes, there(), here(), now);
                let ChecksInput::Check { answer, .. } = input else {
                    continue;
                };
                for _ in 0..dice.below(4) {
                    let late = now + Duration::from_millis(dice.below(9000));
                    let to = if dice.below(10) == 0 { there() } else { here() };
                    arriving.push((late, to, there(), answer.clone()));
                }
            }
            arriving.retain(|(at, to, from, bytes)| {
                let is_due = *at <= now;
                if is_due {
                    if let ChecksInput::Ended(end) = checks.receive(bytes, *to, *from, now) {
                        *ends.entry(end.check.id()).or_default() += 1;
                    }
                }
                !is_due
            });
            now += Duration::from_millis(dice.below(400));
        }
        assert_eq!(ends.len(), 20, "seed {seed}");
        assert!(ends.values().all(|times| *times == 1), "seed {seed}: {ends:?}");
    }
}
