//! Judges a connectivity check of ICE and writes its answer many times over, so that its
//! instructions can be counted:
//!
//! ```text
//! valgrind --tool=callgrind --callgrind-out-file=/dev/null ice_cost checker 3000
//! ```
//!
//! The difference between 3000 and 1000 checks, divided by 2000, is the cost of one. The agent is
//! `checker` (`endpoint::ice::Checker`), or `calls`: the calls of `types`, `auth` and `extra` that
//! it makes, in a row.

use seatcrane_stun::auth::ShortTermAuth;
use seatcrane_stun::endpoint::ice::{Checker, Judged, Received, Role};
use seatcrane_stun::extra::attribute::{IceControlled, Priority};
use seatcrane_stun::extra::{Fingerprint, check_fingerprint, finish_with_fingerprint, has_unknown};
use seatcrane_stun::types::attribute::*;
use seatcrane_stun::types::message::*;
use seatcrane_stun::types::prelude::*;
use std::hint::black_box;
use std::net::SocketAddr;

const PASSWORD: &str = "VOkJxbRl1RmTxUk/WvJxBt";
const KNOWN: [AttributeType; 11] = [
    AttributeType::USERNAME,
    AttributeType::PRIORITY,
    AttributeType::MESSAGE_INTEGRITY,
    AttributeType::USE_CANDIDATE,
    AttributeType::XOR_MAPPED_ADDRESS,
    AttributeType::ERROR_CODE,
    AttributeType(0x000A),
    AttributeType::MESSAGE_INTEGRITY_SHA256,
    AttributeType(0x0001),
    AttributeType::REALM,
    AttributeType::NONCE,
];

/// Makes the calls of a controlled agent for a check that it accepts.
fn by_calls(auth: &mut ShortTermAuth, name: &str, bytes: &[u8], from: SocketAddr) -> Vec<u8> {
    let check = Message::from_bytes(bytes).unwrap();
    assert_eq!(check_fingerprint(&check), Fingerprint::Right);
    assert!(check.has_class(MessageClass::Request) && check.has_method(BINDING));
    assert_eq!(check.attribute::<Username<'_>>().unwrap().username(), name);
    auth.validate_incoming_message(&check).unwrap().unwrap();
    assert!(!has_unknown(&check, &KNOWN));
    black_box(check.attribute::<Priority>().unwrap().priority());
    assert!(check.attribute::<IceControlled>().is_err());
    black_box(check.has_attribute(AttributeType::USE_CANDIDATE));
    let mut answer = Message::builder_success(&check, MessageWriteVec::new());
    answer.add_xor_mapped_address(from).unwrap();
    finish_with_fingerprint(auth.sign_outgoing_message(answer).unwrap()).unwrap()
}

fn main() {
    let words: Vec<String> = std::env::args().skip(1).collect();
    let [kind, count] = &words[..] else {
        panic!("usage: ice_cost checker|calls COUNT");
    };
    let count: u32 = count.parse().expect("a number");
    let (left, right) = (("evtj", "asd88fgpdd777uzjYhagZg"), ("h6vY", PASSWORD));
    let here = Checker::new(left, right, 7, Role::Controlling).unwrap();
    let mut there = Checker::new(right, left, 9, Role::Controlled).unwrap();
    let mut auth = ShortTermAuth::new();
    auth.set_credentials(
        ShortTermCredentials::new(PASSWORD.to_string()),
        IntegrityAlgorithm::Sha1,
    );
    let from: SocketAddr = ([192, 0, 2, 1], 32853).into();
    let id = TransactionId::from([7; 12]);
    let check = here.check(id, from, 0x6e00_01ff, true).unwrap();
    for _ in 0..count {
        let bytes = black_box(check.bytes());
        let answer = match kind.as_str() {
            "calls" => by_calls(&mut auth, "h6vY:evtj", bytes, from),
            _ => match there.receive(bytes, from, None) {
                Received::Check {
                    answer,
                    judged: Judged::Accepted { .. },
                    ..
                } => answer,
                other => panic!("{other:?}"),
            },
        };
        black_box(answer);
    }
}
