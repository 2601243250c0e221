//! Tests of what the public types add to the core: they move between threads, errors can be
//! distinguished, `Debug` shows no secrets, and the visible attributes are those of a plain model.

use core::error::Error;
use seatcrane_stun::Instant;
use seatcrane_stun::agent::*;
use seatcrane_stun::auth::*;
use seatcrane_stun::replay;
use seatcrane_stun::types::attribute::{Nonce, Realm, Username};
use seatcrane_stun::types::message::*;
use seatcrane_stun::types::prelude::*;
use seatcrane_stun::types::{ICE, STUN, TURN, TransportType};
use std::time::Duration;

#[test]
fn whatever_is_kept_is_sent_and_shared_between_threads() {
    fn moves<T: Send + Sync + 'static>() {}
    moves::<StunAgent>();
    moves::<StunAgentBuilder>();
    moves::<ShortTermAuth>();
    moves::<LongTermClientAuth>();
    moves::<LongTermServerAuth>();
    moves::<MessageIntegrityCredentials>();
    moves::<LongTermCredentials>();
    moves::<IntegrityKey>();
    moves::<MessageWriteVec>();
    moves::<StunError>();
    let mut agent = StunAgent::builder(TransportType::Udp, "[::1]:1".parse().unwrap()).build();
    let polled = std::thread::spawn(move || agent.poll(Instant::ZERO))
        .join()
        .unwrap();
    assert!(matches!(polled, StunAgentPollRet::WaitUntil(_)));
}

/// The error type of a program, with a variant for each error type of the crate.
#[derive(Debug)]
enum Mine {
    Parse(StunParseError),
    Write(StunWriteError),
    Validate(ValidateError),
    Agent(StunError),
    Client(LongTermClientAuthErrorReason),
    Server(LongTermServerAuthErrorReason),
}

macro_rules! from {
    ($($variant:ident: $error:ty),*) => {$(
        impl From<$error> for Mine {
            fn from(error: $error) -> Mine {
                Mine::$variant(error)
            }
        }
    )*};
}

from!(Parse: StunParseError, Write: StunWriteError, Validate: ValidateError, Agent: StunError);
from!(Client: LongTermClientAuthErrorReason, Server: LongTermServerAuthErrorReason);

#[test]
fn errors_are_of_types_apart() {
    let failed = ValidateError::IntegrityFailed;
    let errors: [Mine; 6] = [
        StunParseError::NotStun.into(),
        StunWriteError::TooSmall.into(),
        failed.into(),
        StunError::from(StunParseError::NotStun).into(),
        LongTermClientAuthErrorReason::from(failed).into(),
        LongTermServerAuthErrorReason::from(failed).into(),
    ];
    let texts = errors.map(|error| -> String {
        let error: Box<dyn Error + Send + Sync> = match error {
            Mine::Parse(error) => error.into(),
            Mine::Write(error) => error.into(),
            Mine::Validate(error) => error.into(),
            Mine::Agent(error) => error.into(),
            Mine::Client(error) => error.into(),
            Mine::Server(error) => error.into(),
        };
        error.to_string()
    });
    let no_stun = "the bytes are not a STUN message";
    let failed = "The message failed integrity checks";
    let no_room = "the writer has too little room";
    let no_digest = "the digest is not that of the message";
    assert_eq!(
        texts,
        [no_stun, no_room, no_digest, no_stun, failed, failed]
    );
}

#[test]
fn no_secret_is_shown() {
    let short = ShortTermCredentials::new("secret".to_string());
    let long = LongTermCredentials::new("hidden".to_string(), "secret".to_string());
    let key = long.to_key("realm".to_string());
    let (mut signer, mut client) = (ShortTermAuth::new(), LongTermClientAuth::new());
    let mut server = LongTermServerAuth::new("realm".to_string());
    signer.set_credentials(short.clone(), IntegrityAlgorithm::Sha1);
    client.set_credentials(long.clone());
    server.add_user(long.clone());
    let made = (short.make_key(), key.make_key(IntegrityAlgorithm::Sha256));
    let both: [MessageIntegrityCredentials; 2] = [short.clone().into(), key.clone().into()];
    let shown =
        format!("{short:#?}{long:#?}{key:#?}{made:#x?}{both:#x?}{signer:?}{client:?}{server:?}");
    for secret in ["secret", "hidden", "0x73", "115"] {
        assert!(!shown.contains(secret), "{shown}");
    }
    assert_eq!(made.0.as_bytes(), b"secret");
    assert!(made.0 == IntegrityKey::new(b"secret") && made.0 != IntegrityKey::new(b"secreT"));
}

/// Returns the visible attributes by the three rules of RFC 8489, sections 14.5 to 14.7, applied
/// one after the other.
fn visible(kinds: &[u16]) -> Vec<u16> {
    let (mut seen, mut found) = (Vec::new(), Vec::new());
    for kind in kinds {
        let passed = |hiding: u16| seen.contains(&hiding);
        let is_hidden = match kind {
            0x8028 => passed(0x8028),
            0x001c => passed(0x8028) || passed(0x001c),
            _ => passed(0x8028) || passed(0x001c) || passed(0x0008),
        };
        seen.push(*kind);
        if !is_hidden {
            found.push(*kind);
        }
    }
    found
}

#[test]
fn attributes_are_walked_as_a_model_walks_them() {
    let kinds: [u16; 5] = [0x0006, 0x0008, 0x001c, 0x8028, 0x8022];
    for number in 0..5usize.pow(6) {
        let chosen: Vec<u16> = (0..6)
            .map(|digit| kinds[number / 5usize.pow(digit) % 5])
            .collect();
        let mut bytes = vec![0, 1, 0, 0, 0x21, 0x12, 0xa4, 0x42];
        bytes.extend([7; 12]);
        for (length, kind) in chosen.iter().enumerate() {
            bytes.extend(kind.to_be_bytes());
            bytes.extend((length as u16).to_be_bytes());
            bytes.resize((bytes.len() + length).next_multiple_of(4), 0);
        }
        let length = (bytes.len() - 20) as u16;
        bytes[2..4].copy_from_slice(&length.to_be_bytes());
        let message = Message::from_bytes(&bytes).unwrap();
        let walked = message.iter_attributes().map(|(place, found)| {
            assert_eq!(
                bytes[place..place + 2],
                found.get_type().value().to_be_bytes()
            );
            found.get_type().value()
        });
        assert_eq!(walked.collect::<Vec<_>>(), visible(&chosen), "{chosen:x?}");
    }
}

#[test]
fn texts_are_told() {
    let id = TransactionId::from([1, 2, 3, 4, 5, 6, 7, 8, 9, 10, 11, 12]);
    let mut request = Message::builder_request_with_id(BINDING, id, MessageWriteVec::new());
    request
        .add_xor_mapped_address("192.0.2.1:1".parse().unwrap())
        .unwrap();
    let request = Message::from_bytes(&request).unwrap();
    let text = "Message(Request of 0x001, 0x0102030405060708090a0b0c, attributes: 0x0020)";
    assert_eq!(request.to_string(), text);
    assert_eq!(IntegrityAlgorithm::Sha256.to_string(), "HMAC-SHA256");
    assert_eq!(request.clone(), request);
    let header = MessageHeader::from_bytes(request.as_bytes()).unwrap();
    assert_eq!((header.transaction_id(), header.data_length()), (id, 12));
}

#[test]
#[should_panic(expected = "an empty writer with room for 20 bytes")]
fn a_slice_without_room_panics() {
    let mut room = [0; 19];
    let writer = MessageWriteMutSlice::new(&mut room);
    let _ = Message::builder_request_with_id(BINDING, TransactionId::from([0; 12]), writer);
}

#[test]
fn a_writer_without_a_message_is_not_signed() {
    let refused = Err(StunWriteError::NotAllowed);
    let (mut short, mut client) = (ShortTermAuth::new(), LongTermClientAuth::new());
    let mut server = LongTermServerAuth::new("realm".to_string());
    let user = LongTermCredentials::new("name".to_string(), "secret".to_string());
    let mut user = server.prepare_user(user);
    let to = "192.0.2.1:1".parse().unwrap();
    let empty = MessageWriteVec::new;
    assert_eq!(short.sign_outgoing_message(empty()), refused);
    short.set_credentials(
        ShortTermCredentials::new("secret".to_string()),
        IntegrityAlgorithm::Sha1,
    );
    assert_eq!(short.sign_outgoing_message(empty()), refused);
    assert_eq!(client.sign_outgoing_message(empty()), refused);
    assert_eq!(server.sign_outgoing_message(empty(), to), refused);
    assert_eq!(
        server.sign_outgoing_message_of(empty(), to, &mut user),
        refused
    );
}

#[test]
fn runs_are_replayed() {
    use replay::proved::{Global, Instant, String, auth::LongTermServerAuth};
    let realm = String::from_str(Global, "realm").unwrap();
    let mut server = LongTermServerAuth::new(Global, realm);
    let replies = replay::serve(Global, &mut server, &[]).unwrap();
    assert_eq!((replies.len(), Instant::ZERO.as_nanos()), (0, 0));
}

#[test]
fn steps_of_runs_are_compared_by_each_field() {
    use replay::{AgentStep, proved};
    let to = |port| std::net::SocketAddr::from(([10, 0, 0, 1], port));
    let step = |moment, port, byte| AgentStep::Sent {
        at: Instant::from_nanos(moment),
        to: to(port),
        bytes: proved::Vec::from_slice(proved::Global, &[byte]).unwrap(),
    };
    assert_eq!(step(1, 1, 1), step(1, 1, 1));
    for other in [step(2, 1, 1), step(1, 2, 1), step(1, 1, 2)] {
        assert_ne!(step(1, 1, 1), other);
    }
}

#[test]
fn a_generator_of_ones_own_makes_ids_and_nonces() {
    // A function that fills a slice with 1, 2, 3 and so on, and records how many bytes were
    // requested.
    let (mut last, mut asked) = (0, Vec::new());
    let mut fill = |bytes: &mut [u8]| {
        asked.push(bytes.len());
        for byte in bytes {
            last += 1;
            *byte = last;
        }
    };
    let id = TransactionId::generate_with(&mut fill);
    // Three numbers of 32 bits, the lowest byte of each first.
    assert_eq!(
        id,
        TransactionId::from([4, 3, 2, 1, 8, 7, 6, 5, 12, 11, 10, 9])
    );
    let request = Message::builder_request_with_id(BINDING, id, MessageWriteVec::new()).finish();
    let request = Message::from_bytes(&request).unwrap();
    let from = "192.0.2.1:1".parse().unwrap();
    let mut server = LongTermServerAuth::new("realm".to_string());
    let now = Instant::ZERO;
    for _ in 0..2 {
        let refused = server.validate_incoming_message_with_rng(&request, from, now, &mut fill);
        assert!(refused.is_err());
    }
    let mut other = LongTermServerAuth::new("realm".to_string());
    let words = core::array::from_fn(|i| {
        u32::from_le_bytes(core::array::from_fn(|j| (13 + 4 * i + j) as u8))
    });
    assert!(
        other
            .validate_incoming_message_with_words(&request, from, now, words)
            .is_err()
    );
    assert_eq!(other.nonce_for_client(from), server.nonce_for_client(from));
    assert_eq!(
        asked,
        [12, 64],
        "one read for an ID, one for a nonce, none for the next request"
    );
}

#[test]
fn texts_are_types_apart_with_constructors() {
    let (name, realm, nonce) = (
        Username::new("alice").unwrap(),
        Realm::new("example.org").unwrap(),
        Nonce::try_from("a nonce").unwrap(),
    );
    assert_eq!(
        format!("{name} {realm} {nonce}"),
        "alice example.org a nonce"
    );
    assert_eq!((name.username(), name.as_ref()), ("alice", "alice"));
    assert_eq!((name.clone(), realm.realm()), (name, "example.org"));
    assert_ne!(nonce, Nonce::new("another").unwrap());
    assert_eq!(format!("{realm:?}"), r#"Realm { text: "example.org" }"#);
    let long = "x".repeat(764);
    assert_eq!(Username::new(&long[..514]), Err(StunWriteError::TooLarge));
    assert_eq!(Realm::new(&long), Err(StunWriteError::TooLarge));
    assert_eq!(Nonce::try_from(&*long), Err(StunWriteError::TooLarge));
    // The name of a type is that of the attribute, and not that of a generic text.
    for (told, wanted) in [
        (core::any::type_name::<Username>(), "Username"),
        (core::any::type_name::<Realm>(), "Realm"),
        (core::any::type_name::<Nonce>(), "Nonce"),
    ] {
        assert!(
            told.ends_with(wanted) || told.contains(&format!("{wanted}<")),
            "{told}"
        );
    }
}

#[test]
fn times_are_taken_apart() {
    let second = Duration::from_secs(1);
    let (early, late) = (Instant::ZERO + second, Instant::ZERO + 3 * second);
    assert_eq!(late - 2 * second, early);
    assert_eq!(early - 2 * second, Instant::ZERO);
    assert_eq!(Instant::MAX - Duration::MAX, Instant::ZERO);
    let mut moved = late;
    moved -= second;
    moved += second;
    assert_eq!(moved, late);
    assert_eq!(late.saturating_duration_since(early), 2 * second);
    assert_eq!(early.saturating_duration_since(late), Duration::ZERO);
    assert_eq!(late.checked_duration_since(early), Some(2 * second));
    assert_eq!(early.checked_duration_since(late), None);
    assert_eq!(early.checked_add(2 * second), Some(late));
    assert_eq!(Instant::MAX.checked_add(Duration::from_nanos(1)), None);
    assert_eq!(Instant::ZERO.checked_add(Duration::MAX), None);
    assert_eq!(late.checked_sub(2 * second), Some(early));
    assert_eq!(early.checked_sub(2 * second), None);
    assert_eq!(late.checked_sub(Duration::MAX), None);
}

#[cfg(feature = "std")]
#[test]
fn times_go_to_the_standard_clock_and_back() {
    let start = std::time::Instant::now();
    let span = Duration::from_millis(1500);
    assert_eq!((Instant::ZERO + span).to_std(start), start + span);
    assert_eq!(Instant::ZERO.to_std(start), start);
    assert!(Instant::MAX.to_std(start) > start);
    assert!(Instant::from_std(start).to_std(start) >= start);
}

/// If the clock has run for less than a nonce lifetime, `forget_expired` removes no record.
#[test]
fn a_young_clock_forgets_nobody() {
    let from = "192.0.2.1:1".parse().unwrap();
    let request = Message::builder_request_with_id(
        BINDING,
        TransactionId::from([1; 12]),
        MessageWriteVec::new(),
    )
    .finish();
    let request = Message::from_bytes(&request).unwrap();
    let mut server = LongTermServerAuth::new("realm".to_string());
    let refused =
        server.validate_incoming_message_with_words(&request, from, Instant::ZERO, [7; 16]);
    assert!(refused.is_err());
    let lifetime = Duration::from_secs(3600);
    server.forget_expired(Instant::ZERO + Duration::from_secs(5) - lifetime);
    assert_eq!(server.address_count(), 1);
    server.forget_expired(Instant::ZERO + 2 * lifetime - lifetime);
    assert_eq!(server.address_count(), 1);
    server.forget_expired(Instant::ZERO + 2 * lifetime + Duration::from_nanos(1) - lifetime);
    assert_eq!(server.address_count(), 0);
}

#[test]
fn a_message_is_shown_with_the_names_of_what_it_has() {
    let bytes = b"\x01\x13\0\x10\x21\x12\xa4\x42 any 12 byte\0\x09\0\x04\0\0\x04\x04\x80\x22\0\0\xc0\x57\0\0";
    let message = Message::from_bytes(bytes).unwrap();
    let shown =
        "Message(Error of Allocate, 0x20616e792031322062797465, ERROR-CODE SOFTWARE 0xc057)";
    assert_eq!(format!("{message:?}"), shown);
    for kind in STUN.iter().chain(ICE).chain(TURN) {
        assert!(kind.name().is_some(), "{kind}");
    }
}
