//! Times calls of the crate, and plain code that uses the same digest crates. For each pair it
//! prints the least time of both, in nanoseconds, and their ratio. The rounds are short and
//! alternate, and only the shortest counts, so that other work of the machine has little effect.
//! `bench/rust.sh` runs this program.

use md5::{Digest, Md5};
use seatcrane_stun::auth::ShortTermAuth;
use seatcrane_stun::extra::attribute::{IceControlled, IceControlling, Priority};
use seatcrane_stun::extra::{Fingerprint, check_fingerprint, finish_with_fingerprint, has_unknown};
use seatcrane_stun::types::attribute::{AttributeType, Software, Username};
use seatcrane_stun::types::message::*;
use seatcrane_stun::types::prelude::*;
use sha1::Sha1;
use sha2::Sha256;
use std::hint::black_box;
use std::time::Instant;

const ROUNDS: usize = 4_000;
const CALLS: usize = 40;
const PASSWORD: &[u8] = b"VOkJxbRl1RmTxUk/WvJxBt";
const TEXTS: [&str; 3] = [
    "\u{30de}\u{30c8}\u{30ea}\u{30c3}\u{30af}\u{30b9}",
    "example.org",
    "TheMatrIX",
];

/// Returns the HMAC (RFC 2104) of two pieces, written plainly with a hasher whose blocks have 64
/// bytes.
fn hmac<D: Digest>(key: &[u8], pieces: [&[u8]; 2]) -> impl AsRef<[u8]> + use<D> {
    let (mut inner, mut outer) = ([0x36; 64], [0x5c; 64]);
    for (i, byte) in key.iter().enumerate() {
        inner[i] ^= byte;
        outer[i] ^= byte;
    }
    let inner = D::new()
        .chain_update(inner)
        .chain_update(pieces[0])
        .chain_update(pieces[1]);
    let digest = inner.finalize();
    D::new().chain_update(outer).chain_update(digest).finalize()
}

/// Returns what the digest in the attribute at the offset `place` covers: the first four bytes with
/// the length that counts for the digest, and the rest up to the attribute.
fn covered(message: &[u8], place: usize, value: usize) -> ([u8; 4], &[u8]) {
    let length = ((place + 4 + value - 20) as u16).to_be_bytes();
    (
        [message[0], message[1], length[0], length[1]],
        &message[4..place],
    )
}

/// Returns `true` if the digest in the attribute at the offset `place` is valid.
fn is_signed<D: Digest>(message: &[u8], place: usize, value: usize) -> bool {
    let (start, rest) = covered(message, place, value);
    let digest = hmac::<D>(PASSWORD, [&start, rest]);
    let claimed = &message[place + 4..][..value];
    claimed
        .iter()
        .zip(digest.as_ref())
        .fold(0, |differ, (a, b)| differ | (a ^ b))
        == 0
}

/// Returns the CRC-32, computed byte by byte with a table.
fn crc32(table: &[u32; 256], bytes: &[u8]) -> u32 {
    let step = |crc: u32, byte: &u8| crc >> 8 ^ table[usize::from(crc as u8 ^ byte)];
    !bytes.iter().fold(!0, step)
}

fn crc_table() -> [u32; 256] {
    std::array::from_fn(|byte| {
        let step = |crc: u32, _| crc >> 1 ^ if crc % 2 == 1 { 0xedb8_8320 } else { 0 };
        (0..8).fold(byte as u32, step)
    })
}

/// Judges a connectivity check of ICE with the calls that an agent makes.
fn judge(auth: &mut ShortTermAuth, bytes: &[u8]) {
    let check = Message::from_bytes(bytes).unwrap();
    assert_eq!(check_fingerprint(&check), Fingerprint::Right);
    assert!(check.has_class(MessageClass::Request) && check.has_method(BINDING));
    assert_eq!(
        check.attribute::<Username<'_>>().unwrap().username(),
        "evtj:h6vY"
    );
    auth.validate_incoming_message(&check).unwrap().unwrap();
    assert!(!has_unknown(&check, &KNOWN));
    black_box(check.attribute::<Priority>().unwrap().priority());
    assert!(check.attribute::<IceControlling>().is_err());
    black_box(check.attribute::<IceControlled>().unwrap());
}

const KNOWN: [AttributeType; 4] = [
    AttributeType::USERNAME,
    AttributeType::PRIORITY,
    AttributeType::MESSAGE_INTEGRITY,
    AttributeType::USE_CANDIDATE,
];

fn request(algorithm: IntegrityAlgorithm) -> Vec<u8> {
    let id = TransactionId::from([7; 12]);
    let mut request = Message::builder_request_with_id(BINDING, id, MessageWriteVec::new());
    request
        .add_attribute(&Username::new("evtj:h6vY").unwrap())
        .unwrap();
    request
        .add_message_integrity_with_key(PASSWORD, algorithm)
        .unwrap();
    request.finish()
}

fn time(call: &mut dyn FnMut()) -> f64 {
    let start = Instant::now();
    (0..CALLS).for_each(|_| call());
    start.elapsed().as_nanos() as f64 / CALLS as f64
}

/// Measures a call and plain code, and prints them as a line of the table.
fn measure(title: &str, mut call: impl FnMut(), mut plain: impl FnMut()) {
    let (mut ours, mut theirs) = (f64::MAX, f64::MAX);
    for _ in 0..ROUNDS {
        ours = ours.min(time(&mut call));
        theirs = theirs.min(time(&mut plain));
    }
    println!(
        "| {title} | {ours:.0} | {theirs:.0} | {:.2} |",
        ours / theirs
    );
}

fn main() {
    let (by_sha1, by_sha256) = (
        request(IntegrityAlgorithm::Sha1),
        request(IntegrityAlgorithm::Sha256),
    );
    let place = 36;
    assert!(is_signed::<Sha1>(&by_sha1, place, 20) && is_signed::<Sha256>(&by_sha256, place, 32));
    println!("| Call | ns | plain code, ns | of it |\n|---|---|---|---|");
    for (title, bytes) in [("SHA-1", &by_sha1), ("SHA-256", &by_sha256)] {
        let verify = || {
            let message = Message::from_bytes(black_box(bytes)).unwrap();
            assert!(black_box(message.validate_integrity_with_key(black_box(PASSWORD))).is_ok());
        };
        let is_sha1 = title == "SHA-1";
        let plain = || match is_sha1 {
            true => assert!(is_signed::<Sha1>(black_box(bytes), place, 20)),
            false => assert!(is_signed::<Sha256>(black_box(bytes), place, 32)),
        };
        measure(
            &format!(
                "parse and verify, {title}, a message of {} bytes",
                bytes.len()
            ),
            verify,
            plain,
        );
    }
    let mut room = [0; 128];
    let build = || {
        let id = TransactionId::from(black_box([7; 12]));
        let writer = MessageWriteMutSlice::new(&mut room);
        let mut request = Message::builder_request_with_id(BINDING, id, writer);
        request
            .add_attribute(&Username::new(black_box("evtj:h6vY")).unwrap())
            .unwrap();
        request
            .add_message_integrity_with_key(PASSWORD, IntegrityAlgorithm::Sha1)
            .unwrap();
        black_box(request.finish());
    };
    let mut plain_room = by_sha1.clone();
    let plain = || {
        let (start, rest) = covered(black_box(&by_sha1), place, 20);
        let digest = hmac::<Sha1>(PASSWORD, [&start, rest]);
        plain_room[place + 4..].copy_from_slice(digest.as_ref());
        black_box(&plain_room);
    };
    measure(
        "build and sign into a slice, SHA-1 (plain: the digest alone)",
        build,
        plain,
    );
    let joined = TEXTS.join(":");
    for algorithm in [IntegrityAlgorithm::Sha1, IntegrityAlgorithm::Sha256] {
        let key = || {
            let [name, realm, password] = black_box(TEXTS);
            black_box(long_term_key(algorithm, name, realm, password));
        };
        let plain = || match algorithm {
            IntegrityAlgorithm::Sha1 => drop(black_box(Md5::digest(black_box(&joined)))),
            _ => drop(black_box(Sha256::digest(black_box(&joined)))),
        };
        let digest = if algorithm == IntegrityAlgorithm::Sha1 {
            "MD5"
        } else {
            "SHA-256"
        };
        measure(
            &format!("long-term key, {digest} (plain: of the joined text)"),
            key,
            plain,
        );
    }
    measure_ice();
}

/// Returns a check like the request of RFC 5769, section 2.1, which has 108 bytes.
fn check() -> Result<Vec<u8>, StunWriteError> {
    let id = TransactionId::from([7; 12]);
    let mut check = Message::builder_request_with_id(BINDING, id, MessageWriteVec::new());
    check.add_attribute(&Software::new("STUN test client").unwrap())?;
    check.add_attribute(&Priority::new(0x6e00_01ff))?;
    check.add_attribute(&IceControlled::new(0x932f_f9b1_5126_3b36))?;
    check.add_attribute(&Username::new("evtj:h6vY").unwrap())?;
    check.add_message_integrity_with_key(PASSWORD, IntegrityAlgorithm::Sha1)?;
    finish_with_fingerprint(check)
}

/// Prints the lines of the table that are about a check of ICE.
fn measure_ice() {
    let bytes = &check().unwrap()[..];
    let message = Message::from_bytes(bytes).unwrap();
    let (table, covered) = (crc_table(), &bytes[..bytes.len() - 8]);
    let checked = || assert_eq!(check_fingerprint(black_box(&message)), Fingerprint::Right);
    let by_byte = || {
        black_box(crc32(black_box(&table), black_box(covered)));
    };
    let title = format!(
        "FINGERPRINT of {} bytes (plain: a table, byte by byte)",
        bytes.len()
    );
    measure(&title, checked, by_byte);
    let mut auth = ShortTermAuth::new();
    let password = String::from_utf8(PASSWORD.to_vec()).unwrap();
    auth.set_credentials(
        ShortTermCredentials::new(password),
        IntegrityAlgorithm::Sha1,
    );
    let digest = || {
        black_box(hmac::<Sha1>(black_box(PASSWORD), [&[], black_box(covered)]));
    };
    let judged = || judge(&mut auth, black_box(bytes));
    let title = "a check of ICE, judged (plain: the digest alone)";
    measure(title, judged, digest);
    let built = || {
        let id = TransactionId::from(black_box([7; 12]));
        let mut request = Message::builder_request_with_id(BINDING, id, MessageWriteVec::new());
        request
            .add_attribute(&Username::new(black_box("evtj:h6vY")).unwrap())
            .unwrap();
        request
            .add_message_integrity_with_key(PASSWORD, IntegrityAlgorithm::Sha1)
            .unwrap();
        black_box(request.finish());
    };
    let digest = || {
        black_box(hmac::<Sha1>(
            black_box(PASSWORD),
            [&[], black_box(&bytes[..36])],
        ));
    };
    measure(
        "build and sign into a Vec, SHA-1 (plain: the digest alone)",
        built,
        digest,
    );
}
