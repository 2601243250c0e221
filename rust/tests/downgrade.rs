//! How forged challenges make a client and a server use HMAC-SHA1 although both support HMAC-SHA256
//! (SECURITY.md, "Downgrade by a forged challenge"), and how a client notices it. The port behaves
//! like the crate that it ports, so these tests show what the attack does.
use IntegrityAlgorithm::{Sha1, Sha256};
use seatcrane_stun::Instant;
use seatcrane_stun::auth::*;
use seatcrane_stun::types::attribute::{Nonce, Realm};
use seatcrane_stun::types::message::*;
use seatcrane_stun::types::prelude::*;

mod common;
use common::{Conversation, WORDS};

/// Returns an error response that an attacker sends in place of the server's.
fn forged(request: &[u8], code: u16, nonce: &str) -> Vec<u8> {
    let request = Message::from_bytes(request).unwrap();
    let mut error = Message::builder_error(&request, MessageWriteVec::new());
    error.add_error_code(code, "Forged").unwrap();
    error.add_attribute(&Realm::new("realm").unwrap()).unwrap();
    error.add_attribute(&Nonce::new(nonce).unwrap()).unwrap();
    error.finish()
}

/// Delivers the client's request to the server unaltered, and the server's response to the client.
fn exchanges(
    both: &mut Conversation,
) -> (
    Result<IntegrityAlgorithm, LongTermServerAuthErrorReason>,
    Result<LongTermClientValidation, LongTermClientAuthErrorReason>,
) {
    let request = both.request();
    let (verdict, answer) = both.answer(&request, Instant::ZERO, &WORDS);
    let read = both.read(&answer);
    (verdict, read)
}

#[test]
fn one_forged_401_downgrades_a_client_of_both() {
    let mut both = Conversation::with_both("pass");
    let first = both.request();
    let (_, _true_401) = both.answer(&first, Instant::ZERO, &WORDS); // it arrives too late

    let challenged = both.read(&forged(&first, 401, "x"));
    assert_eq!(challenged, Ok(LongTermClientValidation::ResendRequest(None)));
    assert_eq!(both.client.signing_algorithm(), Some(Sha1), "here a client can notice it");

    let (verdict, read) = exchanges(&mut both);
    assert_eq!(verdict, Err(LongTermServerAuthErrorReason::StaleNonce));
    assert_eq!(read, Ok(LongTermClientValidation::ResendRequest(None)));
    let nonce = both.server.nonce_for_client(both.from).unwrap();
    let bits = NonceSecurityBits::from_nonce(nonce).unwrap();
    assert!(bits.password_algorithms(), "the true nonce asks for a choice");
    assert_eq!(both.client.signing_algorithm(), Some(Sha1), "and here");

    let (verdict, read) = exchanges(&mut both);
    assert_eq!(verdict, Ok(Sha1));
    assert_eq!(read, Ok(LongTermClientValidation::Validated(Sha1)));
}

#[test]
fn two_forged_messages_downgrade_a_client_of_sha256_alone() {
    let mut both = Conversation::with_both("pass");
    both.client.set_supported_integrity(Sha256);
    let first = both.request();
    let (_, _true_401) = both.answer(&first, Instant::ZERO, &WORDS);
    let nonce = both.server.nonce_for_client(both.from).unwrap().to_string();

    let refused = both.read(&forged(&first, 401, "x"));
    assert_eq!(refused, Err(LongTermClientAuthErrorReason::UnsupportedFeature));
    let challenged = both.read(&forged(&first, 401, "obMatJos2QAAAx"));
    assert_eq!(challenged, Ok(LongTermClientValidation::ResendRequest(None)));
    assert_eq!(both.client.signing_algorithm(), Some(Sha1), "here a client can notice it");

    let second = both.request();
    let renewed = both.read(&forged(&second, 438, &nonce));
    assert_eq!(renewed, Ok(LongTermClientValidation::ResendRequest(None)));

    let (verdict, read) = exchanges(&mut both);
    assert_eq!(verdict, Ok(Sha1));
    assert_eq!(read, Ok(LongTermClientValidation::Validated(Sha1)));
}

#[test]
fn a_server_of_sha256_alone_is_not_downgraded() {
    let mut both = Conversation::with_both("pass");
    both.server.set_supported_integrity(Sha256);
    let first = both.request();
    let (_, _true_401) = both.answer(&first, Instant::ZERO, &WORDS);
    both.read(&forged(&first, 401, "x")).unwrap();
    let (verdict, _) = exchanges(&mut both);
    assert_eq!(verdict, Err(LongTermServerAuthErrorReason::StaleNonce));
    let (verdict, _) = exchanges(&mut both);
    assert_eq!(verdict, Err(LongTermServerAuthErrorReason::Unauthorized));
}
