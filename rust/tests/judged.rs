//! Tests of requests that are judged under a nonce that the caller passes, by a server that stores
//! nothing about its clients.
use IntegrityAlgorithm::{Sha1, Sha256};
use seatcrane_stun::Instant;
use seatcrane_stun::auth::*;
use seatcrane_stun::types::attribute::{Userhash, Username};
use seatcrane_stun::types::message::*;
use seatcrane_stun::types::prelude::*;

mod common;
use common::{Conversation, OTHER_WORDS, WORDS};

/// Returns the server's challenge to a request, with a nonce.
fn challenge(server: &LongTermServerAuth, request: &[u8], nonce: &str) -> Vec<u8> {
    let request = Message::from_bytes(request).unwrap();
    let mut error = Message::builder_error(&request, MessageWriteVec::new());
    error.add_error_code(401, "").unwrap();
    server.add_challenge(error, nonce).unwrap().finish()
}

fn verdict(
    server: &LongTermServerAuth,
    request: &[u8],
    nonce: &str,
) -> Result<(String, IntegrityAlgorithm), VerdictRefusal> {
    let request = Message::from_bytes(request).unwrap();
    let accepted = server.judge(&request, nonce)?;
    Ok((accepted.name().to_string(), accepted.algorithm()))
}

/// Returns a request that is signed with this nonce.
fn signed(both: &mut Conversation, nonce: &str) -> Vec<u8> {
    let first = both.request();
    let challenge = challenge(&both.server, &first, nonce);
    assert_eq!(
        both.read(&challenge),
        Ok(LongTermClientValidation::ResendRequest(None))
    );
    both.request()
}

#[test]
fn judges_like_a_server_with_a_record() {
    for password in ["pass", "wrong"] {
        for mut both in [
            Conversation::new(password),
            Conversation::with_both(password),
        ] {
            let nonce = both.server.nonce_of_words(&WORDS);
            let other = both.server.nonce_of_words(&OTHER_WORDS);
            assert_ne!(nonce, other);
            let unsigned = both.request();
            let request = signed(&mut both, &nonce);
            // The record gets the nonce, and an error response offers the algorithms.
            let (first, _) = both.answer(&unsigned, Instant::ZERO, &WORDS);
            assert_eq!(first, Err(LongTermServerAuthErrorReason::Unauthorized));
            assert_eq!(both.server.nonce_for_client(both.from), Some(nonce.as_str()));

            let judged = verdict(&both.server, &request, &nonce);
            let stale = verdict(&both.server, &request, &other);
            let nobody = verdict(&both.server, &unsigned, &nonce);
            let (validated, _) = both.answer(&request, Instant::ZERO, &WORDS);
            let algorithm = judged.clone().map(|(_, algorithm)| algorithm);
            assert_eq!(algorithm.map_err(VerdictRefusal::reason), validated);
            assert_eq!(judged.is_ok(), password == "pass");
            assert_eq!(stale, Err(VerdictRefusal::StaleNonce));
            assert_eq!(nobody, Err(VerdictRefusal::Unauthorized));
        }
    }
}

#[test]
fn lists_algorithms_if_the_nonce_asks_for_a_choice() {
    for (mut both, asks) in [
        (Conversation::new("pass"), false),
        (Conversation::with_both("pass"), true),
    ] {
        let nonce = both.server.nonce_of_words(&WORDS);
        let request = both.request();
        let challenge = challenge(&both.server, &request, &nonce);
        let challenge = Message::from_bytes(&challenge).unwrap();
        let list = challenge.raw_attribute(AttributeType::PASSWORD_ALGORITHMS);
        assert_eq!(list.is_some(), asks);
        let bits = NonceSecurityBits::from_nonce(&nonce).unwrap();
        assert_eq!(bits.password_algorithms(), asks);
        assert_eq!(both.server.address_count(), 0);
    }
}

#[test]
fn registers_users_by_stored_keys() {
    let mut both = Conversation::with_both("pass");
    let sha1 = long_term_key(Sha1, "user", "realm", "pass");
    let sha256 = long_term_key(Sha256, "user", "realm", "pass");
    let keys = StoredKeys::new()
        .with_sha1(sha1.as_bytes().try_into().ok())
        .with_sha256(sha256.as_bytes().try_into().ok());
    let mut server = LongTermServerAuth::new("realm".to_string());
    server.add_user_with_keys("user".to_string(), keys);
    server.add_supported_integrity(Sha256); // the user gets this key too
    let nonce = server.nonce_of_words(&WORDS);
    let request = signed(&mut both, &nonce);
    let user = Ok(("user".to_string(), Sha256));
    assert_eq!(verdict(&server, &request, &nonce), user);
    assert_eq!(verdict(&both.server, &request, &nonce), user);

    server.add_user_with_keys("user".to_string(), keys.with_sha256(None));
    let refused = Err(VerdictRefusal::Unauthorized);
    assert_eq!(verdict(&server, &request, &nonce), refused);
    server.remove_user("user");
    assert_eq!(verdict(&server, &request, &nonce), refused);
}

#[test]
fn names_nobody_by_a_hash_that_is_disabled() {
    let mut server = LongTermServerAuth::new("realm".to_string());
    let hash = Userhash::compute("user", "realm");
    let request = |with_hash: bool| {
        let id = TransactionId::from(*b"any 12 bytes");
        let mut request = Message::builder_request_with_id(BINDING, id, MessageWriteVec::new());
        request.add_attribute(&Username::new("user").unwrap()).unwrap();
        if with_hash {
            request.add_attribute(&Userhash::new(hash)).unwrap();
        }
        request.finish()
    };
    let (by_name, by_hash) = (request(false), request(true));
    let (by_name, by_hash) = (
        Message::from_bytes(&by_name).unwrap(),
        Message::from_bytes(&by_hash).unwrap(),
    );
    assert_eq!(server.named_in(&by_name), Some(NamedUser::ByName("user")));
    assert_eq!(server.named_in(&by_hash), Some(NamedUser::ByHash(hash)));
    server.set_anonymous_username(Feature::Disabled);
    assert_eq!(server.named_in(&by_name), Some(NamedUser::ByName("user")));
    assert_eq!(server.named_in(&by_hash), None);
}
