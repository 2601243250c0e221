//! Tests of users who are passed to the server with a message, and of calls that use the key of a
//! registered user.
use IntegrityAlgorithm::{Sha1, Sha256};
use seatcrane_stun::Instant;
use seatcrane_stun::auth::*;
use seatcrane_stun::types::attribute::Userhash;
use seatcrane_stun::types::message::*;
use seatcrane_stun::types::prelude::*;
use std::net::SocketAddr;

mod common;
use common::{Conversation, WORDS};

/// Returns the verdict of a server without users on a request, when the user whom the request names
/// is passed along.
fn verdict_of(
    server: &mut LongTermServerAuth,
    request: &Message<'_>,
    from: SocketAddr,
    password: &str,
) -> Result<(IntegrityAlgorithm, Vec<u8>), LongTermServerAuthErrorReason> {
    let name = match server.named_user(request, from) {
        Some(NamedUser::ByName(name)) => name.to_string(),
        Some(NamedUser::ByHash(hash)) => {
            assert_eq!(hash, Userhash::compute("user", server.realm()));
            "user".to_string()
        }
        None => String::new(),
    };
    let mut user = server.prepare_user(LongTermCredentials::new(name, password.to_string()));
    let now = Instant::ZERO;
    let verdict = server
        .validate_incoming_message_of_with_words(request, from, now, WORDS, &mut user)
        .map_err(|error| error.reason())?;
    let LongTermServerValidation::Validated(algorithm) = verdict;
    let answer = Message::builder_success(request, MessageWriteVec::new());
    assert!(
        server.sign_outgoing_message(answer, from).is_err(),
        "the server has no users of its own"
    );
    let answer = Message::builder_success(request, MessageWriteVec::new());
    let answer = server
        .sign_outgoing_message_of(answer, from, &mut user)
        .unwrap();
    Ok((algorithm, answer.finish()))
}

#[test]
fn a_user_is_handed_in_with_a_message() {
    for hidden in [Feature::Disabled, Feature::Auto] {
        let mut both = Conversation::with_both("pass");
        both.client.set_anonymous_username(hidden);
        both.server.set_anonymous_username(hidden);
        both.server.remove_user("user");
        assert_eq!(both.server.address_count(), 0);
        both.is_challenged(Instant::ZERO);
        assert_eq!(both.server.address_count(), 1);
        let request = both.request();
        let request = Message::from_bytes(&request).unwrap();
        assert_eq!(
            verdict_of(&mut both.server, &request, both.from, "other"),
            Err(LongTermServerAuthErrorReason::Unauthorized)
        );
        let (algorithm, answer) =
            verdict_of(&mut both.server, &request, both.from, "pass").unwrap();
        assert_eq!(algorithm, Sha256);
        assert_eq!(both.server.client(both.from), Some(("user", Sha256)));
        assert_eq!(
            both.read(&answer),
            Ok(LongTermClientValidation::Validated(Sha256))
        );
        let answer = Message::from_bytes(&answer).unwrap();
        assert_eq!(
            both.server.named_user(&answer, both.from),
            Some(NamedUser::ByName("user"))
        );
        assert_eq!(both.server.address_count(), 1);
        both.server.forget(both.from);
        assert_eq!(both.server.address_count(), 0);
    }
}

/// MD5 and SHA-256 of `user:realm:pass`, computed with Python's hashlib.
const KEYS: StoredKeys = {
    let mut keys = StoredKeys::new();
    keys.sha1 = Some([
        0x84, 0x93, 0xfb, 0xc5, 0x3b, 0xa5, 0x82, 0xfb, 0x4c, 0x04, 0x4c, 0x45, 0x6b, 0xdc, 0x40,
        0xeb,
    ]);
    keys.sha256 = Some([
        0x07, 0xe9, 0x34, 0x11, 0x7a, 0xbd, 0x40, 0x83, 0x6e, 0x7c, 0x63, 0x29, 0xb5, 0x47, 0x31,
        0xb2, 0xb2, 0xd2, 0xa5, 0xf9, 0xa7, 0x1f, 0x54, 0x49, 0x22, 0xd7, 0x5e, 0x07, 0x30, 0xd8,
        0x25, 0x1b,
    ]);
    keys
};

#[test]
fn a_user_is_handed_in_by_stored_keys() {
    let mut both = Conversation::with_both("pass");
    both.server.remove_user("user");
    both.is_challenged(Instant::ZERO);
    let request = both.request();
    let request = Message::from_bytes(&request).unwrap();
    let judged = |server: &mut LongTermServerAuth, keys: StoredKeys, from| {
        let mut user = server.prepare_user_with_keys("user".to_string(), keys);
        let now = Instant::ZERO;
        let verdict = server
            .validate_incoming_message_of_with_words(&request, from, now, WORDS, &mut user)
            .map_err(|error| error.reason());
        (verdict, user)
    };
    let mut swapped = KEYS;
    swapped.sha256 = Some([7; 32]);
    let weaker = KEYS.with_sha256(None);
    for keys in [swapped, weaker] {
        let (verdict, _) = judged(&mut both.server, keys, both.from);
        assert_eq!(verdict, Err(LongTermServerAuthErrorReason::Unauthorized));
    }
    let (verdict, mut user) = judged(&mut both.server, KEYS, both.from);
    assert_eq!(verdict, Ok(LongTermServerValidation::Validated(Sha256)));
    let answer = Message::builder_success(&request, MessageWriteVec::new());
    let answer = both
        .server
        .sign_outgoing_message_of(answer, both.from, &mut user)
        .unwrap()
        .finish();
    assert_eq!(
        both.read(&answer),
        Ok(LongTermClientValidation::Validated(Sha256))
    );
}

#[test]
fn a_users_key_is_asked_of_without_a_verdict() {
    let mut both = Conversation::with_both("pass");
    both.is_challenged(Instant::ZERO);
    let request = both.request();
    let request = Message::from_bytes(&request).unwrap();
    assert_eq!(
        both.server.user_verifies("user", Sha256, &request),
        Some(Sha256)
    );
    assert_eq!(both.server.user_verifies("user", Sha1, &request), None);
    assert_eq!(both.server.user_verifies("other", Sha256, &request), None);
    both.server.remove_user("user");
    assert_eq!(both.server.user_verifies("user", Sha256, &request), None);
}

#[test]
fn a_prepared_user_belongs_to_its_realm_and_algorithms() {
    let mut server = LongTermServerAuth::new("example.org".to_string());
    let user = server.prepare_user_with_keys("user".to_string(), KEYS);
    assert!(user.belongs_to(&server));
    assert!(!user.belongs_to(&LongTermServerAuth::new("example.net".to_string())));
    server.add_supported_integrity(Sha256);
    assert!(!user.belongs_to(&server));
    let user = server.prepare_user_with_keys("user".to_string(), KEYS);
    assert!(user.belongs_to(&server));
}

#[test]
fn no_key_is_shown() {
    assert_eq!(format!("{KEYS:#?}"), "StoredKeys { .. }");
    let server = Conversation::with_both("pass").server;
    let user = server.prepare_user_with_keys("user".to_string(), KEYS);
    assert_eq!(format!("{user:#?}"), "LongTermServerUser { .. }");
}
