//! Whole conversations of a client and a server with long-term credentials.
use IntegrityAlgorithm::{Sha1, Sha256};
use seatcrane_stun::Instant;
use seatcrane_stun::agent::StunAgent;
use seatcrane_stun::auth::*;
use seatcrane_stun::types::TransportType;
use seatcrane_stun::types::message::*;
use seatcrane_stun::types::prelude::*;
use std::time::Duration;

mod common;
use common::{Conversation, OTHER_WORDS, WORDS, credentials};

fn has(message: &[u8], kind: AttributeType) -> bool {
    Message::from_bytes(message)
        .unwrap()
        .raw_attribute(kind)
        .is_some()
}

#[test]
fn negotiates_sha1() {
    let mut both = Conversation::new("pass");
    let first = both.request();
    assert_eq!(first.len(), 20, "before a challenge nothing is signed");
    both.is_challenged(Instant::ZERO);
    both.is_validated(Instant::ZERO, Sha1);
    both.is_validated(Instant::ZERO, Sha1);
    assert_eq!(both.server.client(both.from), Some(("user", Sha1)));
    let request = both.request();
    for kind in [
        AttributeType::NONCE,
        AttributeType::REALM,
        AttributeType::MESSAGE_INTEGRITY,
    ] {
        assert!(has(&request, kind));
    }
    let key = long_term_key(Sha1, "user", "realm", "pass");
    assert_eq!(
        Message::from_bytes(&request)
            .unwrap()
            .validate_integrity_with_key(&key),
        Ok(Sha1)
    );
}

#[test]
fn negotiates_sha256_with_hidden_names() {
    let mut both = Conversation::with_both("pass");
    both.is_challenged(Instant::ZERO);
    let request = both.request();
    assert!(has(&request, AttributeType::USERHASH) && !has(&request, AttributeType::USERNAME));
    assert!(has(&request, AttributeType::PASSWORD_ALGORITHMS));
    assert!(has(&request, AttributeType::MESSAGE_INTEGRITY_SHA256));
    both.is_validated(Instant::ZERO, Sha256);
    assert_eq!(both.server.client(both.from), Some(("user", Sha256)));
}

#[test]
fn shows_names_where_hiding_is_disabled() {
    let mut both = Conversation::with_both("pass");
    both.client.set_anonymous_username(Feature::Disabled);
    both.is_challenged(Instant::ZERO);
    let request = both.request();
    assert!(has(&request, AttributeType::USERNAME) && !has(&request, AttributeType::USERHASH));
    both.is_validated(Instant::ZERO, Sha256);
}

#[test]
fn refuses_a_wrong_password() {
    for mut both in [Conversation::new("wrong"), Conversation::with_both("wrong")] {
        both.is_challenged(Instant::ZERO);
        let request = both.request();
        let (verdict, answer) = both.answer(&request, Instant::ZERO, &WORDS);
        assert_eq!(verdict, Err(LongTermServerAuthErrorReason::Unauthorized));
        assert_eq!(
            both.read(&answer),
            Err(LongTermClientAuthErrorReason::Unauthorized)
        );
        assert_eq!(both.server.client(both.from), None);
    }
}

#[test]
fn renews_a_stale_nonce() {
    for (mut both, algorithm) in [
        (Conversation::new("pass"), Sha1),
        (Conversation::with_both("pass"), Sha256),
    ] {
        both.is_challenged(Instant::ZERO);
        both.is_validated(Instant::ZERO, algorithm);
        let late = Instant::ZERO + Duration::from_secs(3601);
        let request = both.request();
        let (verdict, answer) = both.answer(&request, late, &OTHER_WORDS);
        assert_eq!(verdict, Err(LongTermServerAuthErrorReason::StaleNonce));
        assert_eq!(Message::from_bytes(&answer).unwrap().error_code(), Ok(438));
        assert_eq!(
            both.read(&answer),
            Ok(LongTermClientValidation::ResendRequest(Some(algorithm)))
        );
        both.is_validated(late, algorithm);
    }
}

#[test]
fn tells_by_what_a_challenge_is_signed() {
    for (mut both, algorithm) in [
        (Conversation::new("pass"), Sha1),
        (Conversation::with_both("pass"), Sha256),
    ] {
        both.is_challenged(Instant::ZERO);
        let request = both.request();
        assert_eq!(
            both.answer(&request, Instant::ZERO, &WORDS).0,
            Ok(algorithm)
        );
        // The success is lost, and the next request is late and unsigned.
        let unsigned = Message::builder_request_with_id(
            BINDING,
            TransactionId::from([99; 12]),
            MessageWriteVec::new(),
        )
        .finish();
        let late = Instant::ZERO + Duration::from_secs(3601);
        let (verdict, answer) = both.answer(&unsigned, late, &OTHER_WORDS);
        assert_eq!(verdict, Err(LongTermServerAuthErrorReason::Unauthorized));
        if algorithm == Sha1 {
            assert_eq!(
                both.read(&answer),
                Ok(LongTermClientValidation::ResendRequest(Some(Sha1)))
            );
        } else {
            // The algorithms that its nonce announces are missing.
            assert_eq!(
                both.read(&answer),
                Err(LongTermClientAuthErrorReason::Unauthorized)
            );
            let (verdict, answer) = both.answer(&request, late, &OTHER_WORDS);
            assert_eq!(verdict, Err(LongTermServerAuthErrorReason::StaleNonce));
            assert_eq!(
                both.read(&answer),
                Ok(LongTermClientValidation::ResendRequest(Some(Sha256)))
            );
        }
        both.is_validated(late, algorithm);
        // An unsigned 438 is accepted at any time.
        both.from = "10.0.0.2:12345".parse().unwrap();
        assert_eq!(
            both.answer(&unsigned, late, &WORDS).0,
            Err(LongTermServerAuthErrorReason::Unauthorized)
        );
        let unsigned = Message::from_bytes(&unsigned).unwrap();
        let mut stale = Message::builder_error(&unsigned, MessageWriteVec::new());
        stale.add_error_code(438, "").unwrap();
        let stale = both
            .server
            .sign_outgoing_message(stale, both.from)
            .unwrap()
            .finish();
        assert!(
            !has(&stale, AttributeType::MESSAGE_INTEGRITY)
                && !has(&stale, AttributeType::MESSAGE_INTEGRITY_SHA256)
        );
        assert_eq!(
            both.read(&stale),
            Ok(LongTermClientValidation::ResendRequest(None))
        );
    }
}

#[test]
fn nonces_last_thirty_seconds_at_least() {
    let mut both = Conversation::new("pass");
    both.server
        .set_nonce_expiry_duration(Duration::from_secs(1));
    both.is_challenged(Instant::ZERO);
    both.is_validated(Instant::ZERO + Duration::from_secs(29), Sha1);
    let request = both.request();
    let late = Instant::ZERO + Duration::from_secs(31);
    assert_eq!(
        both.answer(&request, late, &OTHER_WORDS).0,
        Err(LongTermServerAuthErrorReason::StaleNonce)
    );
}

#[test]
fn gives_up_where_nothing_is_shared() {
    let mut both = Conversation::new("pass");
    both.client.set_supported_integrity(Sha256);
    let request = both.request();
    let (_, answer) = both.answer(&request, Instant::ZERO, &WORDS);
    assert_eq!(
        both.read(&answer),
        Err(LongTermClientAuthErrorReason::UnsupportedFeature)
    );
}

#[test]
fn a_client_without_credentials_is_unauthorized() {
    let mut both = Conversation::new("pass");
    both.client = LongTermClientAuth::new();
    let request = both.request();
    let (_, answer) = both.answer(&request, Instant::ZERO, &WORDS);
    // A challenge that the client cannot answer.
    assert!(both.read(&answer).is_err());
}

#[test]
fn a_removed_user_is_refused() {
    let mut both = Conversation::new("pass");
    both.is_challenged(Instant::ZERO);
    both.is_validated(Instant::ZERO, Sha1);
    both.server.remove_user("user");
    let request = both.request();
    let request = Message::from_bytes(&request).unwrap();
    let verdict =
        both.server
            .validate_incoming_message_with_words(&request, both.from, Instant::ZERO, WORDS);
    assert_eq!(
        verdict.unwrap_err().reason(),
        LongTermServerAuthErrorReason::Unauthorized
    );
    let unsigned = Message::builder_error(&request, MessageWriteVec::new());
    assert_eq!(
        both.server.sign_outgoing_message(unsigned, both.from),
        Err(StunWriteError::IntegrityFailed)
    );
    both.server.remove_client(both.from);
    assert_eq!(both.server.client(both.from), None);
}

#[test]
fn addresses_are_apart_and_forgotten() {
    let mut both = Conversation::new("pass");
    both.is_challenged(Instant::ZERO);
    let signed = both.request();
    both.from = "[2001:db8::1]:12345".parse().unwrap();
    let (verdict, _) = both.answer(&signed, Instant::ZERO, &OTHER_WORDS);
    assert_eq!(
        verdict,
        Err(LongTermServerAuthErrorReason::StaleNonce),
        "the nonce is another address's"
    );
    both.server.forget_expired(Instant::MAX);
    let other = Message::builder_request_with_id(
        BINDING,
        TransactionId::from([99; 12]),
        MessageWriteVec::new(),
    )
    .finish();
    let success = Message::builder_success(
        &Message::from_bytes(&other).unwrap(),
        MessageWriteVec::new(),
    );
    let unsigned = both
        .server
        .sign_outgoing_message(success.clone(), both.from)
        .unwrap();
    assert_eq!(unsigned, success, "no nonce is known for the address");
}

#[test]
fn unsigned_answers_are_refused() {
    let mut both = Conversation::new("pass");
    both.is_challenged(Instant::ZERO);
    let request = both.request();
    let request = Message::from_bytes(&request).unwrap();
    let mut forged = Message::builder_success(&request, MessageWriteVec::new());
    forged.add_xor_mapped_address(both.from).unwrap();
    assert_eq!(
        both.read(&forged.finish()),
        Err(LongTermClientAuthErrorReason::IntegrityFailed)
    );
    both.is_validated(Instant::ZERO, Sha1);
}

#[test]
fn settings_are_told() {
    let mut client = LongTermClientAuth::new();
    assert_eq!(client.credentials(), None);
    assert_eq!(client.supported_integrity(), [Sha1]);
    client.add_supported_integrity(Sha256);
    client.add_supported_integrity(Sha256);
    assert_eq!(client.supported_integrity(), [Sha1, Sha256]);
    client.set_supported_integrity(Sha1);
    assert_eq!(client.supported_integrity(), [Sha1]);
    client.set_credentials(credentials("pass"));
    assert_eq!(client.credentials(), Some(&credentials("pass")));
    assert!(!format!("{:?}{client:?}", client.credentials()).contains("pass"));

    let mut server = LongTermServerAuth::new("realm".to_string());
    assert_eq!(
        (server.realm(), server.supported_integrity()),
        ("realm", &[Sha1][..])
    );
    server.add_supported_integrity(Sha256);
    assert_eq!(server.supported_integrity(), [Sha256, Sha1]);
    server.set_supported_integrity(Sha1);
    assert_eq!(server.supported_integrity(), [Sha1]);
    for feature in [Feature::Required, Feature::Disabled, Feature::Auto] {
        client.set_anonymous_username(feature);
        server.set_anonymous_username(feature);
        assert_eq!(
            (client.anonymous_username(), server.anonymous_username()),
            (feature, feature)
        );
    }
    let reasons = [
        LongTermServerAuthErrorReason::BadRequest,
        LongTermServerAuthErrorReason::StaleNonce,
    ];
    let texts = [
        "The request message is not well-formed",
        "The request presented with an out of date nonce.",
    ];
    assert_eq!(reasons.map(|reason| reason.to_string()), texts);
}

#[test]
fn a_long_challenge_is_signed() {
    let realm = "r".repeat(763);
    let name = "n".repeat(513);
    let mut both = Conversation::with_both("pass");
    both.server = LongTermServerAuth::new(realm);
    both.server.add_supported_integrity(Sha256);
    let long = LongTermCredentials::new(name.clone(), "pass".to_string());
    both.server.add_user(long.clone());
    both.client.set_credentials(long);
    both.client.set_anonymous_username(Feature::Disabled);
    both.is_challenged(Instant::ZERO);
    both.is_validated(Instant::ZERO, Sha256);
    assert_eq!(both.server.client(both.from), Some((&name[..], Sha256)));
}

#[test]
fn a_hidden_name_may_be_longer_than_a_shown_one() {
    let name = "n".repeat(2000);
    let mut both = Conversation::with_both("pass");
    let long = LongTermCredentials::new(name.clone(), "pass".to_string());
    both.server.add_user(long.clone());
    both.client.set_credentials(long);
    both.is_challenged(Instant::ZERO);
    both.is_validated(Instant::ZERO, Sha256);
    assert_eq!(both.server.client(both.from), Some((&name[..], Sha256)));
}

#[test]
fn a_realm_that_no_message_has_room_for_is_refused() {
    let from = "192.0.2.1:3478".parse().unwrap();
    for (length, refusal) in [
        (764, StunWriteError::TooLarge),
        (65_500, StunWriteError::TooLarge),
        (65_540, StunWriteError::TooLarge),
    ] {
        let mut server = LongTermServerAuth::new("r".repeat(length));
        let request = Message::builder_request_with_id(
            BINDING,
            TransactionId::from([1; 12]),
            MessageWriteVec::new(),
        )
        .finish();
        let request = Message::from_bytes(&request).unwrap();
        assert!(
            server
                .validate_incoming_message_with_words(&request, from, Instant::ZERO, WORDS)
                .is_err()
        );
        let answer = Message::builder_error(&request, MessageWriteVec::new());
        assert_eq!(
            server.sign_outgoing_message(answer, from).map(|_| ()),
            Err(refusal),
            "{length}"
        );
    }
}

/// An Allocate without REQUESTED-TRANSPORT is malformed (RFC 8656, section 7.2). Its 400 is signed,
/// because only the 400 that answers a failed authentication is not (RFC 8489, section 9.2.4).
#[test]
fn a_malformed_request_of_a_known_user_is_answered_by_a_signed_400() {
    let there = "192.0.2.1:3478".parse().unwrap();
    for (mut both, algorithm) in [
        (Conversation::new("pass"), Sha1),
        (Conversation::with_both("pass"), Sha256),
    ] {
        both.is_challenged(Instant::ZERO);
        let mut agent = StunAgent::builder(TransportType::Udp, both.from).build();
        let allocate = Method::new(3).unwrap();
        let id = TransactionId::from([9; 12]);
        let request = Message::builder_request_with_id(allocate, id, MessageWriteVec::new());
        let request = both.client.sign_outgoing_message(request).unwrap().finish();
        agent
            .send_request(request.clone(), there, Instant::ZERO)
            .unwrap();
        let request = Message::from_bytes(&request).unwrap();
        let verdict = both.server.validate_incoming_message_with_words(
            &request,
            both.from,
            Instant::ZERO,
            WORDS,
        );
        assert!(verdict.is_ok());
        let refusal = || {
            let mut refusal = Message::builder_error(&request, MessageWriteVec::new());
            refusal.add_error_code(400, "Bad Request").unwrap();
            refusal
        };
        // The client drops an unsigned 400, so it would retransmit the request until it times out.
        assert_eq!(
            both.read(&refusal().finish()),
            Err(LongTermClientAuthErrorReason::IntegrityFailed)
        );
        let signed = both.server.sign_outgoing_message(refusal(), both.from);
        let signed = signed.unwrap().finish();
        assert_eq!(
            both.read(&signed),
            Ok(LongTermClientValidation::Validated(algorithm))
        );
        let signed = Message::from_bytes(&signed).unwrap();
        assert_eq!(signed.error_code(), Ok(400));
        assert!(agent.request_transaction(id).is_some());
        assert!(agent.handle_stun_message_with_time(&signed, there, Instant::ZERO));
        assert!(agent.request_transaction(id).is_none());
    }
}
