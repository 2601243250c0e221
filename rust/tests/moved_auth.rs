//! The tests of the authenticators in the crate `stun-proto`, written anew with the calls of that
//! crate: no random numbers are passed where that crate takes none.
#![cfg(all(feature = "std", feature = "rand"))]

use IntegrityAlgorithm::{Sha1, Sha256};
use LongTermClientAuthErrorReason as ClientReason;
use LongTermClientValidation::ResendRequest;
use LongTermServerAuthErrorReason as ServerReason;
use core::net::SocketAddr;
use core::time::Duration;
use seatcrane_stun as stun_proto;
use stun_proto::Instant;
use stun_proto::auth::*;
use stun_proto::types::attribute::*;
use stun_proto::types::data::OwnedBytes;
use stun_proto::types::message::*;
use stun_proto::types::prelude::*;

const START: Instant = Instant::ZERO;

fn client_addr() -> SocketAddr {
    "10.0.0.1:12345".parse().unwrap()
}

fn request() -> MessageWriteVec {
    Message::builder_request(BINDING, MessageWriteVec::new())
}

fn user(name: &str, password: &str) -> LongTermCredentials {
    LongTermCredentials::new(name.to_string(), password.to_string())
}

/// Begins an error response with this transaction ID, which need not be that of a request.
fn error(id: TransactionId, code: u16) -> MessageWriteVec {
    let message_type = MessageType::from_class_method(MessageClass::Error, BINDING);
    let mut response = Message::builder(message_type, id, MessageWriteVec::new());
    response
        .add_attribute(&ErrorCode::builder(code).build().unwrap())
        .unwrap();
    response
}

/// Copies the message in a writer to a new writer.
fn again<O: OwnedBytes>(writer: &dyn MessageWrite<Output = O>) -> MessageWriteVec {
    let message = Message::from_bytes(writer.data()).unwrap();
    let (message_type, id) = (message.get_type(), message.transaction_id());
    let mut copy = Message::builder(message_type, id, MessageWriteVec::new());
    message
        .iter_attributes()
        .for_each(|(_, found)| copy.add_attribute(&found).unwrap());
    copy
}

fn has_no_auth(message: &[u8]) -> bool {
    let message = Message::from_bytes(message).unwrap();
    let kinds = [Username::TYPE, Userhash::TYPE, Nonce::TYPE, Realm::TYPE];
    let kinds = kinds
        .into_iter()
        .chain([MessageIntegrity::TYPE, MessageIntegritySha256::TYPE]);
    kinds.into_iter().all(|kind| !message.has_attribute(kind))
}

struct Both {
    client: LongTermClientAuth,
    server: LongTermServerAuth,
}

type ClientAnswer = Result<LongTermClientValidation, ClientReason>;
type ServerAnswer = Result<IntegrityAlgorithm, ServerReason>;

impl Both {
    fn new() -> Both {
        let mut client = LongTermClientAuth::new();
        client.set_credentials(user("user", "pass"));
        let mut server = LongTermServerAuth::new("realm".to_string());
        server.add_user(user("user", "pass"));
        Both { client, server }
    }

    fn of(client: &[IntegrityAlgorithm], server: &[IntegrityAlgorithm]) -> Both {
        let mut both = Both::new();
        both.client.set_supported_integrity(client[0]);
        both.server.set_supported_integrity(server[0]);
        client
            .iter()
            .for_each(|algorithm| both.client.add_supported_integrity(*algorithm));
        server
            .iter()
            .for_each(|algorithm| both.server.add_supported_integrity(*algorithm));
        both
    }

    /// Signs a message as the client, and checks that the unchecked call makes the same signature.
    fn signs(&mut self, message: MessageWriteVec) -> Vec<u8> {
        let unchecked = self.client.sign_outgoing_message_unchecked(again(&message));
        let signed = self.client.sign_outgoing_message(message).unwrap();
        assert_eq!(signed, unchecked);
        signed.finish()
    }

    /// Signs a message as the server, and checks that the unchecked call makes the same signature.
    fn answers(&mut self, message: MessageWriteVec) -> Vec<u8> {
        let unchecked = self
            .server
            .sign_outgoing_message_unchecked(again(&message), client_addr());
        let signed = self
            .server
            .sign_outgoing_message(message, client_addr())
            .unwrap();
        assert_eq!(signed, unchecked);
        signed.finish()
    }

    fn judges(&mut self, message: &[u8], now: Instant) -> ServerAnswer {
        let message = Message::from_bytes(message).unwrap();
        match self
            .server
            .validate_incoming_message(&message, client_addr(), now)
        {
            Ok(LongTermServerValidation::Validated(algorithm)) => Ok(algorithm),
            Err(error) => {
                assert_eq!(error.integrity(), None);
                Err(error.reason())
            }
        }
    }

    fn reads(&mut self, message: &[u8]) -> ClientAnswer {
        let message = Message::from_bytes(message).unwrap();
        self.client
            .validate_incoming_message(&message)
            .map_err(|error| {
                assert_eq!(error.integrity(), None);
                error.reason()
            })
    }

    /// Makes an unsigned request, and returns what the client answers to the 401.
    fn initial_auth(&mut self) -> ClientAnswer {
        let asked = self.signs(request());
        assert_eq!(self.judges(&asked, START), Err(ServerReason::Unauthorized));
        self.reads_a_401(&asked)
    }

    fn reads_a_401(&mut self, asked: &[u8]) -> ClientAnswer {
        let id = Message::from_bytes(asked).unwrap().transaction_id();
        let response = self.answers(error(id, ErrorCode::UNAUTHORIZED));
        self.reads(&response)
    }

    /// Makes a signed request, which the server validates, and returns what the client answers to
    /// the success.
    fn full_auth(&mut self, now: Instant, algorithm: IntegrityAlgorithm) -> ClientAnswer {
        let asked = self.signs(request());
        assert!(!has_no_auth(&asked));
        assert_eq!(self.judges(&asked, now), Ok(algorithm));
        let asked = Message::from_bytes(&asked).unwrap();
        let response = self.answers(Message::builder_success(&asked, MessageWriteVec::new()));
        self.reads(&response)
    }

    /// Makes an unsigned request and then a signed one.
    fn authenticate(&mut self, algorithm: IntegrityAlgorithm) {
        assert_eq!(self.initial_auth(), Ok(ResendRequest(None)));
        let answer = self.full_auth(START, algorithm);
        assert_eq!(answer, Ok(LongTermClientValidation::Validated(algorithm)));
    }

    /// Returns how many bytes signing adds to a request and to a response of the server.
    fn server_adds(&self) -> [usize; 2] {
        [true, false].map(|is_request| {
            self.server
                .message_signature_bytes(client_addr(), is_request)
        })
    }

    fn nonce(&self) -> String {
        self.server
            .nonce_for_client(client_addr())
            .unwrap()
            .to_string()
    }
}

fn authenticated() -> Both {
    let mut both = Both::new();
    both.authenticate(Sha1);
    both
}

#[test]
fn nonce_security() {
    for bit in 0..24 {
        let [_, bytes @ ..] = (1_u32 << bit).to_be_bytes();
        let security = NonceSecurityBits { bytes };
        assert_eq!(security.password_algorithms(), bit == 23);
        assert_eq!(security.username_anonymity(), bit == 22);
        assert_eq!(
            NonceSecurityBits::from_nonce(&security.as_string()),
            Some(security)
        );
    }
}

#[test]
fn short_term_getters_and_sign_with_credentials() {
    let mut auth = ShortTermAuth::new();
    assert_eq!(
        (auth.integrity_key(), auth.message_signature_bytes()),
        (None, 0)
    );
    let credentials = ShortTermCredentials::new(String::from("password"));
    auth.set_credentials(credentials.clone(), Sha1);
    assert_eq!(auth.credentials(), Some((&credentials, Sha1)));
    assert_eq!(auth.message_signature_bytes(), 24);
    let asked = request();
    let unchecked = auth.sign_outgoing_message_unchecked(again(&asked));
    let signed = auth.sign_outgoing_message(asked).unwrap();
    assert_eq!(signed, unchecked);
    let signed = Message::from_bytes(&signed).unwrap();
    assert_eq!(signed.validate_integrity(&credentials.into()), Ok(Sha1));
    assert_eq!(
        signed.validate_integrity_with_key(auth.integrity_key().unwrap()),
        Ok(Sha1)
    );
}

#[test]
fn short_term_no_credentials() {
    let mut auth = ShortTermAuth::new();
    let unsigned = auth.sign_outgoing_message(request()).unwrap();
    assert!(has_no_auth(&unsigned));
    let unsigned = Message::from_bytes(&unsigned).unwrap();
    assert!(matches!(
        auth.validate_incoming_message(&unsigned),
        Ok(None)
    ));
}

#[test]
fn long_term_client_getters() {
    let mut both = Both::new();
    both.client = LongTermClientAuth::default();
    let client = &mut both.client;
    assert!(client.credentials().is_none());
    assert_eq!(client.supported_integrity(), &[Sha1]);
    client.add_supported_integrity(Sha256);
    assert_eq!(client.supported_integrity(), &[Sha1, Sha256]);
    client.set_supported_integrity(Sha1);
    assert_eq!(client.supported_integrity(), &[Sha1]);
    for feature in [Feature::Required, Feature::Disabled, Feature::Auto] {
        client.set_anonymous_username(feature);
        assert_eq!(client.anonymous_username(), feature);
    }
    client.set_credentials(user("user", "password"));
    assert_eq!(client.credentials(), Some(&user("user", "password")));
    assert_eq!(client.message_signature_bytes(), 0);
    let asked = both.signs(request());
    assert!(has_no_auth(&asked));
    let asked = Message::from_bytes(&asked).unwrap();
    let response = Message::builder_success(&asked, MessageWriteVec::new()).finish();
    assert_eq!(both.reads(&response), Err(ClientReason::IntegrityFailed));
}

#[test]
fn long_term_server_getters() {
    let mut both = Both::new();
    assert_eq!(both.server_adds(), [0, 0]);
    both.server.add_supported_integrity(Sha256);
    assert_eq!(both.server.supported_integrity(), &[Sha256, Sha1]);
    both.server.set_supported_integrity(Sha1);
    assert_eq!(both.server.supported_integrity(), &[Sha1]);
    for feature in [Feature::Required, Feature::Disabled, Feature::Auto] {
        both.server.set_anonymous_username(feature);
        assert_eq!(both.server.anonymous_username(), feature);
    }
    let asked = both.answers(request());
    assert!(has_no_auth(&asked));
    let asked = Message::from_bytes(&asked).unwrap();
    let response = Message::builder_success(&asked, MessageWriteVec::new()).finish();
    assert_eq!(
        both.judges(&response, START),
        Err(ServerReason::IntegrityFailed)
    );
}

#[test]
fn long_term_initial_client_sign_noop() {
    assert!(has_no_auth(&Both::new().signs(request())));
}

#[test]
fn long_term_full_auth_username_sha1() {
    let mut both = Both::new();
    both.client.set_anonymous_username(Feature::Disabled);
    both.server.set_anonymous_username(Feature::Disabled);
    both.authenticate(Sha1);
    assert_eq!(both.server_adds(), [24, 56]);
}

/// The sizes include PASSWORD-ALGORITHM, which the crate `stun-proto` writes but does not count.
#[test]
fn long_term_full_auth_userhash() {
    for (algorithm, added) in [(Sha1, [24, 72]), (Sha256, [44, 92])] {
        let mut both = Both::of(&[algorithm], &[algorithm]);
        both.client.set_anonymous_username(Feature::Required);
        both.server.set_anonymous_username(Feature::Required);
        both.authenticate(algorithm);
        assert_eq!(both.server_adds(), added);
    }
}

#[test]
fn long_term_full_auth_uses_sha256_and_sha1() {
    let with_sha256 = [&[Sha256][..], &[Sha1, Sha256], &[Sha256, Sha1]];
    for client in with_sha256 {
        for server in with_sha256 {
            Both::of(client, server).authenticate(Sha256);
        }
    }
    for other in [&[Sha1][..], &[Sha1, Sha256], &[Sha256, Sha1]] {
        Both::of(other, &[Sha1]).authenticate(Sha1);
        Both::of(&[Sha1], other).authenticate(Sha1);
    }
}

#[test]
fn long_term_full_auth_flow_mismatches() {
    let mut names = Both::new();
    names.client.set_anonymous_username(Feature::Required);
    names.server.set_anonymous_username(Feature::Disabled);
    let mut at_client = Both::of(&[Sha256], &[Sha1]);
    at_client.server.set_anonymous_username(Feature::Disabled);
    for mut both in [names, at_client, Both::of(&[Sha1], &[Sha256])] {
        assert_eq!(both.initial_auth(), Err(ClientReason::UnsupportedFeature));
    }
}

#[test]
fn long_term_full_auth_stale_nonce() {
    let mut both = Both::new();
    both.server
        .set_nonce_expiry_duration(MINIMUM_NONCE_EXPIRY_DURATION);
    both.authenticate(Sha1);
    let late = START + MINIMUM_NONCE_EXPIRY_DURATION + Duration::from_secs(1);
    let asked = both.signs(request());
    assert_eq!(both.judges(&asked, late), Err(ServerReason::StaleNonce));
    let mut stale = error(TransactionId::generate(), ErrorCode::STALE_NONCE);
    stale
        .add_attribute(&Realm::new(both.server.realm()).unwrap())
        .unwrap();
    stale
        .add_attribute(&Nonce::new(&both.nonce()).unwrap())
        .unwrap();
    assert_eq!(both.reads(&stale), Ok(ResendRequest(None)));
    assert_eq!(
        both.full_auth(late, Sha1),
        Ok(LongTermClientValidation::Validated(Sha1))
    );
}

#[test]
fn long_term_initial_auth_bad_request() {
    let mut both = Both::new();
    both.client.set_anonymous_username(Feature::Disabled);
    assert_eq!(both.initial_auth(), Ok(ResendRequest(None)));
    let nonce = both.nonce();
    for missing in [Realm::TYPE, Nonce::TYPE, Username::TYPE] {
        let mut asked = request();
        for (kind, value) in [
            (Username::TYPE, "user"),
            (Realm::TYPE, "realm"),
            (Nonce::TYPE, &nonce),
        ] {
            if kind != missing {
                asked
                    .add_attribute(&RawAttribute::new(kind, value.as_bytes()))
                    .unwrap();
            }
        }
        let key = both
            .client
            .credentials()
            .unwrap()
            .to_key("realm".to_string())
            .into();
        asked.add_message_integrity(&key, Sha1).unwrap();
        assert_eq!(
            both.judges(&asked.finish(), START),
            Err(ServerReason::BadRequest)
        );
    }
}

#[test]
fn long_term_full_auth_client_stale_nonce_missing_attributes() {
    let mut both = authenticated();
    let mut without_nonce = error(TransactionId::generate(), ErrorCode::STALE_NONCE);
    without_nonce
        .add_attribute(&Realm::new("realm").unwrap())
        .unwrap();
    let mut without_realm = error(TransactionId::generate(), ErrorCode::STALE_NONCE);
    without_realm
        .add_attribute(&Nonce::new(&both.nonce()).unwrap())
        .unwrap();
    for stale in [without_nonce, without_realm] {
        assert_eq!(both.reads(&stale), Err(ClientReason::IntegrityFailed));
    }
}

/// Errors with other codes, and successes, are accepted if they are signed.
#[test]
fn long_term_full_auth_client_responses_authed_and_unauthed() {
    let mut both = authenticated();
    let success = MessageType::from_class_method(MessageClass::Success, BINDING);
    let success = Message::builder(success, TransactionId::generate(), MessageWriteVec::new());
    for response in [
        error(TransactionId::generate(), ErrorCode::BAD_REQUEST),
        error(TransactionId::generate(), ErrorCode::WRONG_CREDENTIALS),
        success,
    ] {
        assert_eq!(both.reads(&response), Err(ClientReason::IntegrityFailed));
        let signed = both.answers(response);
        assert_eq!(
            both.reads(&signed),
            Ok(LongTermClientValidation::Validated(Sha1))
        );
    }
}

#[test]
fn long_term_initial_auth_wrong_password_and_wrong_user() {
    for wrong in [user("user", "wrong-password"), user("wrong-user", "pass")] {
        let mut both = Both::new();
        both.client.set_credentials(wrong.clone());
        assert_eq!(both.initial_auth(), Ok(ResendRequest(None)));
        let asked = both.signs(request());
        assert!(!has_no_auth(&asked));
        assert_eq!(both.judges(&asked, START), Err(ServerReason::Unauthorized));
        assert_eq!(both.reads_a_401(&asked), Err(ClientReason::Unauthorized));
        // The user, or the other password, is added to the server.
        let mut both = Both::new();
        both.client.set_credentials(wrong.clone());
        both.server.add_user(wrong);
        both.authenticate(Sha1);
    }
}

#[test]
fn long_term_server_remove_user() {
    let mut both = Both::new();
    assert_eq!(both.initial_auth(), Ok(ResendRequest(None)));
    both.server.remove_user("user");
    let asked = both.signs(request());
    assert_eq!(both.judges(&asked, START), Err(ServerReason::Unauthorized));
}

#[test]
fn long_term_client_request() {
    let mut both = authenticated();
    let asked = both.answers(request());
    assert_eq!(
        both.reads(&asked),
        Ok(LongTermClientValidation::Validated(Sha1))
    );
    let asked = Message::from_bytes(&asked).unwrap();
    let response = both.signs(Message::builder_success(&asked, MessageWriteVec::new()));
    assert_eq!(both.judges(&response, START), Ok(Sha1));
}

/// Returns the verdict of a server with both algorithms on a request that answers a 401 whose
/// attributes an attacker has changed.
fn bid_down(change: impl Fn(&RawAttribute<'_>, &mut MessageWriteVec)) -> ServerAnswer {
    let mut both = Both::of(&[Sha1, Sha256], &[Sha1, Sha256]);
    let asked = both.signs(request());
    assert_eq!(both.judges(&asked, START), Err(ServerReason::Unauthorized));
    let id = Message::from_bytes(&asked).unwrap().transaction_id();
    let told = both.answers(error(id, ErrorCode::UNAUTHORIZED));
    let told = Message::from_bytes(&told).unwrap();
    let mut changed = Message::builder(told.get_type(), id, MessageWriteVec::new());
    told.iter_attributes()
        .for_each(|(_, found)| change(&found, &mut changed));
    assert_eq!(both.reads(&changed), Ok(ResendRequest(None)));
    let asked = both.signs(request());
    both.judges(&asked, START)
}

#[test]
fn long_term_full_server_bid_down_attack() {
    let without_bit = bid_down(|found, changed| {
        if found.get_type() == Nonce::TYPE {
            let nonce = Nonce::from_raw_ref(found).unwrap();
            let mut security = NonceSecurityBits::from_nonce(nonce.nonce()).unwrap();
            assert!(security.password_algorithms());
            security.set_password_algorithms(false);
            let rest = &nonce.nonce()[LONG_TERM_RFC8489_NONCE_COOKIE.len() + 4..];
            let nonce = security.as_string() + rest;
            changed.add_attribute(&Nonce::new(&nonce).unwrap()).unwrap();
        } else if found.get_type() != PasswordAlgorithms::TYPE {
            changed.add_attribute(found).unwrap();
        }
    });
    assert_eq!(without_bit, Err(ServerReason::Unauthorized));
    let of_another_list = bid_down(|found, changed| {
        if found.get_type() == PasswordAlgorithms::TYPE {
            let list = PasswordAlgorithms::new(&[PasswordAlgorithmValue::MD5]);
            changed.add_attribute(&list).unwrap();
        } else {
            changed.add_attribute(found).unwrap();
        }
    });
    assert_eq!(of_another_list, Err(ServerReason::BadRequest));
}
