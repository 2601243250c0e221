//! Whole conversations, written as a program for the crate `stun-proto` would write them: with the
//! paths, builders and attributes of that crate.
use IntegrityAlgorithm::{Sha1, Sha256};
use seatcrane_stun as stun_proto;
use std::net::SocketAddr;
use std::time::Duration;
use stun_proto::Instant;
use stun_proto::agent::{StunAgent, StunAgentPollRet, StunError};
use stun_proto::auth::*;
use stun_proto::types::TransportType;
use stun_proto::types::attribute::*;
use stun_proto::types::message::*;
use stun_proto::types::prelude::*;

mod messages;
use messages::{client_addr, id, request, success};

const WORDS: [u32; 16] = [27; 16];

fn server_addr() -> SocketAddr {
    "10.0.0.2:3478".parse().unwrap()
}

fn agent() -> StunAgent {
    StunAgent::builder(TransportType::Udp, client_addr())
        .stats(true)
        .build()
}

#[test]
fn short_term_exchange() {
    for algorithm in [Sha1, Sha256] {
        let mut auth = ShortTermAuth::new();
        let mut agent = agent();
        let credentials = ShortTermCredentials::new(String::from("password"));
        auth.set_credentials(credentials.clone(), algorithm);

        let mut msg = request(1);
        let transaction_id = msg.transaction_id();
        msg.add_message_integrity(&credentials.clone().into(), algorithm)
            .unwrap();
        let transmit = agent
            .send_request(msg.finish(), server_addr(), Instant::ZERO)
            .unwrap()
            .into_owned();
        let asked = Message::from_bytes(&transmit.data).unwrap();
        assert_eq!(
            asked.validate_integrity(&credentials.clone().into()),
            Ok(algorithm)
        );

        let mut response = success(&asked, transmit.from, MessageWriteVec::new());
        response
            .add_message_integrity(&credentials.into(), algorithm)
            .unwrap();
        let data = response.finish();
        let response = Message::from_bytes(&data).unwrap();
        assert_eq!(
            auth.validate_incoming_message(&response),
            Ok(Some(algorithm))
        );
        let outstanding = agent
            .request_transaction(response.transaction_id())
            .unwrap();
        assert_eq!(outstanding.integrity(), Some(algorithm));
        assert_eq!(outstanding.peer_address(), server_addr());
        assert!(agent.handle_stun_message_with_time(&response, transmit.to, Instant::ZERO));
        assert!(agent.request_transaction(transaction_id).is_none());
        let address = response.attribute::<XorMappedAddress>().unwrap();
        assert_eq!(address.addr(transaction_id), client_addr());
    }
}

#[test]
fn short_term_signing() {
    let mut auth = ShortTermAuth::new();
    assert_eq!(
        (
            auth.credentials(),
            auth.integrity_key(),
            auth.message_signature_bytes()
        ),
        (None, None, 0)
    );
    let unsigned = auth.sign_outgoing_message(request(1)).unwrap();
    assert_eq!(unsigned, request(1));
    let unsigned = Message::from_bytes(&unsigned).unwrap();
    assert_eq!(auth.validate_incoming_message(&unsigned), Ok(None));

    for (algorithm, length) in [(Sha1, 24), (Sha256, 36)] {
        let credentials = ShortTermCredentials::new("password".to_string());
        auth.set_credentials(credentials.clone(), algorithm);
        assert_eq!(auth.credentials(), Some((&credentials, algorithm)));
        assert_eq!(auth.integrity_key().unwrap().as_bytes(), b"password");
        assert_eq!(auth.message_signature_bytes(), length);
        assert!(!format!("{auth:?}{credentials:?}{:?}", auth.integrity_key()).contains("password"));

        let signed = auth.sign_outgoing_message(request(1)).unwrap();
        assert_eq!(signed.len(), 20 + length);
        assert_eq!(
            auth.sign_outgoing_message(signed.clone()),
            Err(StunWriteError::MessageIntegrityExists)
        );
        let signed = Message::from_bytes(&signed).unwrap();
        assert_eq!(
            signed.validate_integrity_with_key(auth.integrity_key().unwrap()),
            Ok(algorithm)
        );
        assert_eq!(auth.validate_incoming_message(&signed), Ok(Some(algorithm)));
        assert_eq!(
            auth.validate_incoming_message(&unsigned),
            Err(ValidateError::Parse(StunParseError::MissingAttribute(
                MessageIntegrity::TYPE
            )))
        );

        // Only the password matters, not the algorithm that this side signs with.
        let other = if algorithm == Sha1 { Sha256 } else { Sha1 };
        auth.set_credentials(credentials, other);
        assert_eq!(auth.validate_incoming_message(&signed), Ok(Some(algorithm)));
        auth.set_credentials(ShortTermCredentials::new("Password".to_string()), algorithm);
        assert_eq!(
            auth.validate_incoming_message(&signed),
            Err(ValidateError::IntegrityFailed)
        );
    }
}

struct LongTerm {
    client: LongTermClientAuth,
    server: LongTermServerAuth,
}

impl LongTerm {
    fn new(algorithms: &[IntegrityAlgorithm]) -> LongTerm {
        let credentials = LongTermCredentials::new("user".to_string(), "pass".to_string());
        let mut client = LongTermClientAuth::new();
        client.set_credentials(credentials.clone());
        let mut server = LongTermServerAuth::new("realm".to_string());
        server.add_user(credentials);
        for algorithm in algorithms {
            client.add_supported_integrity(*algorithm);
            server.add_supported_integrity(*algorithm);
        }
        LongTerm { client, server }
    }

    fn challenge(&mut self) {
        let msg = self.client.sign_outgoing_message(request(1)).unwrap();
        let msg = Message::from_bytes(&msg).unwrap();
        assert!(!is_signed(&msg));
        let refused = self.server.validate_incoming_message_with_words(
            &msg,
            client_addr(),
            Instant::ZERO,
            WORDS,
        );
        assert_eq!(
            refused.unwrap_err().reason(),
            LongTermServerAuthErrorReason::Unauthorized
        );

        let mut response = Message::builder_error(&msg, MessageWriteVec::new());
        response
            .add_attribute(&ErrorCode::builder(ErrorCode::UNAUTHORIZED).build().unwrap())
            .unwrap();
        let response = self
            .server
            .sign_outgoing_message(response, client_addr())
            .unwrap();
        let response = Message::from_bytes(&response).unwrap();
        assert_eq!(response.attribute::<ErrorCode>().unwrap().code(), 401);
        assert_eq!(
            response.attribute::<ErrorCode>().unwrap().reason(),
            "Unauthorized"
        );
        assert_eq!(response.attribute::<Realm>().unwrap().realm(), "realm");
        let read = self.client.validate_incoming_message(&response);
        assert_eq!(read, Ok(LongTermClientValidation::ResendRequest(None)));
    }

    fn ask(&mut self, algorithm: IntegrityAlgorithm) -> Vec<u8> {
        let added = self.client.message_signature_bytes();
        let msg = self.client.sign_outgoing_message(request(2)).unwrap();
        assert_eq!(msg.len(), 20 + added);
        let bytes = msg.finish();
        let msg = Message::from_bytes(&bytes).unwrap();
        assert!(is_signed(&msg));
        let validated = self.server.validate_incoming_message_with_words(
            &msg,
            client_addr(),
            Instant::ZERO,
            WORDS,
        );
        assert_eq!(
            validated,
            Ok(LongTermServerValidation::Validated(algorithm))
        );

        let response = success(&msg, client_addr(), MessageWriteVec::new());
        let response = self
            .server
            .sign_outgoing_message(response, client_addr())
            .unwrap();
        let response = Message::from_bytes(&response).unwrap();
        let read = self.client.validate_incoming_message(&response);
        assert_eq!(read, Ok(LongTermClientValidation::Validated(algorithm)));
        assert_eq!(response.xor_mapped_address(), Ok(client_addr()));
        bytes
    }
}

fn is_signed(msg: &Message<'_>) -> bool {
    msg.attribute::<MessageIntegrity>().is_ok() || msg.attribute::<MessageIntegritySha256>().is_ok()
}

#[test]
fn long_term_exchange_by_sha1() {
    let mut both = LongTerm::new(&[]);
    both.client.set_anonymous_username(Feature::Disabled);
    both.server.set_anonymous_username(Feature::Disabled);
    assert_eq!(both.client.message_signature_bytes(), 0);
    both.challenge();
    let bytes = both.ask(Sha1);
    let msg = Message::from_bytes(&bytes).unwrap();
    assert_eq!(msg.attribute::<Username>().unwrap().username(), "user");
    assert_eq!(
        msg.attribute::<Userhash>(),
        Err(StunParseError::MissingAttribute(Userhash::TYPE))
    );
    assert_eq!(msg.attribute::<Nonce>().unwrap().nonce().len(), 16);
    let key = both
        .client
        .credentials()
        .unwrap()
        .to_key("realm".to_string());
    assert_eq!(msg.validate_integrity(&key.into()), Ok(Sha1));
}

#[test]
fn long_term_exchange_by_sha256_with_a_hidden_name() {
    let mut both = LongTerm::new(&[Sha256]);
    both.challenge();
    let bytes = both.ask(Sha256);
    // A nonce of 29 bytes, the realm, USERHASH, two algorithms, the chosen one, and the digest.
    assert_eq!(
        both.client.message_signature_bytes(),
        36 + 12 + 36 + 12 + 8 + 36
    );
    let msg = Message::from_bytes(&bytes).unwrap();
    assert_eq!(
        msg.attribute::<Username>(),
        Err(StunParseError::MissingAttribute(Username::TYPE))
    );
    assert_eq!(
        msg.attribute::<Userhash>().unwrap().hash(),
        &Userhash::compute("user", "realm")
    );
    let offered = msg.attribute::<PasswordAlgorithms>().unwrap();
    assert_eq!(
        offered.algorithms(),
        [PasswordAlgorithmValue::SHA256, PasswordAlgorithmValue::MD5]
    );
    let chosen = msg.attribute::<PasswordAlgorithm>().unwrap().algorithm();
    assert_eq!(chosen.as_integrity(), Sha256);
    assert_eq!(
        msg.attribute::<MessageIntegritySha256>()
            .unwrap()
            .hmac()
            .len(),
        32
    );
    let key = both
        .client
        .credentials()
        .unwrap()
        .to_key("realm".to_string());
    assert_eq!(msg.validate_integrity(&key.into()), Ok(Sha256));
}

#[test]
fn a_challenge_may_be_written_by_hand() {
    let mut client = LongTerm::new(&[]).client;
    let asked = request(1);
    let asked = Message::from_bytes(&asked).unwrap();
    let mut response = Message::builder_error(&asked, MessageWriteVec::new());
    response
        .add_attribute(&ErrorCode::builder(ErrorCode::UNAUTHORIZED).build().unwrap())
        .unwrap();
    response
        .add_attribute(&Realm::new("example.org").unwrap())
        .unwrap();
    response
        .add_attribute(&Nonce::new("a nonce").unwrap())
        .unwrap();
    let response = Message::from_bytes(&response).unwrap();
    assert_eq!(
        client.validate_incoming_message(&response),
        Ok(LongTermClientValidation::ResendRequest(None))
    );
    // NONCE 12, REALM 16, USERNAME 8, MESSAGE-INTEGRITY 24.
    assert_eq!(client.message_signature_bytes(), 60);
    let signed = client.sign_outgoing_message(request(2)).unwrap();
    let signed = Message::from_bytes(&signed).unwrap();
    assert_eq!(signed.attribute::<Nonce>().unwrap().nonce(), "a nonce");
    let key = long_term_key(Sha1, "user", "example.org", "pass");
    assert_eq!(signed.validate_integrity_with_key(&key), Ok(Sha1));
}

#[test]
fn a_signed_request_is_sent_again() {
    let mut agent = agent();
    let mut auth = ShortTermAuth::new();
    auth.set_credentials(ShortTermCredentials::new("password".to_string()), Sha256);
    let mut ids = Vec::new();
    for (number, is_signed) in [(9, true), (3, false), (5, true), (7, true)] {
        let mut msg = request(number);
        if is_signed {
            msg = auth.sign_outgoing_message(msg).unwrap();
        }
        ids.push((msg.transaction_id(), is_signed.then_some(Sha256)));
        agent
            .send_request(msg.finish(), server_addr(), Instant::ZERO)
            .unwrap();
    }
    let mut now = Instant::ZERO;
    let StunAgentPollRet::WaitUntil(wait) = agent.poll(now) else {
        unreachable!()
    };
    assert_eq!(wait - now, Duration::from_millis(500));
    now = wait;
    let mut sent = 0;
    while let Some(transmit) = agent.poll_transmit(now) {
        let again = Message::from_bytes(transmit.data).unwrap();
        let (_, integrity) = ids
            .iter()
            .find(|(id, _)| *id == again.transaction_id())
            .unwrap();
        assert_eq!(
            auth.validate_incoming_message(&again).ok().flatten(),
            *integrity
        );
        sent += 1;
    }
    assert_eq!(sent, 4);
    for (id, integrity) in &ids {
        assert_eq!(
            agent.request_transaction(*id).unwrap().integrity(),
            *integrity
        );
        assert_eq!(
            agent.mut_request_transaction(*id).unwrap().integrity(),
            *integrity
        );
    }

    // One request is answered while it is borrowed, one is cancelled, and the others time out.
    let asked = request(9);
    let response = success(
        &Message::from_bytes(&asked).unwrap(),
        client_addr(),
        MessageWriteVec::new(),
    );
    let response = Message::from_bytes(&response).unwrap();
    let mut first = agent.mut_request_transaction(id(9)).unwrap();
    assert!(
        first
            .mut_agent()
            .handle_stun_message_with_time(&response, server_addr(), now)
    );
    assert_eq!(first.integrity(), Some(Sha256));
    agent.mut_request_transaction(id(5)).unwrap().cancel();
    assert_eq!(
        agent.poll(now),
        StunAgentPollRet::TransactionCancelled(id(5))
    );
    let mut ended = Vec::new();
    while ended.len() < 2 {
        while agent.poll_transmit(now).is_some() {}
        match agent.poll(now) {
            StunAgentPollRet::WaitUntil(wait) => now = wait,
            StunAgentPollRet::TransactionTimedOut(id) => ended.push(id),
            StunAgentPollRet::TransactionCancelled(id) => panic!("{id:?}"),
        }
    }
    ended.sort();
    assert_eq!(ended, [id(3), id(7)]);

    // The IDs can be used again, and nothing is left of the earlier requests.
    for (id, _) in &ids {
        assert!(agent.request_transaction(*id).is_none());
        let msg = Message::builder_request_with_id(BINDING, *id, MessageWriteVec::new());
        agent
            .send_request(msg.finish(), server_addr(), now)
            .unwrap();
        assert_eq!(agent.request_transaction(*id).unwrap().integrity(), None);
    }
}

#[test]
fn the_integrity_of_a_request_is_that_of_its_last_digest() {
    // HMAC-SHA1 before HMAC-SHA256, as other programs write them. The digests are not checked.
    let mut bytes = vec![0, 1, 0, 60, 0x21, 0x12, 0xa4, 0x42];
    bytes.extend([1; 12]);
    bytes.extend([0, 8, 0, 20]);
    bytes.extend([7; 20]);
    bytes.extend([0, 0x1c, 0, 32]);
    bytes.extend([7; 32]);
    let mut agent = agent();
    agent
        .send_request(&bytes, server_addr(), Instant::ZERO)
        .unwrap();
    assert_eq!(
        agent.request_transaction(id(1)).unwrap().integrity(),
        Some(Sha256)
    );
}

#[test]
fn indications_are_sent_and_counted() {
    let mut agent = agent();
    let msg = Message::builder_indication_with_id(BINDING, id(1), MessageWriteVec::new());
    assert!(msg.has_class(MessageClass::Indication) && !msg.is_response());
    let data = msg.finish();
    agent
        .send(data.clone(), server_addr(), Instant::ZERO)
        .unwrap();
    let msg = Message::from_bytes(&data).unwrap();
    assert_eq!(
        msg.get_type(),
        MessageType::from_class_method(MessageClass::Indication, BINDING)
    );
    assert!(agent.handle_stun_message_with_time(&msg, server_addr(), Instant::ZERO));
    let stats = agent.stats().unwrap();
    assert_eq!(
        (stats.indications_sent(), stats.indications_received()),
        (1, 1)
    );
}

/// Answers a request, using only the operator `?` for errors.
fn answered(agent: &mut StunAgent, bytes: &[u8], software: &str) -> Result<SocketAddr, StunError> {
    let asked = Message::from_bytes(bytes)?;
    let from = asked
        .attribute::<XorMappedAddress>()?
        .addr(asked.transaction_id());
    let mut response = Message::builder_success(&asked, MessageWriteVec::new());
    response.add_attribute(&Software::new(software)?)?;
    let response = Message::from_bytes(&response)?;
    Ok(agent.send(&response, from, Instant::ZERO)?.to)
}

#[test]
fn refusals_are_errors_of_the_agent() {
    let mut agent = StunAgent::builder(TransportType::Udp, client_addr())
        .remote_addr(server_addr())
        .build();
    let mut msg = request(1);
    let missing = StunError::ParseError(StunParseError::MissingAttribute(XorMappedAddress::TYPE));
    assert_eq!(answered(&mut agent, &msg, "stun"), Err(missing));
    msg.add_attribute(&XorMappedAddress::new(server_addr(), id(1)))
        .unwrap();
    assert_eq!(answered(&mut agent, &msg, "stun"), Ok(server_addr()));
    let long = StunError::WriteError(StunWriteError::TooLarge);
    assert_eq!(answered(&mut agent, &msg, &"s".repeat(764)), Err(long));
    assert_eq!(long.to_string(), StunWriteError::TooLarge.to_string());
    assert_eq!(
        answered(&mut agent, &msg[..9], "stun"),
        Err(StunError::ParseError(StunParseError::Truncated))
    );
    let mut elsewhere = request(1);
    elsewhere
        .add_attribute(&XorMappedAddress::new(client_addr(), id(1)))
        .unwrap();
    assert_eq!(
        answered(&mut agent, &elsewhere, "stun"),
        Err(StunError::ProtocolViolation)
    );
    assert_eq!(
        agent
            .send_request(&msg, server_addr(), Instant::ZERO)
            .map(|transmit| transmit.data.len()),
        Ok(msg.len())
    );
}
