//! Tests that this crate parses and writes the samples of RFC 5769.
use seatcrane_stun::types::message::*;
use seatcrane_stun::types::prelude::*;

mod samples;
use samples::{IPV4_RESPONSE, IPV6_RESPONSE, LONG_TERM_REQUEST, bytes};

#[test]
fn reads_responses() {
    for (digits, address) in [
        (IPV4_RESPONSE, "192.0.2.1:32853"),
        (
            IPV6_RESPONSE,
            "[2001:db8:1234:5678:11:2233:4455:6677]:32853",
        ),
    ] {
        let bytes = bytes(digits);
        let message = Message::from_bytes(&bytes).unwrap();
        assert_eq!(message.class(), MessageClass::Success);
        assert_eq!(message.method(), BINDING);
        assert_eq!(message.xor_mapped_address(), Ok(address.parse().unwrap()));
        assert_eq!(
            message.error_code(),
            Err(StunParseError::MissingAttribute(AttributeType::ERROR_CODE))
        );
        assert_eq!(
            message.validate_integrity_with_key(b"VOkJxbRl1RmTxUk/WvJxBt"),
            Ok(IntegrityAlgorithm::Sha1)
        );
        assert_eq!(
            message.validate_integrity_with_key(b"another"),
            Err(ValidateError::IntegrityFailed)
        );
        let kinds: Vec<u16> = message
            .iter_attributes()
            .map(|(_, a)| a.get_type().0)
            .collect();
        assert_eq!(kinds, [0x8022, 0x0020, 0x0008, 0x8028]);
        assert_eq!(
            message
                .raw_attribute(AttributeType::SOFTWARE)
                .unwrap()
                .value(),
            b"test vector"
        );
        for front in 0..bytes.len() {
            assert_eq!(
                Message::from_bytes(&bytes[..front]),
                Err(StunParseError::Truncated)
            );
        }
    }
}

#[test]
fn writes_the_long_term_request() {
    let wanted = bytes(LONG_TERM_REQUEST);
    let id = Message::from_bytes(&wanted).unwrap().transaction_id();
    let name = "\u{30de}\u{30c8}\u{30ea}\u{30c3}\u{30af}\u{30b9}";
    let key = long_term_key(IntegrityAlgorithm::Sha1, name, "example.org", "TheMatrIX");
    let mut request = Message::builder_request_with_id(BINDING, id, MessageWriteVec::new());
    for (kind, value) in [
        (AttributeType::USERNAME, name),
        (AttributeType::NONCE, "f//499k954d6OL34oL9FSTvy64sA"),
        (AttributeType::REALM, "example.org"),
    ] {
        request
            .add_attribute(&RawAttribute::new(kind, value.as_bytes()))
            .unwrap();
    }
    request
        .add_message_integrity_with_key(&key, IntegrityAlgorithm::Sha1)
        .unwrap();
    let late = RawAttribute::new(AttributeType::SOFTWARE, b"late");
    assert_eq!(
        request.clone().add_attribute(&late),
        Err(StunWriteError::MessageIntegrityExists)
    );
    assert_eq!(request.finish(), wanted);
}

#[test]
fn answers_with_an_address_and_an_error() {
    let request = Message::builder_request_with_id(
        BINDING,
        TransactionId::from([7; 12]),
        MessageWriteVec::new(),
    )
    .finish();
    let request = Message::from_bytes(&request).unwrap();
    for address in ["192.0.2.1:1", "[2001:db8::1]:65535"] {
        let mut answer = Message::builder_success(&request, MessageWriteVec::new());
        answer
            .add_xor_mapped_address(address.parse().unwrap())
            .unwrap();
        let answer = answer.finish();
        let answer = Message::from_bytes(&answer).unwrap();
        assert_eq!(answer.transaction_id(), request.transaction_id());
        assert_eq!(answer.xor_mapped_address(), Ok(address.parse().unwrap()));
    }
    let mut answer = Message::builder_error(&request, MessageWriteVec::new());
    assert_eq!(
        answer.add_error_code(299, ""),
        Err(StunWriteError::NotAllowed)
    );
    answer.add_error_code(401, "Unauthorized").unwrap();
    assert_eq!(
        answer.add_error_code(401, "Unauthorized"),
        Err(StunWriteError::AttributeExists(AttributeType::ERROR_CODE))
    );
    let answer = answer.finish();
    assert_eq!(Message::from_bytes(&answer).unwrap().error_code(), Ok(401));
}
