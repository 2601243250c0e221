//! Tests of the names and conversions of the crate `stun-types`.
use seatcrane_stun::extra::TcpBuffer;
use seatcrane_stun::types::attribute::*;
use seatcrane_stun::types::message::*;
use seatcrane_stun::types::prelude::*;
use seatcrane_stun::types::{ICE, STUN, TURN};

const ID: [u8; 12] = *b"any 12 bytes";

fn request() -> MessageWriteVec {
    Message::builder_request_with_id(BINDING, ID.into(), MessageWriteVec::new())
}

#[test]
fn fingerprint_is_an_attribute_of_the_writer() {
    let mut message = request();
    message
        .add_message_integrity_with_key(b"password", IntegrityAlgorithm::Sha1)
        .unwrap();
    let mut finished = message.clone();
    message.add_fingerprint().unwrap();
    assert_eq!(
        message.data(),
        &seatcrane_stun::extra::finish_with_fingerprint(finished.clone()).unwrap()[..]
    );
    let before = message.data().to_vec();
    let exists = Err(StunWriteError::AttributeExists(AttributeType::FINGERPRINT));
    let software = Software::new("example 1.0").unwrap();
    assert_eq!(message.add_fingerprint(), exists);
    assert_eq!(message.add_attribute(&software), exists);
    assert_eq!(message.add_another_attribute(&software), exists);
    assert_eq!(message.add_error_code(400, ""), exists);
    assert_eq!(
        message.add_xor_mapped_address("192.0.2.1:1".parse().unwrap()),
        exists
    );
    for algorithm in [IntegrityAlgorithm::Sha1, IntegrityAlgorithm::Sha256] {
        assert_eq!(
            message.add_message_integrity_with_key(b"key", algorithm),
            exists
        );
        let key = ShortTermCredentials::new("password".to_string()).into();
        assert_eq!(message.add_message_integrity(&key, algorithm), exists);
    }
    assert_eq!(message.data(), before);
    // The end of another attribute's value looks like a FINGERPRINT, but is none.
    let fake = RawAttribute::new(AttributeType::new(0x8022), &[0x80, 0x28, 0, 4, 1, 2, 3, 4]);
    let mut message = request();
    message.add_attribute(&fake).unwrap();
    message.add_fingerprint().unwrap();
    assert_eq!(
        MessageWriteVec::new().add_fingerprint(),
        Err(StunWriteError::NotAllowed)
    );
    // There is no room, and the message does not change.
    let mut buffer = [0; 27];
    let writer = MessageWriteMutSlice::new(&mut buffer);
    let mut small = Message::builder_request_with_id(BINDING, ID.into(), writer);
    assert_eq!(small.add_fingerprint(), Err(StunWriteError::TooSmall));
    assert_eq!(small.data(), &request()[..]);
    // At most 65532 bytes can follow the header.
    let long = vec![0; 65520];
    let raw = RawAttribute::new(AttributeType::new(0x8001), &long);
    finished = request();
    finished.add_attribute(&raw).unwrap();
    finished.add_fingerprint().unwrap();
    let longer = vec![0; 65524];
    let mut message = request();
    message
        .add_attribute(&RawAttribute::new(AttributeType::new(0x8001), &longer))
        .unwrap();
    assert_eq!(message.add_fingerprint(), Err(StunWriteError::TooLarge));
}

#[test]
fn conversions_are_both_ways() {
    let id = TransactionId::from(ID);
    assert_eq!(<[u8; 12]>::from(id), ID);
    assert_eq!(TransactionId::from(u128::from(id)), id);
    assert_eq!(TransactionId::from(u128::MAX).as_u128(), (1 << 96) - 1);
    assert_eq!(u16::from(AttributeType::from(0x8022)), 0x8022);
    assert!(AttributeType::USERNAME < AttributeType::SOFTWARE);
    let bytes = request().finish();
    let message = Message::try_from(&bytes[..]).unwrap();
    let header = MessageHeader::try_from(&bytes[..]).unwrap();
    assert_eq!(header.transaction_id(), message.transaction_id());
    assert_eq!(bytes[4..8], MAGIC_COOKIE.to_be_bytes());
    let kind = MessageType::try_from(&bytes[..]).unwrap();
    assert!(kind.has_method(BINDING) && kind == message.get_type());
    assert_eq!(kind.to_bytes(), bytes[..2]);
    assert_eq!(
        MessageType::from_bytes(&[0]),
        Err(StunParseError::Truncated)
    );
    assert_eq!(
        MessageType::from_bytes(&[0x40, 1]),
        Err(StunParseError::NotStun)
    );
    for value in 0..0x4000_u16 {
        let kind = MessageType::from_bytes(&value.to_be_bytes()).unwrap();
        assert_eq!(
            MessageType::from_class_method(kind.class(), kind.method()),
            kind
        );
    }
}

#[test]
fn raw_attributes_have_bytes() {
    for length in 0..9 {
        let value = [7; 9];
        let raw = RawAttribute::new(AttributeType::new(0x8001), &value[..length]);
        let bytes = raw.to_bytes();
        assert_eq!(bytes.len(), raw.padded_len());
        assert_eq!(RawAttribute::try_from(&bytes[..]), Ok(raw));
        for cut in 0..bytes.len() {
            assert_eq!(
                RawAttribute::from_bytes(&bytes[..cut]),
                Err(StunParseError::Truncated)
            );
        }
    }
}

#[test]
fn attributes_have_offsets() {
    let mut message = request();
    message
        .add_attribute(&Username::new("alice").unwrap())
        .unwrap();
    message.add_attribute(&Priority::new(7)).unwrap();
    let bytes = message.finish();
    let message = Message::from_bytes(&bytes).unwrap();
    let (offset, name) = message.attribute_and_offset::<Username>().unwrap();
    assert_eq!((offset, name.username()), (20, "alice"));
    assert_eq!(message.attribute_and_offset::<Priority>().unwrap().0, 32);
    let (offset, raw) = message
        .raw_attribute_and_offset(AttributeType::PRIORITY)
        .unwrap();
    assert_eq!((offset, raw.value()), (32, &[0, 0, 0, 7][..]));
    let missing = StunParseError::MissingAttribute(AttributeType::REALM);
    assert_eq!(
        message.attribute_and_offset::<Realm>().unwrap_err(),
        missing
    );
    assert_eq!(message.raw_attribute_and_offset(AttributeType::REALM), None);
}

#[test]
fn attribute_types_of_a_request_are_checked() {
    let mut message = request();
    message.add_attribute(&Lifetime::new(600)).unwrap();
    message.add_attribute(&Priority::new(7)).unwrap();
    let bytes = message.finish();
    let message = Message::from_bytes(&bytes).unwrap();
    let check = |supported: &[AttributeType], required: &[AttributeType]| {
        let writer = MessageWriteVec::new();
        let refusal = Message::check_attribute_types(&message, supported, required, writer)?;
        let bytes = refusal.finish();
        let refusal = Message::from_bytes(&bytes).unwrap();
        assert!(refusal.has_class(MessageClass::Error));
        assert_eq!(refusal.transaction_id(), message.transaction_id());
        let unknown = refusal.attribute::<UnknownAttributes>().ok();
        let unknown =
            unknown.map(|types| (0..types.len()).map(|i| types.get(i).unwrap()).collect());
        Some((refusal.error_code().unwrap(), unknown))
    };
    let (lifetime, priority) = (AttributeType::LIFETIME, AttributeType::PRIORITY);
    assert_eq!(
        check(STUN, &[]),
        Some((420, Some(vec![lifetime, priority])))
    );
    assert_eq!(
        check(ICE, &[AttributeType::USERNAME]),
        Some((420, Some(vec![lifetime])))
    );
    assert_eq!(check(TURN, &[]), Some((420, Some(vec![priority]))));
    let both = [lifetime, priority];
    assert_eq!(
        check(&both, &[lifetime, AttributeType::USERNAME]),
        Some((400, None))
    );
    assert_eq!(check(&both, &both), None);
}

#[test]
fn lists_are_of_their_numbers() {
    let numbers =
        |types: &[AttributeType]| -> Vec<u16> { types.iter().map(|kind| kind.value()).collect() };
    // RFC 8489, section 18.3; RFC 8445, section 16.1; RFC 8656, section 18.
    let stun: Vec<u16> = vec![1, 6, 8, 9, 0xA, 0x14, 0x15, 0x1C, 0x1D, 0x1E, 0x20];
    let ice = [stun.clone(), vec![0x24, 0x25]].concat();
    let turn = vec![0xC, 0xD, 0x12, 0x13, 0x16, 0x17, 0x18, 0x19, 0x1A, 0x22];
    assert_eq!(numbers(ICE), ice);
    assert_eq!(numbers(TURN), [stun.clone(), turn].concat());
    assert_eq!(numbers(STUN), stun);
}

#[test]
fn packets_with_their_length_come_back_as_they_went() {
    let packets: [&[u8]; 4] = [b"first", b"", b"x", &[9; 300]];
    let mut stream = Vec::new();
    for packet in packets {
        stream.extend((packet.len() as u16).to_be_bytes());
        stream.extend(packet);
    }
    for piece in [1, 2, 3, 7, 64, 1000] {
        let mut buffer = TcpBuffer::new();
        let mut found = Vec::new();
        for bytes in stream.chunks(piece) {
            buffer.push_data(bytes);
            found.extend(std::iter::from_fn(|| buffer.pull_data()));
        }
        assert_eq!(found, packets);
        assert!(buffer.into_inner().is_empty());
    }
    let mut buffer = TcpBuffer::from(b"\0\x01a\0\x02b".to_vec());
    assert_eq!(buffer.pull_data().as_deref(), Some(&b"a"[..]));
    assert_eq!(Vec::from(buffer), b"\0\x02b");
}

/// An attribute that a program defines, without `static_type`.
#[derive(Debug, PartialEq)]
struct Marked;

impl Attribute for Marked {
    fn get_type(&self) -> AttributeType {
        Marked::TYPE
    }
    fn length(&self) -> usize {
        0
    }
    fn write_into<W: MessageWrite>(&self, writer: &mut W) {
        RawAttribute::new(Marked::TYPE, &[]).write_into(writer);
    }
}

impl AttributeStaticType for Marked {
    const TYPE: AttributeType = AttributeType(0xFFFE);
}

impl AttributeFromRaw<'_> for Marked {
    fn from_raw(raw: RawAttribute<'_>) -> Result<Marked, StunParseError> {
        match (raw.get_type(), raw.length()) {
            (Marked::TYPE, 0) => Ok(Marked),
            _ => Err(StunParseError::InvalidAttributeData),
        }
    }
}

#[test]
fn an_attribute_of_ones_own_needs_no_static_type() {
    let mut message = request();
    message.add_attribute(&Marked).unwrap();
    let bytes = message.finish();
    assert_eq!(
        Message::from_bytes(&bytes).unwrap().attribute::<Marked>(),
        Ok(Marked)
    );
    assert_eq!(Marked::static_type(), Marked::TYPE);
}

#[test]
fn attributes_of_different_types_are_in_one_list() {
    let name = "alice".to_string();
    let list: Vec<Box<dyn DynAttribute + '_>> = vec![
        Box::new(Username::new(&name).unwrap()),
        Box::new(Marked),
        Box::new(RawAttribute::new(AttributeType::new(0x8001), &[1, 2, 3])),
    ];
    let mut message = request();
    let mut expected = request();
    for attribute in &list {
        message.add_attribute(attribute).unwrap();
    }
    expected
        .add_attribute(&Username::new(&name).unwrap())
        .unwrap();
    expected.add_attribute(&Marked).unwrap();
    let raw = RawAttribute::new(AttributeType::new(0x8001), &[1, 2, 3]);
    expected.add_attribute(&raw).unwrap();
    assert_eq!(message, expected);
    let again: &dyn DynAttribute = &Marked;
    let exists = StunWriteError::AttributeExists(Marked::TYPE);
    assert_eq!(message.add_attribute(&again), Err(exists));
}
