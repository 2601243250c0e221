//! Tests of attributes: which values they refuse, and the values of RFC 5769 and RFC 8489, appendix
//! B.
use IntegrityAlgorithm::{Sha1, Sha256};
use seatcrane_stun::types::attribute::*;
use seatcrane_stun::types::message::*;
use seatcrane_stun::types::prelude::*;
use std::net::SocketAddr;

mod samples;
use samples::{IPV4_RESPONSE, IPV6_RESPONSE, LONG_TERM_REQUEST, bytes};

const NO_INTEGRITY: ValidateError = ValidateError::Parse(StunParseError::MissingAttribute(
    AttributeType::MESSAGE_INTEGRITY,
));
const MALFORMED_INTEGRITY: ValidateError =
    ValidateError::Parse(StunParseError::InvalidAttributeData);
const PASSWORD: &str = "VOkJxbRl1RmTxUk/WvJxBt";
const REQUEST: &str =
    "00010058 2112a442 b7e7a701 bc34d686 fa87dfae 80220010 5354554e 20746573 7420636c 69656e74
    00240004 6e0001ff 80290008 932ff9b1 51263b36 00060009 6576746a 3a683676 59202020
    00080014 9aeaa70c bfd8cb56 781ef2b5 b2d3f249 c1b571a2 80280004 e57a3bcf";
const USER: &str = "\u{30de}\u{30c8}\u{30ea}\u{30c3}\u{30af}\u{30b9}";

fn matrix() -> MessageIntegrityCredentials {
    let credentials = LongTermCredentials::new(USER.to_string(), "TheMatrIX".to_string());
    credentials.to_key("example.org".to_string()).into()
}

fn read<'a, A: AttributeFromRaw<'a> + AttributeStaticType>(
    value: &'a [u8],
) -> Result<A, StunParseError> {
    A::from_raw(RawAttribute::new(A::TYPE, value))
}

/// Checks that an attribute is written as `value`, that `value` is parsed as the attribute under
/// its type, and that the attribute has the length that it states.
fn is_read_back<'a, A>(attribute: &A, value: &'a [u8])
where
    A: AttributeFromRaw<'a> + AttributeStaticType + PartialEq + std::fmt::Debug,
{
    let mut message = Message::builder_request_with_id(
        BINDING,
        TransactionId::from([1; 12]),
        MessageWriteVec::new(),
    );
    message.add_attribute(attribute).unwrap();
    assert_eq!(message.len(), 20 + attribute.padded_len());
    let written = Message::from_bytes(&message)
        .unwrap()
        .raw_attribute(A::TYPE)
        .unwrap();
    assert_eq!((written.value(), attribute.length()), (value, value.len()));
    assert_eq!(attribute.get_type(), A::TYPE);
    assert_eq!(read::<A>(value).as_ref(), Ok(attribute));
    assert_eq!(
        A::from_raw_ref(&RawAttribute::new(A::TYPE, value)).as_ref(),
        Ok(attribute)
    );
    let other = AttributeType::new(A::TYPE.value() ^ 1);
    assert_eq!(
        A::from_raw(RawAttribute::new(other, value)),
        Err(StunParseError::InvalidAttributeData)
    );
}

#[test]
fn reads_the_samples() {
    let credentials = ShortTermCredentials::new(PASSWORD.to_string()).into();
    let request = bytes(REQUEST);
    let request = Message::from_bytes(&request).unwrap();
    assert_eq!(
        request.attribute::<Software>().unwrap().software(),
        "STUN test client"
    );
    assert_eq!(
        request.attribute::<Username>().unwrap().username(),
        "evtj:h6vY"
    );
    let digest = bytes("9aeaa70c bfd8cb56 781ef2b5 b2d3f249 c1b571a2");
    assert_eq!(
        request.attribute::<MessageIntegrity>().unwrap().hmac(),
        &digest[..]
    );
    assert_eq!(
        request.attribute::<Realm>(),
        Err(StunParseError::MissingAttribute(Realm::TYPE))
    );
    assert_eq!(request.validate_integrity(&credentials), Ok(Sha1));
    assert_eq!(
        request.validate_integrity(&matrix()),
        Err(ValidateError::IntegrityFailed)
    );
    for (digits, address) in [
        (IPV4_RESPONSE, "192.0.2.1:32853"),
        (
            IPV6_RESPONSE,
            "[2001:db8:1234:5678:11:2233:4455:6677]:32853",
        ),
    ] {
        let bytes = bytes(digits);
        let message = Message::from_bytes(&bytes).unwrap();
        let address: SocketAddr = address.parse().unwrap();
        let read = message.attribute::<XorMappedAddress>().unwrap();
        assert_eq!(read.addr(message.transaction_id()), address);
        assert_eq!(
            read,
            XorMappedAddress::new(address, message.transaction_id())
        );
        assert_eq!(message.validate_integrity(&credentials), Ok(Sha1));
    }
    let request = bytes(LONG_TERM_REQUEST);
    let request = Message::from_bytes(&request).unwrap();
    assert_eq!(request.attribute::<Username>().unwrap().username(), USER);
    assert_eq!(
        request.attribute::<Nonce>().unwrap().nonce(),
        "f//499k954d6OL34oL9FSTvy64sA"
    );
    assert_eq!(request.attribute::<Realm>().unwrap().realm(), "example.org");
    assert_eq!(request.validate_integrity(&matrix()), Ok(Sha1));
    assert_eq!(
        request.validate_integrity(&credentials),
        Err(ValidateError::IntegrityFailed)
    );
}

#[test]
fn writes_the_samples() {
    let id = TransactionId::from_u128(0x78ad3433c6ad72c029da412e).unwrap();
    assert_eq!(id.as_u128(), 0x78ad3433c6ad72c029da412e);
    let mut request = Message::builder_request_with_id(BINDING, id, MessageWriteVec::new());
    request
        .add_attribute(&Username::new(USER).unwrap())
        .unwrap();
    request
        .add_attribute(&Nonce::new("f//499k954d6OL34oL9FSTvy64sA").unwrap())
        .unwrap();
    request
        .add_attribute(&Realm::new("example.org").unwrap())
        .unwrap();
    request.add_message_integrity(&matrix(), Sha1).unwrap();
    assert_eq!(request.finish(), bytes(LONG_TERM_REQUEST));

    let mut request = Message::builder_request_with_id(BINDING, id, MessageWriteVec::new());
    let hash = Userhash::compute(USER, "example.org");
    assert_eq!(
        hash[..],
        bytes("4a3cf38f ef6992bd a952c678 0417da0f 24819415 569e60b2 05c46e41 407f1704")
    );
    request.add_attribute(&Userhash::new(hash)).unwrap();
    request
        .add_attribute(&Nonce::new("obMatJos2AAACf//499k954d6OL34oL9FSTvy64sA").unwrap())
        .unwrap();
    request
        .add_attribute(&Realm::new("example.org").unwrap())
        .unwrap();
    request.add_message_integrity(&matrix(), Sha256).unwrap();
    let written = Message::from_bytes(&request).unwrap();
    let digest = bytes("234112fb d4e27f98 3eb40328 36f99821 6f5b23f8 d927753f bc4f882b fbdf0dec");
    assert_eq!(
        written
            .attribute::<MessageIntegritySha256>()
            .unwrap()
            .hmac(),
        digest
    );
    assert_eq!(written.validate_integrity(&matrix()), Ok(Sha256));

    let id = TransactionId::from_u128(0xb7e7a701bc34d686fa87dfae).unwrap();
    let address = XorMappedAddress::new("192.0.2.1:32853".parse().unwrap(), id);
    is_read_back(&address, &bytes("0001a147 e112a643"));
    let address = "[2001:db8:1234:5678:11:2233:4455:6677]:32853"
        .parse()
        .unwrap();
    is_read_back(
        &XorMappedAddress::new(address, id),
        &bytes("0002a147 0113a9fa a5d3f179 bc25f4b5 bed2b9d9"),
    );
}

#[test]
fn ids_have_96_bits() {
    assert_eq!(TransactionId::from_u128(1 << 96), None);
    assert_eq!(
        TransactionId::from_u128((1 << 96) - 1),
        Some(TransactionId::from([0xff; 12]))
    );
    assert_eq!(
        TransactionId::from_u128(0x0102),
        Some(TransactionId::from([0, 0, 0, 0, 0, 0, 0, 0, 0, 0, 1, 2]))
    );
}

#[test]
fn texts_have_limits() {
    for (most, make, read) in [
        (
            513,
            (|text| Username::new(text).map(drop)) as fn(&str) -> Result<(), StunWriteError>,
            (|value| read::<Username>(value).map(drop)) as fn(&[u8]) -> Result<(), StunParseError>,
        ),
        (
            763,
            |text| Realm::new(text).map(drop),
            |value| read::<Realm>(value).map(drop),
        ),
        (
            763,
            |text| Nonce::new(text).map(drop),
            |value| read::<Nonce>(value).map(drop),
        ),
        (
            763,
            |text| Software::new(text).map(drop),
            |value| read::<Software>(value).map(drop),
        ),
    ] {
        let text = "n".repeat(most + 1);
        assert_eq!(
            (make(&text[1..]), make(&text)),
            (Ok(()), Err(StunWriteError::TooLarge))
        );
        let value = text.as_bytes();
        assert_eq!(
            (read(&value[1..]), read(value)),
            (Ok(()), Err(StunParseError::InvalidAttributeData))
        );
        assert_eq!(
            (read(b""), read(b"\xff")),
            (Ok(()), Err(StunParseError::InvalidAttributeData))
        );
    }
    is_read_back(&Username::new("user").unwrap(), b"user");
    is_read_back(&Realm::new("realm").unwrap(), b"realm");
    is_read_back(&Nonce::new("").unwrap(), b"");
    is_read_back(
        &Software::new("STUN \u{30de}").unwrap(),
        "STUN \u{30de}".as_bytes(),
    );
}

#[test]
fn errors_have_codes_and_reasons() {
    for (code, reason) in [
        (400, "Bad Request"),
        (401, "Unauthorized"),
        (438, "Stale Nonce"),
        (420, ""),
        (699, ""),
    ] {
        let error = ErrorCode::builder(code).build().unwrap();
        assert_eq!((error.code(), error.reason()), (code, reason));
        let mut value = vec![0, 0, (code / 100) as u8, (code % 100) as u8];
        value.extend(reason.as_bytes());
        is_read_back(&error, &value);
    }
    let long = "r".repeat(764);
    is_read_back(
        &ErrorCode::new(300, &long[1..]).unwrap(),
        &[b"\0\0\x03\0", &long.as_bytes()[1..]].concat(),
    );
    assert_eq!(ErrorCode::new(300, &long), Err(StunWriteError::TooLarge));
    for code in [0, 299, 700, u16::MAX] {
        assert_eq!(
            ErrorCode::builder(code).reason(&long).build(),
            Err(StunWriteError::NotAllowed)
        );
    }
    let read = |value: &[u8]| read::<ErrorCode>(value).map(|error| error.code());
    assert_eq!(
        read(&[0xff, 0xff, 0xfb, 99, b'r']),
        Ok(399),
        "reserved bits are not looked at"
    );
    let malformed = [
        &[][..],
        &[0, 0, 4],
        &[0, 0, 2, 99],
        &[0, 0, 7, 0],
        &[0, 0, 4, 100],
        &[0, 0, 4, 1, 0xff],
    ];
    for value in malformed {
        assert_eq!(
            read(value),
            Err(StunParseError::InvalidAttributeData),
            "{value:?}"
        );
    }
    assert_eq!(
        read(&[b"\0\0\x04\x01", long.as_bytes()].concat()),
        Err(StunParseError::InvalidAttributeData)
    );
    assert_eq!(read(&[4; 65535]), Err(StunParseError::InvalidAttributeData));
}

#[test]
fn addresses_have_the_octets_of_their_family() {
    let id = TransactionId::from([7; 12]);
    for address in [
        "0.0.0.0:0",
        "255.255.255.255:65535",
        "[::]:1",
        "[ffff::ffff]:3478",
    ] {
        let address: SocketAddr = address.parse().unwrap();
        let attribute = XorMappedAddress::new(address, id);
        assert_eq!(attribute.addr(id), address);
        assert_ne!(
            attribute.addr(TransactionId::from([8; 12])) == address,
            address.is_ipv6()
        );
    }
    // The first byte is ignored.
    let plain = read::<XorMappedAddress>(&[0, 1, 2, 3, 4, 5, 6, 7]);
    assert!(plain.is_ok());
    assert_eq!(read::<XorMappedAddress>(&[9, 1, 2, 3, 4, 5, 6, 7]), plain);
    let malformed: [&[u8]; 8] = [
        &[],
        &[0, 1, 2],
        &[0, 1, 2, 3],
        &[0, 3, 2, 3, 4, 5, 6, 7],
        &[0, 2, 2, 3, 4, 5, 6, 7],
        &[0, 1, 2, 3, 4, 5, 6, 7, 8],
        &[1; 20],
        &[2; 21],
    ];
    for value in malformed {
        assert_eq!(
            read::<XorMappedAddress>(value),
            Err(StunParseError::InvalidAttributeData),
            "{value:?}"
        );
    }
    assert!(read::<XorMappedAddress>(&[2; 20]).is_ok());
}

#[test]
fn algorithms_are_known_and_without_parameters() {
    use PasswordAlgorithmValue::{MD5, SHA256};
    is_read_back(&PasswordAlgorithm::new(MD5), &[0, 1, 0, 0]);
    is_read_back(&PasswordAlgorithm::new(SHA256), &[0, 2, 0, 0]);
    is_read_back(&PasswordAlgorithms::new(&[]), &[]);
    is_read_back(
        &PasswordAlgorithms::new(&[SHA256, MD5, MD5]),
        &[0, 2, 0, 0, 0, 1, 0, 0, 0, 1, 0, 0],
    );
    assert_eq!((MD5.as_integrity(), SHA256.as_integrity()), (Sha1, Sha256));
    let malformed: [&[u8]; 6] = [
        &[0],
        &[0, 1],
        &[0, 1, 0, 0, 0],
        &[0, 3, 0, 0],
        &[0, 1, 0, 4, 1, 2, 3, 4],
        &[1, 1, 0, 0],
    ];
    for value in malformed {
        assert_eq!(
            read::<PasswordAlgorithm>(value),
            Err(StunParseError::InvalidAttributeData),
            "{value:?}"
        );
        assert_eq!(
            read::<PasswordAlgorithms>(value),
            Err(StunParseError::InvalidAttributeData),
            "{value:?}"
        );
    }
    assert_eq!(
        read::<PasswordAlgorithm>(&[]),
        Err(StunParseError::InvalidAttributeData)
    );
    assert_eq!(
        read::<PasswordAlgorithm>(&[0, 1, 0, 0, 0, 2, 0, 0]),
        Err(StunParseError::InvalidAttributeData)
    );
}

#[test]
fn digests_have_lengths() {
    for length in 0..=40 {
        let value = vec![7; length];
        assert_eq!(
            read::<MessageIntegrity>(&value).is_ok(),
            length == 20,
            "{length}"
        );
        let is_cut = [16, 20, 24, 28, 32].contains(&length);
        assert_eq!(
            read::<MessageIntegritySha256>(&value).is_ok(),
            is_cut,
            "{length}"
        );
        assert_eq!(read::<Userhash>(&value).is_ok(), length == 32, "{length}");
    }
    is_read_back(&Userhash::new([9; 32]), &[9; 32]);
}

/// Returns a message with attributes of these types, whose values have 0, 1, 2 and so on bytes.
fn of_types(kinds: &[u16]) -> Vec<u8> {
    let mut bytes = vec![0, 1, 0, 0, 0x21, 0x12, 0xa4, 0x42];
    bytes.extend([7; 12]);
    for (length, kind) in kinds.iter().enumerate() {
        bytes.extend(kind.to_be_bytes());
        bytes.extend((length as u16).to_be_bytes());
        bytes.resize((bytes.len() + length).next_multiple_of(4), length as u8);
    }
    let length = (bytes.len() - 20) as u16;
    bytes[2..4].copy_from_slice(&length.to_be_bytes());
    bytes
}

#[test]
fn the_first_of_a_type_is_found_where_it_is_visible() {
    let kinds = [0x0006, 0x0008, 0x001c, 0x8028, 0x8022];
    for number in 0..5usize.pow(6) {
        let chosen: Vec<u16> = (0..6)
            .map(|digit| kinds[number / 5usize.pow(digit) % 5])
            .collect();
        let bytes = of_types(&chosen);
        let message = Message::from_bytes(&bytes).unwrap();
        for kind in kinds.map(AttributeType) {
            let wanted = message
                .iter_attributes()
                .map(|(_, found)| found)
                .find(|found| found.get_type() == kind);
            assert_eq!(message.raw_attribute(kind), wanted, "{chosen:x?}");
        }
    }
}

#[test]
fn many_attributes_are_passed_over_in_little_time() {
    let begun = of_types(&[]);
    let many = [
        &begun,
        &[0x80, 0x22, 0, 0].repeat(16000)[..],
        &[0, 6, 0, 1, b'u', 0, 0, 0],
    ]
    .concat();
    let many = [
        &many[..2],
        &((many.len() - 20) as u16).to_be_bytes(),
        &many[4..],
    ]
    .concat();
    let message = Message::from_bytes(&many).unwrap();
    for _ in 0..100 {
        assert_eq!(message.attribute::<Username>().unwrap().username(), "u");
        assert_eq!(message.iter_attributes().count(), 16001);
        assert_eq!(message.validate_integrity(&matrix()), Err(NO_INTEGRITY));
    }
}

#[test]
fn a_digest_counts_under_the_key_of_its_own_algorithm() {
    let MessageIntegrityCredentials::LongTerm(credentials) = matrix() else {
        unreachable!()
    };
    for (algorithm, other) in [(Sha1, Sha256), (Sha256, Sha1)] {
        let begun = Message::builder_request_with_id(
            BINDING,
            TransactionId::from([1; 12]),
            MessageWriteVec::new(),
        );
        let (mut right, mut wrong) = (begun.clone(), begun);
        right
            .add_message_integrity_with_key(&credentials.make_key(algorithm), algorithm)
            .unwrap();
        wrong
            .add_message_integrity_with_key(&credentials.make_key(other), algorithm)
            .unwrap();
        let (right, wrong) = (
            Message::from_bytes(&right).unwrap(),
            Message::from_bytes(&wrong).unwrap(),
        );
        assert_eq!(right.validate_integrity(&matrix()), Ok(algorithm));
        assert_eq!(
            wrong.validate_integrity(&matrix()),
            Err(ValidateError::IntegrityFailed)
        );
        assert_eq!(
            wrong.validate_integrity_with_key(&credentials.make_key(other)),
            Ok(algorithm)
        );
    }
    for (kinds, refusal) in [
        (&[0x0006][..], NO_INTEGRITY),
        (&[0x0008], MALFORMED_INTEGRITY),
        (&[0x0006, 0x001c], MALFORMED_INTEGRITY),
    ] {
        let bytes = of_types(kinds);
        assert_eq!(
            Message::from_bytes(&bytes)
                .unwrap()
                .validate_integrity(&matrix()),
            Err(refusal)
        );
    }
}

/// An attribute that a program defines.
#[derive(Debug, PartialEq)]
struct Priority(u32);

impl AttributeStaticType for Priority {
    const TYPE: AttributeType = AttributeType(0x0024);

    fn static_type() -> AttributeType {
        Self::TYPE
    }
}

impl Attribute for Priority {
    fn get_type(&self) -> AttributeType {
        Self::TYPE
    }

    fn length(&self) -> usize {
        4
    }

    fn write_into<W: MessageWrite>(&self, writer: &mut W) {
        RawAttribute::new(Self::TYPE, &self.0.to_be_bytes()).write_into(writer);
    }
}

impl<'a> AttributeFromRaw<'a> for Priority {
    fn from_raw(raw: RawAttribute<'a>) -> Result<Priority, StunParseError> {
        match raw.value().try_into() {
            Ok(value) if raw.get_type() == Self::TYPE => Ok(Priority(u32::from_be_bytes(value))),
            _ => Err(StunParseError::InvalidAttributeData),
        }
    }
}

#[test]
fn a_program_has_attributes_of_its_own() {
    let request = bytes(REQUEST);
    let request = Message::from_bytes(&request).unwrap();
    assert_eq!(request.attribute::<Priority>(), Ok(Priority(0x6e0001ff)));
    is_read_back(&Priority(0x6e0001ff), &bytes("6e0001ff"));
    assert_eq!(Priority::TYPE.to_string(), "0x0024");
}
