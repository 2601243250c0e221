//! Tests of FINGERPRINT, unknown attributes and streams of messages, with the samples of RFC 5769.
//! The values of further attributes are typed by hand from RFC 8489, 8445, 8656, 5780, 6062, 7635,
//! 7982 and 8016.
use seatcrane_stun::Instant;
use seatcrane_stun::endpoint::{Body, Client, Output};
use seatcrane_stun::extra::attribute::*;
use seatcrane_stun::extra::turn::TurnMethod;
use seatcrane_stun::extra::{
    Fingerprint, Frame, answer_unknown, check_fingerprint, crc32, ends_failed,
    finish_with_fingerprint, has_unknown, is_stun, next_frame, next_packet_frame, next_turn_frame,
    unknown_attributes, unknown_types,
};
use seatcrane_stun::types::attribute::{AttributeType, ErrorCode, RawAttribute};
use seatcrane_stun::types::message::*;
use seatcrane_stun::types::prelude::*;

const REQUEST: &str = "00010058 2112a442 b7e7a701 bc34d686 fa87dfae 80220010 5354554e 20746573
    7420636c 69656e74 00240004 6e0001ff 80290008 932ff9b1 51263b36 00060009 6576746a 3a683676
    59202020 00080014 9aeaa70c bfd8cb56 781ef2b5 b2d3f249 c1b571a2 80280004 e57a3bcf";
const RESPONSE: &str = "0101003c 2112a442 b7e7a701 bc34d686 fa87dfae 8022000b 74657374 20766563
    746f7220 00200008 0001a147 e112a643 00080014 2b91f599 fd9e90c3 8c7489f9 2af9ba53 f06be7d7
    80280004 c07d4c96";

fn bytes(digits: &str) -> Vec<u8> {
    let digits: Vec<u32> = digits.chars().filter_map(|c| c.to_digit(16)).collect();
    digits
        .chunks(2)
        .map(|pair| (pair[0] * 16 + pair[1]) as u8)
        .collect()
}

#[test]
fn checks_the_samples() {
    assert_eq!(crc32(b"123456789"), 0xCBF4_3926);
    for sample in [bytes(REQUEST), bytes(RESPONSE)] {
        let message = Message::from_bytes(&sample).unwrap();
        assert_eq!(check_fingerprint(&message), Fingerprint::Right);
        assert!(is_stun(&sample));
        for bit in 0..8 * sample.len() {
            let mut changed = sample.clone();
            changed[bit / 8] ^= 1 << (bit % 8);
            if let Ok(message) = Message::from_bytes(&changed) {
                assert_ne!(check_fingerprint(&message), Fingerprint::Right, "bit {bit}");
            }
        }
    }
}

#[test]
fn writes_it_behind_a_digest() {
    let id = TransactionId::from(*b"any 12 bytes");
    let mut request = Message::builder_request_with_id(BINDING, id, MessageWriteVec::new());
    let key = b"password";
    request
        .add_message_integrity_with_key(key, IntegrityAlgorithm::Sha256)
        .unwrap();
    let written = finish_with_fingerprint(request).unwrap();
    let message = Message::from_bytes(&written).unwrap();
    assert_eq!(check_fingerprint(&message), Fingerprint::Right);
    assert_eq!(
        message.validate_integrity_with_key(key),
        Ok(IntegrityAlgorithm::Sha256)
    );
}

#[test]
fn tells_what_is_not_known() {
    let sample = bytes(REQUEST);
    let message = Message::from_bytes(&sample).unwrap();
    let known = [AttributeType::USERNAME];
    let unknown: Vec<u16> = unknown_types(&message, &known).map(|kind| kind.0).collect();
    assert_eq!(unknown, [0x0024, 0x0008]);
    for (known, value) in [
        (&known[..], &[0, 0x24, 0, 8][..]),
        (
            &[AttributeType::USERNAME, AttributeType::MESSAGE_INTEGRITY],
            &[0, 0x24],
        ),
    ] {
        let mut answer = Message::builder_error(&message, MessageWriteVec::new());
        answer
            .add_attribute(&unknown_attributes(&message, known))
            .unwrap();
        let answer = answer.finish();
        let answer = Message::from_bytes(&answer).unwrap();
        let attribute = answer.raw_attribute(AttributeType(0x000A)).unwrap();
        assert_eq!(attribute.value(), value);
    }
}

#[test]
fn cuts_a_stream() {
    let mut stream = bytes(REQUEST);
    let first = stream.len();
    stream.extend(bytes(RESPONSE));
    for there in 0..first {
        let Frame::Need(more) = next_frame(&stream[..there]) else {
            panic!("{there} bytes are no message");
        };
        assert!(more > 0 && there + more <= first);
    }
    assert_eq!(next_frame(&stream), Frame::Message(first));
    assert_eq!(
        next_frame(&stream[first..]),
        Frame::Message(stream.len() - first)
    );
    assert_eq!(next_frame(&[0x80; 20]), Frame::NotStun);
    assert_eq!(next_turn_frame(&stream), Frame::Message(first));
    assert_eq!(
        next_turn_frame(&[0x40, 0, 0, 5, 1, 2, 3, 4, 5]),
        Frame::Need(3)
    );
    assert_eq!(next_turn_frame(&[0x40, 0, 0, 0, 0x40]), Frame::Message(4));
    assert_eq!(next_turn_frame(&[0x7F, 0xFF, 0, 0]), Frame::Message(4));
    assert_eq!(next_turn_frame(&[]), Frame::Need(4));
    assert_eq!(next_turn_frame(&[0x00]), Frame::Need(19));
    assert_eq!(next_turn_frame(&[0x80]), Frame::NotStun);
    assert_eq!(next_packet_frame(&[0]), Frame::Need(1));
    assert_eq!(next_packet_frame(&[0, 2, 7, 7, 7]), Frame::Message(4));
}

/// RFC 8489, section 5: the first two bits and the last two of the length are zero, and the cookie
/// is fixed.
#[test]
fn refuses_a_stream_at_the_byte_that_decides() {
    let streams: [(&[u8], usize); 8] = [
        (b"GET / HTTP/1.0\r\n\r\n", 1),
        (b"\x80", 1),
        (b"\xFF\xFF\xFF", 1),
        (b"\x16\x03\x01\x02\x00\x01\x00\x01", 4),
        (b"\x00\x01\x00\x00\x20", 5),
        (b"\x00\x01\x00\x00\x21\x13", 6),
        (b"\x00\x01\x00\x00\x21\x12\xA5", 7),
        (b"\x00\x01\x00\x00\x21\x12\xA4\x43 any 12 by", 8),
    ];
    for (stream, decides) in streams {
        for there in 0..=stream.len() {
            let frame = next_frame(&stream[..there]);
            if there < decides {
                assert_eq!(frame, Frame::Need(20 - there), "{stream:?}");
            } else {
                assert_eq!(frame, Frame::NotStun, "{stream:?}");
            }
        }
    }
}

/// Checks that an attribute has this type, is written as this value, and is parsed from this value.
/// Returns the parsed attribute.
#[track_caller]
fn stands<'a, A>(attribute: A, kind: u16, value: &'a [u8]) -> A
where
    A: AttributeFromRaw<'a> + AttributeStaticType + PartialEq + std::fmt::Debug,
{
    assert_eq!(A::TYPE, AttributeType(kind));
    let id = TransactionId::from([0; 12]);
    let mut request = Message::builder_request_with_id(BINDING, id, MessageWriteVec::new());
    request.add_attribute(&attribute).unwrap();
    let bytes = request.finish();
    let message = Message::from_bytes(&bytes).unwrap();
    assert_eq!(message.raw_attribute(A::TYPE).unwrap().value(), value);
    let read = A::from_raw(RawAttribute::new(A::TYPE, value)).unwrap();
    assert_eq!(read, attribute);
    let other = RawAttribute::new(AttributeType(kind ^ 1), value);
    assert_eq!(
        A::from_raw(other).unwrap_err(),
        StunParseError::InvalidAttributeData
    );
    read
}

/// Checks that none of these values can be parsed.
#[track_caller]
fn refuses<'a, A: AttributeFromRaw<'a> + AttributeStaticType>(values: &[&'a [u8]]) {
    for value in values {
        let error = A::from_raw(RawAttribute::new(A::TYPE, value)).err();
        assert_eq!(
            error,
            Some(StunParseError::InvalidAttributeData),
            "{value:?}"
        );
    }
}

#[test]
fn reads_what_ice_writes() {
    let sample = bytes(REQUEST);
    let message = Message::from_bytes(&sample).unwrap();
    assert_eq!(
        message.attribute::<Priority>().unwrap().priority(),
        0x6e00_01ff
    );
    let controlled = message.attribute::<IceControlled>().unwrap();
    assert_eq!(controlled.tie_breaker(), 0x932f_f9b1_5126_3b36);
    assert_eq!(
        message.attribute::<Software>().unwrap().software(),
        "STUN test client"
    );
    let missing = StunParseError::MissingAttribute(AttributeType(0x0025));
    assert_eq!(message.attribute::<UseCandidate>(), Err(missing));

    stands(Priority::new(0x0102_0304), 0x0024, &[1, 2, 3, 4]);
    stands(UseCandidate, 0x0025, &[]);
    stands(IceControlled::new(1), 0x8029, &[0, 0, 0, 0, 0, 0, 0, 1]);
    stands(
        IceControlling::new(1 << 56),
        0x802A,
        &[1, 0, 0, 0, 0, 0, 0, 0],
    );
    refuses::<Priority>(&[&[], &[0; 3], &[0; 5]]);
    refuses::<UseCandidate>(&[&[0]]);
    refuses::<IceControlled>(&[&[], &[0; 4], &[0; 9]]);
    refuses::<IceControlling>(&[&[0; 7]]);
}

#[test]
fn reads_what_turn_writes() {
    for (method, number) in [
        (TurnMethod::Allocate, 3),
        (TurnMethod::Refresh, 4),
        (TurnMethod::Send, 6),
        (TurnMethod::Data, 7),
        (TurnMethod::CreatePermission, 8),
        (TurnMethod::ChannelBind, 9),
        (TurnMethod::Connect, 10),
        (TurnMethod::ConnectionBind, 11),
        (TurnMethod::ConnectionAttempt, 12),
    ] {
        assert_eq!((method.number(), method.method().value()), (number, number));
        assert_eq!(TurnMethod::of(method.method()), Some(method));
    }
    assert_eq!(TurnMethod::of(BINDING), None);
    assert!(TurnMethod::ALL.is_sorted_by_key(|method| method.number()));

    let channel = ChannelNumber::new(0x4FFF).unwrap();
    assert_eq!(
        stands(channel, 0x000C, &[0x4F, 0xFF, 0, 0]).channel(),
        0x4FFF
    );
    for number in [0, 0x3FFF, 0x5000, 0xFFFF] {
        assert_eq!(ChannelNumber::new(number), Err(StunWriteError::NotAllowed));
    }
    refuses::<ChannelNumber>(&[
        &[0x40, 0],
        &[0x3F, 0xFF, 0, 0],
        &[0x80, 0, 0, 0],
        &[0x40; 5],
    ]);
    // RFC 5766, section 11, allowed 0x4000 to 0x7FFF.
    for (value, number) in [
        ([0x40, 1, 7, 7], 0x4001),
        ([0x50, 0, 0, 0], 0x5000),
        ([0x7F, 0xFF, 0, 0], 0x7FFF),
    ] {
        let raw = RawAttribute::new(ChannelNumber::TYPE, &value);
        assert_eq!(ChannelNumber::from_raw(raw).unwrap().channel(), number);
    }

    assert_eq!(
        stands(Lifetime::new(600), 0x000D, &[0, 0, 2, 88]).seconds(),
        600
    );
    refuses::<Lifetime>(&[&[0; 2], &[0; 8]]);
    assert_eq!(
        stands(Data::new(b"abcde"), 0x0013, b"abcde").data(),
        b"abcde"
    );
    let udp = RequestedTransport::new(RequestedTransport::UDP);
    assert_eq!(stands(udp, 0x0019, &[17, 0, 0, 0]).protocol(), 17);
    refuses::<RequestedTransport>(&[&[17], &[17, 0, 0, 0, 0]]);
    stands(DontFragment, 0x001A, &[]);
    assert!(stands(EvenPort::new(true), 0x0018, &[0x80]).requested());
    assert!(!stands(EvenPort::new(false), 0x0018, &[0]).requested());
    refuses::<EvenPort>(&[&[], &[0x80, 0]]);
    let token = *b"reserved";
    assert_eq!(
        stands(ReservationToken::new(token), 0x0022, b"reserved").token(),
        &token
    );
    refuses::<ReservationToken>(&[b"reserve", b"reserved.."]);
    for (family, number) in [(AddressFamily::Ipv4, 1), (AddressFamily::Ipv6, 2)] {
        let value = [number, 0, 0, 0];
        let raw = RawAttribute::new(RequestedAddressFamily::TYPE, &value);
        assert_eq!(
            RequestedAddressFamily::from_raw(raw).unwrap().family(),
            family
        );
        assert_eq!(AddressFamily::from_number(number), Some(family));
    }
    stands(
        RequestedAddressFamily::new(AddressFamily::Ipv6),
        0x0017,
        &[2, 0, 0, 0],
    );
    refuses::<RequestedAddressFamily>(&[&[1], &[0; 4], &[3, 0, 0, 0]]);
    let second = AdditionalAddressFamily::new(AddressFamily::Ipv6);
    assert_eq!(
        stands(second, 0x8000, &[2, 0, 0, 0]).family(),
        AddressFamily::Ipv6
    );
    refuses::<AdditionalAddressFamily>(&[&[2], &[0; 4], &[3, 0, 0, 0]]);
}

#[test]
fn reads_why_an_address_was_not_allocated() {
    let full = AddressErrorCode::new(AddressFamily::Ipv6, 508, "full!").unwrap();
    let full = stands(full, 0x8001, b"\x02\0\x05\x08full!");
    assert_eq!((full.code(), full.reason()), (508, "full!"));
    assert_eq!(full.family(), AddressFamily::Ipv6);
    // The 13 bits after the family are ignored.
    let raw = RawAttribute::new(AddressErrorCode::TYPE, &[1, 0xFF, 0xFC, 40]);
    let lacks = AddressErrorCode::new(AddressFamily::Ipv4, 440, "");
    assert_eq!(AddressErrorCode::from_raw(raw).ok(), lacks.ok());
    let long = "x".repeat(764);
    let refused = |code| AddressErrorCode::new(AddressFamily::Ipv4, code, &long).err();
    assert_eq!(refused(299), Some(StunWriteError::NotAllowed));
    assert_eq!(refused(700), Some(StunWriteError::NotAllowed));
    assert_eq!(refused(440), Some(StunWriteError::TooLarge));
    refuses::<AddressErrorCode>(&[&[], &[1, 0, 4], &[0, 0, 4, 40], &[3, 0, 4, 40]]);
    refuses::<AddressErrorCode>(&[&[1, 0, 2, 40], &[1, 0, 7, 40], &[1, 0, 4, 100]]);
    refuses::<AddressErrorCode>(&[&[1, 0, 4, 40, 0xFF]]);
}

#[test]
fn reads_what_icmp_reported() {
    let icmp = Icmp::new(3, 4, 1280).unwrap();
    let icmp = stands(icmp, 0x8004, &[0, 0, 6, 4, 0, 0, 5, 0]);
    assert_eq!((icmp.icmp_type(), icmp.code()), (3, 4));
    assert_eq!(icmp.error_data(), 1280);
    // The type has 7 bits and the code has 9. The first 16 bits are ignored.
    let most = Icmp::new(127, 511, u32::MAX);
    let raw = RawAttribute::new(Icmp::TYPE, &[0xFF; 8]);
    assert_eq!(Icmp::from_raw(raw).ok(), most.ok());
    assert_eq!(Icmp::new(128, 0, 0), Err(StunWriteError::NotAllowed));
    assert_eq!(Icmp::new(0, 512, 0), Err(StunWriteError::NotAllowed));
    refuses::<Icmp>(&[&[], &[0; 4], &[0; 7], &[0; 12]]);
}

#[test]
fn reads_addresses_and_texts() {
    let ipv4 = "192.0.2.1:32853".parse().unwrap();
    let ipv6 = "[2001:db8:1234:5678:11:2233:4455:6677]:32853"
        .parse()
        .unwrap();
    let plain = [0, 1, 0x80, 0x55, 192, 0, 2, 1];
    assert_eq!(
        stands(MappedAddress::new(ipv4), 0x0001, &plain).addr(),
        ipv4
    );
    assert_eq!(
        stands(AlternateServer::new(ipv4), 0x8023, &plain).server(),
        ipv4
    );
    let mut longer = vec![0, 2, 0x80, 0x55];
    longer.extend(bytes("20010db8 12345678 00112233 44556677"));
    assert_eq!(
        stands(MappedAddress::new(ipv6), 0x0001, &longer).addr(),
        ipv6
    );
    refuses::<MappedAddress>(&[&[], &plain[..7], &longer[..8], &[0, 3, 0, 0, 1, 2, 3, 4]]);

    // The values of RFC 5769, sections 2.2 and 2.3, with the transaction ID of its samples.
    let id = TransactionId::from(<[u8; 12]>::try_from(bytes("b7e7a701bc34d686fa87dfae")).unwrap());
    let hidden = bytes("0001a147 e112a643");
    assert_eq!(
        stands(XorPeerAddress::new(ipv4, id), 0x0012, &hidden).addr(id),
        ipv4
    );
    let hidden = bytes("0002a147 0113a9fa a5d3f179 bc25f4b5 bed2b9d9");
    assert_eq!(
        stands(XorRelayedAddress::new(ipv6, id), 0x0016, &hidden).addr(id),
        ipv6
    );
    refuses::<XorPeerAddress>(&[&[], &hidden[..8]]);

    let longest = "a".repeat(763);
    stands(Software::new(&longest).unwrap(), 0x8022, longest.as_bytes());
    let error = Software::new(&"a".repeat(764)).unwrap_err();
    assert_eq!(error, StunWriteError::TooLarge);
    stands(
        AlternateDomain::new("example.org").unwrap(),
        0x8003,
        b"example.org",
    );
    let error = AlternateDomain::new(&longest[..256]).unwrap_err();
    assert_eq!(error, StunWriteError::TooLarge);
    refuses::<Software>(&[&[0xFF], &[b'a'; 764]]);
    refuses::<AlternateDomain>(&[&[b'a'; 256]]);
}

/// A list keeps algorithms that the crate does not know. This list has MD5, and two algorithms
/// without a name, the last of which has parameters and padding.
#[test]
fn keeps_algorithms_that_are_not_known() {
    const VALUE: [u8; 16] = [0, 1, 0, 0, 0, 3, 0, 0, 0, 9, 0, 3, 0xAA, 0xBB, 0xCC, 0];
    let entries = [(1, &[][..]), (3, &[]), (9, &[0xAA, 0xBB, 0xCC])];
    let listed =
        entries.map(|(number, parameters)| AlgorithmEntry::new(number, parameters).unwrap());
    let id = TransactionId::from([0; 12]);
    let mut request = Message::builder_request_with_id(BINDING, id, MessageWriteVec::new());
    request.add_attribute(&AlgorithmList::new(&listed)).unwrap();
    let bytes = request.finish();
    let message = Message::from_bytes(&bytes).unwrap();
    let raw = message
        .raw_attribute(AttributeType::PASSWORD_ALGORITHMS)
        .unwrap();
    assert_eq!(raw.value(), VALUE);
    let mut padded = VALUE;
    padded[15] = 0xFF; // padding is ignored
    for value in [VALUE, padded] {
        let raw = RawAttribute::new(AlgorithmList::TYPE, &value);
        let read = AlgorithmList::from_raw(raw).unwrap();
        assert!(!read.is_empty());
        let read = read
            .iter()
            .map(|entry| (entry.number(), entry.parameters()));
        assert_eq!(read.collect::<Vec<_>>(), entries);
    }
    let empty = RawAttribute::new(AlgorithmList::TYPE, &[]);
    assert!(AlgorithmList::from_raw(empty).unwrap().is_empty());
    refuses::<AlgorithmList>(&[&[0], &VALUE[..6], &VALUE[..12], &VALUE[..15]]);
    let long = vec![0; 65536];
    assert!(AlgorithmEntry::new(9, &long[..65535]).is_ok());
    let error = AlgorithmEntry::new(9, &long).err();
    assert_eq!(error, Some(StunWriteError::TooLarge));
}

#[test]
fn reads_what_discovery_writes() {
    for (ip, port, flags) in [
        (false, false, 0),
        (false, true, 2),
        (true, false, 4),
        (true, true, 6),
    ] {
        let value = [0, 0, 0, flags];
        let raw = RawAttribute::new(ChangeRequest::TYPE, &value);
        let read = ChangeRequest::from_raw(raw).unwrap();
        assert_eq!((read.change_ip(), read.change_port()), (ip, port));
    }
    let both = stands(ChangeRequest::new(true, true), 0x0003, &[0, 0, 0, 6]);
    assert!(both.change_ip() && both.change_port());
    // The other 30 bits are ignored.
    let raw = RawAttribute::new(ChangeRequest::TYPE, &[0xFF, 0xFF, 0xFF, 0xF9]);
    assert_eq!(
        ChangeRequest::from_raw(raw).unwrap(),
        ChangeRequest::new(false, false)
    );
    refuses::<ChangeRequest>(&[&[], &[0; 3], &[0; 8]]);

    let port = stands(ResponsePort::new(0x1234), 0x0027, &[0x12, 0x34]);
    assert_eq!(port.port(), 0x1234);
    let raw = RawAttribute::new(ResponsePort::TYPE, &[0x12, 0x34, 7, 7]);
    assert_eq!(ResponsePort::from_raw(raw).unwrap().port(), 0x1234);
    refuses::<ResponsePort>(&[&[], &[0; 1], &[0; 3], &[0; 5]]);

    let addr = "192.0.2.1:32853".parse().unwrap();
    let value = [0, 1, 0x80, 0x55, 192, 0, 2, 1];
    assert_eq!(
        stands(ResponseOrigin::new(addr), 0x802B, &value).addr(),
        addr
    );
    assert_eq!(stands(OtherAddress::new(addr), 0x802C, &value).addr(), addr);
    refuses::<OtherAddress>(&[&[], &value[..7]]);
    assert_eq!(
        stands(Padding::new(&[1, 2, 3]), 0x0026, &[1, 2, 3]).padding(),
        &[1, 2, 3]
    );
}

#[test]
fn reads_the_transmissions_of_a_transaction() {
    let counter = TransactionTransmitCounter::new(7, 255);
    let counter = stands(counter, 0x8025, &[0, 0, 7, 255]);
    assert_eq!((counter.requests(), counter.responses()), (7, 255));
    // The first 16 bits are ignored.
    let raw = RawAttribute::new(TransactionTransmitCounter::TYPE, &[0xFF, 0xFF, 7, 255]);
    assert_eq!(TransactionTransmitCounter::from_raw(raw), Ok(counter));
    refuses::<TransactionTransmitCounter>(&[&[], &[7, 255], &[0; 3], &[0; 8]]);
}

/// A client asks for a long response (RFC 5780, section 7.6), and PADDING must be understood.
#[test]
fn a_client_understands_padding() {
    let server = "192.0.2.1:3478".parse().unwrap();
    let mut client = Client::builder(server).build([7; 32]).unwrap();
    let body = Body::new().add(&Padding::new(&[0; 1500])).unwrap();
    client.request(BINDING, body, Instant::ZERO).unwrap();
    let Output::Transmit { bytes: request, .. } = client.poll(Instant::ZERO) else {
        panic!("a request is sent");
    };
    let request = Message::from_bytes(request).unwrap();
    let padding = request.attribute::<Padding>().unwrap();
    let mut success = Message::builder_success(&request, MessageWriteVec::new());
    success.add_attribute(&padding).unwrap();
    let success = success.finish();
    let _ = client.receive(&success, server, Instant::ZERO);
    let ended = client.poll(Instant::ZERO);
    assert!(matches!(ended, Output::Ended(_, Ok(_))), "{ended:?}");
}

/// RFC 6062, section 6.2.1; RFC 8016, section 3.3; RFC 7635, section 6.
#[test]
fn reads_what_extensions_of_turn_write() {
    let id = stands(ConnectionId::new(0x0102_0304), 0x002A, &[1, 2, 3, 4]);
    assert_eq!(id.connection(), 0x0102_0304);
    refuses::<ConnectionId>(&[&[], &[0; 3], &[0; 5]]);
    assert_eq!(stands(MobilityTicket::new(b""), 0x8030, b"").ticket(), b"");
    assert_eq!(
        stands(AccessToken::new(b"token"), 0x001B, b"token").token(),
        b"token"
    );
    let name = ThirdPartyAuthorization::new("turn.example.org").unwrap();
    let name = stands(name, 0x802E, b"turn.example.org");
    assert_eq!(name.server_name(), "turn.example.org");
    refuses::<ThirdPartyAuthorization>(&[&[0xFF]]);
}

#[test]
fn nothing_is_fingerprinted_before_it_is_begun() {
    assert_eq!(
        finish_with_fingerprint(MessageWriteVec::new()),
        Err(StunWriteError::NotAllowed)
    );
}

#[test]
fn answers_a_request_by_420() {
    let sample = bytes(REQUEST);
    let request = Message::from_bytes(&sample).unwrap();
    let known = [AttributeType::USERNAME, AttributeType::MESSAGE_INTEGRITY];
    assert!(has_unknown(&request, &known));
    let answer = answer_unknown(&request, &known, MessageWriteVec::new()).unwrap();
    let answer = answer.unwrap().finish();
    let expected = "01110024 2112a442 b7e7a701 bc34d686 fa87dfae
        00090015 00000414 556e6b6e 6f776e20 41747472 69627574 65000000 000a0002 00240000";
    assert_eq!(answer[..], bytes(expected));
    let answer = Message::from_bytes(&answer).unwrap();
    let unknown = answer.attribute::<UnknownAttributes>().unwrap();
    assert_eq!((unknown.len(), unknown.is_empty()), (1, false));
    assert_eq!(
        (unknown.get(0), unknown.get(1)),
        (Some(Priority::TYPE), None)
    );
    refuses::<UnknownAttributes>(&[&[0], &[0, 1, 2]]);

    let all = [known[0], known[1], Priority::TYPE];
    assert!(!has_unknown(&request, &all));
    assert!(
        answer_unknown(&request, &all, MessageWriteVec::new())
            .unwrap()
            .is_none()
    );
    let mut short = [0; 55];
    let writer = MessageWriteMutSlice::new(&mut short);
    assert_eq!(
        answer_unknown(&request, &known, writer).err(),
        Some(StunWriteError::TooSmall)
    );
    let mut enough = [0; 56];
    let writer = MessageWriteMutSlice::new(&mut enough);
    assert!(answer_unknown(&request, &known, writer).unwrap().is_some());

    // The call fails for a writer that has bytes.
    let begun = Message::builder_error(&request, MessageWriteVec::new());
    assert_eq!(
        answer_unknown(&request, &known, begun),
        Err(StunWriteError::NotAllowed)
    );

    // A message that is not a request is not answered, and a response that is not understood ends
    // its request.
    assert!(
        answer_unknown(&answer, &[], MessageWriteVec::new())
            .unwrap()
            .is_none()
    );
    assert!(ends_failed(&answer, &[]));
    assert!(!ends_failed(
        &answer,
        &[AttributeType::ERROR_CODE, AttributeType(0x000A)]
    ));
    let bare = Message::builder_error(&request, MessageWriteVec::new()).finish();
    assert!(ends_failed(&Message::from_bytes(&bare).unwrap(), &[]));
    let mut coded = Message::builder_error(&request, MessageWriteVec::new());
    coded
        .add_attribute(&ErrorCode::new(487, "").unwrap())
        .unwrap();
    let coded = coded.finish();
    assert!(!ends_failed(
        &Message::from_bytes(&coded).unwrap(),
        &[AttributeType::ERROR_CODE]
    ));
    let success = bytes(RESPONSE);
    let success = Message::from_bytes(&success).unwrap();
    assert!(ends_failed(&success, &[AttributeType::MESSAGE_INTEGRITY]));
    let known = [
        AttributeType::MESSAGE_INTEGRITY,
        AttributeType::XOR_MAPPED_ADDRESS,
    ];
    assert!(!ends_failed(&success, &known));
}
