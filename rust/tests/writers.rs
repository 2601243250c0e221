//! Tests of writers: a message that is written a second time, into a slice, and into a writer that
//! a program defines.
use IntegrityAlgorithm::{Sha1, Sha256};
use seatcrane_stun::auth::*;
use seatcrane_stun::extra::attribute::XorPeerAddress;
use seatcrane_stun::types::attribute::*;
use seatcrane_stun::types::data::OwnedBytes;
use seatcrane_stun::types::message::*;
use seatcrane_stun::types::prelude::*;

mod messages;
use messages::{client_addr, id, request, success};

#[test]
fn a_message_is_written_again() {
    fn again<O: OwnedBytes>(msg: &dyn MessageWrite<Output = O>) -> MessageWriteVec {
        let msg = Message::from_bytes(msg.data()).unwrap();
        let mut copy =
            Message::builder(msg.get_type(), msg.transaction_id(), MessageWriteVec::new());
        for (_offset, attr) in msg.iter_attributes() {
            copy.add_attribute(&attr).unwrap();
        }
        copy
    }
    let asked = request(1);
    let response = success(
        &Message::from_bytes(&asked).unwrap(),
        client_addr(),
        MessageWriteVec::new(),
    );
    assert_eq!(again(&response), response);
}

#[test]
fn bytes_are_appended_that_were_not_reserved() {
    let attribute = Software::new("longer").unwrap();
    let mut part = MessageWriteVec::new();
    attribute.write_into(&mut part);
    assert_eq!(part[..], b"\x80\x22\0\x06longer\0\0"[..]);
    assert_eq!((part.len(), part.room()), (12, 65552 - 12));

    // More bytes are appended than were reserved.
    part.reserve(2).unwrap();
    part.append(b"three");
    assert_eq!(part.reserve(65552 - 17), Ok(()));
    assert_eq!(part.reserve(65552 - 16), Err(StunWriteError::TooSmall));
    assert_eq!(part.finish()[12..], b"three"[..]);
}

#[test]
#[should_panic(expected = "room for what is appended")]
fn no_more_is_appended_than_a_message_holds() {
    MessageWriteVec::new().append(&[0; 65553]);
}

#[test]
fn a_slice_is_written_to() {
    let asked = request(1);
    let asked = Message::from_bytes(&asked).unwrap();
    let grown = success(&asked, client_addr(), MessageWriteVec::new()).finish();
    let mut room = [0xee; 40];
    let mut response = success(&asked, client_addr(), MessageWriteMutSlice::new(&mut room));
    let key = ShortTermCredentials::new("password".to_string());
    assert_eq!(
        response.add_message_integrity(&key.into(), Sha1),
        Err(StunWriteError::TooSmall)
    );
    assert_eq!(
        response
            .add_attribute(&Software::new("long").unwrap())
            .map(|()| response.len()),
        Ok(40)
    );
    let written = response.finish();
    assert_eq!(written.len(), 40);
    assert_eq!(
        (&written[4..32], &written[32..]),
        (&grown[4..], &b"\x80\x22\0\x04long"[..])
    );
    assert!(
        Message::from_bytes(written)
            .unwrap()
            .attribute::<Software>()
            .is_ok()
    );

    let mut room = [0xee; 19];
    let binding = MessageType::from_class_method(MessageClass::Request, BINDING);
    let refused = Message::try_builder(binding, id(1), MessageWriteMutSlice::new(&mut room));
    assert_eq!(refused.unwrap_err(), StunWriteError::TooSmall);
    assert_eq!(room, [0xee; 19]);
    let mut room = [0; 100];
    let mut auth = ShortTermAuth::new();
    auth.set_credentials(ShortTermCredentials::new("password".to_string()), Sha1);
    let msg =
        Message::builder_request_with_id(BINDING, id(1), MessageWriteMutSlice::new(&mut room));
    let signed = auth.sign_outgoing_message(msg).unwrap();
    assert_eq!(
        &signed[..],
        &auth.sign_outgoing_message(request(1)).unwrap()[..]
    );
}

/// A writer that a program defines: the message comes after its length in two bytes, as in other
/// protocols over TCP.
#[derive(Default)]
struct Framed {
    message: MessageWriteVec,
}

impl MessageWrite for Framed {
    type Output = Vec<u8>;

    fn data(&self) -> &[u8] {
        self.message.data()
    }

    fn room(&self) -> usize {
        self.message.room()
    }

    fn reserve(&mut self, additional: usize) -> Result<(), StunWriteError> {
        self.message.reserve(additional)
    }

    fn append(&mut self, tail: &[u8]) {
        self.message.append(tail);
    }

    fn set_length(&mut self, message_length: u16) {
        self.message.set_length(message_length);
    }

    fn finish(self) -> Vec<u8> {
        [
            &(self.message.len() as u16).to_be_bytes(),
            &self.message[..],
        ]
        .concat()
    }
}

#[test]
fn a_program_has_writers_of_its_own() {
    let asked = request(1);
    let asked = Message::from_bytes(&asked).unwrap();
    let plain = success(&asked, client_addr(), MessageWriteVec::new()).finish();
    let framed = success(&asked, client_addr(), Framed::default()).finish();
    assert_eq!((&framed[..2], &framed[2..]), (&[0, 32][..], &plain[..]));
}

#[test]
fn a_message_is_begun_in_an_empty_writer() {
    let refused = Message::try_builder(request(1).get_type(), id(2), request(1));
    assert_eq!(refused, Err(StunWriteError::NotAllowed));
}

#[test]
fn a_message_takes_an_attribute_of_each_type_once_until_it_is_signed() {
    let mut msg = request(1);
    msg.add_attribute(&Username::new("user").unwrap()).unwrap();
    assert!(msg.has_attribute(Username::TYPE) && !msg.has_attribute(Realm::TYPE));
    let before = msg.clone();
    assert_eq!(
        msg.add_attribute(&Username::new("other").unwrap()),
        Err(StunWriteError::AttributeExists(Username::TYPE))
    );
    let fingerprint = RawAttribute::new(AttributeType::FINGERPRINT, &[0; 4]);
    assert_eq!(
        msg.add_attribute(&fingerprint),
        Err(StunWriteError::NotAllowed)
    );
    assert_eq!(msg, before);
    let key = long_term_key(Sha1, "user", "realm", "pass");
    msg.add_message_integrity_with_key(&key, Sha1).unwrap();
    assert_eq!(
        msg.add_message_integrity_with_key(&key, Sha256),
        Err(StunWriteError::MessageIntegrityExists)
    );
    assert_eq!(
        msg.add_attribute(&Realm::new("realm").unwrap()),
        Err(StunWriteError::MessageIntegrityExists)
    );
    let msg = Message::from_bytes(&msg).unwrap();
    let digest = msg.attribute::<MessageIntegrity>().unwrap();
    let mut copy = request(1);
    assert_eq!(copy.add_attribute(&digest), Err(StunWriteError::NotAllowed));
    assert_eq!(copy, request(1));
}

#[test]
fn an_attribute_of_a_type_may_be_added_again() {
    let peers = ["192.0.2.7:0", "[2001:db8::8]:0", "192.0.2.7:0"];
    let peers = peers.map(|peer| XorPeerAddress::new(peer.parse().unwrap(), id(1)));
    let mut msg = request(1);
    for peer in &peers {
        msg.add_another_attribute(peer).unwrap();
    }
    // The first attribute of a type is written as `add_attribute` would write it.
    let mut alone = request(1);
    alone.add_attribute(&peers[0]).unwrap();
    assert_eq!(msg[20..32], alone[20..]);
    assert_eq!(
        msg.add_attribute(&peers[0]),
        Err(StunWriteError::AttributeExists(XorPeerAddress::TYPE))
    );

    // The call fails with the other errors of `add_attribute`, in the same order.
    let before = msg.clone();
    let digest = RawAttribute::new(AttributeType::MESSAGE_INTEGRITY, &[0; 20]);
    assert_eq!(
        msg.add_another_attribute(&digest),
        Err(StunWriteError::NotAllowed)
    );
    let large = vec![0; 65532];
    let large = RawAttribute::new(AttributeType::SOFTWARE, &large);
    assert_eq!(
        msg.add_another_attribute(&large),
        Err(StunWriteError::TooLarge)
    );
    assert_eq!(msg, before);
    msg.add_message_integrity_with_key(b"key", Sha1).unwrap();
    let signed = msg.clone();
    for (attribute, error) in [
        (&digest, StunWriteError::NotAllowed),
        (&large, StunWriteError::MessageIntegrityExists),
    ] {
        assert_eq!(msg.add_another_attribute(attribute), Err(error));
    }
    assert_eq!(msg, signed);

    // All attributes are parsed again, in their order.
    let msg = Message::from_bytes(&msg).unwrap();
    assert!(msg.validate_integrity_with_key(b"key").is_ok());
    let read = msg
        .iter_attributes()
        .filter(|(_, attribute)| attribute.get_type() == XorPeerAddress::TYPE)
        .map(|(_, attribute)| XorPeerAddress::from_raw(attribute).unwrap().addr(id(1)));
    assert!(read.eq(peers.iter().map(|peer| peer.addr(id(1)))));

    let mut room = [0; 20 + 12 + 11];
    let mut msg =
        Message::builder_request_with_id(BINDING, id(1), MessageWriteMutSlice::new(&mut room));
    msg.add_another_attribute(&peers[0]).unwrap();
    assert_eq!(
        msg.add_another_attribute(&peers[0]),
        Err(StunWriteError::TooSmall)
    );
    assert_eq!(msg[..], alone[..]);
}

/// An attribute that a program defines, which appends these bytes whatever length it states.
struct Own {
    length: usize,
    padded: usize,
    appended: &'static [u8],
}

impl Attribute for Own {
    fn get_type(&self) -> AttributeType {
        AttributeType::new(0x8123)
    }

    fn length(&self) -> usize {
        self.length
    }

    fn padded_len(&self) -> usize {
        self.padded
    }

    fn write_into<W: MessageWrite>(&self, writer: &mut W) {
        writer.append(self.appended);
    }
}

#[test]
fn an_attribute_of_a_programs_own_never_shifts_what_follows() {
    let add = |length, padded, appended| {
        let own = Own {
            length,
            padded,
            appended,
        };
        let added = |another: bool| {
            std::panic::catch_unwind(|| {
                let mut msg = request(1);
                match another {
                    false => msg.add_attribute(&own).unwrap(),
                    true => msg.add_another_attribute(&own).unwrap(),
                }
                msg.finish()[20..] == *appended
            })
            .ok()
        };
        assert_eq!(added(false), added(true));
        added(false)
    };
    assert_eq!(add(4, 8, b"\x81\x23\0\x04abcd"), Some(true));
    assert_eq!(add(3, 8, b"\x81\x23\0\x03abc\0"), Some(true));
    // The attribute lacks its header, or its padding.
    assert_eq!(add(4, 8, b"abcd"), None);
    assert_eq!(add(3, 8, b"\x81\x23\0\x03abc"), None);
    assert_eq!(add(3, 7, b"\x81\x23\0\x03abc"), None);
    // It appends more bytes, fewer or none, even if it states their number.
    assert_eq!(add(4, 8, b"\x81\x23\0\x04abcdefgh"), None);
    assert_eq!(add(4, 12, b"\x81\x23\0\x04abcdefgh"), None);
    assert_eq!(add(8, 12, b"\x81\x23\0\x04abcd"), None);
    assert_eq!(add(0, 4, b""), None);
    // It appends another length field, or an attribute of another type.
    assert_eq!(add(4, 8, b"\x81\x23\0\x05abcd"), None);
    assert_eq!(add(4, 8, b"\x80\x22\0\x04abcd"), None);
}

#[test]
fn the_proved_writer_takes_bytes_that_were_not_reserved() {
    use seatcrane_stun::replay::proved::{Global, types::message as proved, types::prelude};
    let mut writer = proved::MessageWriteVec::new(Global);
    prelude::MessageWrite::reserve(&mut writer, 2).unwrap();
    prelude::MessageWrite::append(&mut writer, b"three");
    assert_eq!(prelude::MessageWrite::data(&writer), b"three");
    prelude::MessageWrite::reserve(&mut writer, 8).unwrap();
    prelude::MessageWrite::append(&mut writer, b"eight on");
    assert_eq!(prelude::MessageWrite::data(&writer), b"threeeight on");
}
