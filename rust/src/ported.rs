//! Names of the crate `stun-types` that the core does not have: conversions, lists of types, and
//! calls that users of that crate know under another name.

use crate::exported::stun_types::attribute::{
    ATTRIBUTE_HEADER_LENGTH, Attribute, AttributeFromRaw, AttributeStaticType, AttributeType,
    RawAttribute,
};
use crate::exported::stun_types::message::{
    MessageClass, MessageType, Method, StunParseError, StunWriteError,
};
use crate::exported::stun_types::prelude::MessageWrite;
use crate::extra::{Frame, PACKET_HEADER_LENGTH, next_packet_frame};
use crate::message::{Message, MessageHeader};
use crate::transaction::TransactionId;
use crate::write::MessageWriteExt;
use alloc::boxed::Box;
use alloc::vec::Vec;
use core::cmp::Ordering;

/// The magic cookie: bytes 4 to 7 of every message, in network order (RFC 8489, section 5).
///
/// # Examples
///
/// ```
/// use seatcrane_stun::types::message::MAGIC_COOKIE;
///
/// fn has_cookie(datagram: &[u8]) -> bool {
///     datagram.get(4..8) == Some(&MAGIC_COOKIE.to_be_bytes())
/// }
/// # assert!(has_cookie(b"\0\x01\0\0\x21\x12\xa4\x42 any 12 byte"));
/// ```
pub const MAGIC_COOKIE: u32 = 0x2112_A442;

/// The attribute types that a STUN client or server must understand: the types of RFC 8489 that are
/// below 0x8000 (section 18.3). Pass them to calls such as
/// [`answer_unknown`](crate::extra::answer_unknown).
///
/// # Examples
///
/// ```
/// use seatcrane_stun::extra::has_unknown;
/// use seatcrane_stun::types::message::Message;
/// use seatcrane_stun::types::{ICE, STUN};
///
/// // A request with PRIORITY, which is an attribute of ICE.
/// let request = b"\0\x01\0\x08\x21\x12\xa4\x42 any 12 byte\0\x24\0\x04\0\0\0\0";
/// let request = Message::from_bytes(request).unwrap();
/// assert!(has_unknown(&request, STUN));
/// assert!(!has_unknown(&request, ICE));
/// ```
pub const STUN: &[AttributeType] = &[
    AttributeType::MAPPED_ADDRESS,
    AttributeType::USERNAME,
    AttributeType::MESSAGE_INTEGRITY,
    AttributeType::ERROR_CODE,
    AttributeType::UNKNOWN_ATTRIBUTES,
    AttributeType::REALM,
    AttributeType::NONCE,
    AttributeType::MESSAGE_INTEGRITY_SHA256,
    AttributeType::PASSWORD_ALGORITHM,
    AttributeType::USERHASH,
    AttributeType::XOR_MAPPED_ADDRESS,
];

/// The attribute types that an ICE agent must understand: those in [`STUN`], and the types of RFC
/// 8445 that are below 0x8000 (section 16.1).
///
/// # Examples
///
/// ```
/// use seatcrane_stun::types::ICE;
/// use seatcrane_stun::types::attribute::AttributeType;
///
/// assert!(ICE.contains(&AttributeType::PRIORITY));
/// ```
pub const ICE: &[AttributeType] = &joined::<13>(
    STUN,
    &[AttributeType::PRIORITY, AttributeType::USE_CANDIDATE],
);

/// The attribute types that a TURN client or server must understand: those in [`STUN`], and the
/// types of RFC 8656 that are below 0x8000 (section 18).
///
/// A server that passes this list to
/// [`understands`](crate::endpoint::ServerBuilder::understands) promises to do what each attribute
/// asks for, because a request with one of them no longer gets a 420. Three of these attributes ask
/// for something that not every server does:
///
/// - DONT-FRAGMENT (section 18.9): the server sets the DF bit in the datagrams that it relays.
/// - EVEN-PORT (section 18.7): the server chooses a relayed address with an even port, and reserves
///   the next port if the R bit of the attribute is set.
/// - RESERVATION-TOKEN (section 18.10): the server uses the relayed address that it reserved under
///   this token.
///
/// Use [`does_not_understand`](crate::endpoint::ServerBuilder::does_not_understand) to leave out
/// the types that your server does not implement.
///
/// # Examples
///
/// ```
/// use seatcrane_stun::endpoint::ResponseSettings;
/// use seatcrane_stun::types::TURN;
/// use seatcrane_stun::types::attribute::AttributeType;
///
/// assert!(TURN.contains(&AttributeType::LIFETIME));
/// let settings = ResponseSettings::new()
///     .understands(TURN)
///     .does_not_understand(&[AttributeType::DONT_FRAGMENT]);
/// ```
pub const TURN: &[AttributeType] = &joined::<21>(
    STUN,
    &[
        AttributeType::CHANNEL_NUMBER,
        AttributeType::LIFETIME,
        AttributeType::XOR_PEER_ADDRESS,
        AttributeType::DATA,
        AttributeType::XOR_RELAYED_ADDRESS,
        AttributeType::REQUESTED_ADDRESS_FAMILY,
        AttributeType::EVEN_PORT,
        AttributeType::REQUESTED_TRANSPORT,
        AttributeType::DONT_FRAGMENT,
        AttributeType::RESERVATION_TOKEN,
    ],
);

/// Joins two lists into one list of `N` types.
const fn joined<const N: usize>(
    first: &[AttributeType],
    more: &[AttributeType],
) -> [AttributeType; N] {
    assert!(first.len() + more.len() == N);
    let mut all = [AttributeType(0); N];
    let mut i = 0;
    while i < N {
        all[i] = if i < first.len() {
            first[i]
        } else {
            more[i - first.len()]
        };
        i += 1;
    }
    all
}

/// Orders types by their numbers.
impl Ord for AttributeType {
    fn cmp(&self, other: &Self) -> Ordering {
        self.value().cmp(&other.value())
    }
}

impl PartialOrd for AttributeType {
    fn partial_cmp(&self, other: &Self) -> Option<Ordering> {
        Some(self.cmp(other))
    }
}

impl From<u16> for AttributeType {
    fn from(number: u16) -> AttributeType {
        AttributeType::new(number)
    }
}

impl From<AttributeType> for u16 {
    fn from(kind: AttributeType) -> u16 {
        kind.value()
    }
}

/// Takes the low 96 bits of the number. [`from_u128`](TransactionId::from_u128) refuses a number
/// that has more bits.
impl From<u128> for TransactionId {
    fn from(number: u128) -> TransactionId {
        let [_, _, _, _, id @ ..] = number.to_be_bytes();
        TransactionId::from(id)
    }
}

impl From<TransactionId> for u128 {
    fn from(id: TransactionId) -> u128 {
        id.as_u128()
    }
}

/// Returns the bytes of the ID in network order.
impl From<TransactionId> for [u8; 12] {
    fn from(id: TransactionId) -> [u8; 12] {
        let [_, _, _, _, bytes @ ..] = id.as_u128().to_be_bytes();
        bytes
    }
}

impl MessageType {
    /// Parses the type at the start of `bytes`. The bytes after the first two are ignored.
    ///
    /// # Errors
    ///
    /// Returns the first of these errors that applies:
    ///
    /// - [`StunParseError::Truncated`]: there are fewer than 2 bytes.
    /// - [`StunParseError::NotStun`]: the first two bits are not zero.
    ///
    /// # Examples
    ///
    /// ```
    /// use seatcrane_stun::types::message::{BINDING, MessageClass, MessageType};
    ///
    /// let success = MessageType::from_class_method(MessageClass::Success, BINDING);
    /// assert_eq!(success.to_bytes(), [1, 1]);
    /// assert_eq!(MessageType::from_bytes(&[1, 1]), Ok(success));
    /// ```
    pub fn from_bytes(bytes: &[u8]) -> Result<MessageType, StunParseError> {
        let first = bytes.first_chunk().ok_or(StunParseError::Truncated)?;
        MessageType::from_number(u16::from_be_bytes(*first)).ok_or(StunParseError::NotStun)
    }

    /// Returns the two bytes of the type, with which a message starts.
    #[must_use]
    pub fn to_bytes(self) -> [u8; 2] {
        self.value().to_be_bytes()
    }

    /// Returns `true` if the message has this method.
    #[must_use]
    pub fn has_method(self, method: Method) -> bool {
        self.method() == method
    }
}

impl TryFrom<&[u8]> for MessageType {
    type Error = StunParseError;

    fn try_from(bytes: &[u8]) -> Result<MessageType, StunParseError> {
        MessageType::from_bytes(bytes)
    }
}

impl TryFrom<&[u8]> for MessageHeader {
    type Error = StunParseError;

    fn try_from(bytes: &[u8]) -> Result<MessageHeader, StunParseError> {
        MessageHeader::from_bytes(bytes)
    }
}

impl<'a> TryFrom<&'a [u8]> for Message<'a> {
    type Error = StunParseError;

    fn try_from(bytes: &'a [u8]) -> Result<Message<'a>, StunParseError> {
        Message::from_bytes(bytes)
    }
}

impl<'a> RawAttribute<'a> {
    /// Parses the attribute at the start of `bytes`: its header, its value and its padding. The
    /// bytes after them are ignored.
    ///
    /// # Errors
    ///
    /// [`StunParseError::Truncated`]: the attribute or its padding is incomplete.
    ///
    /// # Examples
    ///
    /// ```
    /// use seatcrane_stun::types::attribute::{AttributeType, RawAttribute};
    ///
    /// let raw = RawAttribute::from_bytes(b"\0\x06\0\x05alice\0\0\0")?;
    /// assert_eq!(raw, RawAttribute::new(AttributeType::USERNAME, b"alice"));
    /// assert_eq!(raw.to_bytes(), b"\0\x06\0\x05alice\0\0\0");
    /// # Ok::<(), seatcrane_stun::types::message::StunParseError>(())
    /// ```
    pub fn from_bytes(bytes: &'a [u8]) -> Result<RawAttribute<'a>, StunParseError> {
        RawAttribute::at(bytes, 0).ok_or(StunParseError::Truncated)
    }

    /// Returns the bytes of the attribute: its header, its value, and zeros as padding.
    ///
    /// # Panics
    ///
    /// Panics if the value has more than 65535 bytes, which no attribute can have.
    #[must_use]
    pub fn to_bytes(&self) -> Vec<u8> {
        let length = u16::try_from(self.length()).expect("a value of at most 65535 bytes");
        let mut bytes = Vec::with_capacity(self.padded_len());
        bytes.extend(self.get_type().value().to_be_bytes());
        bytes.extend(length.to_be_bytes());
        bytes.extend(self.value());
        bytes.resize(self.padded_len(), 0);
        bytes
    }
}

impl<'a> TryFrom<&'a [u8]> for RawAttribute<'a> {
    type Error = StunParseError;

    fn try_from(bytes: &'a [u8]) -> Result<RawAttribute<'a>, StunParseError> {
        RawAttribute::from_bytes(bytes)
    }
}

impl<'a> Message<'a> {
    /// Returns the first visible attribute of this type and its offset in the message, or `None` if
    /// no such attribute is visible. The value is not parsed.
    #[must_use]
    pub fn raw_attribute_and_offset(
        &self,
        kind: AttributeType,
    ) -> Option<(usize, RawAttribute<'a>)> {
        let mut attributes = self.iter_attributes();
        attributes.find(|(_, found)| found.get_type() == kind)
    }

    /// Parses the first visible attribute of type `A`, and returns its offset in the message with
    /// it.
    ///
    /// As with [`attribute`](Message::attribute), do not use this call to find out who signed a
    /// message.
    ///
    /// # Errors
    ///
    /// - [`StunParseError::MissingAttribute`]: no attribute of this type is visible.
    /// - [`StunParseError::InvalidAttributeData`]: the first visible attribute of this type is
    ///   malformed.
    ///
    /// # Examples
    ///
    /// ```
    /// use seatcrane_stun::types::attribute::Priority;
    /// use seatcrane_stun::types::message::Message;
    ///
    /// let check = b"\0\x01\0\x08\x21\x12\xa4\x42 any 12 byte\0\x24\0\x04\x6e\0\x01\xff";
    /// let check = Message::from_bytes(check)?;
    /// let (offset, priority) = check.attribute_and_offset::<Priority>()?;
    /// assert_eq!((offset, priority.priority()), (20, 0x6e00_01ff));
    /// # Ok::<(), seatcrane_stun::types::message::StunParseError>(())
    /// ```
    pub fn attribute_and_offset<A>(&self) -> Result<(usize, A), StunParseError>
    where
        A: AttributeFromRaw<'a> + AttributeStaticType,
    {
        let found = self.raw_attribute_and_offset(A::TYPE);
        let (offset, raw) = found.ok_or(StunParseError::MissingAttribute(A::TYPE))?;
        Ok((offset, A::from_raw(raw)?))
    }

    /// Checks the attributes of a request. If the request has to be refused, this call writes the
    /// error response into `writer`, which must be empty.
    ///
    /// The request is refused with the code 420 if it has a visible attribute whose type is below
    /// 0x8000 and not in `supported` (RFC 8489, section 6.3.1). Otherwise it is refused with the
    /// code 400 if `required` contains a type of which no attribute is visible. Returns `None` if
    /// the request need not be refused.
    ///
    /// # Panics
    ///
    /// Panics if the message is not a request, or if [`builder`](Message::builder) would panic.
    ///
    /// # Examples
    ///
    /// ```
    /// use seatcrane_stun::types::attribute::AttributeType;
    /// use seatcrane_stun::types::message::{Message, MessageWriteVec};
    /// use seatcrane_stun::types::{ICE, STUN};
    ///
    /// let check = b"\0\x01\0\x08\x21\x12\xa4\x42 any 12 byte\0\x24\0\x04\0\0\0\0";
    /// let check = Message::from_bytes(check).unwrap();
    /// let code = |supported, required| {
    ///     let writer = MessageWriteVec::new();
    ///     let refusal =
    ///         Message::check_attribute_types(&check, supported, required, writer)?;
    ///     Message::from_bytes(&refusal).unwrap().error_code().ok()
    /// };
    /// assert_eq!(code(STUN, &[]), Some(420));
    /// assert_eq!(code(ICE, &[AttributeType::USERNAME]), Some(400));
    /// assert_eq!(code(ICE, &[AttributeType::PRIORITY]), None);
    /// ```
    pub fn check_attribute_types<W: MessageWrite>(
        message: &Message<'_>,
        supported: &[AttributeType],
        required: &[AttributeType],
        writer: W,
    ) -> Option<W> {
        assert!(message.has_class(MessageClass::Request), "a request");
        let unknown: Vec<AttributeType> = crate::extra::unknown_types(message, supported).collect();
        if !unknown.is_empty() {
            Some(Message::unknown_attributes(message, &unknown, writer))
        } else if required.iter().any(|kind| !message.has_attribute(*kind)) {
            Some(Message::bad_request(message, writer))
        } else {
            None
        }
    }

    /// Starts the error response with the code 420 to a request. The response has ERROR-CODE, and
    /// UNKNOWN-ATTRIBUTES with these types (RFC 8489, section 14.13). You can add attributes to it
    /// and sign it.
    ///
    /// [`answer_unknown`](crate::extra::answer_unknown) finds the types in the request, and does
    /// not panic.
    ///
    /// # Panics
    ///
    /// Panics if the message is not a request, if there are so many types that they do not fit in a
    /// message, or if [`builder`](Message::builder) would panic.
    pub fn unknown_attributes<W: MessageWrite>(
        request: &Message<'_>,
        types: &[AttributeType],
        writer: W,
    ) -> W {
        let value: Vec<u8> = types
            .iter()
            .flat_map(|kind| kind.value().to_be_bytes())
            .collect();
        let mut response = refusal(request, 420, "Unknown Attribute", writer);
        response
            .add_attribute(&RawAttribute::new(
                AttributeType::UNKNOWN_ATTRIBUTES,
                &value,
            ))
            .expect("room for UNKNOWN-ATTRIBUTES");
        response
    }

    /// Starts the error response with the code 400 to a request. You can add attributes to it and
    /// sign it.
    ///
    /// # Panics
    ///
    /// Panics if the message is not a request, or if [`builder`](Message::builder) would panic.
    pub fn bad_request<W: MessageWrite>(request: &Message<'_>, writer: W) -> W {
        refusal(request, 400, "Bad Request", writer)
    }
}

/// Starts an error response with this code.
fn refusal<W: MessageWrite>(request: &Message<'_>, code: u16, reason: &str, writer: W) -> W {
    assert!(request.has_class(MessageClass::Request), "a request");
    let mut response = Message::builder_error(request, writer);
    response
        .add_error_code(code, reason)
        .expect("room for ERROR-CODE");
    response
}

/// An attribute of any type, for lists of different attributes: `Box<dyn DynAttribute>` and `&dyn
/// DynAttribute` are attributes that you can pass to writers. Every [`Attribute`] implements this
/// trait.
///
/// # Examples
///
/// ```
/// use seatcrane_stun::types::attribute::{
///     DynAttribute, Priority, UseCandidate, Username,
/// };
/// use seatcrane_stun::types::message::*;
/// use seatcrane_stun::types::prelude::*;
///
/// # let id = TransactionId::from(*b"any 12 bytes");
/// let attributes: Vec<Box<dyn DynAttribute>> = vec![
///     Box::new(Username::new("their-name:my-name")?),
///     Box::new(Priority::new(1_845_501_695)),
///     Box::new(UseCandidate),
/// ];
/// let mut check =
///     Message::builder_request_with_id(BINDING, id, MessageWriteVec::new());
/// for attribute in &attributes {
///     check.add_attribute(attribute)?;
/// }
/// # assert_eq!(check.len(), 20 + 4 + 20 + 8 + 4);
/// # Ok::<(), StunWriteError>(())
/// ```
pub trait DynAttribute {
    /// Returns the type of the attribute.
    fn dyn_type(&self) -> AttributeType;

    /// Returns the value of the attribute, without padding.
    fn dyn_value(&self) -> Vec<u8>;
}

impl<A: Attribute> DynAttribute for A {
    fn dyn_type(&self) -> AttributeType {
        self.get_type()
    }

    fn dyn_value(&self) -> Vec<u8> {
        let mut writer = crate::write::MessageWriteVec::new();
        // A writer of a `Vec` accepts bytes that were not reserved.
        self.write_into(&mut writer);
        let end = ATTRIBUTE_HEADER_LENGTH + self.length();
        writer.data()[ATTRIBUTE_HEADER_LENGTH..end].to_vec()
    }
}

macro_rules! dyn_attribute {
    ($name:ty) => {
        impl Attribute for $name {
            fn get_type(&self) -> AttributeType {
                (**self).dyn_type()
            }

            fn length(&self) -> usize {
                (**self).dyn_value().len()
            }

            fn write_into<W: MessageWrite>(&self, writer: &mut W) {
                RawAttribute::new((**self).dyn_type(), &(**self).dyn_value()).write_into(writer);
            }
        }
    };
}

dyn_attribute!(Box<dyn DynAttribute + '_>);
dyn_attribute!(&(dyn DynAttribute + '_));

/// The bytes of a TCP connection on which each packet follows 2 bytes that state its length, as ICE
/// sends STUN and other packets over TCP (RFC 4571, section 2; RFC 6544).
///
/// STUN and TURN do not send such lengths over TCP: use [`next_frame`](crate::extra::next_frame)
/// and [`next_turn_frame`](crate::extra::next_turn_frame) there.
///
/// # Examples
///
/// ```
/// use seatcrane_stun::extra::TcpBuffer;
///
/// let mut buffer = TcpBuffer::new();
/// buffer.push_data(b"\0\x05fir");
/// assert_eq!(buffer.pull_data(), None); // two bytes are missing
/// buffer.push_data(b"st\0\x06second");
/// assert_eq!(buffer.pull_data().as_deref(), Some(&b"first"[..]));
/// assert_eq!(buffer.pull_data().as_deref(), Some(&b"second"[..]));
/// assert_eq!(buffer.pull_data(), None);
/// ```
#[derive(Debug, Clone, Default, PartialEq, Eq)]
pub struct TcpBuffer {
    bytes: Vec<u8>,
    /// The number of bytes that were returned. They are removed when more bytes arrive, so that
    /// removing a packet does not move the bytes after it.
    returned: usize,
}

impl TcpBuffer {
    /// Creates an empty buffer. This does not allocate.
    #[must_use]
    pub fn new() -> TcpBuffer {
        TcpBuffer::default()
    }

    /// Appends bytes that arrived on the connection.
    pub fn push_data(&mut self, data: &[u8]) {
        self.bytes.drain(..self.returned);
        self.returned = 0;
        self.bytes.extend(data);
    }

    /// Removes the next packet and returns it without its length, or returns `None` if it is not
    /// complete yet.
    #[must_use = "the data is returned once"]
    pub fn pull_data(&mut self) -> Option<Vec<u8>> {
        let rest = &self.bytes[self.returned..];
        let Frame::Message(length) = next_packet_frame(rest) else {
            return None;
        };
        let packet = rest[PACKET_HEADER_LENGTH..length].to_vec();
        self.returned += length;
        Some(packet)
    }

    /// Returns the bytes that have not been returned as a packet yet.
    #[must_use]
    pub fn into_inner(mut self) -> Vec<u8> {
        self.bytes.drain(..self.returned);
        self.bytes
    }
}

impl From<Vec<u8>> for TcpBuffer {
    fn from(bytes: Vec<u8>) -> TcpBuffer {
        TcpBuffer { bytes, returned: 0 }
    }
}

impl From<TcpBuffer> for Vec<u8> {
    fn from(buffer: TcpBuffer) -> Vec<u8> {
        buffer.into_inner()
    }
}

/// Fails with `AttributeExists` if the message ends with a FINGERPRINT, because nothing may follow
/// a FINGERPRINT.
pub(crate) fn not_after_fingerprint<W: MessageWrite>(writer: &W) -> Result<(), StunWriteError> {
    let message = writer.data();
    let has_its_head = message
        .last_chunk::<8>()
        .is_some_and(|last| last[..4] == [0x80, 0x28, 0, 4]);
    if has_its_head && MessageWriteExt::has_attribute(writer, AttributeType::FINGERPRINT) {
        return Err(StunWriteError::AttributeExists(AttributeType::FINGERPRINT));
    }
    Ok(())
}
