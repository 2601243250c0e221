//! Beyond the core of STUN: FINGERPRINT, unknown attributes, framing over streams, and the
//! attributes of ICE, of TURN and of NAT behavior discovery.
//!
//! - FINGERPRINT: [`finish_with_fingerprint`] and [`check_fingerprint`].
//! - Unknown attributes: [`answer_unknown`] for a server, [`ends_failed`] for a client,
//!   [`has_unknown`] for indications. [`unknown_types`] and [`unknown_attributes`] are for
//!   responses that you build yourself.
//! - Streams: [`next_frame`] finds the next message in the bytes of a TCP connection,
//!   [`next_turn_frame`] the next message or ChannelData, and [`next_packet_frame`] the next packet
//!   with a length in front (RFC 4571), as ICE sends it over TCP. [`is_stun`] recognizes STUN on a
//!   port that other protocols share.
//! - Attributes: [`attribute`]. Methods of TURN, and data on its channels: [`turn`].
//! - Addresses: [`canonical`] returns an address `::ffff:a.b.c.d` as the IPv4 address `a.b.c.d`.
//!
//! # Examples
//!
//! Splitting the bytes that a TCP connection has delivered so far:
//!
//! ```
//! use seatcrane_stun::extra::{Frame, next_frame};
//! use seatcrane_stun::types::message::Message;
//!
//! /// Removes the first message from the front of `bytes`, if it is complete.
//! fn next<'a>(
//!     bytes: &mut &'a [u8],
//! ) -> Result<Option<Message<'a>>, Box<dyn std::error::Error>> {
//!     match next_frame(bytes) {
//!         Frame::Need(_) => Ok(None), // read more first
//!         Frame::NotStun => Err("not STUN: close the connection".into()),
//!         Frame::Message(length) => {
//!             let (message, rest) = bytes.split_at(length);
//!             *bytes = rest;
//!             Ok(Some(Message::from_bytes(message)?))
//!         }
//!     }
//! }
//! # let mut bytes: &[u8] = b"\0\x01\0\0\x21\x12\xa4\x42 any 12 byte\0\x01";
//! # assert!(next(&mut bytes).unwrap().is_some());
//! # assert!(next(&mut bytes).unwrap().is_none());
//! # assert_eq!(bytes.len(), 2);
//! ```

use crate::exported::stun_extra::{fingerprint, framing, unknown};
use crate::exported::stun_types::attribute::AttributeType;
use crate::exported::stun_types::message::StunWriteError;
use crate::exported::stun_types::prelude::MessageWrite;
use crate::message::Message;
use crate::write::with_header;

pub use crate::ported::TcpBuffer;

pub use crate::exported::stun_extra::canonical_address::canonical;
pub use crate::exported::stun_extra::crc32::crc32;
pub use crate::exported::stun_extra::fingerprint::{FINGERPRINT_LENGTH, Fingerprint};
pub use crate::exported::stun_extra::framing::{
    CHANNEL_HEADER_LENGTH, Frame, PACKET_HEADER_LENGTH,
};
pub use crate::exported::stun_extra::unknown::{
    UNKNOWN_ATTRIBUTE, UNKNOWN_ATTRIBUTES, UnknownAttributes, UnknownTypes,
};

/// The methods of TURN (RFC 8656, section 17; RFC 6062), and the data of its channels.
pub mod turn {
    pub use crate::turn::{ChannelData, Packet, TurnMethod, data_indication, send_indication};
}

/// Further attributes: of STUN (RFC 8489, section 14), of ICE (RFC 8445, section 16.1), of TURN
/// (RFC 8656, section 18; RFC 6062; RFC 8016), of third-party authorization (RFC 7635), of NAT
/// behavior discovery (RFC 5780, section 7), and of other RFCs, which their pages name.
///
/// Add them with [`add_attribute`](crate::types::prelude::MessageWriteExt::add_attribute), and
/// parse them with [`Message::attribute`].
///
/// # Examples
///
/// ```
/// use seatcrane_stun::extra::attribute::{Lifetime, RequestedTransport};
/// use seatcrane_stun::extra::turn::TurnMethod;
/// use seatcrane_stun::types::message::{
///     Message, MessageWriteVec, StunWriteError, TransactionId,
/// };
/// use seatcrane_stun::types::prelude::*;
///
/// let id = TransactionId::from(*b"any 12 bytes"); // yours must be unpredictable
/// let allocate = TurnMethod::Allocate.method();
/// let mut request =
///     Message::builder_request_with_id(allocate, id, MessageWriteVec::new());
/// request.add_attribute(&RequestedTransport::new(RequestedTransport::UDP))?;
/// request.add_attribute(&Lifetime::new(600))?;
/// let bytes = request.finish();
///
/// let message = Message::from_bytes(&bytes).unwrap();
/// assert_eq!(TurnMethod::of(message.method()), Some(TurnMethod::Allocate));
/// assert_eq!(message.attribute::<Lifetime>().unwrap().seconds(), 600);
/// # Ok::<(), StunWriteError>(())
/// ```
pub mod attribute {
    pub use crate::attributes::*;
    pub use crate::exported::stun_attributes::{
        AddressFamily, AlgorithmEntries, AlgorithmEntry, AlgorithmList, DOMAIN_LIMIT,
    };
}

/// Finds the message at the front of the bytes of a stream (RFC 8489, section 6.2.2). The first
/// byte must be the first byte of a message.
///
/// [`Frame::Need`] counts the bytes that the header lacks or, after a complete header, those that
/// the message lacks. [`Frame::NotStun`] is returned as soon as the first byte, the fourth byte, or
/// a byte of the magic cookie (the fifth to the eighth byte) shows that the stream is not STUN
/// (section 5).
///
/// # Examples
///
/// ```
/// use seatcrane_stun::extra::{Frame, next_frame};
///
/// // A header that states 8 more bytes, of which 2 have arrived.
/// let bytes = b"\0\x01\0\x08\x21\x12\xa4\x42 any 12 byte\0\x24";
/// assert_eq!(next_frame(bytes), Frame::Need(6));
/// ```
#[must_use]
pub fn next_frame(bytes: &[u8]) -> Frame {
    framing::next_frame(bytes)
}

/// Finds the message or the ChannelData at the front of the bytes of a stream, as TURN sends them
/// over TCP (RFC 8656, sections 12.4 and 12.5). The first byte must be the first byte of a message
/// or of ChannelData.
///
/// [`Frame::Message`] is ChannelData if the first byte is 0x40 to 0x7F, and then it counts the
/// header of 4 bytes and the padding. RFC 8656 uses only channels whose first byte is 0x40 to 0x4F.
/// RFC 5766 uses all channels. [`Frame::NotStun`] is returned as soon as a byte shows that the
/// stream is neither STUN nor ChannelData, as in [`next_frame`].
///
/// # Examples
///
/// ```
/// use seatcrane_stun::extra::{Frame, next_turn_frame};
///
/// // Five bytes of data on the channel 0x4000, and three bytes of padding.
/// let bytes = b"\x40\0\0\x05media\0\0\0";
/// assert_eq!(next_turn_frame(bytes), Frame::Message(12));
/// ```
#[must_use]
pub fn next_turn_frame(bytes: &[u8]) -> Frame {
    framing::next_turn_frame(bytes)
}

/// Finds the packet at the front of the bytes of a stream in which each packet follows 2 bytes that
/// state its length, as ICE sends packets over TCP (RFC 4571, section 2). The first byte must be
/// the first byte of a length.
///
/// [`Frame::Message`] counts these 2 bytes too, and the packet may be empty. The call never returns
/// [`Frame::NotStun`], because a packet may contain any bytes.
///
/// # Examples
///
/// ```
/// use seatcrane_stun::extra::{Frame, next_packet_frame};
///
/// let bytes = b"\0\x05mediamore";
/// // the packet is `bytes[2..7]`
/// assert_eq!(next_packet_frame(bytes), Frame::Message(7));
/// assert_eq!(next_packet_frame(&bytes[7..8]), Frame::Need(1));
/// ```
#[must_use]
pub fn next_packet_frame(bytes: &[u8]) -> Frame {
    framing::next_packet_frame(bytes)
}

/// Returns `true` if a packet on a port that other protocols share is for STUN (RFC 8489, section
/// 7; RFC 7983, section 7): its first byte is 0 to 3, and it begins with a STUN header.
///
/// # Examples
///
/// ```
/// use seatcrane_stun::extra::is_stun;
///
/// assert!(is_stun(b"\0\x01\0\0\x21\x12\xa4\x42 any 12 byte"));
/// assert!(!is_stun(b"\x80 a packet of RTP, with its version"));
/// ```
#[must_use]
pub fn is_stun(packet: &[u8]) -> bool {
    framing::is_stun(packet)
}

/// Returns the registered reason phrase of an error code, or `None` if no phrase is registered for
/// it. The codes are those of STUN (RFC 8489, section 14.8), TURN (RFC 8656, section 19; RFC 6062,
/// section 6.3; RFC 8016) and ICE (RFC 8445, section 16.1).
/// [`Reply::refuse`](crate::endpoint::Reply::refuse) writes this phrase.
///
/// # Examples
///
/// ```
/// use seatcrane_stun::endpoint::{Reply, ReplyWriter};
/// use seatcrane_stun::extra::reason_phrase;
///
/// fn refuse(reply: &Reply, code: u16) -> ReplyWriter {
///     reply.error(code, reason_phrase(code).unwrap_or_default())
/// }
/// assert_eq!(reason_phrase(508), Some("Insufficient Capacity"));
/// assert_eq!(reason_phrase(404), None);
/// ```
#[must_use]
pub fn reason_phrase(code: u16) -> Option<&'static str> {
    Some(match code {
        300 => "Try Alternate",
        400 => "Bad Request",
        401 => "Unauthenticated",
        403 => "Forbidden",
        405 => "Mobility Forbidden",
        420 => "Unknown Attribute",
        437 => "Allocation Mismatch",
        438 => "Stale Nonce",
        440 => "Address Family not Supported",
        441 => "Wrong Credentials",
        442 => "Unsupported Transport Protocol",
        443 => "Peer Address Family Mismatch",
        446 => "Connection Already Exists",
        447 => "Connection Timeout or Failure",
        486 => "Allocation Quota Reached",
        487 => "Role Conflict",
        500 => "Server Error",
        508 => "Insufficient Capacity",
        _ => return None,
    })
}

/// Checks the FINGERPRINT of a message (RFC 8489, section 14.7).
///
/// A FINGERPRINT distinguishes STUN from other protocols on the same port. It does not protect the
/// message, because anybody can compute it.
///
/// # Examples
///
/// ```
/// use seatcrane_stun::extra::{Fingerprint, check_fingerprint, finish_with_fingerprint};
/// use seatcrane_stun::types::message::{
///     BINDING, Message, MessageWriteVec, StunWriteError, TransactionId,
/// };
///
/// let id = TransactionId::from(*b"any 12 bytes"); // yours must be unpredictable
/// let request = Message::builder_request_with_id(BINDING, id, MessageWriteVec::new());
/// let bytes = finish_with_fingerprint(request)?;
///
/// let message = Message::from_bytes(&bytes).unwrap();
/// assert_eq!(check_fingerprint(&message), Fingerprint::Right);
/// # Ok::<(), StunWriteError>(())
/// ```
#[must_use]
pub fn check_fingerprint(message: &Message<'_>) -> Fingerprint {
    fingerprint::check_fingerprint(&message.0)
}

/// Adds FINGERPRINT to a message, and finishes the writer, so that nothing can follow FINGERPRINT.
///
/// If you want to sign the message, sign it first. FINGERPRINT does not invalidate the signature.
///
/// # Errors
///
/// Returns the first of these errors that applies. The writer is then dropped.
///
/// - [`StunWriteError::NotAllowed`]: the writer holds no message. Start it with one of the builders
///   of [`Message`].
/// - [`StunWriteError::AttributeExists`]: the message has a FINGERPRINT already.
/// - [`StunWriteError::TooLarge`]: the message would have more than 65532 bytes after its header.
/// - [`StunWriteError::TooSmall`]: the writer has room for fewer than 8 bytes.
/// - [`StunWriteError::OutOfMemory`]: an allocation failed.
///
/// # Examples
///
/// ```
/// use seatcrane_stun::extra::finish_with_fingerprint;
/// use seatcrane_stun::types::message::*;
/// use seatcrane_stun::types::prelude::*;
///
/// # let id = TransactionId::from(*b"any 12 bytes");
/// let mut check =
///     Message::builder_request_with_id(BINDING, id, MessageWriteVec::new());
/// check.add_message_integrity_with_key(
///     b"their password",
///     IntegrityAlgorithm::Sha1,
/// )?;
/// let datagram: Vec<u8> = finish_with_fingerprint(check)?;
/// # Ok::<(), StunWriteError>(())
/// ```
pub fn finish_with_fingerprint<W: MessageWrite>(writer: W) -> Result<W::Output, StunWriteError> {
    fingerprint::finish_with_fingerprint(with_header(writer)?)
}

/// Returns the types of the visible attributes that a receiver must understand but does not know:
/// the types that are below 0x8000 and not in `known`. Each type occurs once, in the order of the
/// message (RFC 8489, section 6.3.1).
///
/// # Examples
///
/// ```
/// use seatcrane_stun::extra::unknown_types;
/// use seatcrane_stun::types::attribute::AttributeType;
/// use seatcrane_stun::types::message::Message;
///
/// // A request with PRIORITY, to a server that does not know ICE.
/// let request = b"\0\x01\0\x08\x21\x12\xa4\x42 any 12 byte\0\x24\0\x04\0\0\0\0";
/// let request = Message::from_bytes(request).unwrap();
/// let unknown: Vec<AttributeType> =
///     unknown_types(&request, &[AttributeType::USERNAME]).collect();
/// assert_eq!(unknown, [AttributeType::PRIORITY]);
/// ```
#[must_use]
pub fn unknown_types<'a>(message: &Message<'a>, known: &'a [AttributeType]) -> UnknownTypes<'a> {
    unknown::unknown_types(&message.0, known)
}

/// Returns `true` if a message has a visible attribute that a receiver must understand and whose
/// type is not in `known`. If the message is an indication, drop it (RFC 8489, section 6.3.2).
///
/// # Examples
///
/// ```
/// use seatcrane_stun::extra::has_unknown;
/// use seatcrane_stun::types::attribute::AttributeType;
/// use seatcrane_stun::types::message::Message;
///
/// // An indication with PRIORITY.
/// let indication = b"\0\x11\0\x08\x21\x12\xa4\x42 any 12 byte\0\x24\0\x04\0\0\0\0";
/// let indication = Message::from_bytes(indication).unwrap();
/// assert!(has_unknown(&indication, &[AttributeType::USERNAME]));
/// assert!(!has_unknown(&indication, &[AttributeType::PRIORITY]));
/// ```
#[must_use]
pub fn has_unknown(message: &Message<'_>, known: &[AttributeType]) -> bool {
    unknown::has_unknown(&message.0, known)
}

/// Writes the error response to a request with unknown attributes into `writer`, which must be
/// empty. The response has the code 420 and UNKNOWN-ATTRIBUTES (RFC 8489, section 6.3.1). You can
/// add attributes to it and sign it.
///
/// Returns `None`, and drops the writer, if the message is not a request, or if it has no visible
/// attribute that the server must understand and whose type is not in `known`.
///
/// # Errors
///
/// Returns the first of these errors that applies. The writer is then dropped.
///
/// - [`StunWriteError::NotAllowed`]: the writer has bytes already.
/// - [`StunWriteError::TooSmall`]: the writer has no room for the response.
/// - [`StunWriteError::OutOfMemory`]: an allocation failed.
///
/// # Examples
///
/// ```
/// use seatcrane_stun::extra::answer_unknown;
/// use seatcrane_stun::types::attribute::AttributeType;
/// use seatcrane_stun::types::message::{Message, MessageWriteVec, StunWriteError};
///
/// const KNOWN: [AttributeType; 2] =
///     [AttributeType::USERNAME, AttributeType::MESSAGE_INTEGRITY];
///
/// /// Returns the response to a request with unknown attributes, or `None` to go on
/// /// with it.
/// fn refuse(request: &Message<'_>) -> Result<Option<MessageWriteVec>, StunWriteError> {
///     answer_unknown(request, &KNOWN, MessageWriteVec::new())
/// }
/// # let request = b"\0\x01\0\x08\x21\x12\xa4\x42 any 12 byte\0\x24\0\x04\0\0\0\0";
/// # let refusal = refuse(&Message::from_bytes(request).unwrap())?.unwrap();
/// # assert_eq!(Message::from_bytes(&refusal).unwrap().error_code(), Ok(420));
/// # Ok::<(), StunWriteError>(())
/// ```
pub fn answer_unknown<W: MessageWrite>(
    request: &Message<'_>,
    known: &[AttributeType],
    writer: W,
) -> Result<Option<W>, StunWriteError> {
    if !writer.data().is_empty() {
        return Err(StunWriteError::NotAllowed);
    }
    unknown::answer_unknown(&request.0, known, writer)
}

/// Returns `true` if a response makes its request fail, whatever else the response contains (RFC
/// 8489, sections 6.3.3 and 6.3.4).
///
/// A response does so if it has a visible attribute that the client must understand and whose type
/// is not in `known`, or if it is an error response without ERROR-CODE.
///
/// # Examples
///
/// ```
/// use seatcrane_stun::extra::ends_failed;
/// use seatcrane_stun::types::attribute::AttributeType;
/// use seatcrane_stun::types::message::Message;
///
/// const KNOWN: [AttributeType; 1] = [AttributeType::XOR_MAPPED_ADDRESS];
///
/// let no_code = b"\x01\x11\0\0\x21\x12\xa4\x42 any 12 byte";
/// assert!(ends_failed(&Message::from_bytes(no_code).unwrap(), &KNOWN));
/// ```
#[must_use]
pub fn ends_failed(response: &Message<'_>, known: &[AttributeType]) -> bool {
    unknown::ends_failed(&response.0, known)
}

/// Returns UNKNOWN-ATTRIBUTES with the types that [`unknown_types`] returns, for a 420 that you
/// build yourself (RFC 8489, section 14.13). [`answer_unknown`] builds the whole response.
///
/// # Examples
///
/// ```
/// use seatcrane_stun::extra::unknown_attributes;
/// use seatcrane_stun::types::attribute::AttributeType;
/// use seatcrane_stun::types::message::{Message, MessageWriteVec, StunWriteError};
/// use seatcrane_stun::types::prelude::*;
///
/// # let request = b"\0\x01\0\x08\x21\x12\xa4\x42 any 12 byte\0\x24\0\x04\0\0\0\0";
/// # let request = Message::from_bytes(request).unwrap();
/// // A reason phrase of your own.
/// let mut error = Message::builder_error(&request, MessageWriteVec::new());
/// error.add_error_code(420, "No ICE here")?;
/// error.add_attribute(&unknown_attributes(&request, &[AttributeType::USERNAME]))?;
/// # assert!(error.has_attribute(AttributeType::UNKNOWN_ATTRIBUTES));
/// # Ok::<(), StunWriteError>(())
/// ```
#[must_use]
pub fn unknown_attributes<'a>(
    message: &'a Message<'a>,
    known: &'a [AttributeType],
) -> UnknownAttributes<'a> {
    unknown::UnknownAttributes::of(&message.0, known)
}
